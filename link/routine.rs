//! Assembles and builds a small routine through the library nazgwern, and prints its image as the
//! program finish does. Each buffer is an array of fixed size.
//!
//! ```text
//!       li    $t0, 0x12345678
//! loop: addiu $t0, $t0, -1
//!       bnez  $t0, loop
//! ```

const REGISTER: u16 = 3;
const INTEGER_LITERAL: u16 = 5;
const SYMBOL: u16 = 8;
const MINUS: u16 = 10;
const COMMA: u16 = 11;
const MNEMONIC: u16 = 32;
const DESCRIPTOR: u16 = 33;
const LABEL: u16 = 34;
const REGION: u16 = 35;

const T0: u8 = 8;
const BASE: u32 = 0x0040_0000;

/// The entries as nazgwern.h declares them. Nothing checks these declarations.
mod entries {
    extern "C" {
        pub fn nazgwern_do_instruction(
            tokens: *const u8,
            tokens_length: usize,
            mnemonic: *const u8,
            mnemonic_length: usize,
            descriptors: *const u8,
            descriptors_length: usize,
            data: *mut u8,
            data_length: usize,
            pending: *mut u8,
            pending_length: usize,
            breakpoints: *mut u8,
            breakpoints_length: usize,
            counts: *mut u8,
            counts_length: usize,
            position: u32,
            region: u16,
            address: u32,
            answer: *mut u8,
            answer_length: usize,
        ) -> u32;

        pub fn nazgwern_build(
            labels: *const u8,
            labels_length: usize,
            entry: *const u8,
            entry_length: usize,
            regions: *mut u8,
            regions_length: usize,
            pending: *const u8,
            pending_length: usize,
            answer: *mut u8,
            answer_length: usize,
        ) -> u32;
    }
}

/// A list that is put together record by record.
struct List {
    bytes: [u8; 256],
    length: usize,
}

impl List {
    fn new() -> List {
        List {
            bytes: [0; 256],
            length: 0,
        }
    }

    fn filled(&self) -> &[u8] {
        &self.bytes[..self.length]
    }

    fn put(&mut self, bytes: &[u8]) {
        self.bytes[self.length..self.length + bytes.len()].copy_from_slice(bytes);
        self.length += bytes.len();
    }

    fn record(&mut self, kind: u16, fields: &[u8], last: &[u8]) {
        let length = fields.len() + last.len();

        self.put(&(length as u16).to_le_bytes());
        self.put(&kind.to_le_bytes());
        self.put(fields);
        self.put(last);
    }

    /// A token or a mnemonic: its location, here zero, and its payload.
    fn located(&mut self, kind: u16, payload: &[u8]) {
        self.record(kind, &[0; 8], payload);
    }
}

/// The four-byte number at a place.
fn number_at(bytes: &[u8], place: usize) -> u32 {
    u32::from_le_bytes(bytes[place..place + 4].try_into().unwrap())
}

/// A refusal: number, source, index, a and b.
type Refusal = [u32; 5];

fn outcome(number: u32, answer: [u8; 24]) -> Result<u32, Refusal> {
    match number {
        0 => Ok(number_at(&answer, 20)),
        _ => Err([0, 4, 8, 12, 16].map(|place| number_at(&answer, place))),
    }
}

/// What the lines of a region are emitted into.
struct Routine {
    data: [u8; 64],
    pending: [u8; 128],
    breakpoints: [u8; 128],
    counts: [u8; 12],
}

impl Routine {
    fn data(&self) -> &[u8] {
        &self.data[..number_at(&self.counts, 0) as usize]
    }

    fn pending(&self) -> &[u8] {
        &self.pending[..number_at(&self.counts, 4) as usize]
    }

    /// Emits a line, and gives its position. References are not null and those that are written
    /// through overlap no other, so the call is safe whatever is in them.
    fn emit(&mut self, name: &str, tokens: &[u8], descriptors: &[u8]) -> Result<u32, Refusal> {
        let mut answer = [0; 24];
        let mut mnemonic = List::new();
        mnemonic.located(MNEMONIC, name.as_bytes());

        let number = unsafe {
            entries::nazgwern_do_instruction(
                tokens.as_ptr(),
                tokens.len(),
                mnemonic.filled().as_ptr(),
                mnemonic.filled().len(),
                descriptors.as_ptr(),
                descriptors.len(),
                self.data.as_mut_ptr(),
                self.data.len(),
                self.pending.as_mut_ptr(),
                self.pending.len(),
                self.breakpoints.as_mut_ptr(),
                self.breakpoints.len(),
                self.counts.as_mut_ptr(),
                self.counts.len(),
                0,
                0,
                BASE,
                answer.as_mut_ptr(),
                answer.len(),
            )
        };

        outcome(number, answer)
    }
}

/// Patches the regions, and gives the entry.
fn build(labels: &[u8], entry: &[u8], regions: &mut [u8], pending: &[u8]) -> Result<u32, Refusal> {
    let mut answer = [0; 24];

    let number = unsafe {
        entries::nazgwern_build(
            labels.as_ptr(),
            labels.len(),
            entry.as_ptr(),
            entry.len(),
            regions.as_mut_ptr(),
            regions.len(),
            pending.as_ptr(),
            pending.len(),
            answer.as_mut_ptr(),
            answer.len(),
        )
    };

    outcome(number, answer)
}

fn emit_routine(routine: &mut Routine, labels: &mut List) -> Result<(), Refusal> {
    // addiu: Op 9, encoding Immediate (7), alternative Func (1) 33. li and bnez are
    // pseudo-instructions and need no descriptor.
    let mut descriptors = List::new();
    descriptors.record(DESCRIPTOR, &[0, 9, 7, 0, 0, 1, 1, 33], b"addiu");

    let mut tokens = List::new();
    tokens.located(REGISTER, &[T0]);
    tokens.located(COMMA, &[]);
    tokens.located(INTEGER_LITERAL, &0x1234_5678u64.to_le_bytes());
    routine.emit("li", tokens.filled(), descriptors.filled())?;

    // loop: the region's address plus its data length
    let address = BASE + routine.data().len() as u32;
    labels.record(LABEL, &address.to_le_bytes(), b"loop");

    let mut tokens = List::new();
    tokens.located(REGISTER, &[T0]);
    tokens.located(COMMA, &[]);
    tokens.located(REGISTER, &[T0]);
    tokens.located(COMMA, &[]);
    tokens.located(MINUS, &[]);
    tokens.located(INTEGER_LITERAL, &1u64.to_le_bytes());
    routine.emit("addiu", tokens.filled(), descriptors.filled())?;

    let mut tokens = List::new();
    tokens.located(REGISTER, &[T0]);
    tokens.located(COMMA, &[]);
    tokens.located(SYMBOL, b"loop");
    routine.emit("bnez", tokens.filled(), descriptors.filled())?;

    Ok(())
}

fn run() -> Result<(), Refusal> {
    let mut labels = List::new();
    let mut routine = Routine {
        data: [0; 64],
        pending: [0; 128],
        breakpoints: [0; 128],
        counts: [0; 12],
    };
    emit_routine(&mut routine, &mut labels)?;

    let mut regions = List::new();
    regions.record(REGION, &BASE.to_le_bytes(), routine.data());

    let length = regions.length;
    let lent = &mut regions.bytes[..length];
    let entry = build(labels.filled(), &[], lent, routine.pending())?;

    println!("entry {entry:08x}\nregion 0 {BASE:08x}");
    for offset in (0..routine.data().len()).step_by(4) {
        let pc = BASE + offset as u32;
        println!("{pc:08x} {:08x}", number_at(lent, 8 + offset));
    }

    Ok(())
}

fn main() {
    if let Err([number, source, index, a, b]) = run() {
        println!("refused {number} {source} {index} {a} {b}");
        std::process::exit(1);
    }
}
