//! Record lists as the generator writes them and as the judge reads well-formed ones.
//! The layout checks do not use this file; each has its own reading of the bytes.

pub mod kind {
    pub const MNEMONIC: u16 = 32;
    pub const DESCRIPTOR: u16 = 33;
    pub const LABEL: u16 = 34;
    pub const REGION: u16 = 35;
    pub const PENDING: u16 = 36;
    pub const BREAKPOINT: u16 = 37;
    pub const ENTRY: u16 = 38;
    pub const USE: u16 = 39;
    pub const OWNED_LABEL: u16 = 41;
}

#[derive(Clone, Debug)]
pub struct Record {
    pub kind: u16,
    pub body: Vec<u8>,
}

/// A list's bytes: each record after its head of a 2-byte length and a 2-byte kind.
pub fn write(records: &[Record]) -> Vec<u8> {
    let mut list = vec![];

    for record in records {
        list.extend((record.body.len() as u16).to_le_bytes());
        list.extend(record.kind.to_le_bytes());
        list.extend(&record.body);
    }

    list
}

/// The bodies of a well-formed list, each with its byte place and kind.
pub fn bodies(list: &[u8]) -> impl Iterator<Item = (usize, u16, &[u8])> {
    let mut next = 0;

    std::iter::from_fn(move || {
        if next == list.len() {
            return None;
        }

        let length = u16_at(list, next) as usize;
        let kind = u16_at(list, next + 2);
        let place = next + 4;
        next = place + length;

        Some((place, kind, &list[place..next]))
    })
}

pub fn u16_at(bytes: &[u8], place: usize) -> u16 {
    u16::from_le_bytes(bytes[place..place + 2].try_into().unwrap())
}

pub fn u32_at(bytes: &[u8], place: usize) -> u32 {
    u32::from_le_bytes(bytes[place..place + 4].try_into().unwrap())
}

pub fn u64_at(bytes: &[u8], place: usize) -> u64 {
    u64::from_le_bytes(bytes[place..place + 8].try_into().unwrap())
}

/// A label of one owner, or of none: the one for all files.
#[derive(Clone, Debug)]
pub struct Label {
    pub address: u32,
    pub owner: Option<u32>,
    pub name: Vec<u8>,
}

impl Label {
    pub fn record(&self) -> Record {
        match self.owner {
            None => addressed(kind::LABEL, self.address, &self.name),
            Some(owner) => {
                let rest = [&owner.to_le_bytes(), &self.name[..]].concat();
                addressed(kind::OWNED_LABEL, self.address, &rest)
            }
        }
    }

    pub fn read(kind: u16, body: &[u8]) -> Label {
        let (owner, name) = match kind {
            kind::OWNED_LABEL => (Some(u32_at(body, 4)), 8),
            _ => (None, 4),
        };

        Label {
            address: u32_at(body, 0),
            owner,
            name: body[name..].to_vec(),
        }
    }
}

/// Form, value, location and name, as pending and entry records have them.
#[derive(Clone, Debug)]
pub struct Reference {
    pub form: u8,
    pub value: u64,
    pub source: u32,
    pub index: u32,
    pub name: Vec<u8>,
}

impl Reference {
    pub fn constant(value: u64) -> Reference {
        Reference {
            form: 0,
            value,
            source: 0,
            index: 0,
            name: vec![],
        }
    }

    fn write(&self, body: &mut Vec<u8>) {
        body.push(self.form);
        body.extend(self.value.to_le_bytes());
        body.extend(self.source.to_le_bytes());
        body.extend(self.index.to_le_bytes());
        body.extend(&self.name);
    }

    pub fn read(bytes: &[u8]) -> Reference {
        Reference {
            form: bytes[0],
            value: u64_at(bytes, 1),
            source: u32_at(bytes, 9),
            index: u32_at(bytes, 13),
            name: bytes[17..].to_vec(),
        }
    }
}

#[derive(Clone, Debug)]
pub struct Pending {
    pub region: u16,
    pub offset: u32,
    pub source: u32,
    pub index: u32,
    pub patch: u8,
    pub reference: Reference,
}

impl Pending {
    pub fn record(&self) -> Record {
        let mut body = vec![];

        body.extend(self.region.to_le_bytes());
        body.extend(self.offset.to_le_bytes());
        body.extend(self.source.to_le_bytes());
        body.extend(self.index.to_le_bytes());
        body.push(self.patch);
        self.reference.write(&mut body);

        Record {
            kind: kind::PENDING,
            body,
        }
    }

    pub fn read(body: &[u8]) -> Pending {
        Pending {
            region: u16_at(body, 0),
            offset: u32_at(body, 2),
            source: u32_at(body, 6),
            index: u32_at(body, 10),
            patch: body[14],
            reference: Reference::read(&body[15..]),
        }
    }
}

pub fn entry(reference: &Reference) -> Record {
    let mut body = vec![];
    reference.write(&mut body);

    Record {
        kind: kind::ENTRY,
        body,
    }
}

/// An address and the bytes behind it: a label's name or a region's data.
pub fn addressed(kind: u16, address: u32, rest: &[u8]) -> Record {
    let mut body = address.to_le_bytes().to_vec();
    body.extend(rest);

    Record { kind, body }
}
