//! Record lists as the second implementation reads them: byte by byte, to the first fault.

pub enum Walk {
    /// The place of each record's head.
    Whole(Vec<usize>),
    /// The place of the first fault.
    Fault(usize),
}

pub trait Bytes {
    fn number16(&self, place: usize) -> u16;
    fn number32(&self, place: usize) -> u32;
    fn number64(&self, place: usize) -> u64;
}

impl Bytes for [u8] {
    fn number16(&self, place: usize) -> u16 {
        self[place] as u16 + 256 * self[place + 1] as u16
    }

    fn number32(&self, place: usize) -> u32 {
        self.number16(place) as u32 + 0x10000 * self.number16(place + 2) as u32
    }

    fn number64(&self, place: usize) -> u64 {
        self.number32(place) as u64 + 0x1_0000_0000 * self.number32(place + 4) as u64
    }
}

/// Walks a list; `good` is asked with a record's place, its body's length and its kind.
pub fn walk(list: &[u8], mut good: impl FnMut(usize, usize, u16) -> bool) -> Walk {
    if list.len() > 65_536 {
        return Walk::Fault(65_536);
    }

    let mut places = vec![];
    let mut place = 0;

    while place != list.len() {
        let left = list.len() - place;

        if left < 4 {
            return Walk::Fault(place);
        }

        let length = list.number16(place) as usize;

        if length > left - 4 || !good(place, length, list.number16(place + 2)) {
            return Walk::Fault(place);
        }

        places.push(place);
        place += 4 + length;
    }

    Walk::Whole(places)
}

pub fn text_ok(list: &[u8], place: usize, count: usize) -> bool {
    for byte in &list[place..place + count] {
        if *byte < b' ' || *byte > b'~' {
            return false;
        }
    }

    true
}

/// Form, value, location and name at `place`, `length` bytes in all.
pub fn reference_size_ok(list: &[u8], place: usize, length: usize) -> bool {
    if length < 17 {
        return false;
    }

    if list[place] == 0 {
        length == 17 && list.number64(place + 9) == 0
    } else {
        list[place] == 1 && length > 17 && length <= 81 && text_ok(list, place + 17, length - 17)
    }
}
