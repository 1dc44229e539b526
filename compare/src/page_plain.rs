//! A plain page for the wall, from document 02 (P3): the smallest label of each address in a
//! `BTreeMap`, and a line for each word.

use crate::answer::Answer;
use crate::model::{is_label, is_region, owner_and_name};
use crate::model_list::{Faults, List};
use crate::page_input::{PageInput, PageOutcome};
use crate::records::u32_at;
use std::collections::BTreeMap;
use std::io::Write;

/// "the page buffer, alone allowed up to 1,195,959 bytes"
pub const LIMIT: usize = 1_195_959;

/// "lines of exactly 72 bytes before the newline"
pub const LINE: usize = 73;

/// Writes the line of a word, or of a last part word, of these bytes behind a text.
pub type PutWord = fn(&mut Vec<u8>, u32, &[u8], &[u8]);

/// Digits by the library's formatting.
pub fn by_write(text: &mut Vec<u8>, pc: u32, bytes: &[u8], name: &[u8]) {
    let start = text.len();

    write!(text, "{pc:08x}  ").unwrap();
    match bytes.try_into() {
        Ok(word) => write!(text, "{:08x}", u32::from_le_bytes(word)).unwrap(),
        Err(_) => {
            for byte in bytes {
                write!(text, "{byte:02x}").unwrap();
            }
        }
    }
    text.resize(start + 20, b' ');
    if name.len() <= 20 {
        text.extend(name);
    } else {
        text.extend(&name[..19]);
        text.push(b'~');
    }
    text.resize(start + 72, b' ');
    text.push(b'\n');
}

/// By hand: blanks first, then a digit at a time.
pub fn by_hand(text: &mut Vec<u8>, pc: u32, bytes: &[u8], name: &[u8]) {
    let mut line = [b' '; LINE];

    put_hex(&mut line[..8], pc);
    match bytes.try_into() {
        Ok(word) => put_hex(&mut line[10..18], u32::from_le_bytes(word)),
        Err(_) => {
            for (at, byte) in bytes.iter().enumerate() {
                line[10 + 2 * at] = DIGITS[(byte >> 4) as usize];
                line[11 + 2 * at] = DIGITS[(byte & 15) as usize];
            }
        }
    }
    if name.len() <= 20 {
        line[20..20 + name.len()].copy_from_slice(name);
    } else {
        line[20..39].copy_from_slice(&name[..19]);
        line[39] = b'~';
    }
    line[72] = b'\n';
    text.extend(line);
}

const DIGITS: &[u8; 16] = b"0123456789abcdef";

fn put_hex(to: &mut [u8], number: u32) {
    for (at, digit) in to.iter_mut().enumerate() {
        *digit = DIGITS[(number >> (28 - 4 * at) & 15) as usize];
    }
}

fn refusal(number: u32, a: u32, b: u32) -> Answer {
    Answer {
        number,
        a,
        b,
        ..Answer::accepted(0)
    }
}

/// The answer of a whole call; the page is written where there is one.
pub fn lay_out_into(labels: &[u8], regions: &[u8], page: &mut [u8], put_word: PutWord) -> Answer {
    let mut faults = Faults::new();
    let labels = List::of_kinds(labels, 0, is_label, &mut faults);
    let list = List::of(regions, 1, 35, is_region, &mut faults);
    list.at_most(16, &mut faults);
    if regions.is_empty() {
        faults.add(1, 0);
    }
    if page.len() > LIMIT {
        faults.add(2, LIMIT);
    }
    if let Some((a, b)) = faults.least() {
        return refusal(1, a, b);
    }
    if let Some(place) = labels.least_repeat(owner_and_name) {
        return refusal(2, 0, place);
    }

    let data = |body: &[u8]| (body.len() - 4).div_ceil(4);
    let lines: usize = list.records.iter().map(|(.., body)| 1 + data(body)).sum();
    if lines * LINE > page.len() {
        return refusal(18, 0, 0);
    }

    // "Of several labels at a pc, the smallest by bytes is shown."
    let mut shown: BTreeMap<u32, &[u8]> = BTreeMap::new();
    for (_, kind, body) in &labels.records {
        let name = &body[if *kind == 41 { 8 } else { 4 }..];
        shown
            .entry(u32_at(body, 0))
            .and_modify(|least| *least = name.min(*least))
            .or_insert(name);
    }

    let mut text = Vec::with_capacity(lines * LINE);
    for (number, (.., body)) in list.records.iter().enumerate() {
        writeln!(text, "{number:02}{:70}", "").unwrap();
        let mut pc = u32_at(body, 0);
        for word in body[4..].chunks(4) {
            put_word(&mut text, pc, word, shown.get(&pc).copied().unwrap_or(b""));
            pc = pc.wrapping_add(4);
        }
    }
    page[..text.len()].copy_from_slice(&text);

    Answer::accepted(text.len() as u32)
}

pub fn lay_out(input: &PageInput, put_word: PutWord) -> PageOutcome {
    let mut page = input.page.clone();
    let answer = lay_out_into(&input.labels, &input.regions, &mut page, put_word);

    PageOutcome { answer, page }
}
