//! Well-formed emit calls with a list of exactly 65,536 bytes, the longest that are lent.

use crate::generate_line::{well_formed, Line};
use crate::random::Random;
use crate::records::{kind, write, Pending, Record, Reference};
use crate::tokens::COMMENT;

const LONGEST: usize = 65_536;

pub fn full_line(random: &mut Random) -> Line {
    let mut line = well_formed(random);

    match random.below(4) {
        0 => fill(&mut line.tokens, 76, |_, size| Record {
            kind: COMMENT,
            body: [vec![0; 8], vec![b'#'; size - 12]].concat(),
        }),
        // Each name has the number of its record, so that no two are alike.
        1 => fill(&mut line.descriptors, 28, |number, size| {
            let mut body = vec![0; 8];
            body.extend(format!("{number:05}").bytes());
            body.resize(size - 4, b'.');

            Record {
                kind: kind::DESCRIPTOR,
                body,
            }
        }),
        // Without room, so that a line with a label or any line at all gets refusal 12.
        2 => {
            fill(&mut line.pending, 100, |number, size| {
                let name = vec![b'p'; size - 36];
                let reference = Reference {
                    form: 1,
                    value: 0,
                    source: 1,
                    index: 2,
                    name,
                };

                Pending {
                    region: number as u16 % 16,
                    offset: 0,
                    source: 3,
                    index: 4,
                    patch: 0,
                    reference,
                }
                .record()
            });
            line.room[1] = 0;
        }
        _ => {
            line.breakpoints = (0..2048)
                .map(|_| Record {
                    kind: kind::BREAKPOINT,
                    body: random.bytes(28),
                })
                .collect();
            line.room[2] = random.pick(&[0, 0, 32]);
            if line.room[2] > 0 {
                line.breakpoints.pop();
            }
        }
    }

    line
}

/// Adds records of at most these many bytes, heads counted, until the list has its 65,536: as
/// few as can be, and all of nearly one size.
fn fill(list: &mut Vec<Record>, most: usize, make: impl Fn(usize, usize) -> Record) {
    let mut left = LONGEST - write(list).len();

    for number in (1..=left.div_ceil(most)).rev() {
        let size = left.div_ceil(number);

        list.push(make(number, size));
        left -= size;
    }
}
