//! Well-formed build inputs with many labels in an order drawn at random, whose names differ in few
//! bytes or in many, and with patches of all regions that name them.

use crate::generate_build::BuildLists;
use crate::names::{digits, spoken};
use crate::random::Random;
use crate::records::{entry, Label, Pending, Reference};

/// How a label is named by its number.
type Named = fn(usize) -> Vec<u8>;

const NAMES: [Named; 4] = [
    |number| digits(number, 4),
    |number| format!("seam{number}").into_bytes(),
    spoken,
    |number| [vec![b'x'; number % 30], digits(number, 1)].concat(),
];

/// With owners a name has three labels, but for the last name: those of the sources 0 and 1 and the
/// one for all.
pub fn many_labels(random: &mut Random, owners: bool, mut lists: BuildLists) -> BuildLists {
    let name = random.pick(&NAMES);
    let count = random.within(60, 1400);
    let each = if owners { 3 } else { 1 };

    lists.labels = random
        .shuffled(count)
        .into_iter()
        .map(|number| {
            Label {
                address: random.u32(),
                owner: (owners && number % 3 < 2).then_some((number % 3) as u32),
                name: name(number / each),
            }
            .record()
        })
        .collect();
    let known = count / each;
    lists.entry = vec![entry(&named(random, name, known))];
    lists.pending = (0..random.within(1, 200))
        .filter_map(|_| {
            let region = random.below(lists.regions.len());
            let room = lists.regions[region].body.len().checked_sub(8)?;

            Some(Pending {
                region: region as u16,
                offset: random.below(room + 1) as u32,
                source: random.u32(),
                index: random.u32(),
                patch: random.within(2, 4) as u8,
                reference: named(random, name, known),
            })
        })
        .map(|pending| pending.record())
        .collect();

    lists
}

/// A name of the list, seldom one that is not in it.
fn named(random: &mut Random, name: Named, known: usize) -> Reference {
    let number = match random.one_in(400) {
        true => known + 3,
        false => random.below(known),
    };

    reference(random, name(number))
}

fn reference(random: &mut Random, name: Vec<u8>) -> Reference {
    Reference {
        form: 1,
        value: random.u64(),
        source: random.below(3) as u32,
        index: random.u32(),
        name,
    }
}
