//! Builds with labels of owners (document 02, P6), for the Rust, which knows labels for all alone.

use crate::build_input::BuildInput;
use crate::records::{bodies, entry, kind, write, Label, Pending, Reference};
use std::collections::HashMap;
use std::mem::replace;

/// Whether some label has an owner.
pub fn has(input: &BuildInput) -> bool {
    bodies(&input.labels).any(|(_, kind, _)| kind == kind::OWNED_LABEL)
}

/// A label's new name by its owner and its name before.
type Names = HashMap<(Option<u32>, Vec<u8>), Vec<u8>>;

/// "A name resolves first to the label whose owner equals the source in the name's location, then
/// to the one for all."
fn rename(names: &Names, reference: &mut Reference) {
    if reference.form == 1 {
        let name = |owner| names.get(&(owner, reference.name.clone()));
        let known = name(Some(reference.source)).or_else(|| name(None));

        reference.name = known.map_or(b"unknown".to_vec(), Vec::clone);
    }
}

/// The same build with no owners, for lists to which refusals 1 and 2 are not due: each label is
/// for all and its name is its number in the list, and a name that resolves to it becomes that.
/// Without owners the lists stay.
pub fn renamed(input: &BuildInput) -> BuildInput {
    if !has(input) {
        return input.clone();
    }
    let mut labels: Vec<Label> = bodies(&input.labels)
        .map(|(_, kind, body)| Label::read(kind, body))
        .collect();
    let mut names = Names::new();

    for (number, label) in labels.iter_mut().enumerate() {
        let before = replace(&mut label.name, number.to_string().into_bytes());

        names.insert((label.owner.take(), before), label.name.clone());
    }

    let entries = bodies(&input.entry).map(|(_, _, body)| {
        let mut reference = Reference::read(body);
        rename(&names, &mut reference);
        entry(&reference)
    });
    let pending = bodies(&input.pending).map(|(_, _, body)| {
        let mut pending = Pending::read(body);
        rename(&names, &mut pending.reference);
        pending.record()
    });

    BuildInput {
        labels: write(&labels.iter().map(Label::record).collect::<Vec<_>>()),
        entry: write(&entries.collect::<Vec<_>>()),
        regions: input.regions.clone(),
        pending: write(&pending.collect::<Vec<_>>()),
    }
}
