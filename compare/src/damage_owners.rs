//! Damage to labels with owners: to the layout of kind 41, and labels that share name and owner.
//! Some leaves the labels well formed; the model says which.

use crate::generate_owners::{owner, source};
use crate::random::Random;
use crate::records::{kind, Label, Record};

pub fn damage_labels(random: &mut Random, labels: &mut Vec<Record>) {
    for _ in 0..random.below(3) {
        if !labels.is_empty() {
            damage_label(random, labels);
        }
    }
}

/// Owners about the one that no label may have.
const NEAR: [u32; 5] = [
    u32::MAX,
    u32::MAX - 1,
    0x00ff_ffff,
    0xffff_ff00,
    0x7fff_ffff,
];

fn damage_label(random: &mut Random, labels: &mut Vec<Record>) {
    let number = random.below(labels.len());
    let record = &mut labels[number];
    let least = if record.kind == kind::OWNED_LABEL {
        8
    } else {
        4
    };
    if record.body.len() < least {
        return;
    }
    let mut label = Label::read(record.kind, &record.body);

    match random.below(6) {
        0 => {
            label.owner = Some(random.pick(&NEAR));
            *record = label.record();
        }
        1 => {
            label.owner = Some(owner(random));
            label.name = vec![b'o'; random.pick(&[0, 1, 60, 61, 64, 65, 68])];
            *record = label.record();
        }
        2 => record.kind = random.pick(&[34, 40, 41, 41, 42]),
        3 => {
            // A body of address and part of the owner, or of both.
            record.kind = kind::OWNED_LABEL;
            record.body.truncate(random.within(4, 8));
        }
        4 => again(random, labels, label),
        _ => {
            // The same name in another owner or in none.
            label.owner = (!random.one_in(2)).then(|| source(random));
            again(random, labels, label);
        }
    }
}

/// The label once more, at any place.
fn again(random: &mut Random, labels: &mut Vec<Record>, mut label: Label) {
    label.address = random.u32();
    labels.insert(random.below(labels.len() + 1), label.record());
}
