//! Trimming of document 02, L11: strings that no reference field names are left out, and what is freed becomes zero.

use std::collections::BTreeSet;

use crate::draft::{lay_out, DraftEntry};
use crate::events::{Block, Outcome, Part};
use crate::fault::Fault;
use crate::opening::{Board, CONFIGURATION, DEVICE, STRING};

fn entries(set: &[u8], board: &Board) -> Vec<DraftEntry> {
    let taken = board.entries.iter().map(|entry| DraftEntry {
        descriptor_type: entry.descriptor_type,
        index: entry.index,
        language: entry.language,
        body: set[entry.offset..entry.offset + entry.length].to_vec(),
    });
    taken.collect()
}

/// The indices in the five reference fields.
fn named(entries: &[DraftEntry], fault: Fault) -> BTreeSet<u8> {
    let mut named = BTreeSet::new();
    for entry in entries.iter().filter(|entry| entry.descriptor_type == DEVICE) {
        named.extend(&entry.body[14..17]);
        if fault == Fault::ManufacturerNotCounted {
            named.remove(&entry.body[14]);
        }
    }
    for entry in entries.iter().filter(|entry| entry.descriptor_type == CONFIGURATION) {
        if fault != Fault::ConfigurationNotCounted {
            named.insert(entry.body[6]);
        }
        let mut rest = &entry.body[..];
        while let [length, kind, ..] = rest {
            let (descriptor, behind) = rest.split_at(usize::from(*length));
            let alternate = *kind == 4 && descriptor[3] > 0;
            if *kind == 4 && !(alternate && fault == Fault::AlternatesNotCounted) {
                named.insert(descriptor[8]);
            }
            if *kind == 11 && fault == Fault::FunctionCounted {
                named.insert(descriptor[descriptor.len() - 1]);
            }
            rest = behind;
        }
    }
    named
}

fn trimmed(set: &[u8], board: &Board, fault: Fault) -> Vec<u8> {
    let all = entries(set, board);
    let named = named(&all, fault);
    let is_named = |entry: &DraftEntry| entry.index != 0 && named.contains(&entry.index);
    let strings = || all.iter().filter(|entry| entry.descriptor_type == STRING);
    let serial = board.serial_index != 0 && fault != Fault::ZeroGoesBesideSerial;
    let zero = strings().any(is_named) || serial || fault == Fault::ZeroAlwaysStays;
    let kept =
        |entry: &&DraftEntry| entry.descriptor_type != STRING || if entry.index == 0 { zero } else { is_named(entry) };
    let kept: Vec<DraftEntry> = all.iter().filter(kept).cloned().collect();
    let mut after = lay_out(&kept);
    if fault == Fault::FreedBytesStay {
        after.extend(&set[after.len()..]);
    }
    after.resize(set.len(), 0);
    after
}

/// hk_trim: the number, the set's buffer after it, and the trimmed set's length as the length of a part.
pub fn trim(set: &[u8], opened: Result<&Board, u8>, fault: Fault) -> Outcome {
    let (number, image) = match opened {
        Ok(board) => (0, trimmed(set, board, fault)),
        Err(number) => (number, set.to_vec()),
    };
    let length = if number == 0 { usize::from(u16::from_le_bytes([image[0], image[1]])) } else { 0 };
    Outcome { number, bytes: Vec::new(), part: Some(Part { block: Block::Set, offset: 0, length }), image }
}
