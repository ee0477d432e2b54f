//! The endpoint descriptors of the current settings, one by one, as parts of the set.

use crate::events::{Block, Lent, Outcome, Part};
use crate::fault::Fault;
use crate::octets::number;
use crate::opening::Board;
use crate::record::{Record, CONFIGURED, NOTHING_WAITS};

/// 7, 8, or 16 where there is no such endpoint; nothing changes.
pub fn endpoint(lent: &Lent, image: &[u8], asked: u8) -> Outcome {
    let refused = |number| Outcome { number, bytes: Vec::new(), part: None, image: image.to_vec() };
    let Ok(boards) = &lent.opened else { return refused(7) };
    let Some(record) = Record::read(image) else { return refused(8) };
    let in_use = boards.in_use(record.speed);
    if !record.fits(in_use) {
        return refused(8);
    }
    let board = if lent.fault == Fault::EndpointsOfFullSet { &boards.full } else { in_use };
    if record.state != CONFIGURED && lent.fault == Fault::EndpointNotInThisState {
        return refused(11);
    }
    let first = usize::from(lent.fault == Fault::EndpointsFromOne);
    match current(lent, board, &record).get(usize::from(asked).wrapping_sub(first)) {
        Some(part) => Outcome { part: Some(*part), ..refused(0) },
        None if lent.fault == Fault::MissingEndpointDoesNotExist => refused(13),
        None if lent.fault == Fault::MissingEndpointDropsWaitingAddress => {
            let settled = Record { waiting: NOTHING_WAITS, ..record };
            Outcome { image: settled.image(), ..refused(16) }
        }
        None => refused(16),
    }
}

/// The parts of a fitting record's endpoints, in the set's order: one pass over the selected configuration's body.
fn current(lent: &Lent, board: &Board, record: &Record) -> Vec<Part> {
    let fault = lent.fault;
    let set = lent.slice(board.block());
    let block = if fault == Fault::EndpointsInFullSet { Block::Set } else { board.block() };
    let Some((start, end)) = body(set, fault, board, record) else { return Vec::new() };
    let (mut parts, mut at, mut stands) = (Vec::new(), start, false);
    while at < end {
        let descriptor = &set[at..at + usize::from(set[at])];
        match descriptor[1] {
            4 => stands = record.alternates.get(usize::from(descriptor[2])) == Some(&descriptor[3]),
            5 if stands || fault == Fault::EndpointsOfEverySetting => {
                let offset = if fault == Fault::EndpointOffsetInBody { at - start } else { at };
                let length = if fault == Fault::EndpointOfSevenBytes { 7 } else { descriptor.len() };
                parts.push(Part { block, offset, length });
            }
            _ => {}
        }
        at += descriptor.len();
    }
    if fault == Fault::EndpointsByAddress {
        parts.sort_by_key(|part| set[part.offset + 2]);
    }
    parts
}

/// Where the selected configuration's body starts and ends; only Configured has one.
fn body(set: &[u8], fault: Fault, board: &Board, record: &Record) -> Option<(usize, usize)> {
    record.selected(board)?;
    let entries = (0..usize::from(set[2])).map(|entry| &set[4 + 8 * entry..12 + 8 * entry]);
    let bodies = entries.filter(|entry| entry[0] == 2).map(|entry| {
        let start = usize::from(number(entry, 4));
        (start, start + usize::from(number(entry, 6)))
    });
    let first = fault == Fault::EndpointsOfFirstConfiguration;
    bodies.into_iter().find(|(start, _)| first || set[start + 5] == record.configuration)
}
