//! Dumps of document 02, L5: a device descriptor and configuration bodies end to end, into a set and out of one.

use crate::draft::{lay_out, DraftEntry};
use crate::events::{Block, Outcome, Part};
use crate::fault::Fault;
use crate::octets::number;
use crate::opening::{Board, CONFIGURATION, DEVICE};

const DEVICE_LENGTH: usize = 18;
const LONGEST_SET: usize = 16_384;
const MOST_PIECES: usize = 64;

/// The device descriptor and the bodies; none where the dump does not split.
fn split(dump: &[u8], fault: Fault) -> Option<(&[u8], Vec<&[u8]>)> {
    let device = dump.get(..DEVICE_LENGTH)?;
    let mut rest = &dump[DEVICE_LENGTH..];
    let mut bodies = Vec::new();
    let least = if fault == Fault::BodyOfEightBytesSplits { 8 } else { 9 };
    while !rest.is_empty() {
        let length = usize::from(number(rest.get(..4)?, 2));
        if length < least {
            return None;
        }
        if length > rest.len() && fault == Fault::LastBodyMayBeCut {
            bodies.push(rest);
            break;
        }
        bodies.push(rest.get(..length)?);
        rest = &rest[length..];
    }
    let alone = bodies.is_empty() && fault != Fault::DeviceAloneSplits;
    (!alone).then_some((device, bodies))
}

fn without_references(mut device: Vec<u8>, fault: Fault) -> Vec<u8> {
    let kept = fault == Fault::SerialReferenceStays;
    for at in if kept { 14..16 } else { 14..17 } {
        device[at] = 0;
    }
    device
}

/// iConfiguration, and iInterface of every type 4 descriptor as far as the body walks.
fn body_without_references(body: &[u8], fault: Fault) -> Vec<u8> {
    let mut body = body.to_vec();
    if fault != Fault::ConfigurationReferenceStays && body.len() > 6 {
        body[6] = 0;
    }
    let mut at = 0;
    while at + 1 < body.len() && body[at] >= 2 {
        let (length, next) = (usize::from(body[at]), at + usize::from(body[at]));
        let later = fault == Fault::AlternateReferenceStays && body.get(at + 3).is_some_and(|&alternate| alternate > 0);
        if body[at + 1] == 4 && length >= 9 && next <= body.len() && !later {
            body[at + 8] = 0;
        }
        if body[at + 1] == 11 && length >= 8 && next <= body.len() && fault == Fault::FunctionReferenceZeroed {
            body[at + 7] = 0;
        }
        at = next;
    }
    body
}

fn filled(number: u8, bytes: &[u8], buffer: &[u8]) -> Outcome {
    let mut image = buffer.to_vec();
    image[..bytes.len()].copy_from_slice(bytes);
    Outcome { number, bytes: Vec::new(), part: Some(Part { block: Block::Set, offset: 0, length: bytes.len() }), image }
}

fn imported(dump: &[u8], room: usize, fault: Fault) -> Result<Vec<u8>, u8> {
    if fault == Fault::LongDumpBeforeSplit && dump.len() > LONGEST_SET {
        return Err(21);
    }
    let (device, bodies) = split(dump, fault).ok_or(23)?;
    let entry =
        |descriptor_type, index: usize, body| DraftEntry { descriptor_type, index: index as u8, language: 0, body };
    let first = usize::from(fault == Fault::ConfigurationsFromOne);
    let mut entries = vec![entry(DEVICE, 0, without_references(device.to_vec(), fault))];
    entries.extend(
        bodies
            .iter()
            .enumerate()
            .map(|(at, body)| entry(CONFIGURATION, first + at, body_without_references(body, fault))),
    );
    let length = 4 + 8 * entries.len() + dump.len();
    if fault == Fault::ImportRoomBeforeRefusal && room < length {
        return Err(22);
    }
    if entries.len() > MOST_PIECES || length > LONGEST_SET {
        return Err(21);
    }
    let set = lay_out(&entries);
    Board::open(&set, &[], Fault::None).map_err(|_| 21)?;
    if room < set.len() {
        return Err(22);
    }
    Ok(set)
}

/// hk_import.
pub fn import(dump: &[u8], buffer: &[u8], fault: Fault) -> Outcome {
    match imported(dump, buffer.len(), fault) {
        Ok(set) => filled(0, &set, buffer),
        Err(number) => filled(number, &[], buffer),
    }
}

/// hk_export, of a set that opens or does not.
pub fn export(set: &[u8], opened: Result<&Board, u8>, buffer: &[u8], fault: Fault) -> Outcome {
    let board = match opened {
        Ok(board) => board,
        Err(_) if fault == Fault::ExportRoomBeforeOpening && buffer.is_empty() => return filled(22, &[], buffer),
        Err(number) => return filled(number, &[], buffer),
    };
    let strings = fault == Fault::StringsExported;
    let wanted = board.entries.iter().filter(|entry| entry.descriptor_type <= CONFIGURATION || strings);
    let mut dump: Vec<u8> = Vec::new();
    for entry in wanted {
        let body = &set[entry.offset..entry.offset + entry.length];
        let zeroed = fault == Fault::ExportZeroesReferences && entry.descriptor_type == DEVICE;
        dump.extend(if zeroed { without_references(body.to_vec(), Fault::None) } else { body.to_vec() });
    }
    let least = dump.len() + usize::from(fault == Fault::ExportNeedsOneMore);
    if buffer.len() < least {
        return filled(22, &[], buffer);
    }
    filled(0, &dump, buffer)
}
