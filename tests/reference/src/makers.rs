//! What is asked of the makers' calls: pieces and dumps of good and damaged sets, damage to these themselves, and sets to trim.

use std::sync::Arc;

use crate::call::Call;
use crate::compare::Comparison;
use crate::damage::damaged_entries;
use crate::draft::{string_body, Draft, DraftEntry, LONGEST_SET, MOST_ENTRIES};
use crate::events::Lent;
use crate::fault::Fault;
use crate::opening::{CONFIGURATION, DEVICE, STRING};
use crate::random::Random;
use crate::runs::any_set;

pub fn piece(entry: &DraftEntry) -> Vec<u8> {
    let mut piece = vec![entry.descriptor_type, entry.index];
    piece.extend(entry.language.to_le_bytes());
    piece.extend((entry.body.len() as u16).to_le_bytes());
    piece.extend(&entry.body);
    piece
}

fn piece_of(descriptor_type: u8, index: u8, language: u16, body: Vec<u8>) -> Vec<u8> {
    piece(&DraftEntry { descriptor_type, index, language, body })
}

/// Pieces of a draft, and its serial block.
fn pieces(random: &mut Random) -> (Vec<Vec<u8>>, Vec<u8>) {
    let draft = if random.percent(4) { Draft::longest(random) } else { Draft::valid(random) };
    let (entries, serial) =
        if random.percent(70) { (draft.entries(), draft.serial) } else { damaged_entries(draft, random) };
    let mut pieces: Vec<Vec<u8>> = entries.iter().map(piece).collect();
    random.shuffle(&mut pieces);
    (pieces, serial)
}

/// A change to some of the pieces.
pub fn change_pieces(pieces: &mut Vec<Vec<u8>>, random: &mut Random) {
    let length = pieces.iter().map(|piece| piece.len() + 2).sum::<usize>() + 4;
    let chosen = random.below(pieces.len());
    match random.below(8) {
        0 => pieces.push(pieces[chosen].clone()),
        1 => drop(pieces.remove(chosen)),
        2 => {
            // another type, index or language
            let at = random.below(4);
            pieces[chosen][at] = random.pick(&[0, 1, 2, 3, 4, 6, 7, 9, 15, 255]);
        }
        3 => pieces.push(piece_of(random.between(0, 16) as u8, random.byte(), random.pick(&[0, 0x0409]), vec![2, 3])),
        4 => {
            let count = random.pick(&[MOST_ENTRIES - 1, MOST_ENTRIES, MOST_ENTRIES + 1, 70, 256, 300]);
            for index in pieces.len()..count {
                pieces.push(piece_of(STRING, index as u8, 0x0409 + (index / 256) as u16, vec![2, 3]));
            }
        }
        5 if length < LONGEST_SET => {
            // the set's length near the limit, by one string more
            let left = LONGEST_SET - length + random.below(5);
            pieces.push(piece_of(STRING, random.byte(), 0x0409, vec![0; left.saturating_sub(8)]));
        }
        6 => pieces.clear(),
        _ => pieces.push(piece_of(
            STRING,
            random.byte(),
            random.pick(&[0x0409, 0x0904, 0x0407, 0x0100]),
            string_body(4, random),
        )),
    }
}

/// A change to the stream: a byte too many, one missing, a length that is off, noise.
pub fn change_stream(stream: &mut Vec<u8>, random: &mut Random) {
    let at = if stream.is_empty() { 0 } else { random.below(stream.len()) };
    match random.below(5) {
        0 => stream.extend(vec![0; random.between(1, 7)]),
        1 => drop(stream.pop()),
        2 => stream.truncate(at),
        3 if stream.len() > 5 => stream[4] = stream[4].wrapping_add(random.pick(&[1, 255, 2])),
        3 => stream.push(0),
        _ => stream.iter_mut().skip(at).take(1).for_each(|byte| *byte ^= 1 << random.below(8)),
    }
}

/// A buffer that holds the set exactly, nearly, or with some room.
pub fn buffer(set: usize, random: &mut Random) -> Vec<u8> {
    let length = match random.below(8) {
        0 => 0,
        1 => set.saturating_sub(1),
        2 => random.below(set + 1),
        3 => LONGEST_SET,
        4 => set + random.below(40),
        5 => random.between(LONGEST_SET, LONGEST_SET + 3000),
        _ => set,
    };
    random.bytes(length)
}

/// Puts streams of pieces to hk_write.
pub fn writing(comparison: &mut Comparison, calls: usize, seed: u64, fault: Fault) {
    let mut random = Random::new(seed);
    while comparison.calls < calls && !comparison.stopped() {
        let (mut pieces, mut serial) = pieces(&mut random);
        if random.percent(30) {
            change_pieces(&mut pieces, &mut random);
        }
        let set = 4 + pieces.iter().map(|piece| piece.len() + 2).sum::<usize>();
        let mut stream = pieces.concat();
        if random.percent(15) {
            change_stream(&mut stream, &mut random);
        }
        if random.percent(5) {
            serial.push(3);
        }
        let buffer = buffer(set, &mut random);
        comparison.ask(&Arc::new(Lent::new(Vec::new(), serial, fault)), Call::Write { pieces: stream, buffer });
    }
}

/// The dump of a draft, good or damaged: its device and its configurations.
fn dump(random: &mut Random) -> Vec<u8> {
    let draft = if random.percent(3) { Draft::longest(random) } else { Draft::valid(random) };
    let entries = if random.percent(70) { draft.entries() } else { damaged_entries(draft, random).0 };
    let dumped = entries.iter().filter(|entry| [DEVICE, CONFIGURATION].contains(&entry.descriptor_type));
    dumped.flat_map(|entry| entry.body.clone()).collect()
}

/// A change to a dump: a byte too many, one missing, a total length that is off, a body or the device alone, noise, or a very long one.
fn change_dump(dump: &mut Vec<u8>, random: &mut Random) {
    let at = if dump.is_empty() { 0 } else { random.below(dump.len()) };
    match random.below(8) {
        0 => dump.extend(vec![0; random.between(1, 12)]),
        1 => drop(dump.pop()),
        2 => dump.truncate(at),
        3 if dump.len() > 21 => dump[20] = dump[20].wrapping_add(random.pick(&[1, 255, 9])),
        4 => dump.truncate(random.between(16, 19)),
        5 => {
            // bodies of 8, 9 or 10 bytes, a few or many
            let length = random.between(8, 10) as u8;
            let body: Vec<u8> = [9, 2, length, 0, 1, 1, 0, 0x80, 50, 0][..usize::from(length)].to_vec();
            let count = random.pick(&[1, 2, 8, 9, 62, 63, 64, 70, 2000]);
            dump.truncate(18);
            (0..count).for_each(|_| dump.extend(&body));
        }
        6 => {
            // an association, whose iFunction stays
            let body = [9, 2, 26, 0, 1, 1, 4, 0x80, 50, 8, 11, 0, 1, 0xFF, 0, 0, 5, 9, 4, 0, 0, 0, 0xFF, 0, 0, 6];
            dump.truncate(18);
            dump.extend(body);
            dump.iter_mut().skip(17).take(1).for_each(|count| *count = 1);
        }
        _ => dump.iter_mut().skip(at).take(1).for_each(|byte| *byte ^= 1 << random.below(8)),
    }
}

/// Puts dumps to hk_import and sets to hk_export.
pub fn dumping(comparison: &mut Comparison, calls: usize, seed: u64, fault: Fault) {
    let mut random = Random::new(seed);
    while comparison.calls < calls && !comparison.stopped() {
        if random.percent(40) {
            let (set, mut serial) = any_set(&mut random);
            if random.percent(5) {
                serial.push(3);
            }
            let buffer = buffer(set.len(), &mut random);
            comparison.ask(&Arc::new(Lent::new(set.clone(), serial.clone(), fault)), Call::Export { buffer });
            let dumped = exported_length(&set);
            let less = random.below(2);
            let exact = random.bytes(dumped.saturating_sub(less));
            comparison.ask(&Arc::new(Lent::new(set, serial, fault)), Call::Export { buffer: exact });
            continue;
        }
        let mut dump = dump(&mut random);
        if random.percent(40) {
            change_dump(&mut dump, &mut random);
        }
        let bodies = random.between(1, 3);
        let buffer = buffer(dump.len() + 12 + 8 * bodies, &mut random);
        comparison.ask(&Arc::new(Lent::new(Vec::new(), Vec::new(), fault)), Call::Import { dump, buffer });
    }
}

/// How long the device and the configurations of a set are, as its contents say.
fn exported_length(set: &[u8]) -> usize {
    let entries = set.get(4..).unwrap_or(&[]).chunks_exact(8).take(usize::from(set.get(2).copied().unwrap_or(0)));
    let dumped = entries.filter(|entry| [DEVICE, CONFIGURATION].contains(&entry[0]));
    dumped.map(|entry| usize::from(u16::from_le_bytes([entry[6], entry[7]]))).sum::<usize>().min(40_000)
}

/// What trimming freed, in how many sets.
#[derive(Default)]
pub struct Freed {
    pub nothing: usize,
    pub strings: usize,
    pub zero: usize,
}

/// A set with strings that nothing names: references go, or strings come.
fn set_to_trim(random: &mut Random) -> (Vec<u8>, Vec<u8>) {
    if random.percent(30) {
        return any_set(random);
    }
    let mut draft = Draft::valid(random);
    let all = random.percent(30);
    for at in 14..16 {
        if all || random.percent(30) {
            draft.device[at] = 0;
        }
    }
    for descriptor in draft.configurations.iter_mut().flatten() {
        let place = if descriptor.get(1) == Some(&2) { 6 } else { 8 };
        let has_name = matches!(descriptor.get(1), Some(&2) | Some(&4));
        if has_name && (all || random.percent(30)) {
            descriptor[place] = 0;
        }
    }
    if all && random.percent(60) {
        draft.device[16] = 0;
        draft.serial.clear();
    }
    (draft.set(), draft.serial)
}

/// Trims sets, each of them twice.
pub fn trimming(comparison: &mut Comparison, calls: usize, seed: u64, fault: Fault) -> Freed {
    let mut random = Random::new(seed);
    let mut freed = Freed::default();
    while comparison.calls < calls && !comparison.stopped() {
        let (set, mut serial) = set_to_trim(&mut random);
        if random.percent(3) {
            serial.push(3);
        }
        let had_zero = has_string_zero(&set);
        let lent = Arc::new(Lent::new(set.clone(), serial.clone(), fault));
        let outcome = comparison.ask(&lent, Call::Trim { set: set.clone() });
        if outcome.number != 0 {
            continue;
        }
        let total = outcome.part.map_or(0, |part| part.length);
        let after = outcome.image[..total].to_vec();
        match () {
            _ if total == set.len() => freed.nothing += 1,
            _ if had_zero && !has_string_zero(&after) => freed.zero += 1,
            _ => freed.strings += 1,
        }
        let again = Arc::new(Lent::new(after.clone(), serial, fault));
        comparison.ask(&again, Call::Trim { set: after });
    }
    freed
}

/// Whether a set's contents have string 0.
fn has_string_zero(set: &[u8]) -> bool {
    let entries = set.get(4..).unwrap_or(&[]).chunks_exact(8).take(usize::from(set.get(2).copied().unwrap_or(0)));
    entries.into_iter().any(|entry| entry[..2] == [STRING, 0])
}
