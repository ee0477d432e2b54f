//! SuperSpeed sets as they are drafted, damage near each rule that they alone have, and what is asked of them.

use std::sync::Arc;

use crate::call::Call;
use crate::compare::Comparison;
use crate::damage::{damaged_entries, flipped};
use crate::descriptors::{BULK, INTERRUPT, ISOCHRONOUS};
use crate::draft::{class_descriptor, lay_out, Descriptors, Draft, DraftEntry, ENDPOINT, LONGEST_SET, MOST_ENTRIES};
use crate::events::{Event, Lent};
use crate::fault::Fault;
use crate::makers;
use crate::opening::STORE;
use crate::random::Random;
use crate::record::{FULL_SPEED, IMAGE_LENGTH};
use crate::superspeed::{self, Broken};

const INTERFACE: u8 = 4;
const COMPANION: u8 = 48;

fn companion(random: &mut Random) -> Vec<u8> {
    let length = random.pick(&[6, 6, 6, 7, 8, 255]);
    let mut companion = random.bytes(length);
    companion[..2].copy_from_slice(&[length as u8, COMPANION]);
    companion
}

/// A BOS body of so many bytes, with its length in bytes 2 and 3.
fn store(length: usize, random: &mut Random) -> DraftEntry {
    let mut body = random.bytes(length);
    if length >= 4 {
        body[2..4].copy_from_slice(&(length as u16).to_le_bytes());
    }
    DraftEntry { descriptor_type: STORE, index: 0, language: 0, body }
}

/// The endpoint with this kind's size and interval.
fn change_endpoint(endpoint: &mut [u8], random: &mut Random) {
    let any = random.between(1, 1024) as u16;
    let (size, interval) = match endpoint[3] & 3 {
        BULK => (1024, random.pick(&[0, 1, 255])),
        ISOCHRONOUS => (random.pick(&[0, 1, 1023, 1024, any]), random.pick(&[1, 4, 15, 16])),
        _ => (random.pick(&[1, 8, 64, 1023, 1024, any]), random.pick(&[1, 4, 15, 16])),
    };
    endpoint[4..6].copy_from_slice(&u16::to_le_bytes(size));
    endpoint[6] = interval;
}

/// The same configuration, as one of this kind.
fn change_configuration(descriptors: &mut Descriptors, random: &mut Random) {
    let before = std::mem::take(descriptors);
    for mut descriptor in before {
        let is_endpoint = descriptor[1] == ENDPOINT;
        if is_endpoint {
            change_endpoint(&mut descriptor, random);
        }
        descriptors.push(descriptor);
        if is_endpoint {
            descriptors.push(companion(random));
        }
    }
}

/// A draft that keeps every rule, and its BOS.
fn valid(random: &mut Random) -> (Draft, DraftEntry) {
    loop {
        let mut draft = Draft::valid(random);
        draft.device[7] = 9;
        for descriptors in &mut draft.configurations {
            change_configuration(descriptors, random);
        }
        let any = random.between(5, 80);
        let length = random.pick(&[5, 5, 6, 22, any, 256, 261]);
        let store = store(length, random);
        if draft.entry_count() < MOST_ENTRIES && draft.set().len() + 8 + store.body.len() <= LONGEST_SET {
            return (draft, store);
        }
    }
}

/// Where some descriptor of a type stands behind the first.
fn place(descriptors: &Descriptors, wanted: u8, random: &mut Random) -> Option<usize> {
    let places: Vec<usize> = (1..descriptors.len()).filter(|&at| descriptors[at][1] == wanted).collect();
    (!places.is_empty()).then(|| random.pick(&places))
}

/// A companion taken away, doubled, moved, shortened, or put where none belongs.
fn damage_companion(descriptors: &mut Descriptors, random: &mut Random) {
    let any = random.between(1, descriptors.len());
    let Some(at) = place(descriptors, COMPANION, random) else {
        return descriptors.insert(any, companion(random));
    };
    match random.below(8) {
        0 => drop(descriptors.remove(at)),
        1 => descriptors.insert(at, companion(random)),
        2 => descriptors.swap(at - 1, at),
        3 => {
            let length = random.between(2, 5);
            descriptors[at].truncate(length);
            descriptors[at][0] = length as u8;
        }
        4 => {
            let length = random.pick(&[2, 5, 9]);
            descriptors.insert(at, class_descriptor(length, random));
        }
        5 => descriptors.insert(1, companion(random)),
        6 => descriptors.truncate(at),
        _ => descriptors.insert(any, companion(random)),
    }
}

/// Sometimes a second fault beside a companion's, so that their order shows: another companion, the value, a count of endpoints.
fn damage_beside(descriptors: &mut Descriptors, random: &mut Random) {
    match random.below(8) {
        0 => damage_companion(descriptors, random),
        1 => descriptors[0][5] = 0,
        2 => {
            if let Some(at) = place(descriptors, INTERFACE, random) {
                descriptors[at][4] ^= 1;
            }
        }
        _ => {}
    }
}

/// A size or an interval at an edge.
fn damage_endpoint(descriptors: &mut Descriptors, random: &mut Random) {
    let Some(at) = place(descriptors, ENDPOINT, random) else { return };
    let endpoint = &mut descriptors[at];
    if random.percent(30) {
        endpoint[3] = random.pick(&[ISOCHRONOUS, BULK, INTERRUPT, ISOCHRONOUS | 0x24]);
    }
    let size: u16 = random.pick(&[0, 1, 8, 64, 512, 1023, 1024, 1025, 1536, 2048, 3072, 0x8400]);
    if random.percent(70) {
        endpoint[4..6].copy_from_slice(&size.to_le_bytes());
    } else {
        endpoint[6] = random.pick(&[0, 1, 16, 17, 255]);
    }
}

/// The BOS missing, twice, under another index or language, too short, with another length, or beside a type that no set has.
fn damage_store(entries: &mut Vec<DraftEntry>, random: &mut Random) {
    let last = entries.len() - 1;
    match random.below(8) {
        0 => drop(entries.pop()),
        1 => {
            let length = random.pick(&[5, 5, 4]);
            let mut second = store(length, random);
            second.index = 1;
            entries.push(second);
        }
        2 => entries[last].index = random.pick(&[1, 255]),
        3 => entries[last].language = random.pick(&[1, 0x0409, 0xff00]),
        4 => entries[last] = store(random.between(0, 5), random),
        5 | 6 => {
            let at = random.between(2, 3);
            if let Some(byte) = entries[last].body.get_mut(at) {
                *byte = byte.wrapping_add(random.pick(&[1, 255]));
            }
        }
        _ => {
            let descriptor_type = random.pick(&[4, 6, 7, 14]);
            entries.insert(last, DraftEntry { descriptor_type, index: 0, language: 0, body: vec![2, descriptor_type] });
        }
    }
}

/// The entries of a set of this kind and its serial block: valid, or damaged near a rule of this kind or of all.
fn any_entries(random: &mut Random) -> (Vec<DraftEntry>, Vec<u8>) {
    let (mut draft, store) = valid(random);
    let chosen = random.below(draft.configurations.len());
    let damage = random.below(20);
    match damage {
        6 => draft.device[7] = random.pick(&[0, 8, 10, 16, 18, 64]),
        7..=10 => {
            damage_companion(&mut draft.configurations[chosen], random);
            damage_beside(&mut draft.configurations[chosen], random);
        }
        13 => draft.device[7] = random.pick(&[8, 9]),
        11..=12 => damage_endpoint(&mut draft.configurations[chosen], random),
        _ => {}
    }
    let (mut entries, serial) =
        if damage >= 17 { damaged_entries(draft, random) } else { (draft.entries(), draft.serial) };
    entries.push(store);
    if (13..=16).contains(&damage) {
        damage_store(&mut entries, random);
    }
    (entries, serial)
}

/// A set and its serial block; sometimes with flipped bytes, sometimes of another kind.
pub fn any_super_set(random: &mut Random) -> (Vec<u8>, Vec<u8>) {
    if random.percent(3) {
        return flipped(&Draft::valid(random), random);
    }
    let (entries, serial) = any_entries(random);
    let mut set = lay_out(&entries);
    if random.percent(4) {
        let at = random.below(set.len());
        set[at] ^= 1 << random.below(8);
    }
    (set, serial)
}

/// How often each rule of this kind's own was the first broken.
pub type Reached = Vec<(Broken, usize)>;

/// Lends sets to hk_super_open, and to hk_open and an event, which refuse them.
pub fn opening(comparison: &mut Comparison, sets: usize, seed: u64, fault: Fault) -> Reached {
    let mut random = Random::new(seed);
    let mut reached: Reached = Broken::OWN.iter().map(|&rule| (rule, 0)).collect();
    let mut asked = 0;
    while asked < sets && !comparison.stopped() {
        let (set, serial) = any_super_set(&mut random);
        let lent = Arc::new(Lent::new(set, serial, fault));
        if let Err(broken) = superspeed::open(&lent.set, &lent.serial, fault) {
            reached.iter_mut().filter(|(rule, _)| *rule == broken).for_each(|(_, count)| *count += 1);
        }
        let length = if random.percent(98) { IMAGE_LENGTH } else { random.pick(&[0, 31, 33]) };
        let image = random.bytes(length);
        comparison.ask(&lent, Call::SuperOpen { image: image.clone() });
        asked += 1;
        if random.percent(10) {
            comparison.ask(&lent, Call::Open { image: image.clone() });
            comparison.ask(&lent, Call::Event { image, event: Event::BusReset(FULL_SPEED) });
        }
    }
    reached
}

/// Puts streams of pieces to hk_super_write.
pub fn writing(comparison: &mut Comparison, calls: usize, seed: u64, fault: Fault) {
    let mut random = Random::new(seed);
    while comparison.calls < calls && !comparison.stopped() {
        let (entries, mut serial) = any_entries(&mut random);
        let mut pieces: Vec<Vec<u8>> = entries.iter().map(makers::piece).collect();
        random.shuffle(&mut pieces);
        if random.percent(20) {
            makers::change_pieces(&mut pieces, &mut random);
        }
        let set = 4 + pieces.iter().map(|piece| piece.len() + 2).sum::<usize>();
        let mut stream = pieces.concat();
        if random.percent(10) {
            makers::change_stream(&mut stream, &mut random);
        }
        if random.percent(5) {
            serial.push(3);
        }
        let buffer = makers::buffer(set, &mut random);
        comparison.ask(&Arc::new(Lent::new(Vec::new(), serial, fault)), Call::SuperWrite { pieces: stream, buffer });
    }
}
