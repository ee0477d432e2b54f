//! Pairs of sets as they are drafted: each has its types 6 and 7 from the other, and damage aims at these or at one set.

use crate::damage::{damaged, flipped};
use crate::descriptors::{BULK, INTERRUPT, ISOCHRONOUS};
use crate::draft::{endpoint_of, Draft, DraftEntry, ENDPOINT, LONGEST_SET, MOST_ENTRIES};
use crate::kind::Kind;
use crate::opening::{CONFIGURATION, OTHER_SPEED, QUALIFIER};
use crate::random::Random;

/// The full-speed set, the high-speed set and the serial block.
pub type PairOfSets = (Vec<u8>, Vec<u8>, Vec<u8>);

#[derive(Clone)]
struct Pair {
    full: Draft,
    high: Draft,
}

/// The types 6 and 7 that go with another set.
fn mirrors_of(other: &Draft) -> Vec<DraftEntry> {
    let entry = |descriptor_type, index, body| DraftEntry { descriptor_type, index, language: 0, body };
    let mut qualifier = vec![10, QUALIFIER];
    qualifier.extend(&other.device[2..8]);
    qualifier.extend([other.device[17], 0]);
    let mut mirrors = vec![entry(QUALIFIER, 0, qualifier)];
    let configurations = other.entries().into_iter().filter(|entry| entry.descriptor_type == CONFIGURATION);
    mirrors.extend(configurations.map(|configuration| {
        let mut body = configuration.body;
        body[1] = OTHER_SPEED;
        entry(OTHER_SPEED, configuration.index, body)
    }));
    mirrors
}

impl Pair {
    /// Two drafts that keep every rule, with one serial block; the high-speed one follows the other, or has nothing of it.
    fn valid(random: &mut Random) -> Pair {
        loop {
            let full = Draft::of(Kind::PairedFull, random);
            let follows = random.percent(40);
            let mut high = if follows { raised(&full, random) } else { Draft::of(Kind::PairedHigh, random) };
            if full.serial.is_empty() != high.serial.is_empty() {
                continue;
            }
            high.serial = full.serial.clone();
            let mut pair = Pair { full, high };
            pair.mirror();
            if pair.longest() > LONGEST_SET - 2 || pair.most_entries() > MOST_ENTRIES {
                continue;
            }
            if random.percent(2) {
                let room = LONGEST_SET - pair.longest();
                let chosen = if random.percent(50) { &mut pair.full } else { &mut pair.high };
                chosen.pad(random.pick(&[room, room - 1, room / 2]).max(2), random);
                pair.mirror();
            }
            return pair;
        }
    }

    fn longest(&self) -> usize {
        self.full.set().len().max(self.high.set().len())
    }

    fn most_entries(&self) -> usize {
        self.full.entry_count().max(self.high.entry_count())
    }

    fn mirror(&mut self) {
        self.full.mirrors = mirrors_of(&self.high);
        self.high.mirrors = mirrors_of(&self.full);
    }

    fn sets(&self) -> PairOfSets {
        (self.full.set(), self.high.set(), self.full.serial.clone())
    }

    fn either(&mut self, random: &mut Random) -> &mut Draft {
        if random.percent(50) {
            &mut self.full
        } else {
            &mut self.high
        }
    }
}

/// The same instrument at high speed: endpoints and bMaxPacketSize0 by the other limits.
fn raised(full: &Draft, random: &mut Random) -> Draft {
    let mut high = full.clone();
    high.device[7] = 64;
    for descriptor in high.configurations.iter_mut().flatten().filter(|descriptor| descriptor[1] == ENDPOINT) {
        *descriptor = endpoint_of(Kind::PairedHigh, descriptor[2], random);
    }
    high
}

pub fn valid_pair(random: &mut Random) -> PairOfSets {
    Pair::valid(random).sets()
}

/// Valid, damaged in one of the sets or in both, in what they have in common, or at the limits of high speed.
pub fn any_pair(random: &mut Random) -> PairOfSets {
    let mut pair = Pair::valid(random);
    match random.below(20) {
        0..=4 => {}
        5..=8 => return damage_one(pair, random),
        9..=12 => damage_mirrors(&mut pair, random),
        13..=15 => {
            damage_limits(&mut pair.high, random);
            pair.mirror();
        }
        16 => {
            damage_mirrors(&mut pair, random);
            return damage_one(pair, random);
        }
        17 => {
            // a draft of its own for one set: the other set no longer goes with it, nor perhaps the serial block
            *pair.either(random) = Draft::of(random.pick(&[Kind::PairedFull, Kind::PairedHigh]), random);
            if random.percent(60) {
                pair.mirror();
            }
        }
        18 => std::mem::swap(&mut pair.full, &mut pair.high),
        _ => {
            let (full, serial) = flipped(&pair.full, random);
            let (high, _) = flipped(&pair.high, random);
            let (good_full, good_high, good_serial) = pair.sets();
            return random.percent(50).then_some((full, good_high, serial)).unwrap_or((good_full, high, good_serial));
        }
    }
    pair.sets()
}

/// One set broken by itself, its types 6 and 7 as they were.
fn damage_one(pair: Pair, random: &mut Random) -> PairOfSets {
    let (good_full, good_high, _) = pair.sets();
    if random.percent(50) {
        let (full, serial) = damaged(pair.full, random);
        (full, good_high, serial)
    } else {
        let (high, serial) = damaged(pair.high, random);
        (good_full, high, serial)
    }
}

/// A value at the limits of high speed, or just beyond.
fn damage_limits(high: &mut Draft, random: &mut Random) {
    if random.percent(25) {
        high.device[7] = random.pick(&[8, 16, 32, 64, 128, 0]);
        return;
    }
    let mut endpoints: Vec<&mut Vec<u8>> =
        high.configurations.iter_mut().flatten().filter(|descriptor| descriptor[1] == ENDPOINT).collect();
    if endpoints.is_empty() {
        return;
    }
    let chosen = random.below(endpoints.len());
    let descriptor = &mut endpoints[chosen];
    let kind = random.pick(&[BULK, INTERRUPT, ISOCHRONOUS]);
    let size: u16 = match kind {
        BULK => random.pick(&[511, 512, 513, 64, 8, 1024, 512 | 1 << 11, 512 | 1 << 13, 0]),
        _ => random.pick(&[
            1024,
            1025,
            1024 | 2 << 11,
            3 << 11,
            1024 | 3 << 11,
            1 << 13,
            1 << 15,
            0x07ff,
            64,
            1025 | 1 << 11,
        ]),
    };
    descriptor[3] = kind;
    descriptor[4..6].copy_from_slice(&size.to_le_bytes());
    if kind != BULK {
        descriptor[6] = random.pick(&[0, 1, 1, 1, 16, 16, 17, 255]);
    }
}

/// One of the changes to types 6 and 7.
fn damage_mirrors(pair: &mut Pair, random: &mut Random) {
    let own = pair.clone();
    let side = random.below(2);
    let (mirrors, own) =
        if side == 0 { (&mut pair.full.mirrors, &own.full) } else { (&mut pair.high.mirrors, &own.high) };
    let last = mirrors.len() - 1;
    let chosen = random.between(1, last);
    match random.below(22) {
        0 => drop(mirrors.remove(0)),
        1 => {
            let second = DraftEntry { index: 1, ..mirrors[0].clone() };
            mirrors.insert(1, second);
        }
        2 => mirrors[0].index = random.pick(&[1, 255]),
        3 => mirrors[0].language = random.pick(&[1, 0x0409]),
        4 => {
            mirrors[0].body.truncate(9);
            mirrors[0].body[0] = random.pick(&[9, 10]);
        }
        5 => {
            mirrors[0].body.push(0);
            mirrors[0].body[0] = random.pick(&[10, 11]);
        }
        6 => mirrors[0].body[0] = random.pick(&[0, 9, 11, 18]),
        7 => mirrors[0].body[1] = random.pick(&[0, 1, 2, 7]),
        8 => change_byte(&mut mirrors[0].body, random.between(2, 7), random),
        9 => mirrors[0].body[7] = random.pick(&[8, 16, 32, 64, 0]),
        10 => mirrors[0].body[8] = mirrors[0].body[8].wrapping_add(random.pick(&[1, 255])),
        11 => mirrors[0].body[9] = random.pick(&[1, 128, 255]),
        12 => mirrors[0] = mirrors_of(own)[0].clone(),
        13 => drop(mirrors.remove(random.pick(&[1, last]))),
        14 => {
            let more = DraftEntry { index: mirrors[last].index + 1, ..mirrors[last].clone() };
            mirrors.push(more);
        }
        15 => mirrors[last].index += random.pick(&[1, 7]),
        16 => mirrors[last].language = random.pick(&[1, 256]),
        17 => {
            let body = &mut mirrors[chosen].body;
            if random.percent(50) {
                body.push(0)
            } else {
                body.truncate(body.len() - 1)
            }
        }
        18 => mirrors[chosen].body[1] = random.pick(&[0, 2, 2, 6]),
        19 => {
            let end = mirrors[chosen].body.len() - 1;
            let any = random.between(2, end);
            change_byte(&mut mirrors[chosen].body, random.pick(&[0, 2, 3, end, any]), random);
        }
        20 => mirrors.truncate(random.below(2)),
        _ => {
            // the set's own configurations
            mirrors.truncate(1);
            mirrors.extend(mirrors_of(own).into_iter().skip(1));
        }
    }
}

fn change_byte(body: &mut [u8], at: usize, random: &mut Random) {
    body[at] ^= 1 << random.below(8);
}
