//! Which rule is broken first, in which block and at which byte: the order and the bytes of docs/MAKERS.md, for a set of any kind and for a pair.
//!
//! Rules are asked one after another, each by its number and its place; the first that does not hold is told.

use crate::descriptors::Endpoint;
use crate::events::{Block, Outcome, Part};
use crate::fault::Fault;
use crate::kind::Kind;
use crate::octets::number;
use crate::opening::{CONFIGURATION, DEVICE, OTHER_SPEED, QUALIFIER, STORE, STRING};
use crate::rule::Rule;

const INTERFACE: u8 = 4;
const ENDPOINT: u8 = 5;
const COMPANION: u8 = 48;

/// The first broken rule, and the byte where it is broken.
#[derive(Clone, Copy, PartialEq, Eq, Debug)]
pub struct Told {
    pub rule: u16,
    pub block: Block,
    pub place: usize,
}

impl Told {
    /// The number that opening gives back.
    pub fn number(self) -> u8 {
        (self.rule / 100) as u8
    }
}

type Asked = Result<(), Told>;

/// An entry, where it stands, and its body.
#[derive(Clone, Copy)]
struct Placed<'a> {
    at: usize,
    kind: u8,
    index: u8,
    language: u16,
    offset: usize,
    body: &'a [u8],
}

/// A set and its serial block while they are asked.
struct Asking<'a> {
    kind: Kind,
    block: Block,
    set: &'a [u8],
    serial: &'a [u8],
    fault: Fault,
}

/// The setting that has begun, and what came of its configuration.
#[derive(Default)]
struct Settings {
    last: Option<(u8, u8)>,
    head: usize,
    wanted: usize,
    listed: Vec<u8>,
    seen: Vec<(u8, u8)>,
}

fn agreeing(one: &[u8], other: &[u8]) -> usize {
    one.iter().zip(other).take_while(|(one, other)| one == other).count()
}

fn of_kind<'a>(entries: &[Placed<'a>], kind: u8) -> Vec<Placed<'a>> {
    entries.iter().copied().filter(|entry| entry.kind == kind).collect()
}

/// Where each descriptor of a body begins that is cut to its end.
fn cut(body: &[u8]) -> Vec<usize> {
    let mut found = Vec::new();
    let mut at = 0;
    while at < body.len() {
        found.push(at);
        at += usize::from(body[at]).max(1);
    }
    found
}

impl<'a> Asking<'a> {
    fn ask(&self, holds: bool, rule: u16, place: usize) -> Asked {
        if holds || self.fault.untold() == Some(rule) {
            return Ok(());
        }
        let place = place + usize::from(self.fault.astray() == Some(rule));
        let serial = rule / 100 == 6 && self.fault != Fault::SerialFaultToldInTheSet;
        let high_as_full = self.block == Block::High && self.fault == Fault::HighBlockToldAsFull;
        let block = if serial {
            Block::Serial
        } else if high_as_full {
            Block::Set
        } else {
            self.block
        };
        let lent = if serial { self.serial } else { self.set };
        let last = lent.len().saturating_sub(1);
        let past_the_end = self.fault == Fault::PlacePastTheEnd;
        Err(Told { rule, block, place: if past_the_end { place } else { place.min(last) } })
    }

    fn frame(&self) -> Asked {
        let set = self.set;
        self.ask(set.len() >= 4, 101, 3)?;
        self.ask(set.len() <= 16_384, 102, 16_384)?;
        self.ask(usize::from(number(set, 0)) == set.len(), 103, 0)?;
        self.ask(set[2] >= 1, 104, 2)?;
        self.ask(set[2] <= 64, 105, 2)?;
        self.ask(set[3] == 0, 106, 3)?;
        self.ask(self.contents_end() <= set.len(), 107, 2)
    }

    fn contents_end(&self) -> usize {
        4 + 8 * usize::from(self.set[2])
    }

    fn may_have(&self, kind: u8) -> bool {
        match kind {
            DEVICE..=STRING => true,
            QUALIFIER | OTHER_SPEED => self.kind.is_paired(),
            STORE => self.kind == Kind::Super,
            _ => false,
        }
    }

    fn contents(&self) -> Result<Vec<Placed<'a>>, Told> {
        let (mut ended, mut last, mut found) = (self.contents_end(), None, Vec::new());
        for at in (4..self.contents_end()).step_by(8) {
            let entry = &self.set[at..at + 8];
            let (language, offset, length) = (number(entry, 2), usize::from(number(entry, 4)), usize::from(number(entry, 6)));
            let key = (entry[0], language, entry[1]);
            self.ask(self.may_have(entry[0]), 201, at)?;
            self.ask(last.map_or(true, |last| last < key), 202, at)?;
            self.ask(length >= 2, 203, at + 6)?;
            self.ask(offset == ended, 204, at + 4)?;
            ended += length;
            last = Some(key);
            found.push((at, key, offset, length));
        }
        self.ask(ended == self.set.len(), 205, self.contents_end() - 2)?;
        let placed = |(at, (kind, language, index), offset, length): (usize, (u8, u16, u8), usize, usize)| Placed {
            at,
            kind,
            index,
            language,
            offset,
            body: &self.set[offset..offset + length],
        };
        Ok(found.into_iter().map(placed).collect())
    }

    fn device(&self, entries: &[Placed<'a>]) -> Result<Placed<'a>, Told> {
        let devices = of_kind(entries, DEVICE);
        self.ask(!devices.is_empty(), 301, 4)?;
        self.ask(devices.len() == 1, 301, 12)?;
        let Placed { at, index, language, offset, body, .. } = devices[0];
        self.ask(index == 0, 302, at + 1)?;
        self.ask(language == 0, 303, at + 2)?;
        self.ask(body.len() == 18, 304, at + 6)?;
        self.ask(body[0] == 18, 305, offset)?;
        self.ask(body[1] == DEVICE, 306, offset + 1)?;
        self.ask(self.kind.control_sizes(self.fault).contains(&body[7]), 307, offset + 7)?;
        self.ask(body[4] != 0 || body[5] == 0, 308, offset + 5)?;
        self.ask(body[17] >= 1, 309, offset + 17)?;
        self.ask(body[17] <= 8, 310, offset + 17)?;
        self.ask(usize::from(body[17]) == of_kind(entries, CONFIGURATION).len(), 311, offset + 17)?;
        Ok(devices[0])
    }

    /// The BOS.
    fn store(&self, entries: &[Placed]) -> Asked {
        let stores = of_kind(entries, STORE);
        self.ask(!stores.is_empty(), 312, self.contents_end())?;
        self.ask(stores.len() <= 1, 312, stores.get(1).map_or(0, |second| second.at))?;
        let Some(Placed { at, index, language, offset, body, .. }) = stores.first() else { return Ok(()) };
        self.ask(*index == 0, 313, at + 1)?;
        self.ask(*language == 0, 314, at + 2)?;
        self.ask(body.len() >= 5, 315, at + 6)?;
        let says = body.get(2..4).map_or(0, |total| usize::from(number(total, 0)));
        self.ask(says == body.len(), 316, offset + 2)
    }

    fn head(&self, body: &[u8], start: usize) -> Asked {
        self.ask(body[1] == CONFIGURATION, 405, start + 1)?;
        self.ask(body[0] >= 9, 406, start)?;
        self.ask(usize::from(number(body, 2)) == body.len(), 407, start + 2)?;
        self.ask(body[7] & 0x80 != 0, 408, start + 7)?;
        self.ask(body[7] & 0x1f == 0, 409, start + 7)?;
        self.ask(body[8] <= 250, 410, start + 8)?;
        self.ask(body[4] >= 1, 414, start + 4)?;
        self.ask(body[4] <= 16, 415, start + 4)
    }

    fn whole(&self, rest: &[u8], place: usize) -> Asked {
        self.ask(rest[0] >= 2, 403, place)?;
        self.ask(usize::from(rest[0]) <= rest.len(), 404, place)
    }

    fn all_came(&self, settings: &Settings) -> Asked {
        self.ask(settings.listed.len() == settings.wanted, 421, settings.head + 4)
    }

    fn interface(&self, settings: &mut Settings, d: &[u8], place: usize) -> Asked {
        self.all_came(settings)?;
        self.ask(d.len() >= 9, 412, place)?;
        match settings.last {
            None => {
                self.ask(d[2] == 0, 416, place + 2)?;
                self.ask(d[3] == 0, 417, place + 3)?;
            }
            Some((interface, alternate)) => {
                let (now, same, next) = (u16::from(d[2]), u16::from(interface), u16::from(interface) + 1);
                let follows = now == same && u16::from(d[3]) == u16::from(alternate) + 1 || now == next && d[3] == 0;
                self.ask(follows, 418, place + if now == same || now == next { 3 } else { 2 })?;
            }
        }
        self.ask(d[3] <= 15, 420, place + 3)?;
        settings.last = Some((d[2], d[3]));
        settings.head = place;
        settings.wanted = usize::from(d[4]);
        settings.listed.clear();
        Ok(())
    }

    fn endpoint(&self, settings: &mut Settings, d: &[u8], place: usize) -> Asked {
        self.ask(d.len() >= 7, 413, place)?;
        self.ask(settings.last.is_some(), 422, place)?;
        self.ask(settings.listed.len() < settings.wanted, 421, settings.head + 4)?;
        let endpoint = Endpoint { address: d[2], attributes: d[3], packet_size: number(d, 4), interval: d[6] };
        self.ask(d[2] & 0x70 == 0, 423, place + 2)?;
        self.ask(d[2] & 0x0f != 0, 424, place + 2)?;
        self.ask(d[3] & 0xc0 == 0, 425, place + 3)?;
        self.ask(d[3] & 3 != 0, 426, place + 3)?;
        self.ask(d[3] & 0x3c == 0 || d[3] & 3 == 1, 427, place + 3)?;
        if let Err(broken) = self.kind.check_endpoint(&endpoint, self.fault) {
            let (rule, on) = match broken {
                Rule::BulkPacketSize => (428, 4),
                Rule::InterruptPacketSize => (429, 4),
                Rule::IsochronousPacketSize => (430, 4),
                Rule::InterruptInterval => (431, 6),
                _ => (432, 6),
            };
            self.ask(false, rule, place + on)?;
        }
        let interface = settings.last.map_or(0, |(interface, _)| interface);
        self.ask(!settings.listed.contains(&d[2]), 433, place + 2)?;
        let elsewhere = |&(address, owner): &(u8, u8)| address == d[2] && owner != interface;
        self.ask(!settings.seen.iter().any(elsewhere), 434, place + 2)?;
        settings.listed.push(d[2]);
        settings.seen.push((d[2], interface));
        Ok(())
    }

    fn body(&self, body: &[u8], start: usize) -> Asked {
        self.whole(body, start)?;
        self.head(body, start)?;
        let (mut settings, mut at) = (Settings::default(), usize::from(body[0]));
        if self.fault == Fault::CompanionsToldBeforeTheOthers && cut(body).iter().all(|&at| at + 1 < body.len()) {
            self.companions(body, start)?;
        }
        while at < body.len() {
            self.whole(&body[at..], start + at)?;
            let d = &body[at..at + usize::from(body[at])];
            self.ask(![1, 2, 3, 6, 7].contains(&d[1]), 411, start + at + 1)?;
            match d[1] {
                INTERFACE => self.interface(&mut settings, d, start + at)?,
                ENDPOINT => self.endpoint(&mut settings, d, start + at)?,
                _ => {}
            }
            at += d.len();
        }
        self.all_came(&settings)?;
        self.ask(settings.last.is_some_and(|(interface, _)| interface + 1 == body[4]), 419, start + 4)
    }

    /// "Directly after every endpoint and nowhere else": asked at each descriptor, and at the end.
    fn companions(&self, body: &[u8], start: usize) -> Asked {
        if self.kind != Kind::Super {
            return Ok(());
        }
        let mut endpoint = None;
        for at in cut(body) {
            let (length, kind) = (body[at], body[at + 1]);
            let short = |asking: &Self| asking.ask(kind != COMPANION || length >= 6, 437, start + at);
            if self.fault == Fault::ShortCompanionToldFirst {
                short(self)?;
            }
            self.ask(endpoint.is_none() || kind == COMPANION, 438, start + endpoint.unwrap_or(0))?;
            self.ask(endpoint.is_some() || kind != COMPANION, 439, start + at + 1)?;
            short(self)?;
            endpoint = (kind == ENDPOINT).then_some(at);
        }
        self.ask(endpoint.is_none(), 438, start + endpoint.unwrap_or(0))
    }

    fn configurations(&self, entries: &[Placed]) -> Asked {
        let mut values = Vec::new();
        for Placed { at, index, language, offset, body, .. } in of_kind(entries, CONFIGURATION) {
            let value = |asking: &Self, values: &[u8]| {
                asking.ask(body[5] != 0, 435, offset + 5)?;
                asking.ask(!values.contains(&body[5]), 436, offset + 5)
            };
            self.ask(usize::from(index) == values.len(), 401, at + 1)?;
            self.ask(language == 0, 402, at + 2)?;
            self.body(body, offset)?;
            if self.fault == Fault::ValueToldBeforeCompanions {
                value(self, &values)?;
            }
            self.companions(body, offset)?;
            value(self, &values)?;
            values.push(body[5]);
        }
        Ok(())
    }

    fn languages(&self, body: &[u8], start: usize) -> Asked {
        let listed: Vec<u16> = body[2..].chunks(2).map(|pair| number(pair, 0)).collect();
        self.ask(!listed.is_empty(), 505, start)?;
        self.ask(listed.len() <= 4, 506, start + 10)?;
        let mut last = 0;
        for (at, &language) in listed.iter().enumerate() {
            self.ask(language != 0, 507, start + 2 + 2 * at)?;
            self.ask(last < language, 508, start + 2 + 2 * at)?;
            last = language;
        }
        Ok(())
    }

    /// Each string by itself, string 0 with the languages that it lists.
    fn each_string(&self, strings: &[Placed], serial: u8, listed: &[u16]) -> Asked {
        for Placed { at, index, language, offset, body, .. } in strings {
            self.ask(usize::from(body[0]) == body.len(), 501, *offset)?;
            self.ask(body[1] == STRING, 502, offset + 1)?;
            self.ask(body.len() % 2 == 0 && body.len() <= 254, 503, *offset)?;
            self.ask((*language == 0) == (*index == 0), 504, at + 2)?;
            if *index == 0 {
                self.languages(body, *offset)?;
            }
            if self.fault == Fault::UnlistedToldAtItsString {
                self.ask(*index == 0 || listed.contains(language), 509, at + 2)?;
            }
            self.ask(serial == 0 || *index != serial, 511, at + 1)?;
        }
        Ok(())
    }

    fn references(&self, device: &Placed, entries: &[Placed]) -> Vec<(usize, u8)> {
        let mut found: Vec<(usize, u8)> = (14..17).map(|at| (device.offset + at, device.body[at])).collect();
        for Placed { offset, body, .. } in of_kind(entries, CONFIGURATION) {
            found.push((offset + 6, body[6]));
            let interfaces = cut(body).into_iter().filter(|at| body[at + 1] == INTERFACE);
            found.extend(interfaces.map(|at| (offset + at + 8, body[at + 8])));
        }
        found
    }

    /// String 0's own fault first: what is judged by it comes behind it.
    fn strings(&self, device: &Placed, entries: &[Placed]) -> Asked {
        let (strings, serial) = (of_kind(entries, STRING), device.body[16]);
        let zero = strings.iter().find(|string| string.index == 0 && string.language == 0);
        let listed: Vec<u16> =
            zero.map_or(Vec::new(), |zero| zero.body[2..].chunks_exact(2).map(|pair| number(pair, 0)).collect());
        let needs_zero = || self.ask(strings.is_empty() || zero.is_some(), 510, strings.first().map_or(0, |first| first.at));
        if self.fault == Fault::MissingStringZeroToldFirst {
            needs_zero()?;
        }
        self.each_string(&strings, serial, &listed)?;
        needs_zero()?;
        for string in &strings {
            self.ask(string.index == 0 || listed.contains(&string.language), 509, string.at + 2)?;
        }
        let has = |index, language| strings.iter().any(|string| (string.index, string.language) == (index, language));
        for (place, reference) in self.references(device, entries) {
            self.ask(reference == 0 || zero.is_some(), 510, place)?;
            let there = listed.iter().all(|&language| has(reference, language));
            self.ask(reference == 0 || reference == serial || there, 512, place)?;
        }
        Ok(())
    }

    fn serial(&self, index: u8) -> Asked {
        let serial = self.serial;
        if index == 0 {
            return self.ask(serial.is_empty(), 601, 0);
        }
        self.ask(serial.len() % 2 == 0, 602, 0)?;
        self.ask(serial.len() >= 4, 603, 3)?;
        self.ask(serial.len() <= 254, 604, 254)?;
        self.ask(usize::from(serial[0]) == serial.len(), 605, 0)?;
        self.ask(serial[1] == STRING, 606, 1)
    }

    /// Groups 1 to 6; the entries of a set that keeps them.
    fn groups(&self) -> Result<Vec<Placed<'a>>, Told> {
        self.frame()?;
        let entries = self.contents()?;
        let store_first = self.fault == Fault::StoreToldBeforeTheDevice;
        if self.kind == Kind::Super && store_first {
            self.store(&entries)?;
        }
        let device = self.device(&entries)?;
        if self.kind == Kind::Super && !store_first {
            self.store(&entries)?;
        }
        self.configurations(&entries)?;
        self.strings(&device, &entries)?;
        self.serial(device.body[16])?;
        Ok(entries)
    }

    fn qualifier(&self, entries: &[Placed], others: &[Placed]) -> Asked {
        let (qualifiers, device) = (of_kind(entries, QUALIFIER), others[0].body);
        let behind = 4 + 8 * entries.iter().filter(|entry| entry.kind < QUALIFIER).count();
        self.ask(!qualifiers.is_empty(), 2401, behind)?;
        self.ask(qualifiers.len() <= 1, 2401, qualifiers.get(1).map_or(0, |second| second.at))?;
        let Some(Placed { at, index, language, offset, body, .. }) = qualifiers.first() else { return Ok(()) };
        self.ask(*index == 0, 2402, at + 1)?;
        self.ask(*language == 0, 2403, at + 2)?;
        self.ask(body.len() == 10, 2404, at + 6)?;
        let mut wanted = vec![10, QUALIFIER];
        wanted.extend(&device[2..8]);
        wanted.extend([device[17], 0]);
        self.ask(*body == wanted, 2405, offset + agreeing(body, &wanted))
    }

    fn other_speeds(&self, entries: &[Placed], others: &[Placed]) -> Asked {
        let (mirrors, mirrored) = (of_kind(entries, OTHER_SPEED), of_kind(others, CONFIGURATION));
        let fewer = || self.ask(mirrors.len() >= mirrored.len(), 2406, self.contents_end());
        if self.fault == Fault::MissingOtherSpeedToldFirst {
            fewer()?;
        }
        for (count, Placed { at, index, language, offset, body, .. }) in mirrors.iter().enumerate() {
            let Some(configuration) = mirrored.get(count) else {
                self.ask(false, 2406, *at)?;
                continue;
            };
            self.ask(*index == configuration.index, 2407, at + 1)?;
            self.ask(*language == 0, 2408, at + 2)?;
            self.ask(body.len() == configuration.body.len(), 2409, at + 6)?;
            let mut wanted = configuration.body.to_vec();
            wanted[1] = OTHER_SPEED;
            self.ask(*body == wanted, 2410, offset + agreeing(body, &wanted))?;
        }
        fewer()
    }

    /// 24: what a set says of the other.
    fn beside(&self, entries: &[Placed], others: &[Placed]) -> Asked {
        if self.fault == Fault::OtherSpeedsToldBeforeTheQualifier {
            self.other_speeds(entries, others)?;
        }
        self.qualifier(entries, others)?;
        self.other_speeds(entries, others)
    }
}

/// What a set that is lent alone, or a SuperSpeed set, is told.
pub fn explain(kind: Kind, set: &[u8], serial: &[u8], fault: Fault) -> Option<Told> {
    Asking { kind, block: Block::Set, set, serial, fault }.groups().err()
}

/// What a pair is told: the full-speed set's rules, the high-speed set's, then what each says of the other.
pub fn explain_pair(full: &[u8], high: &[u8], serial: &[u8], fault: Fault) -> Option<Told> {
    let one = Asking { kind: Kind::PairedFull, block: Block::Set, set: full, serial, fault };
    let other = Asking { kind: Kind::PairedHigh, block: Block::High, set: high, serial, fault };
    let told = || {
        let entries = one.groups()?;
        let others = other.groups()?;
        if fault == Fault::HighSetBesideToldFirst {
            other.beside(&others, &entries)?;
        }
        one.beside(&entries, &others)?;
        other.beside(&others, &entries)
    };
    told().err()
}

/// As the C boundary has it: the bytes are the rule, the part's offset is the place.
pub fn outcome(told: Option<Told>) -> Outcome {
    let number = told.map_or(0, Told::number);
    let (rule, block, place) = told.map_or((0, Block::Set, 0), |told| (told.rule, told.block, told.place));
    Outcome { number, bytes: rule.to_le_bytes().to_vec(), part: Some(Part { block, offset: place, length: 0 }), image: Vec::new() }
}

/// Every rule that may be the first broken of a set of this kind.
pub fn rules_of(kind: Kind) -> Vec<u16> {
    let mut groups = vec![101..=107, 201..=205, 301..=311, 401..=436, 501..=512, 601..=606];
    match kind {
        Kind::Super => groups.extend([312..=316, 437..=439]),
        Kind::PairedFull | Kind::PairedHigh => groups.push(2401..=2410),
        Kind::Alone => {}
    }
    // a serial block that breaks one of these was refused for the full-speed set, or is empty
    let judged_before = |rule: &u16| kind == Kind::PairedHigh && [602, 604, 605, 606].contains(rule);
    groups.into_iter().flatten().filter(|rule| !judged_before(rule)).collect()
}
