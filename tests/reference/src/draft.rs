//! Sets as they are drafted: descriptors and strings first, bytes last, so that damage can aim at one rule.

use crate::descriptors::{BULK, INTERRUPT, ISOCHRONOUS};
use crate::fault::Fault;
use crate::kind::Kind;
use crate::opening::{CONFIGURATION, DEVICE, STRING};
use crate::random::Random;

pub const INTERFACE: u8 = 4;
pub const ENDPOINT: u8 = 5;
pub const LONGEST_SET: usize = 16_384;
pub const MOST_ENTRIES: usize = 64;

/// A configuration body, cut.
pub type Descriptors = Vec<Vec<u8>>;

#[derive(Clone, Debug)]
pub struct DraftEntry {
    pub descriptor_type: u8,
    pub index: u8,
    pub language: u16,
    pub body: Vec<u8>,
}

#[derive(Clone, Debug)]
pub struct Draft {
    pub device: Vec<u8>,
    pub configurations: Vec<Descriptors>,
    pub strings: Vec<DraftEntry>,
    /// Types 6 and 7, in the set of a pair.
    pub mirrors: Vec<DraftEntry>,
    pub serial: Vec<u8>,
}

/// How much a draft may hold, at the most.
#[derive(Clone, Copy)]
struct Scale {
    configurations: usize,
    interfaces: usize,
    alternates: usize,
    addresses: usize,
    class_percent: usize,
}

const SCALES: [Scale; 6] = [
    Scale { configurations: 1, interfaces: 1, alternates: 1, addresses: 2, class_percent: 5 },
    Scale { configurations: 2, interfaces: 3, alternates: 2, addresses: 3, class_percent: 15 },
    Scale { configurations: 3, interfaces: 2, alternates: 4, addresses: 6, class_percent: 10 },
    Scale { configurations: 2, interfaces: 16, alternates: 1, addresses: 1, class_percent: 0 },
    Scale { configurations: 1, interfaces: 5, alternates: 16, addresses: 4, class_percent: 5 },
    Scale { configurations: 8, interfaces: 4, alternates: 3, addresses: 4, class_percent: 30 },
];

/// The languages, and the string indices that references may name.
struct Names {
    languages: Vec<u16>,
    used: Vec<u8>,
    serial_index: u8,
}

impl Draft {
    /// A draft that keeps every rule, of any size up to exactly 16,384 bytes.
    pub fn valid(random: &mut Random) -> Draft {
        loop {
            let mut draft = Draft::of(Kind::Alone, random);
            let length = draft.set().len();
            if length > LONGEST_SET - 2 {
                continue;
            }
            if random.percent(3) {
                let target = random.pick(&[LONGEST_SET, LONGEST_SET, LONGEST_SET - 1, (length + LONGEST_SET) / 2]);
                draft.pad(target.max(length + 2) - length, random);
            }
            return draft;
        }
    }

    /// A draft of any size; one for a pair has no types 6 and 7 yet.
    pub fn of(kind: Kind, random: &mut Random) -> Draft {
        let scale = random.pick(&SCALES);
        let names = Names::drafted(random);
        let count = random.between(1, scale.configurations);
        let values = configuration_values(count, random);
        let configurations: Vec<Descriptors> =
            values.iter().map(|&value| configuration(value, kind, scale, &names, random)).collect();
        let device = device(kind, count, &names, random);
        let serial = if names.serial_index == 0 { Vec::new() } else { serial_block(random) };
        let strings = names.strings(random);
        let mut draft = Draft { device, configurations, strings, mirrors: Vec::new(), serial };
        add_unused_strings(&mut draft, &names.languages, random);
        draft
    }

    /// A draft of exactly 16,384 bytes.
    pub fn longest(random: &mut Random) -> Draft {
        loop {
            let mut draft = Draft::of(Kind::Alone, random);
            let length = draft.set().len();
            if length <= LONGEST_SET - 2 {
                draft.pad(LONGEST_SET - length, random);
                return draft;
            }
        }
    }

    /// Lengthens the set by class descriptors of as many bytes, two or more.
    pub fn pad(&mut self, bytes: usize, random: &mut Random) {
        let chosen = random.below(self.configurations.len());
        let descriptors = &mut self.configurations[chosen];
        let mut left = bytes;
        while left > 0 {
            // what is left over must make a descriptor too
            let length = if left == 256 { 254 } else { left.min(255) };
            let at = random.between(1, descriptors.len());
            descriptors.insert(at, class_descriptor(length, random));
            left -= length;
        }
    }

    /// The entries in the set's order, each configuration with its wTotalLength.
    pub fn entries(&self) -> Vec<DraftEntry> {
        let entry = |descriptor_type, index, body| DraftEntry { descriptor_type, index, language: 0, body };
        let mut entries = vec![entry(DEVICE, 0, self.device.clone())];
        for (index, descriptors) in self.configurations.iter().enumerate() {
            let mut body = descriptors.concat();
            if body.len() >= 4 {
                let total = body.len() as u16;
                body[2..4].copy_from_slice(&total.to_le_bytes());
            }
            entries.push(entry(CONFIGURATION, index as u8, body));
        }
        let mut strings = self.strings.clone();
        strings.sort_by_key(|string| (string.language, string.index));
        entries.extend(strings);
        entries.extend(self.mirrors.clone());
        entries
    }

    pub fn set(&self) -> Vec<u8> {
        lay_out(&self.entries())
    }

    /// How many entries the set has.
    pub fn entry_count(&self) -> usize {
        1 + self.configurations.len() + self.strings.len() + self.mirrors.len()
    }

    /// The languages that string 0 lists.
    pub fn languages(&self) -> Vec<u16> {
        let zero = self.strings.iter().find(|string| string.index == 0);
        zero.map_or(Vec::new(), |zero| {
            zero.body[2..].chunks_exact(2).map(|pair| u16::from_le_bytes([pair[0], pair[1]])).collect()
        })
    }

    /// An index that no string has and that is not the serial number's.
    pub fn free_index(&self, random: &mut Random) -> u8 {
        loop {
            let index = random.byte();
            let taken = self.strings.iter().any(|string| string.index == index);
            if index != 0 && index != self.device[16] && !taken {
                return index;
            }
        }
    }
}

/// Contents first, then bodies.
pub fn lay_out(entries: &[DraftEntry]) -> Vec<u8> {
    let mut offset = 4 + 8 * entries.len();
    let total = offset + entries.iter().map(|entry| entry.body.len()).sum::<usize>();
    let mut set = (total as u16).to_le_bytes().to_vec();
    set.extend([entries.len() as u8, 0]);
    for entry in entries {
        set.extend([entry.descriptor_type, entry.index]);
        set.extend(entry.language.to_le_bytes());
        set.extend((offset as u16).to_le_bytes());
        set.extend((entry.body.len() as u16).to_le_bytes());
        offset += entry.body.len();
    }
    for entry in entries {
        set.extend(&entry.body);
    }
    set
}

impl Names {
    fn drafted(random: &mut Random) -> Names {
        if random.percent(30) {
            return Names { languages: Vec::new(), used: Vec::new(), serial_index: 0 };
        }
        let mut languages: Vec<u16> = (0..random.between(1, 4)).map(|_| language(random)).collect();
        languages.sort_unstable();
        languages.dedup();
        let mut used: Vec<u8> = (0..random.between(0, 4)).map(|_| random.between(1, 255) as u8).collect();
        used.sort_unstable();
        used.dedup();
        let serial_index = random.between(1, 255) as u8;
        let has_serial = random.percent(60) && !used.contains(&serial_index);
        Names { languages, used, serial_index: if has_serial { serial_index } else { 0 } }
    }

    /// A reference that has its strings, or none.
    fn reference(&self, random: &mut Random) -> u8 {
        match random.below(3) {
            0 if !self.used.is_empty() => random.pick(&self.used),
            1 => self.serial_index,
            _ => 0,
        }
    }

    fn strings(&self, random: &mut Random) -> Vec<DraftEntry> {
        if self.languages.is_empty() {
            return Vec::new();
        }
        let mut listed = vec![2 + 2 * self.languages.len() as u8, STRING];
        listed.extend(self.languages.iter().flat_map(|language| language.to_le_bytes()));
        let mut strings = vec![DraftEntry { descriptor_type: STRING, index: 0, language: 0, body: listed }];
        for &language in &self.languages {
            strings.extend(self.used.iter().map(|&index| string(index, language, random)));
        }
        strings
    }
}

/// Strings that nothing refers to, in some listed languages only; sometimes as many as entries are allowed.
fn add_unused_strings(draft: &mut Draft, languages: &[u16], random: &mut Random) {
    if languages.is_empty() {
        return;
    }
    let room = MOST_ENTRIES - draft.entry_count();
    let wanted = if random.percent(3) { room } else { random.between(0, 2).min(room) };
    for _ in 0..wanted {
        let index = draft.free_index(random);
        let language = random.pick(languages);
        draft.strings.push(string(index, language, random));
    }
}

fn language(random: &mut Random) -> u16 {
    let any = random.between(1, 65_535) as u16;
    random.pick(&[0x0409, 0x0407, 0x0001, 0x0100, 0xffff, any])
}

pub fn string(index: u8, language: u16, random: &mut Random) -> DraftEntry {
    let any = random.between(1, 127);
    let body = string_body(2 * random.pick(&[1, 2, 3, 10, any, 127]), random);
    DraftEntry { descriptor_type: STRING, index, language, body }
}

/// bLength is the length as far as a byte holds it.
pub fn string_body(length: usize, random: &mut Random) -> Vec<u8> {
    let mut body = random.bytes(length);
    body[0] = length as u8;
    body[1] = STRING;
    body
}

pub fn serial_block(random: &mut Random) -> Vec<u8> {
    let any = random.between(2, 127);
    string_body(2 * random.pick(&[2, 3, 12, any, 127]), random)
}

fn device(kind: Kind, configurations: usize, names: &Names, random: &mut Random) -> Vec<u8> {
    let mut device = random.bytes(18);
    device[0] = 18;
    device[1] = DEVICE;
    if random.percent(50) {
        device[4] = 0;
    }
    if device[4] == 0 {
        device[5] = 0;
    }
    device[7] = random.pick(kind.control_sizes(Fault::None));
    device[14] = names.reference(random);
    device[15] = names.reference(random);
    device[16] = names.serial_index;
    device[17] = configurations as u8;
    device
}

/// Distinct and nonzero: sometimes one above the index, sometimes as far from it as can be.
fn configuration_values(count: usize, random: &mut Random) -> Vec<u8> {
    let mut values: Vec<u8> = (1..=if random.percent(60) { count as u8 } else { 255 }).collect();
    if random.percent(70) {
        random.shuffle(&mut values);
    }
    values.truncate(count);
    values
}

fn configuration(value: u8, kind: Kind, scale: Scale, names: &Names, random: &mut Random) -> Descriptors {
    let fewest = if random.percent(10) { scale.interfaces } else { 1 };
    let interfaces = random.between(fewest, scale.interfaces);
    let attributes = 0x80 | random.pick(&[0, 0x20, 0x40, 0x60]);
    let any = random.between(0, 250) as u8;
    let power = random.pick(&[0, 50, 249, 250, any]);
    let first = vec![9, CONFIGURATION, 0, 0, interfaces as u8, value, names.reference(random), attributes, power];
    let mut descriptors = vec![lengthened(first, random)];
    let mut addresses: Vec<u8> = (1..16).chain(0x81..0x90).collect();
    random.shuffle(&mut addresses);
    for interface in 0..interfaces {
        let own: Vec<u8> =
            addresses.split_off(addresses.len() - random.between(0, scale.addresses).min(addresses.len()));
        let most = if random.percent(30) { 1 } else { scale.alternates };
        let fewest = if random.percent(30) { most } else { 1 };
        for alternate in 0..random.between(fewest, most) {
            descriptors.extend(setting(kind, interface as u8, alternate as u8, &own, names, random));
        }
    }
    let mut at = 1;
    while scale.class_percent > 0 && at <= descriptors.len() {
        if random.percent(scale.class_percent) {
            let any = random.between(2, 60);
            let length = random.pick(&[2, 2, 3, 5, 7, 9, any]);
            let run = if random.percent(40) { random.between(2, 6) } else { 1 };
            descriptors.splice(at..at, class_descriptors(run, length, random));
        }
        at += 1;
    }
    descriptors
}

/// An interface descriptor and its endpoints, some of the interface's own addresses.
fn setting(kind: Kind, interface: u8, alternate: u8, own: &[u8], names: &Names, random: &mut Random) -> Descriptors {
    let mut chosen = own.to_vec();
    random.shuffle(&mut chosen);
    let fewest = if random.percent(40) { chosen.len() } else { 0 };
    chosen.truncate(random.between(fewest, chosen.len()));
    let string = names.reference(random);
    let class = random.bytes(3);
    let head = vec![9, INTERFACE, interface, alternate, chosen.len() as u8, class[0], class[1], class[2], string];
    let mut descriptors = vec![lengthened(head, random)];
    descriptors.extend(chosen.into_iter().map(|address| endpoint_of(kind, address, random)));
    descriptors
}

pub fn endpoint(address: u8, random: &mut Random) -> Vec<u8> {
    endpoint_of(Kind::Alone, address, random)
}

pub fn endpoint_of(kind: Kind, address: u8, random: &mut Random) -> Vec<u8> {
    let transfer_type = random.pick(&[ISOCHRONOUS, BULK, BULK, INTERRUPT, INTERRUPT]);
    let (size, interval) = match transfer_type {
        BULK if kind == Kind::PairedHigh => (512, random.pick(&[0, 1, 255])),
        _ if kind == Kind::PairedHigh => {
            let any = random.between(0, 1024) as u16;
            let size = random.pick(&[0, 1, 64, 512, 1023, 1024, any]);
            (size | random.pick(&[0, 0, 1, 2]) << 11, random.pick(&[1, 2, 4, 15, 16]))
        }
        ISOCHRONOUS => {
            let any = random.between(0, 1023) as u16;
            (random.pick(&[0, 1, 255, 256, 1022, 1023, any]), random.between(1, 16) as u8)
        }
        BULK => (random.pick(&[8, 16, 32, 64]), random.pick(&[0, 1, 255])),
        _ => {
            let any = random.between(0, 64) as u16;
            (random.pick(&[0, 1, 8, 63, 64, any]), random.pick(&[1, 10, 255]))
        }
    };
    let middle_bits = if transfer_type == ISOCHRONOUS { random.byte() & 0x3c } else { 0 };
    let [low, high] = size.to_le_bytes();
    lengthened(vec![7, ENDPOINT, address, transfer_type | middle_bits, low, high, interval], random)
}

/// Sometimes longer than it needs to be.
fn lengthened(mut descriptor: Vec<u8>, random: &mut Random) -> Vec<u8> {
    if random.percent(8) {
        let any = random.between(1, 240);
        let extra = random.pick(&[1, 2, 2, 3, any]).min(255 - descriptor.len());
        descriptor.extend(random.bytes(extra));
        descriptor[0] = descriptor.len() as u8;
    }
    descriptor
}

/// So many of one length, half the time of one type too.
pub fn class_descriptors(count: usize, length: usize, random: &mut Random) -> Descriptors {
    let mut run: Descriptors = (0..count).map(|_| class_descriptor(length, random)).collect();
    if random.percent(50) {
        let kind = run[0][1];
        run.iter_mut().for_each(|descriptor| descriptor[1] = kind);
    }
    run
}

/// Of a type that is stepped over.
pub fn class_descriptor(length: usize, random: &mut Random) -> Vec<u8> {
    let mut descriptor = random.bytes(length);
    descriptor[0] = length as u8;
    descriptor[1] = random.pick(&[0, 8, 9, 11, 0x21, 0x24, 0x25, 0xff]);
    descriptor
}
