//! Damage near every rule of opening: each item breaks one rule, or just does not.

use crate::descriptors::{BULK, INTERRUPT, ISOCHRONOUS};
use crate::draft::{class_descriptor, class_descriptors, endpoint, lay_out, serial_block, string, string_body};
use crate::draft::{Descriptors, Draft, DraftEntry, ENDPOINT, INTERFACE, LONGEST_SET, MOST_ENTRIES};
use crate::octets::number;
use crate::opening::STRING;
use crate::random::Random;

/// A change and the place where it is made.
#[derive(Clone, Copy)]
enum Damage {
    Device(fn(&mut Vec<u8>, &mut Random)),
    Configuration(fn(&mut Descriptors, &mut Random)),
    Interface(fn(&mut Vec<u8>, &mut Random)),
    Endpoint(fn(&mut Vec<u8>, &mut Random)),
    Draft(fn(&mut Draft, &mut Random)),
    /// Shortens something, after all other damage to the draft.
    Cut(fn(&mut Descriptors, &mut Random)),
    CutDevice(fn(&mut Vec<u8>)),
    Serial(fn(&mut Vec<u8>, &mut Random)),
    Entries(fn(&mut Vec<DraftEntry>, &mut Random)),
    Bytes(fn(&mut Vec<u8>, &mut Random)),
}

/// The set and the serial block of a draft, damaged in one place, seldom in two.
pub fn damaged(mut draft: Draft, random: &mut Random) -> (Vec<u8>, Vec<u8>) {
    let damages = chosen_damages(random);
    let entries = damage_entries(&mut draft, &damages, random);
    let mut set = lay_out(&entries);
    for damage in &damages {
        if let Damage::Bytes(change) = damage {
            change(&mut set, random);
        }
    }
    (set, draft.serial)
}

/// The same before it is laid out, with no damage to what the laying out makes.
pub fn damaged_entries(mut draft: Draft, random: &mut Random) -> (Vec<DraftEntry>, Vec<u8>) {
    let damages = chosen_damages(random);
    let entries = damage_entries(&mut draft, &damages, random);
    (entries, draft.serial)
}

fn damage_entries(draft: &mut Draft, damages: &[Damage], random: &mut Random) -> Vec<DraftEntry> {
    for damage in damages {
        damage_draft(draft, *damage, random);
    }
    for damage in damages {
        match damage {
            Damage::Cut(change) => change(any_configuration(draft, random), random),
            Damage::CutDevice(change) => change(&mut draft.device),
            _ => {}
        }
    }
    let mut entries = draft.entries();
    for damage in damages {
        if let Damage::Entries(change) = damage {
            change(&mut entries, random);
        }
    }
    entries
}

/// A set with some of its bytes, or its serial block's, changed anywhere.
pub fn flipped(draft: &Draft, random: &mut Random) -> (Vec<u8>, Vec<u8>) {
    let (mut set, mut serial) = (draft.set(), draft.serial.clone());
    for _ in 0..random.between(1, 3) {
        let block = if serial.is_empty() || random.percent(90) { &mut set } else { &mut serial };
        let at = random.below(block.len());
        block[at] ^= if random.percent(50) { 1 << random.below(8) } else { random.byte() };
    }
    (set, serial)
}

/// What cuts short, or damages bytes, leaves nothing for a second of its kind to find.
fn chosen_damages(random: &mut Random) -> Vec<Damage> {
    let mut damages = vec![random.pick(DAMAGES)];
    let second = random.pick(DAMAGES);
    let again = std::mem::discriminant(&second) == std::mem::discriminant(&damages[0]);
    let lasting = matches!(second, Damage::Cut(_) | Damage::Entries(_) | Damage::Bytes(_));
    if random.percent(12) && !(again && lasting) {
        damages.push(second);
    }
    damages
}

fn damage_draft(draft: &mut Draft, damage: Damage, random: &mut Random) {
    match damage {
        Damage::Device(change) => change(&mut draft.device, random),
        Damage::Configuration(change) => change(any_configuration(draft, random), random),
        Damage::Interface(change) => change_one(any_configuration(draft, random), INTERFACE, change, random),
        Damage::Endpoint(change) => change_one(any_configuration(draft, random), ENDPOINT, change, random),
        Damage::Draft(change) => change(draft, random),
        Damage::Serial(change) => change(&mut draft.serial, random),
        Damage::Cut(_) | Damage::CutDevice(_) | Damage::Entries(_) | Damage::Bytes(_) => {}
    }
}

fn any_configuration<'a>(draft: &'a mut Draft, random: &mut Random) -> &'a mut Descriptors {
    let chosen = random.below(draft.configurations.len());
    &mut draft.configurations[chosen]
}

fn change_one(descriptors: &mut Descriptors, wanted: u8, change: fn(&mut Vec<u8>, &mut Random), random: &mut Random) {
    if let Some(at) = place(descriptors, wanted, random) {
        change(&mut descriptors[at], random);
    }
}

/// Where some descriptor of a type stands.
fn place(descriptors: &Descriptors, wanted: u8, random: &mut Random) -> Option<usize> {
    let places: Vec<usize> = (1..descriptors.len()).filter(|&at| descriptors[at][1] == wanted).collect();
    if places.is_empty() {
        None
    } else {
        Some(random.pick(&places))
    }
}

/// Languages that string 0 may not list, and the most that it may.
const LISTS: [&[u16]; 7] = [&[], &[1, 2, 3, 4, 5], &[0], &[0, 9], &[9, 9], &[9, 7], &[1, 2, 3, 4]];

const DAMAGES: &[Damage] = &[
    // the frame
    Damage::Bytes(|set, random| set.truncate(random.below(5))),
    Damage::Bytes(|set, random| set.truncate(random.below(set.len() + 1))),
    Damage::Bytes(|set, random| shift_total(set, random.pick(&[-1, 1, 2, 256]))),
    Damage::Bytes(|set, random| set.push(random.byte())),
    Damage::Bytes(|set, _| set.resize(set.len() + 65_536, 0)),
    Damage::Bytes(|set, random| set[2] = random.pick(&[0, 65, 255])),
    Damage::Bytes(|set, random| set[2] = set[2].wrapping_add(random.pick(&[1, 255]))),
    Damage::Bytes(|set, random| set[2] = random.between(1, 64) as u8),
    Damage::Bytes(|set, random| set[3] = random.pick(&[1, 64, 255])),
    Damage::Bytes(|set, _| shrink_below_contents(set)),
    Damage::Draft(|draft, random| pad_to(draft, LONGEST_SET + random.between(0, 1), random)),
    Damage::Draft(|draft, random| {
        add_strings(draft, random.pick(&[MOST_ENTRIES - 1, MOST_ENTRIES, MOST_ENTRIES + 1]), random)
    }),
    // the contents
    Damage::Bytes(|set, random| change_entry(set, 0, random.pick(&[0, 2, 4, 255]), random)),
    Damage::Bytes(|set, random| shift_entry(set, 4, random)),
    Damage::Bytes(|set, random| shift_entry(set, 6, random)),
    Damage::Bytes(|set, random| shift_first_body(set, random.pick(&[1, 65_535]))),
    Damage::Bytes(add_behind_last_body),
    Damage::Entries(|entries, random| swap_neighbours(entries, random)),
    Damage::Entries(repeat_one),
    Damage::Entries(|entries, _| entries.sort_by_key(|entry| (entry.descriptor_type, entry.index, entry.language))),
    Damage::Entries(|entries, random| shorten_body(entries, random)),
    Damage::Entries(|entries, random| add_entry(entries, random.pick(&[0, 4, 6]), random)),
    // the device
    Damage::Entries(repeat_device),
    Damage::Entries(|entries, _| {
        entries.remove(0);
    }),
    Damage::Entries(|entries, random| entries[0].index = random.pick(&[1, 255])),
    Damage::Entries(|entries, random| entries[0].language = random.pick(&[1, 0x0409])),
    Damage::CutDevice(|device| device.push(0)),
    Damage::CutDevice(|device| device.truncate(17)),
    Damage::Device(|device, random| device[0] = random.pick(&[0, 17, 19])),
    Damage::Device(|device, random| device[1] = random.pick(&[0, 2, 255])),
    Damage::Device(|device, random| device[7] = random.pick(&[0, 7, 9, 12, 24, 63, 65, 128, 255])),
    Damage::Device(|device, random| device[4..6].copy_from_slice(&[0, random.pick(&[1, 255])])),
    Damage::Device(|device, random| device[17] = random.pick(&[0, 9, 255])),
    Damage::Device(|device, random| device[17] = device[17].wrapping_add(random.pick(&[1, 255]))),
    Damage::Draft(|draft, random| add_configurations(draft, random.pick(&[8, 9]))),
    // the configurations
    Damage::Entries(|entries, random| renumber_configurations(entries, random)),
    Damage::Entries(|entries, random| {
        if let Some(at) = last_configuration(entries) {
            entries[at].language = random.pick(&[1, 256])
        }
    }),
    Damage::Cut(|descriptors, random| any_descriptor(descriptors, random)[0] = random.pick(&[0, 1])),
    Damage::Cut(misstate_last_length),
    Damage::Cut(|descriptors, random| descriptors.push(vec![random.pick(&[0, 1, 2, 9])])),
    Damage::Configuration(|descriptors, random| descriptors[0][1] = random.pick(&[0, 1, 3, 4, 7])),
    Damage::Cut(|descriptors, random| shorten(&mut descriptors[0], random.pick(&[2, 8]))),
    Damage::Entries(|entries, random| shift_total_length(entries, random.pick(&[1, 65_535, 256]))),
    Damage::Configuration(|descriptors, _| descriptors[0][7] &= 0x7f),
    Damage::Configuration(|descriptors, random| descriptors[0][7] |= 1 << random.below(5)),
    Damage::Configuration(|descriptors, random| descriptors[0][8] = random.pick(&[250, 251, 252, 255])),
    Damage::Configuration(insert_refused),
    Damage::Configuration(|descriptors, random| any_descriptor(descriptors, random)[1] = random.pick(&[1, 2, 3, 6, 7])),
    Damage::Cut(|descriptors, random| change_one(descriptors, INTERFACE, shorten_by_one, random)),
    Damage::Cut(|descriptors, random| change_one(descriptors, ENDPOINT, shorten_by_one, random)),
    Damage::Configuration(|descriptors, random| descriptors.insert(1, endpoint(random.pick(&[1, 0x8f]), random))),
    // interfaces
    Damage::Configuration(|descriptors, random| descriptors[0][4] = random.pick(&[0, 17, 255])),
    Damage::Configuration(|descriptors, random| {
        descriptors[0][4] = descriptors[0][4].wrapping_add(random.pick(&[1, 255]))
    }),
    Damage::Configuration(|descriptors, _| remove_interfaces(descriptors)),
    Damage::Configuration(|descriptors, random| add_interfaces(descriptors, random.pick(&[16, 17]))),
    Damage::Configuration(|descriptors, random| add_alternates(descriptors, random.pick(&[15, 16]))),
    Damage::Configuration(|descriptors, _| shift_numbers(descriptors, 2)),
    Damage::Configuration(|descriptors, _| shift_numbers(descriptors, 3)),
    Damage::Interface(|interface, random| interface[2] = interface[2].wrapping_add(random.pick(&[1, 2, 255]))),
    Damage::Interface(|interface, random| interface[3] = interface[3].wrapping_add(random.pick(&[1, 2, 255]))),
    Damage::Configuration(start_at_alternate_one),
    Damage::Configuration(repeat_setting),
    Damage::Interface(|interface, random| interface[4] = interface[4].wrapping_add(random.pick(&[1, 255]))),
    Damage::Configuration(change_last_count),
    // endpoints
    Damage::Endpoint(|endpoint, random| endpoint[2] |= random.pick(&[0x10, 0x20, 0x40])),
    Damage::Endpoint(|endpoint, _| endpoint[2] &= 0xf0),
    Damage::Endpoint(|endpoint, random| endpoint[3] |= random.pick(&[0x40, 0x80])),
    Damage::Endpoint(|endpoint, _| endpoint[3] &= 0xfc),
    Damage::Endpoint(|endpoint, random| {
        endpoint[3] = random.pick(&[0x04, 0x08, 0x10, 0x20]) | random.between(1, 3) as u8
    }),
    Damage::Endpoint(|endpoint, random| {
        resize(endpoint, BULK, random.pick(&[0, 7, 9, 24, 63, 65, 128, 512, 0x0140, 0x1040, 0x0808]))
    }),
    Damage::Endpoint(|endpoint, random| resize(endpoint, INTERRUPT, random.pick(&[64, 65, 66, 256, 0x0140, 0x0840]))),
    Damage::Endpoint(|endpoint, random| {
        resize(endpoint, ISOCHRONOUS, random.pick(&[1023, 1024, 1025, 0x0800, 0xffff]))
    }),
    Damage::Endpoint(|endpoint, _| {
        resize(endpoint, INTERRUPT, 8);
        endpoint[6] = 0
    }),
    Damage::Endpoint(|endpoint, random| {
        resize(endpoint, ISOCHRONOUS, 8);
        endpoint[6] = random.pick(&[0, 16, 17, 255])
    }),
    Damage::Configuration(repeat_address),
    Damage::Configuration(repeat_address),
    Damage::Configuration(copy_endpoint_behind),
    Damage::Configuration(|descriptors, _| descriptors[0][5] = 0),
    Damage::Draft(repeat_value),
    // strings
    Damage::Draft(|draft, random| {
        change_string(draft, random, |body, random| body[0] = body[0].wrapping_add(random.pick(&[1, 2, 254])))
    }),
    Damage::Draft(|draft, random| change_string(draft, random, |body, random| body[1] = random.pick(&[0, 2, 4]))),
    Damage::Draft(|draft, random| {
        change_string(draft, random, |body, random| *body = string_body(random.pick(&[3, 5, 253, 255]), random))
    }),
    Damage::Draft(|draft, random| {
        change_string(draft, random, |body, random| {
            *body = string_body(random.pick(&[256, 257, 258, 510, 512]), random)
        })
    }),
    Damage::Draft(|draft, random| {
        let index = draft.free_index(random);
        draft.strings.push(string(index, 0, random))
    }),
    Damage::Draft(|draft, random| add_in_language(draft, 0, random)),
    Damage::Draft(|draft, random| {
        if let Some(zero) = string_zero(draft) {
            zero.language = random.pick(&[1, 0x0409])
        }
    }),
    Damage::Draft(|draft, random| relist(draft, random.pick(&LISTS))),
    Damage::Draft(list_one_more),
    Damage::Draft(|draft, random| {
        let index = draft.free_index(random);
        add_in_language(draft, index, random)
    }),
    Damage::Draft(|draft, _| draft.strings.retain(|string| string.index != 0)),
    Damage::Draft(|draft, _| draft.strings.clear()),
    Damage::Draft(serial_alone),
    Damage::Draft(add_serial_entry),
    Damage::Draft(refer_to_missing),
    Damage::Draft(refer_to_missing),
    Damage::Draft(|draft, random| {
        let at = random.below(draft.strings.len().max(1));
        draft.strings.truncate(at)
    }),
    Damage::Draft(|draft, _| drop_last_language(draft)),
    // the serial block
    Damage::Serial(|serial, random| *serial = string_body(random.pick(&[2, 3, 4, 5, 253, 254, 255, 256]), random)),
    Damage::Serial(|serial, random| *serial = string_body(random.pick(&[2, 3, 4, 5, 253, 254, 255, 256]), random)),
    Damage::Serial(|serial, random| if serial.is_empty() { *serial = serial_block(random) } else { serial.clear() }),
    Damage::Serial(|serial, random| {
        if let Some(length) = serial.first_mut() {
            *length = length.wrapping_add(random.pick(&[1, 2, 254]))
        }
    }),
    Damage::Serial(|serial, random| {
        if serial.len() > 1 {
            serial[1] = random.pick(&[0, 2, 4])
        }
    }),
];

fn shift_total(set: &mut [u8], by: i32) {
    let total = (i32::from(number(set, 0)) + by) as u16;
    set[..2].copy_from_slice(&total.to_le_bytes());
}

/// Total and length agree, but the contents do not fit.
fn shrink_below_contents(set: &mut Vec<u8>) {
    let length = 4 + 8 * usize::from(set[2]) - 1;
    set.truncate(length);
    set[..2].copy_from_slice(&(length as u16).to_le_bytes());
}

fn pad_to(draft: &mut Draft, length: usize, random: &mut Random) {
    let now = draft.set().len();
    if now + 2 <= length {
        draft.pad(length - now, random);
    }
}

/// Unused strings up to a number of entries.
fn add_strings(draft: &mut Draft, entries: usize, random: &mut Random) {
    let languages = draft.languages();
    while !languages.is_empty() && draft.entry_count() < entries {
        let index = draft.free_index(random);
        draft.strings.push(string(index, random.pick(&languages), random));
    }
}

fn any_entry(set: &[u8], random: &mut Random) -> usize {
    4 + 8 * random.below(usize::from(set[2].max(1)))
}

fn change_entry(set: &mut [u8], field: usize, value: u8, random: &mut Random) {
    let at = any_entry(set, random) + field;
    set[at] = value;
}

/// One entry's offset or length, off by one.
fn shift_entry(set: &mut [u8], field: usize, random: &mut Random) {
    let at = any_entry(set, random) + field;
    set[at] = set[at].wrapping_add(random.pick(&[1, 255]));
}

/// Every body off by as much, so that they still join.
fn shift_first_body(set: &mut [u8], by: u16) {
    for entry in 0..usize::from(set[2]) {
        let at = 4 + 8 * entry + 4;
        let offset = number(set, at).wrapping_add(by);
        set[at..at + 2].copy_from_slice(&offset.to_le_bytes());
    }
}

/// Bytes that no entry names, counted in the total.
fn add_behind_last_body(set: &mut Vec<u8>, random: &mut Random) {
    let more = random.between(1, 3);
    set.extend(random.bytes(more));
    let total = set.len() as u16;
    set[..2].copy_from_slice(&total.to_le_bytes());
}

fn swap_neighbours(entries: &mut [DraftEntry], random: &mut Random) {
    if entries.len() > 1 {
        let at = random.below(entries.len() - 1);
        entries.swap(at, at + 1);
    }
}

fn repeat_one(entries: &mut Vec<DraftEntry>, random: &mut Random) {
    let at = random.below(entries.len());
    entries.insert(at, entries[at].clone());
}

fn shorten_body(entries: &mut [DraftEntry], random: &mut Random) {
    let at = random.below(entries.len());
    entries[at].body.truncate(random.pick(&[0, 1, 2]));
}

/// At its place by type, or at the end.
fn add_entry(entries: &mut Vec<DraftEntry>, descriptor_type: u8, random: &mut Random) {
    let entry = DraftEntry { descriptor_type, index: 0, language: 0, body: random.bytes(4) };
    entries.insert(if descriptor_type == 0 { 0 } else { entries.len() }, entry);
}

fn repeat_device(entries: &mut Vec<DraftEntry>, random: &mut Random) {
    let mut second = entries[0].clone();
    (second.index, second.language) = random.pick(&[(1, 0), (0, 1)]);
    entries.insert(1, second);
}

/// Eight configurations, or one too many, each with a value of its own.
fn add_configurations(draft: &mut Draft, count: usize) {
    let taken: Vec<u8> = draft.configurations.iter().map(|descriptors| descriptors[0][5]).collect();
    let free = (1..=255).filter(|value| !taken.contains(value));
    for value in free.take(count.saturating_sub(taken.len())) {
        draft.configurations.push(vec![vec![9, 2, 0, 0, 1, value, 0, 0x80, 50], bare_interface(0, 0)]);
    }
    draft.device[17] = draft.configurations.len() as u8;
}

fn configurations(entries: &mut [DraftEntry]) -> impl Iterator<Item = &mut DraftEntry> {
    entries.iter_mut().filter(|entry| entry.descriptor_type == 2)
}

/// Indices from 1, or with a gap.
fn renumber_configurations(entries: &mut [DraftEntry], random: &mut Random) {
    let first = random.below(2);
    for (at, entry) in configurations(entries).enumerate() {
        if at >= first {
            entry.index += 1;
        }
    }
}

fn last_configuration(entries: &[DraftEntry]) -> Option<usize> {
    entries.iter().rposition(|entry| entry.descriptor_type == 2)
}

fn any_descriptor<'a>(descriptors: &'a mut Descriptors, random: &mut Random) -> &'a mut Vec<u8> {
    let at = random.below(descriptors.len());
    &mut descriptors[at]
}

fn shift_total_length(entries: &mut [DraftEntry], by: u16) {
    for entry in configurations(entries).filter(|entry| entry.body.len() >= 4).take(1) {
        let total = number(&entry.body, 2).wrapping_add(by);
        entry.body[2..4].copy_from_slice(&total.to_le_bytes());
    }
}

/// The bytes behind are gone, and bLength says so.
fn shorten(descriptor: &mut Vec<u8>, length: usize) {
    descriptor.truncate(length);
    descriptor[0] = length as u8;
}

/// Down to one byte too few, whatever the descriptor's length was.
fn shorten_by_one(descriptor: &mut Vec<u8>, _: &mut Random) {
    shorten(descriptor, if descriptor[1] == INTERFACE { 8 } else { 6 });
}

/// The last descriptor ends elsewhere than the body: by its length, or as the last of a run that is cut off.
fn misstate_last_length(descriptors: &mut Descriptors, random: &mut Random) {
    if random.percent(30) {
        let (count, length) = (random.between(2, 4), random.between(3, 9));
        let mut run = class_descriptors(count, length, random);
        run[count - 1].truncate(length - 1);
        return descriptors.extend(run);
    }
    if let Some(last) = descriptors.last_mut() {
        last[0] = random.pick(&[0, 1, 3, 8, 10, 255]);
    }
}

fn insert_refused(descriptors: &mut Descriptors, random: &mut Random) {
    let at = random.between(1, descriptors.len());
    let mut descriptor = class_descriptor(random.pick(&[2, 9, 10]), random);
    descriptor[1] = random.pick(&[1, 2, 3, 6, 7]);
    descriptors.insert(at, descriptor);
}

fn remove_interfaces(descriptors: &mut Descriptors) {
    descriptors[0][4] = 1;
    descriptors.retain(|descriptor| descriptor[1] != INTERFACE && descriptor[1] != ENDPOINT);
}

fn bare_interface(interface: u8, alternate: u8) -> Vec<u8> {
    vec![9, INTERFACE, interface, alternate, 0, 255, 0, 0, 0]
}

fn add_interfaces(descriptors: &mut Descriptors, count: u8) {
    for interface in descriptors[0][4]..count {
        descriptors.push(bare_interface(interface, 0));
    }
    descriptors[0][4] = count;
}

/// Alternates of the last interface, up to the last allowed or one beyond.
fn add_alternates(descriptors: &mut Descriptors, last: u8) {
    let settings = descriptors.iter().filter(|descriptor| descriptor[1] == INTERFACE);
    if let Some((interface, alternate)) = settings.map(|setting| (setting[2], setting[3])).next_back() {
        descriptors.extend((alternate.saturating_add(1)..=last).map(|alternate| bare_interface(interface, alternate)));
    }
}

/// Every interface number, or the first interface's alternates, one too high.
fn shift_numbers(descriptors: &mut Descriptors, field: usize) {
    if field == 2 {
        descriptors[0][4] = descriptors[0][4].wrapping_add(1);
    }
    for descriptor in descriptors.iter_mut().filter(|descriptor| descriptor[1] == INTERFACE) {
        if field == 2 || descriptor[2] == 0 {
            descriptor[field] = descriptor[field].wrapping_add(1);
        }
    }
}

/// The first setting of a later interface has alternate 1, and the next ones follow.
fn start_at_alternate_one(descriptors: &mut Descriptors, random: &mut Random) {
    let chosen = random.below(usize::from(descriptors[0][4].max(1))) as u8;
    for descriptor in descriptors.iter_mut().filter(|descriptor| descriptor[1] == INTERFACE && descriptor[2] == chosen)
    {
        descriptor[3] = descriptor[3].wrapping_add(1);
    }
}

/// A second copy of one interface descriptor, without endpoints.
fn repeat_setting(descriptors: &mut Descriptors, random: &mut Random) {
    if let Some(at) = place(descriptors, INTERFACE, random) {
        descriptors.insert(at, bare_interface(descriptors[at][2], descriptors[at][3]));
    }
}

fn change_last_count(descriptors: &mut Descriptors, random: &mut Random) {
    if let Some(last) = descriptors.iter_mut().rev().find(|descriptor| descriptor[1] == INTERFACE) {
        last[4] = last[4].wrapping_add(random.pick(&[1, 255]));
    }
}

/// An endpoint of a transfer type, without its middle bits, with a packet size.
fn resize(endpoint: &mut [u8], transfer_type: u8, size: u16) {
    endpoint[3] = transfer_type;
    endpoint[4..6].copy_from_slice(&size.to_le_bytes());
    endpoint[6] = endpoint[6].clamp(1, 16);
}

/// An address of another endpoint: of this setting, of another alternate (which is allowed) or of another interface.
fn repeat_address(descriptors: &mut Descriptors, random: &mut Random) {
    if let (Some(from), Some(to)) = (place(descriptors, ENDPOINT, random), place(descriptors, ENDPOINT, random)) {
        descriptors[to][2] = descriptors[from][2];
    }
}

/// The same endpoint twice in a setting, or once in each direction, which is allowed unless it is taken.
fn copy_endpoint_behind(descriptors: &mut Descriptors, random: &mut Random) {
    if let Some(at) = place(descriptors, ENDPOINT, random) {
        let mut copy = descriptors[at].clone();
        copy[2] ^= random.pick(&[0, 0x80]);
        descriptors.insert(at, copy);
        if let Some(setting) = descriptors[..at].iter_mut().rev().find(|descriptor| descriptor[1] == INTERFACE) {
            setting[4] = setting[4].wrapping_add(1);
        }
    }
}

fn repeat_value(draft: &mut Draft, random: &mut Random) {
    let from = random.below(draft.configurations.len());
    let to = random.below(draft.configurations.len());
    draft.configurations[to][0][5] = draft.configurations[from][0][5];
}

fn change_string(draft: &mut Draft, random: &mut Random, change: fn(&mut Vec<u8>, &mut Random)) {
    if !draft.strings.is_empty() {
        let at = random.below(draft.strings.len());
        change(&mut draft.strings[at].body, random);
    }
}

fn string_zero(draft: &mut Draft) -> Option<&mut DraftEntry> {
    draft.strings.iter_mut().find(|string| string.index == 0)
}

/// Mostly a language that is not listed.
fn add_in_language(draft: &mut Draft, index: u8, random: &mut Random) {
    let any = random.between(1, 65_535) as u16;
    let near = draft.languages().last().map_or(1, |last| last.wrapping_add(1).max(1));
    draft.strings.push(string(index, random.pick(&[any, near]), random));
}

/// Lists other languages, and leaves no other string or reference.
fn relist(draft: &mut Draft, languages: &[u16]) {
    let mut body = vec![2 + 2 * languages.len() as u8, STRING];
    body.extend(languages.iter().flat_map(|language| language.to_le_bytes()));
    draft.strings = vec![DraftEntry { descriptor_type: STRING, index: 0, language: 0, body }];
}

/// One language more at the end of the list, with a copy of every string: a fifth, or one that is allowed.
fn list_one_more(draft: &mut Draft, random: &mut Random) {
    let Some(&last) = draft.languages().last() else { return };
    let language = last.saturating_add(random.pick(&[0, 1, 7]));
    let copies: Vec<DraftEntry> = draft.strings.iter().filter(|string| string.language == last).cloned().collect();
    let room = MOST_ENTRIES.saturating_sub(draft.entry_count());
    if language != last {
        draft.strings.extend(copies.into_iter().take(room).map(|copy| DraftEntry { language, ..copy }));
    }
    if let Some(zero) = string_zero(draft) {
        zero.body.extend(language.to_le_bytes());
        zero.body[0] = zero.body[0].wrapping_add(2);
    }
}

/// iSerialNumber is the only reference, and there is no string; the serial block is right.
fn serial_alone(draft: &mut Draft, random: &mut Random) {
    draft.strings.clear();
    draft.device[14..17].copy_from_slice(&[0, 0, 7]);
    draft.serial = serial_block(random);
    for descriptors in &mut draft.configurations {
        descriptors[0][6] = 0;
        for interface in descriptors.iter_mut().filter(|descriptor| descriptor[1] == INTERFACE) {
            interface[8] = 0;
        }
    }
}

fn add_serial_entry(draft: &mut Draft, random: &mut Random) {
    let languages = draft.languages();
    if draft.device[16] != 0 && !languages.is_empty() {
        let language = random.pick(&languages);
        draft.strings.push(string(draft.device[16], language, random));
    }
}

/// One of the references names an index that has no string, or has it in some languages only.
fn refer_to_missing(draft: &mut Draft, random: &mut Random) {
    let free = draft.free_index(random);
    let there: Vec<u8> = draft.strings.iter().map(|string| string.index).collect();
    let index = if there.is_empty() || random.percent(60) { free } else { random.pick(&there) };
    let chosen = random.below(draft.configurations.len());
    let descriptors = &mut draft.configurations[chosen];
    match random.below(4) {
        0 => draft.device[14] = index,
        1 => draft.device[15] = index,
        2 => descriptors[0][6] = index,
        _ => {
            if let Some(at) = place(descriptors, INTERFACE, random) {
                descriptors[at][8] = index;
            }
        }
    }
}

/// The last listed language loses one of its strings.
fn drop_last_language(draft: &mut Draft) {
    let last = draft.languages().last().copied();
    if let Some(at) = draft.strings.iter().position(|string| Some(string.language) == last) {
        draft.strings.remove(at);
    }
}
