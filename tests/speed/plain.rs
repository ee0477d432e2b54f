//! Document 01 as quick as plain Rust gets it: each event checks the set and the serial block in one walk, which keeps
//! of the selected configuration what the record and the event ask, then checks the record, and answers. Nothing is on
//! the heap. Of the requests it knows GET_STATUS of an endpoint alone, the one that is measured.

const DEVICE: u32 = 1;
const CONFIGURATION: u32 = 2;
const STRING: u32 = 3;
const INTERFACE: u8 = 4;
const ENDPOINT: u8 = 5;
const LAST_STANDARD: u8 = 7;
const LAST_ALTERNATE: u8 = 15;
const ISOCHRONOUS: u8 = 1;
const BULK: u8 = 2;
const INTERRUPT: u8 = 3;
const CONFIGURED: u8 = 2;
const NOTHING_WAITS: u8 = 255;
const WAKEUP: u8 = 0x20;

pub type Image = [u8; 32];
/// A bit for each string index.
type Indices = [u64; 4];

#[inline(always)]
fn require(condition: bool, number: u8) -> Result<(), u8> {
    if condition {
        Ok(())
    } else {
        Err(number)
    }
}

fn add(indices: &mut Indices, index: u8) {
    indices[usize::from(index >> 6)] |= 1 << (index & 63);
}

fn has(indices: &Indices, index: u8) -> bool {
    indices[usize::from(index >> 6)] >> (index & 63) & 1 != 0
}

/// An endpoint address as a place in a word of bits: twice its number, and its direction.
fn slot(address: u8) -> u8 {
    address.rotate_left(1)
}

/// The record's halts or toggles by slot: there bit e is OUT number e, bit 16 + e IN.
fn by_slot(bits: u32) -> u32 {
    let number = |at: u32| bits >> at & 1;
    if bits == 0 {
        0
    } else {
        (0..16).fold(0, |slots, at| slots | (number(at) | number(16 + at) << 1) << (2 * at))
    }
}

/// An entry of the contents: type, index, language, offset and length in eight bytes.
#[derive(Clone, Copy)]
struct Entry(u64);

impl Entry {
    fn at(line: &[u8; 8]) -> Entry {
        Entry(u64::from_le_bytes(*line))
    }

    /// What the entries ascend by: type, then language, then index, from the highest bits on.
    fn key(self) -> u32 {
        (self.0 as u32).rotate_right(8)
    }

    fn descriptor_type(self) -> u32 {
        u32::from(self.0 as u8)
    }

    fn index(self) -> u8 {
        (self.0 >> 8) as u8
    }

    fn language(self) -> u16 {
        (self.0 >> 16) as u16
    }

    fn offset(self) -> usize {
        usize::from((self.0 >> 32) as u16)
    }

    fn length(self) -> usize {
        (self.0 >> 48) as usize
    }

    fn body(self, set: &[u8]) -> &[u8] {
        set.get(self.offset()..self.offset() + self.length()).unwrap_or(&[])
    }

    /// Its body begins as a string's: its length, which is even and below 256, and type 3.
    fn is_string(self, set: &[u8]) -> bool {
        let head = set.get(self.offset()..).and_then(|behind| behind.first_chunk::<2>());
        let length = (self.0 >> 48) as u16;
        length & 0xFF01 == 0 && head.is_some_and(|head| u16::from_le_bytes(*head) == length | 0x300)
    }
}

/// Groups 1 and 2.
fn contents(set: &[u8]) -> Result<&[[u8; 8]], u8> {
    let [low, high, count, 0, rest @ ..] = set else { return Err(1) };
    require(set.len() <= 16_384 && usize::from(u16::from_le_bytes([*low, *high])) == set.len(), 1)?;
    require((1..=64).contains(count), 1)?;
    let lines = rest.as_chunks::<8>().0.get(..usize::from(*count)).ok_or(1)?;
    let (mut offset, mut last) = (4 + 8 * lines.len(), (DEVICE << 24) - 1);
    for line in lines {
        let entry = Entry::at(line);
        require(entry.offset() == offset && entry.length() >= 2 && last < entry.key(), 2)?;
        offset += entry.length();
        last = entry.key();
    }
    require(offset == set.len() && last >> 24 <= STRING, 2)?;
    Ok(lines)
}

/// Group 3: the device descriptor, and the entries of configurations and of strings.
fn device<'a>(set: &'a [u8], lines: &'a [[u8; 8]]) -> Result<(&'a [u8; 18], &'a [[u8; 8]], &'a [[u8; 8]]), u8> {
    let (first, rest) = lines.split_first().ok_or(3)?;
    let entry = Entry::at(first);
    let device: &[u8; 18] = entry.body(set).try_into().map_err(|_| 3)?;
    require(entry.key() == DEVICE << 24 && device[0] == 18 && device[1] == DEVICE as u8, 3)?;
    require(matches!(device[7], 8 | 16 | 32 | 64) && (device[4] != 0 || device[5] == 0), 3)?;
    require((1..=8).contains(&device[17]), 3)?;
    let (configurations, strings) = rest.split_at_checked(usize::from(device[17])).ok_or(3)?;
    let is_configuration = |line: &[u8; 8]| Entry::at(line).descriptor_type() == CONFIGURATION;
    require(
        configurations.first().is_some_and(is_configuration) && configurations.last().is_some_and(is_configuration),
        3,
    )?;
    require(strings.first().is_none_or(|line| !is_configuration(line)), 3)?;
    Ok((device, configurations, strings))
}

/// What the walk keeps: of all configurations the string indices that are named and whether one supports wakeup; of the
/// selected one, if there is one, whether the record's alternates exist, and the endpoints of the current settings.
#[derive(Default)]
pub struct Kept {
    named: Indices,
    wakes: bool,
    alternates_exist: bool,
    current: u32,
    isochronous: u32,
}

/// Where the walk through a configuration stands.
#[derive(Default)]
struct Place {
    interface: u8,
    alternate: u8,
    coming: u8,       // endpoints of this setting that are still to come
    is_current: bool, // this setting is the interface's current one
    currents: u8,     // how many settings were
    in_earlier: u32,  // endpoints by slot: of the interfaces before,
    in_settings: u32, // of these and of the settings before,
    taken: u32,       // of the interfaces before and of this setting,
    isochronous: u32, // of this setting those that are isochronous
}

impl Kept {
    fn name(&mut self, index: u8) {
        if index != 0 {
            add(&mut self.named, index);
        }
    }

    /// Group 4.
    fn configurations(&mut self, set: &[u8], lines: &[[u8; 8]], image: &Image) -> Result<(), u8> {
        let mut values = Indices::default();
        for (at, line) in lines.iter().enumerate() {
            let entry = Entry::at(line);
            require(entry.key() == CONFIGURATION << 24 | at as u32, 4)?;
            let body = entry.body(set);
            let head: &[u8; 9] = body.first_chunk().ok_or(4)?;
            let [first, 2, low, high, interfaces, value, named, attributes, power] = *head else { return Err(4) };
            require(first >= 9 && usize::from(u16::from_le_bytes([low, high])) == body.len(), 4)?;
            require(attributes & 0x9F == 0x80 && power <= 250 && (1..=16).contains(&interfaces), 4)?;
            require(value != 0 && !has(&values, value), 4)?;
            add(&mut values, value);
            self.wakes |= attributes & WAKEUP != 0;
            self.name(named);
            let rest = body.get(usize::from(first)..).ok_or(4)?;
            let alternates: &[u8; 16] = image[8..24].try_into().unwrap();
            if image[0] == CONFIGURED && image[3] == value {
                self.walk::<true>(rest, interfaces, alternates)?;
            } else {
                self.walk::<false>(rest, interfaces, alternates)?;
            }
        }
        Ok(())
    }

    /// The descriptors behind a configuration's first.
    fn walk<const SELECTED: bool>(&mut self, mut rest: &[u8], interfaces: u8, alternates: &[u8; 16]) -> Result<(), u8> {
        let mut place = Place { interface: 255, alternate: LAST_ALTERNATE, ..Place::default() };
        while let [length, kind, ..] = *rest {
            let (descriptor, behind) = rest.split_at_checked(usize::from(length)).ok_or(4)?;
            rest = behind;
            if kind > LAST_STANDARD {
                require(length >= 2, 4)?;
            } else if kind == ENDPOINT {
                place.endpoint(descriptor)?;
            } else if kind == INTERFACE {
                self.interface::<SELECTED>(&mut place, descriptor, interfaces, alternates)?;
            } else {
                require(kind == 0 && length >= 2, 4)?;
            }
        }
        require(rest.is_empty() && place.coming == 0 && place.interface == interfaces - 1, 4)?;
        if SELECTED {
            self.end_setting(&place);
            let absent = u128::from_le_bytes(*alternates).checked_shr(8 * u32::from(interfaces)).unwrap_or(0);
            self.alternates_exist = place.currents == interfaces && absent == 0;
        }
        Ok(())
    }

    #[inline(always)]
    fn end_setting(&mut self, place: &Place) {
        if place.is_current {
            self.current |= place.taken ^ place.in_earlier;
            self.isochronous |= place.isochronous;
        }
    }

    #[inline(always)]
    fn interface<const SELECTED: bool>(
        &mut self,
        place: &mut Place,
        descriptor: &[u8],
        interfaces: u8,
        alternates: &[u8; 16],
    ) -> Result<(), u8> {
        let fields: &[u8; 9] = descriptor.first_chunk().ok_or(4)?;
        let [_, _, number, alternate, endpoints, _, _, _, named] = *fields;
        require(place.coming == 0, 4)?;
        place.coming = endpoints;
        self.name(named);
        if SELECTED {
            self.end_setting(place);
            place.isochronous = 0;
            place.is_current = alternates[usize::from(number & 15)] == alternate;
            place.currents += u8::from(place.is_current);
        }
        place.in_settings |= place.taken;
        if number == place.interface {
            require(alternate == place.alternate + 1 && alternate <= LAST_ALTERNATE, 4)?;
        } else {
            require(number == place.interface.wrapping_add(1) && number < interfaces && alternate == 0, 4)?;
            place.interface = number;
            place.in_earlier = place.in_settings;
        }
        place.alternate = alternate;
        place.taken = place.in_earlier;
        Ok(())
    }
}

impl Place {
    #[inline(always)]
    fn endpoint(&mut self, descriptor: &[u8]) -> Result<(), u8> {
        let fields: &[u8; 7] = descriptor.first_chunk().ok_or(4)?;
        let slot = slot(fields[2]); // at least 2 since the number is not 0, below 32 since bits 6 to 4 are
        require((2..32).contains(&slot) && self.taken >> slot & 1 == 0, 4)?;
        self.coming = self.coming.checked_sub(1).ok_or(4)?;
        self.taken |= 1 << slot;
        let size = u16::from_le_bytes(fields[4..6].try_into().unwrap());
        let (attributes, interval) = (fields[3], fields[6]);
        if attributes == INTERRUPT {
            require(size <= 64 && interval != 0, 4)
        } else if attributes == BULK {
            require(matches!(size, 8 | 16 | 32 | 64), 4)
        } else {
            self.isochronous |= 1 << slot;
            require(attributes & 0xC3 == ISOCHRONOUS && size <= 1023 && (1..=16).contains(&interval), 4)
        }
    }
}

/// Group 5. The entries stand by language, each of them by index.
fn strings(set: &[u8], lines: &[[u8; 8]], named: &Indices, serial: u8) -> Result<(), u8> {
    let Some((zero, mut rest)) = lines.split_first() else {
        return require(*named == Indices::default() && serial == 0, 5);
    };
    let zero = Entry::at(zero);
    let [_, _, languages @ ..] = zero.body(set) else { return Err(5) };
    require(zero.key() == STRING << 24 && zero.is_string(set) && (2..=8).contains(&languages.len()), 5)?;
    let (mut in_any, mut in_every, mut last) = (Indices::default(), [u64::MAX; 4], 0);
    for pair in languages.as_chunks::<2>().0 {
        let language = u16::from_le_bytes(*pair);
        require(last < language, 5)?;
        last = language;
        let mut in_this = Indices::default();
        while let [line, behind @ ..] = rest {
            let entry = Entry::at(line);
            if entry.language() != language {
                break;
            }
            require(entry.is_string(set), 5)?;
            add(&mut in_this, entry.index());
            rest = behind;
        }
        for at in 0..4 {
            in_any[at] |= in_this[at];
            in_every[at] &= in_this[at];
        }
    }
    add(&mut in_every, serial);
    require(rest.is_empty() && !has(&in_any, 0) && (serial == 0 || !has(&in_any, serial)), 5)?;
    require(named.iter().zip(in_every).all(|(named, in_every)| named & !in_every == 0), 5)
}

/// Opening, with what of the set the record asks.
#[inline(never)]
pub fn open(set: &[u8], serial: &[u8], image: &Image) -> Result<Kept, u8> {
    let lines = contents(set)?;
    let (device, configurations, texts) = device(set, lines)?;
    let mut kept = Kept::default();
    kept.configurations(set, configurations, image)?;
    let [manufacturer, product, number] = [device[14], device[15], device[16]];
    kept.name(manufacturer);
    kept.name(product);
    strings(set, texts, &kept.named, number)?;
    let block = |serial: &[u8]| match *serial {
        [length, 3, _, _, ..] => usize::from(length) == serial.len() && length % 2 == 0,
        _ => false,
    };
    require(if number == 0 { serial.is_empty() } else { block(serial) }, 6)?;
    Ok(kept)
}

fn fits(kept: &Kept, image: &Image) -> bool {
    let [state, address, waiting, value, wakeup, power, suspended, speed, ..] = *image;
    let alternates = u128::from_le_bytes(image[8..24].try_into().unwrap());
    let [halts, toggles] = [24, 28].map(|at| u32::from_le_bytes(image[at..at + 4].try_into().unwrap()));
    let waits = waiting <= 127 || waiting == NOTHING_WAITS;
    let in_state = match state {
        0 => address == 0 && value == 0 && waits && alternates == 0,
        1 => (1..=127).contains(&address) && value == 0 && waits && alternates == 0,
        CONFIGURED => (1..=127).contains(&address) && waiting == NOTHING_WAITS && kept.alternates_exist,
        _ => false,
    };
    let halting = kept.current & !kept.isochronous;
    in_state
        && wakeup <= u8::from(kept.wakes)
        && power | suspended <= 1
        && speed == 0
        && by_slot(halts | toggles) & !halting == 0
}

/// GET_STATUS of an endpoint.
pub fn event(set: &[u8], serial: &[u8], image: &mut Image, setup: &[u8]) -> Result<[u8; 2], u8> {
    let kept = open(set, serial, image).map_err(|_| 7)?;
    require(fits(&kept, image), 8)?;
    let [kind, code, value_low, value_high, index, index_high, length, length_high] = *setup else { return Err(9) };
    image[2] = NOTHING_WAITS;
    image[6] = 0;
    require([kind, code] == [0x82, 0], 10)?;
    require(image[0] != 0, 11)?;
    require([value_low, value_high, length, length_high] == [0, 0, 2, 0], 12)?;
    if index & 0x7F == 0 && index_high == 0 {
        return Ok([0, 0]);
    }
    require(index_high == 0 && index & 0x70 == 0 && kept.current >> slot(index) & 1 != 0, 13)?;
    let halts = u32::from_le_bytes(image[24..28].try_into().unwrap());
    Ok([(by_slot(halts) >> slot(index) & 1) as u8, 0])
}
