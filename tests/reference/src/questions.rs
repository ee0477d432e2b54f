//! Records that fit or nearly fit, and events and packets near every edge of the rules.

use crate::call::Call;
use crate::descriptors::{Configuration, Endpoint};
use crate::events::Event;
use crate::fault::Fault;
use crate::opening::{Board, CONFIGURATION, DEVICE, STRING};
use crate::packets;
use crate::pair::Boards;
use crate::random::Random;
use crate::record::{bit, entered_test, waiting_test, Record};
use crate::record::{ADDRESS, CONFIGURED, DEFAULT, FULL_SPEED, HIGH_SPEED, IMAGE_LENGTH};
use crate::requests::{self, Row, Setup, TABLE};

const FIRST_OTHER_EVENT: u8 = 9;

/// A record that fits, in any state.
pub fn fitting(boards: &Boards, random: &mut Random) -> Record {
    let mut record = Record { speed: any_speed(boards, random), ..Record::fresh() };
    let board = boards.in_use(record.speed);
    record.state = random.pick(&[DEFAULT, ADDRESS, CONFIGURED, CONFIGURED, CONFIGURED]);
    if record.state != DEFAULT {
        record.address = address_value(random).max(1);
    }
    if record.state != CONFIGURED && random.percent(40) && !record.is_in_test_mode() {
        record.waiting = address_value(random);
    }
    if record.speed == HIGH_SPEED && random.percent(30) {
        record.waiting = waiting_test(random.between(1, 5) as u8);
    }
    if board.supports_wakeup() && random.percent(50) {
        record.wakeup = 1;
    }
    record.power = random.below(2) as u8;
    record.suspended = random.below(2) as u8;
    if record.state == CONFIGURED {
        let configuration = &board.configurations[random.below(board.configurations.len())];
        record.configuration = configuration.value;
        for interface in 0..configuration.interface_count {
            let settings = configuration.settings_of(interface).count();
            record.alternates[usize::from(interface)] = random.below(settings) as u8;
        }
        for endpoint in current_endpoints(configuration, &record).filter(|endpoint| endpoint.has_halt()) {
            let bits = random.byte();
            record.halts |= bit(endpoint.address) * u32::from(bits & 1);
            record.toggles |= bit(endpoint.address) * u32::from(bits >> 1 & 1);
        }
    }
    record
}

/// Full speed, high speed or a test mode; full speed where one set is lent.
fn any_speed(boards: &Boards, random: &mut Random) -> u8 {
    if boards.high.is_none() {
        return FULL_SPEED;
    }
    let entered = entered_test(random.between(1, 5) as u8);
    random.pick(&[FULL_SPEED, FULL_SPEED, HIGH_SPEED, HIGH_SPEED, HIGH_SPEED, HIGH_SPEED, entered])
}

fn current_endpoints<'a>(configuration: &'a Configuration, record: &Record) -> impl Iterator<Item = &'a Endpoint> {
    let alternates = record.alternates;
    let current = configuration
        .settings
        .iter()
        .filter(move |setting| alternates[usize::from(setting.interface)] == setting.alternate);
    current.flat_map(|setting| &setting.endpoints)
}

fn address_value(random: &mut Random) -> u8 {
    let any = random.between(0, 127) as u8;
    random.pick(&[0, 1, 5, 126, 127, any])
}

/// A record with one field changed: it mostly no longer fits.
pub fn nearly_fitting(boards: &Boards, random: &mut Random) -> Record {
    let mut record = fitting(boards, random);
    let board = boards.in_use(record.speed);
    let any_bit = 1 << random.below(32);
    let listed_bit = any_listed(board, &record, random).map_or(any_bit, bit);
    match random.below(14) {
        0 => record.state = random.pick(&[0, 1, 2, 3, 255]),
        1 => record.address = random.pick(&[0, 1, 127, 128, 255]),
        2 => record.waiting = random.pick(&[0, 5, 127, 128, 129, 131, 133, 134, 254, 255]),
        3 => record.configuration = random.pick(&[0, 1, 2, 255, record.configuration.wrapping_add(1)]),
        4 => record.wakeup = random.pick(&[0, 1, 1, 1, 2, 255]),
        5 => record.speed = random.pick(&[0, 1, 1, 2, 16, 17, 18, 32, 81, 97, 241, 255]),
        12 => record.power = random.pick(&[0, 1, 2, 255]),
        13 => record.suspended = random.pick(&[0, 1, 2, 255]),
        6 => record.alternates[random.below(16)] = random.pick(&[0, 1, 2, 15, 16, 255]),
        7 => {
            let at = random.below(usize::from(record.selected(board).map_or(16, |selected| selected.interface_count)));
            record.alternates[at] = record.alternates[at].wrapping_add(random.pick(&[1, 255]));
        }
        8 => record.halts ^= any_bit,
        9 => record.toggles ^= any_bit,
        10 => record.halts |= listed_bit,
        _ => record.toggles |= listed_bit,
    }
    record
}

/// An endpoint address of any setting of the selected configuration.
fn any_listed(board: &Board, record: &Record, random: &mut Random) -> Option<u8> {
    let endpoints = record.selected(board)?.settings.iter().flat_map(|setting| &setting.endpoints);
    let addresses: Vec<u8> = endpoints.map(|endpoint| endpoint.address).collect();
    if addresses.is_empty() {
        None
    } else {
        Some(random.pick(&addresses))
    }
}

/// An image to lend: fitting, nearly fitting, anything, or of a wrong length.
pub fn image(boards: Option<&Boards>, random: &mut Random) -> Vec<u8> {
    let image = match boards {
        Some(boards) if random.percent(70) => fitting(boards, random).image(),
        Some(boards) if random.percent(95) => nearly_fitting(boards, random).image(),
        None if random.percent(50) => Record::fresh().image(),
        _ => random.bytes(IMAGE_LENGTH),
    };
    if random.percent(if boards.is_some() { 97 } else { 80 }) {
        image
    } else {
        of_wrong_length(image, random)
    }
}

/// Cut short or lengthened, so that only the length is wrong; one length is right in its low byte, one in its low two.
pub fn of_wrong_length(mut block: Vec<u8>, random: &mut Random) -> Vec<u8> {
    let right = block.len();
    let near = random.pick(&[0, 1, right - 1, right + 1, 2 * right, right + 256]);
    let length = if random.percent(3) { right + 65_536 } else { near };
    block.resize(length, 0);
    block
}

/// An endpoint address: of a current setting, of another, in the other direction, zero or anything.
pub fn endpoint_address(board: &Board, record: &Record, random: &mut Random) -> u8 {
    let configuration = record.selected(board).unwrap_or(&board.configurations[0]);
    let listed = configuration.settings.iter().flat_map(|setting| &setting.endpoints);
    let addresses: Vec<u8> = match random.below(10) {
        0 => vec![0x00, 0x80],
        1 => vec![random.byte()],
        2 => listed.map(|endpoint| endpoint.address ^ 0x80).collect(),
        3 | 4 => listed.map(|endpoint| endpoint.address).collect(),
        _ => current_endpoints(configuration, record).map(|endpoint| endpoint.address).collect(),
    };
    if addresses.is_empty() {
        0x81
    } else {
        random.pick(&addresses)
    }
}

fn interface_number(board: &Board, record: &Record, random: &mut Random) -> u16 {
    let count = record.selected(board).map_or(1, |selected| selected.interface_count);
    let inside = random.below(usize::from(count)) as u16;
    let near = random.pick(&[u16::from(count), 15, 16, inside | 0x0100, inside | 0x8000]);
    if random.percent(70) {
        inside
    } else {
        near
    }
}

/// Any event.
pub fn event(board: &Board, record: &Record, random: &mut Random) -> Event {
    match random.below(25) {
        0 | 1 => Event::StatusEnd,
        2 => Event::BusReset(reset_speed(random)),
        3 | 4 => Event::Halt(endpoint_address(board, record, random)),
        5..=7 => Event::PacketPassed(endpoint_address(board, record, random)),
        8 => Event::Setup(of_wrong_length(setup(board, record, random).bytes(), random)),
        9 => Event::Power(power_source(random)),
        10 => other_event(setup(board, record, random).bytes(), random),
        11 => Event::Suspend,
        12 => Event::Resume,
        13 => Event::Wake,
        _ => Event::Setup(setup(board, record, random).bytes()),
    }
}

pub fn reset_speed(random: &mut Random) -> u8 {
    let any = random.byte();
    random.pick(&[0, 0, 0, 1, 1, 1, 1, 2, 3, 17, 255, any])
}

pub fn power_source(random: &mut Random) -> u8 {
    let any = random.byte();
    random.pick(&[0, 1, 0, 1, 2, 255, any])
}

/// A number that is no event's; the setup beside it would be answered.
pub fn other_event(setup: Vec<u8>, random: &mut Random) -> Event {
    let any = random.between(usize::from(FIRST_OTHER_EVENT), 255) as u8;
    let number = random.pick(&[FIRST_OTHER_EVENT, FIRST_OTHER_EVENT + 1, 255, any]);
    Event::Other { number, value: random.byte(), setup }
}

/// The event by its number, with a value and a setup that it does not read.
pub fn numbered(record: &[u8], event: &Event, random: &mut Random) -> Option<Call> {
    let mut call = Call::numbered(record, event)?;
    if let Call::Numbered { number, value, setup, .. } = &mut call {
        add_unread(event, *number, value, setup, random);
    }
    Some(call)
}

/// The same where two sets are lent: on an image of any length.
pub fn two_event(image: &[u8], event: &Event, random: &mut Random) -> Call {
    let mut call = Call::two_event(image, event);
    if let Call::TwoEvent { number, value, setup, .. } = &mut call {
        add_unread(event, *number, value, setup, random);
    }
    call
}

/// A value and a setup that the event does not read.
fn add_unread(event: &Event, number: u8, value: &mut u8, setup: &mut Vec<u8>, random: &mut Random) {
    if !event.reads_value() {
        *value = random.byte();
    }
    if number != 0 && random.percent(50) {
        let length = random.pick(&[1, 7, 8, 9]);
        *setup = random.bytes(length);
    }
}

/// GET_DESCRIPTOR, SET_CONFIGURATION and SET_INTERFACE have more to get wrong than one try in fifteen would show.
const OFTEN: [usize; 8] = [10, 10, 10, 10, 12, 14, 14, 14];

/// A setup as a row of the table asks for it, or with one field changed.
pub fn setup(board: &Board, record: &Record, random: &mut Random) -> Setup {
    let any = random.below(TABLE.len());
    let often = random.pick(&OFTEN);
    let row = TABLE[if random.percent(35) { often } else { any }];
    let tested = random.percent(if board.is_paired() { 25 } else { 1 });
    let mut setup = if tested { test_mode(random) } else { right_setup(row, board, record, random) };
    match random.below(24) {
        0 => setup.request_type ^= random.pick(&[0x01, 0x02, 0x03, 0x20, 0x40, 0x80, 0x10]),
        1 => setup.code = random.pick(&[0x02, 0x04, 0x07, 0x0a, 0x0b, 0x0c, 0x0d, 0xff]),
        2 | 3 => setup.value = near(setup.value, random),
        4 | 5 => setup.index = near(setup.index, random),
        6 | 7 => setup.length = near(setup.length, random),
        8 => (setup.value, setup.index, setup.length) = (0xffff, 0xffff, 0xffff),
        _ => {}
    }
    setup
}

/// SET_FEATURE(TEST_MODE) with a selector that there is, mostly.
fn test_mode(random: &mut Random) -> Setup {
    let (right, wrong) = (random.between(1, 5) as u16, random.pick(&[0, 6, 16, 255]));
    let selector = if random.percent(80) { right } else { wrong };
    let index = selector << 8 | random.pick(&[0, 0, 0, 0, 0, 0, 0, 0, 1, 128]);
    Setup { request_type: 0x00, code: requests::SET_FEATURE, value: requests::TEST_MODE, index, length: 0 }
}

/// Off by one, with another high byte, or anything.
fn near(field: u16, random: &mut Random) -> u16 {
    let any = random.between(0, 65_535) as u16;
    let [low, high] = field.to_le_bytes();
    random.pick(&[
        field.wrapping_add(1),
        field.wrapping_sub(1),
        field ^ 0x0100,
        field ^ 0x8000,
        field ^ 0x0080,
        u16::from_be_bytes([low, high]),
        any,
    ])
}

fn right_setup(row: Row, board: &Board, record: &Record, random: &mut Random) -> Setup {
    let mut setup = Setup { request_type: row.request_type, code: row.code, value: 0, index: 0, length: 0 };
    match row.request_type & 0x1f {
        1 => setup.index = interface_number(board, record, random),
        2 => setup.index = u16::from(endpoint_address(board, record, random)),
        _ => {}
    }
    match row.code {
        requests::GET_STATUS => setup.length = 2,
        requests::CLEAR_FEATURE | requests::SET_FEATURE => {
            let usual = if row.request_type == 2 { 0 } else { 1 };
            setup.value = random.pick(&[usual, usual, usual, usual, 0, 1, 2, 0x0100, 0x0101]);
        }
        requests::SET_ADDRESS => {
            let address = u16::from(address_value(random));
            setup.value = random.pick(&[address, address, address, 127, 128]);
        }
        requests::GET_DESCRIPTOR => ask_descriptor(&mut setup, board, random),
        requests::GET_CONFIGURATION | requests::GET_INTERFACE => setup.length = 1,
        requests::SET_CONFIGURATION => setup.value = configuration_value(board, record, random),
        _ => setup.value = alternate(setup.index, board, record, random),
    }
    setup
}

fn configuration_value(board: &Board, record: &Record, random: &mut Random) -> u16 {
    let index = random.below(board.configurations.len());
    let value = u16::from(board.configurations[index].value);
    random.pick(&[
        value,
        value,
        value,
        u16::from(record.configuration),
        index as u16,
        index as u16 + 1,
        0,
        256,
        value | 256,
    ])
}

fn alternate(interface: u16, board: &Board, record: &Record, random: &mut Random) -> u16 {
    let selected = record.selected(board).unwrap_or(&board.configurations[0]);
    let interface = interface as u8;
    let settings = selected.settings_of(interface).count();
    let inside = random.below(settings.max(1)) as u16;
    let current = u16::from(record.alternates[usize::from(interface & 15)]);
    random.pick(&[inside, inside, inside, inside, current, settings as u16, inside | 0x0100])
}

/// Such a string shows which language it was looked up in.
fn misses_a_language(board: &Board, index: u8) -> bool {
    board.languages.iter().any(|&language| board.entry(STRING, index, language).is_none())
}

fn ask_descriptor(setup: &mut Setup, board: &Board, random: &mut Random) {
    let descriptor_type =
        random.pick(&[DEVICE, CONFIGURATION, CONFIGURATION, STRING, STRING, STRING, STRING, 0, 4, 6, 7]);
    let mut of_type: Vec<_> = board.entries.iter().filter(|entry| entry.descriptor_type == descriptor_type).collect();
    if descriptor_type == STRING && random.percent(25) {
        of_type.retain(|entry| entry.index != 0 && misses_a_language(board, entry.index));
    }
    let (index, language, length) = match of_type.is_empty() {
        true => (random.pick(&[0, 1]), 0, 0),
        false => {
            let entry = random.pick(&of_type);
            (entry.index, entry.language, entry.length)
        }
    };
    let any = random.byte();
    let index = random.pick(&[index, index, index, index.wrapping_add(1), any]);
    let index = if descriptor_type == STRING && random.percent(30) { board.serial_index } else { index };
    setup.value = u16::from_be_bytes([descriptor_type, index]);
    if descriptor_type == STRING {
        let listed = if board.languages.is_empty() { 0x0409 } else { random.pick(&board.languages) };
        let unlisted = near(listed, random);
        setup.index = random.pick(&[language, language, listed, listed, 0, unlisted]);
    }
    let length = length as u16;
    setup.length = random.pick(&[0, 1, 8, 9, 18, 64, 255, 256, 65_535, length, length.saturating_sub(1), length + 1]);
}

/// A packet near the edges of the lengths, the sizes and the count.
pub fn packet(random: &mut Random) -> Call {
    let right_size = random.pick(&[8, 16, 32, 64]);
    let wrong_size = random.pick(&[0, 1, 4, 7, 9, 12, 24, 63, 65, 128, 256, 264, 65_544, u32::MAX - 7]);
    let size = if random.percent(20) { wrong_size } else { right_size };
    let reply_length = reply_length(right_size as usize, random);
    let same = reply_length as u16;
    let any = random.between(0, 65_535) as u16;
    let asked = random.pick(&[same, same, same.wrapping_sub(1), same.wrapping_add(1), 64, 255, 65_535, any]);
    let count = packets::count(reply_length, asked, size, Fault::None);
    let packet = packet_number(count.unwrap_or(reply_length / right_size as usize) as u32, random);
    Call::Packet { reply_length, asked, size, packet }
}

fn reply_length(size: usize, random: &mut Random) -> usize {
    let any = random.below(600);
    let near = random.pick(&[0, 1, 2, 18, size - 1, size, size + 1, 2 * size, 5 * size, any, any]);
    let far = random.pick(&[16_384, 65_535, 65_536, 65_536 + size]);
    if random.percent(25) {
        far
    } else {
        near
    }
}

fn packet_number(count: u32, random: &mut Random) -> u32 {
    let before = random.below(count as usize + 1) as u32;
    let last = count.saturating_sub(1);
    random.pick(&[last, last, count, count + 1, 0, 1, before, before, 65_536 + before, u32::MAX, 1 << 29])
}

/// Events that concern one interface, whatever the record.
pub fn event_for(configuration: &Configuration, interface: u8, random: &mut Random) -> Event {
    let endpoints = configuration.settings_of(interface).flat_map(|setting| &setting.endpoints);
    let addresses: Vec<u8> = endpoints.map(|endpoint| endpoint.address).collect();
    let settings = configuration.settings_of(interface).count();
    let index = u16::from(interface);
    if addresses.is_empty() || random.percent(30) {
        let alternate = random.below(settings) as u16;
        let (request_type, code, value, length) = random.pick(&[
            (0x01, requests::SET_INTERFACE, alternate, 0),
            (0x01, requests::SET_INTERFACE, alternate, 0),
            (0x01, requests::SET_FEATURE, 0, 0),
            (0x81, requests::GET_STATUS, 0, 2),
            (0x81, requests::GET_INTERFACE, 0, 1),
            (0x21, 0x09, 0, 4),
        ]);
        return Event::Setup(Setup { request_type, code, value, index, length }.bytes());
    }
    let address = random.pick(&addresses);
    let (request_type, code, length) = match random.below(6) {
        0 => return Event::Halt(address),
        1 | 2 => return Event::PacketPassed(address),
        3 => (0x82, requests::GET_STATUS, 2),
        4 => (0x02, requests::CLEAR_FEATURE, 0),
        _ => (0x02, requests::SET_FEATURE, 0),
    };
    Event::Setup(Setup { request_type, code, value: 0, index: u16::from(address), length }.bytes())
}

/// The requests with which a host brings a device from power-on to Configured.
pub fn enumeration(boards: &Boards, random: &mut Random) -> Vec<Event> {
    let speed = if boards.high.is_some() && random.percent(70) { HIGH_SPEED } else { FULL_SPEED };
    let board = boards.in_use(speed);
    let setup =
        |request_type, code, value, length| Event::Setup(Setup { request_type, code, value, index: 0, length }.bytes());
    let value = board.configurations[random.below(board.configurations.len())].value;
    vec![
        Event::BusReset(speed),
        setup(0x80, requests::GET_DESCRIPTOR, 0x0100, 64),
        setup(0x00, requests::SET_ADDRESS, u16::from(address_value(random).max(1)), 0),
        Event::StatusEnd,
        setup(0x80, requests::GET_DESCRIPTOR, 0x0200, 255),
        setup(0x00, requests::SET_CONFIGURATION, u16::from(value), 0),
        Event::StatusEnd,
    ]
}
