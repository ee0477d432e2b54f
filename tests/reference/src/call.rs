//! One call at the C boundary, and the reference's answer to it.

use crate::dumps;
use crate::endpoints;
use crate::events::{Block, Event, Lent, Outcome, Part};
use crate::explained;
use crate::fault::Fault;
use crate::kind::Kind;
use crate::octets::hex;
use crate::packets;
use crate::pipe::{Heard, Pipe, Wire};
use crate::ports;
use crate::record::{FULL_SPEED, IMAGE_LENGTH};
use crate::superspeed;
use crate::trim;
use crate::writer;

/// `Numbered` names any event by its number, on a record of 32 bytes that stands aligned; the calls with `Two` are those for two sets.
#[derive(Clone, PartialEq, Eq, Debug)]
pub enum Call {
    Open { image: Vec<u8> },
    Event { image: Vec<u8>, event: Event },
    ResetTo { image: Vec<u8>, speed: u8 },
    Numbered { record: Vec<u8>, number: u8, value: u8, setup: Vec<u8> },
    Packet { reply_length: usize, asked: u16, size: u32, packet: u32 },
    Write { pieces: Vec<u8>, buffer: Vec<u8> },
    SuperOpen { image: Vec<u8> },
    SuperWrite { pieces: Vec<u8>, buffer: Vec<u8> },
    Import { dump: Vec<u8>, buffer: Vec<u8> },
    Export { buffer: Vec<u8> },
    /// The set that is lent, in a buffer of its own.
    Trim { set: Vec<u8> },
    Endpoint { image: Vec<u8>, number: u8 },
    TwoOpen { image: Vec<u8> },
    TwoEvent { image: Vec<u8>, number: u8, value: u8, setup: Vec<u8> },
    TwoEndpoint { image: Vec<u8>, number: u8 },
    /// On a row of records, which stand aligned.
    Port { row: Vec<u8>, port: u64, number: u8, value: u8, setup: Vec<u8> },
    TwoPort { row: Vec<u8>, port: u64, number: u8, value: u8, setup: Vec<u8> },
    /// An event of the wire; the image left is the order, the room, the pipe record and the device record.
    Pipe(PipeCall),
    TwoPipe(PipeCall),
    Explain,
    TwoExplain,
    SuperExplain,
}

/// What is lent to an event of the wire beside the sets, and its number.
#[derive(Clone, PartialEq, Eq, Debug)]
pub struct PipeCall {
    pub image: Vec<u8>,
    pub pipe: Vec<u8>,
    pub reply: Vec<u8>,
    pub number: u8,
    pub value: u16,
    pub setup: Vec<u8>,
}

impl PipeCall {
    pub fn new(image: &[u8], pipe: &[u8], reply: &[u8], wire: &Wire) -> PipeCall {
        let (number, value, setup) = wire.numbered();
        let (image, pipe, reply, setup) = (image.to_vec(), pipe.to_vec(), reply.to_vec(), setup.to_vec());
        PipeCall { image, pipe, reply, number, value, setup }
    }

    pub fn wire(&self) -> Wire {
        Wire::of_number(self.number, self.value, &self.setup)
    }

    pub fn hear(&self, lent: &Lent) -> Heard {
        Pipe { lent, image: &self.image, pipe: &self.pipe, reply: &self.reply }.hear(&self.wire())
    }
}

/// The order, the room, the pipe record and the device record as one image.
fn joined(heard: Heard) -> Outcome {
    let mut image = vec![heard.order as u8];
    image.extend(heard.room.to_le_bytes());
    image.extend(heard.pipe);
    image.extend(heard.image);
    Outcome { number: heard.number, bytes: heard.bytes, part: heard.part, image }
}

impl Call {
    /// The event by its number; on an image of another length there is no such call.
    pub fn numbered(record: &[u8], event: &Event) -> Option<Call> {
        let (number, value, setup) = event.numbered();
        let record = record.to_vec();
        (record.len() == IMAGE_LENGTH).then(|| Call::Numbered { record, number, value, setup: setup.to_vec() })
    }

    /// The calls for the event; for a number that is no event's there is none, for a reset to full speed there are two.
    pub fn event(image: &[u8], event: &Event) -> Vec<Call> {
        let by_name = Call::Event { image: image.to_vec(), event: event.clone() };
        match event {
            Event::Other { .. } => Vec::new(),
            Event::BusReset(FULL_SPEED) => vec![by_name, Call::ResetTo { image: image.to_vec(), speed: FULL_SPEED }],
            Event::BusReset(speed) => vec![Call::ResetTo { image: image.to_vec(), speed: *speed }],
            _ => vec![by_name],
        }
    }

    /// The event by its number, on an image of any length: the one call where two sets are lent.
    pub fn two_event(image: &[u8], event: &Event) -> Call {
        let (number, value, setup) = event.numbered();
        Call::TwoEvent { image: image.to_vec(), number, value, setup: setup.to_vec() }
    }

    /// The event at a port, of one set or of two.
    pub fn port(lent: &Lent, row: &[u8], port: u64, event: &Event) -> Call {
        let (number, value, setup) = event.numbered();
        let (row, setup) = (row.to_vec(), setup.to_vec());
        match lent.high {
            Some(_) => Call::TwoPort { row, port, number, value, setup },
            None => Call::Port { row, port, number, value, setup },
        }
    }

    /// The event of the wire, of one set or of two.
    pub fn pipe(lent: &Lent, call: PipeCall) -> Call {
        match lent.high {
            Some(_) => Call::TwoPipe(call),
            None => Call::Pipe(call),
        }
    }

    /// Two sets are lent to it.
    pub fn takes_two(&self) -> bool {
        let in_row = matches!(self, Call::TwoPort { .. });
        in_row || matches!(self, Call::TwoExplain | Call::TwoOpen { .. } | Call::TwoEvent { .. } | Call::TwoEndpoint { .. } | Call::TwoPipe(_))
    }

    pub fn answer(&self, lent: &Lent) -> Outcome {
        match self {
            Call::Open { image } | Call::TwoOpen { image } => lent.open(image),
            Call::Event { image, event } => lent.event(image, event),
            Call::ResetTo { image, speed } => lent.event(image, &Event::BusReset(*speed)),
            Call::Numbered { record: image, number, value, setup } | Call::TwoEvent { image, number, value, setup } => {
                lent.event(image, &Event::of_number(*number, *value, setup))
            }
            Call::Packet { reply_length, asked, size, packet } => {
                cut(packets::packet(*reply_length, *asked, *size, *packet, lent.fault))
            }
            Call::Write { pieces, buffer } => writer::write(Kind::Alone, pieces, &lent.serial, buffer, lent.fault),
            Call::SuperOpen { image } => superspeed::open_image(lent, image),
            Call::SuperWrite { pieces, buffer } => {
                writer::write(Kind::Super, pieces, &lent.serial, buffer, lent.fault)
            }
            Call::Import { dump, buffer } => dumps::import(dump, buffer, lent.fault),
            Call::Export { buffer } => dumps::export(&lent.set, lent.alone(), buffer, lent.fault),
            Call::Trim { set } => trim::trim(set, lent.alone(), lent.fault),
            Call::Endpoint { image, number } | Call::TwoEndpoint { image, number } => {
                endpoints::endpoint(lent, image, *number)
            }
            Call::Port { row, port, number, value, setup } | Call::TwoPort { row, port, number, value, setup } => {
                ports::event(lent, row, *port, &Event::of_number(*number, *value, setup))
            }
            Call::Pipe(call) | Call::TwoPipe(call) => joined(call.hear(lent)),
            Call::Explain => explained::outcome(explained::explain(Kind::Alone, &lent.set, &lent.serial, lent.fault)),
            Call::SuperExplain => explained::outcome(explained::explain(Kind::Super, &lent.set, &lent.serial, lent.fault)),
            Call::TwoExplain => {
                let high = lent.high.as_deref().unwrap_or_default();
                explained::outcome(explained::explain_pair(&lent.set, high, &lent.serial, lent.fault))
            }
        }
    }

    /// The question as a vector file asks it, after the lines that lend.
    pub fn question(&self) -> String {
        match self {
            Call::Open { .. } | Call::TwoOpen { .. } => "open".to_string(),
            Call::Event { event, .. } => format!("event {}", event_words(event)),
            Call::ResetTo { speed, .. } => format!("event {}", event_words(&Event::BusReset(*speed))),
            Call::Numbered { number, value, setup, .. } | Call::TwoEvent { number, value, setup, .. } => {
                format!("event {}", event_words(&Event::of_number(*number, *value, setup)))
            }
            Call::Packet { reply_length, asked, size, packet } => {
                format!("packet {reply_length} {asked} {size} {packet}")
            }
            Call::Write { pieces, buffer } => format!("write {} {}", hex(pieces), hex(buffer)),
            Call::SuperOpen { .. } => "opensuper".to_string(),
            Call::SuperWrite { pieces, buffer } => format!("writesuper {} {}", hex(pieces), hex(buffer)),
            Call::Import { dump, buffer } => format!("import {} {}", hex(dump), hex(buffer)),
            Call::Export { buffer } => format!("export {}", hex(buffer)),
            Call::Trim { .. } => "trim".to_string(),
            Call::Endpoint { number, .. } | Call::TwoEndpoint { number, .. } => format!("endpoint {number}"),
            Call::Port { row, port, number, value, setup } | Call::TwoPort { row, port, number, value, setup } => {
                let event = Event::of_number(*number, *value, setup);
                format!("port {port} {} {}", hex(row), event_words(&event))
            }
            Call::Pipe(call) | Call::TwoPipe(call) => format!("wire {}", wire_words(&call.wire())),
            Call::Explain | Call::TwoExplain => "explain".to_string(),
            Call::SuperExplain => "explainsuper".to_string(),
        }
    }

    /// The image that is lent; packets and the makers' calls need none.
    pub fn image(&self) -> &[u8] {
        match self {
            Call::Open { image } | Call::SuperOpen { image } | Call::Event { image, .. } | Call::ResetTo { image, .. } => image,
            Call::Numbered { record: image, .. } | Call::Endpoint { image, .. } => image,
            Call::TwoOpen { image } | Call::TwoEvent { image, .. } | Call::TwoEndpoint { image, .. } => image,
            Call::Pipe(call) | Call::TwoPipe(call) => &call.image,
            _ => &[],
        }
    }

    /// The lines that lend what an event of the wire reads besides.
    pub fn loans(&self) -> String {
        match self {
            Call::Pipe(call) | Call::TwoPipe(call) => format!("pipe {}\nreply {}\n", hex(&call.pipe), hex(&call.reply)),
            _ => String::new(),
        }
    }

    /// The answer as a vector file gives it.
    pub fn answer_words(&self, outcome: &Outcome) -> String {
        let Outcome { number, bytes, part, image } = outcome;
        match self {
            Call::Open { .. } | Call::SuperOpen { .. } | Call::TwoOpen { .. } => format!("{number} {}", hex(image)),
            Call::Event { .. }
            | Call::ResetTo { .. }
            | Call::Numbered { .. }
            | Call::TwoEvent { .. }
            | Call::Port { .. }
            | Call::TwoPort { .. } => {
                format!("{number} {} {} {}", hex(bytes), part_words(*part), hex(image))
            }
            Call::Packet { .. } => {
                let (offset, length) = part.map_or((0, 0), |part| (part.offset, part.length));
                format!("{number} {offset} {length}")
            }
            Call::Write { .. } | Call::SuperWrite { .. } | Call::Import { .. } | Call::Export { .. } | Call::Trim { .. } => {
                format!("{number} {} {}", part.map_or(0, |part| part.length), hex(image))
            }
            Call::Endpoint { .. } | Call::TwoEndpoint { .. } => format!("{number} {}", part_words(*part)),
            Call::Pipe(call) | Call::TwoPipe(call) => {
                let (order, room) = (image[0], u16::from_le_bytes([image[1], image[2]]));
                let (pipe, record) = image[3..].split_at(call.pipe.len().min(image.len() - 3));
                let part = part_words(*part);
                format!("{number} {order} {room} {} {part} {} {}", hex(bytes), hex(pipe), hex(record))
            }
            Call::Explain | Call::TwoExplain | Call::SuperExplain => {
                format!("{number} {} {}", u16::from_le_bytes([bytes[0], bytes[1]]), part_words(*part))
            }
        }
    }
}

fn event_words(event: &Event) -> String {
    match event {
        Event::Setup(bytes) => format!("setup {}", hex(bytes)),
        Event::StatusEnd => "status".to_string(),
        Event::BusReset(speed) => format!("reset {speed:02x}"),
        Event::Halt(address) => format!("halt {address:02x}"),
        Event::PacketPassed(address) => format!("passed {address:02x}"),
        Event::Power(source) => format!("power {source:02x}"),
        Event::Suspend => "suspend".to_string(),
        Event::Resume => "resume".to_string(),
        Event::Wake => "wake".to_string(),
        Event::Other { number, value, setup } => format!("other {number:02x} {value:02x} {}", hex(setup)),
    }
}

fn wire_words(wire: &Wire) -> String {
    match wire {
        Wire::Setup(bytes) => format!("setup {}", hex(bytes)),
        Wire::Taken => "taken".to_string(),
        Wire::Received(length) => format!("received {length}"),
        Wire::Reset(speed) => format!("reset {speed}"),
        Wire::Reply => "reply".to_string(),
        Wire::Room(room) => format!("room {room}"),
        Wire::Accept => "accept".to_string(),
        Wire::Refuse => "refuse".to_string(),
        Wire::Other { number, value, setup } => format!("other {number:02x} {value} {}", hex(setup)),
    }
}

fn part_words(part: Option<Part>) -> String {
    match part {
        None => "-".to_string(),
        Some(part) => {
            let block = match part.block {
                Block::Set => "set",
                Block::High => "high",
                Block::Reply => "reply",
                Block::Serial => "serial",
            };
            format!("{block}:{}:{}", part.offset, part.length)
        }
    }
}

fn cut(packet: Option<(usize, usize)>) -> Outcome {
    Outcome {
        number: if packet.is_some() { 0 } else { 15 },
        bytes: Vec::new(),
        part: packet.map(|(offset, length)| Part { block: Block::Reply, offset, length }),
        image: Vec::new(),
    }
}

/// Nothing lent, for packets alone.
pub fn nothing_lent(fault: Fault) -> Lent {
    Lent::new(Vec::new(), Vec::new(), fault)
}
