//! Whole control transfers: a device loop over the pipe, its peripheral in memory, an application that keeps bytes, and a host that breaks in, ends
//! early, sends strays, too much or too little, and resets. What the host sees is held to the library's own events (PIPE 51 to 57).

use std::sync::Arc;

use crate::call::{Call, PipeCall};
use crate::compare::Comparison;
use crate::endpoints;
use crate::events::{Block, Event, Lent, Outcome};
use crate::fault::Fault;
use crate::pipe::{Heard, Order, Transfer, Wire, AT_REST, DATA_IN, STATUS_IN};
use crate::questions;
use crate::random::Random;
use crate::record::{Record, CONFIGURED};
use crate::requests::{self, Setup};
use crate::strikes::{any_board, RUNS_ON_A_BOARD};

/// Answers an event of the wire.
pub type Ask<'a> = dyn FnMut(PipeCall) -> Heard + 'a;

/// The application keeps so many bytes, none that begin with this one, and knows requests with an even code.
const MOST_KEPT: usize = 200;
const UNWELCOME: u8 = 0xee;

const VENDOR_WRITES: u8 = 0x40;
const VENDOR_READS: u8 = 0xc0;

/// What the loop has told the peripheral of a port.
#[derive(Clone, Default)]
struct Peripheral {
    address: u8,
    stalled: bool,
    packet: Option<Vec<u8>>,
    awaits_status: bool,
    room: Option<(usize, usize)>,
    open: Vec<u8>,
    test_mode: u8,
}

/// A port: its two records, what its application lends and keeps, and its peripheral.
#[derive(Clone)]
struct Port {
    image: Vec<u8>,
    pipe: Vec<u8>,
    reply: Vec<u8>,
    room: Vec<u8>,
    kept: Vec<u8>,
    peripheral: Peripheral,
}

/// What the application says to a setup.
fn application_setup(kept: &[u8], setup: &[u8]) -> (Wire, Vec<u8>) {
    let Some(fields) = Setup::read(setup) else { return (Wire::Refuse, Vec::new()) };
    match fields.request_type {
        VENDOR_WRITES | VENDOR_READS if fields.code % 2 == 1 => (Wire::Refuse, Vec::new()),
        VENDOR_WRITES | VENDOR_READS if fields.length == 0 => (Wire::Accept, Vec::new()),
        VENDOR_READS => (Wire::Reply, kept.to_vec()),
        VENDOR_WRITES => (Wire::Room(MOST_KEPT as u16), Vec::new()),
        _ => (Wire::Refuse, Vec::new()),
    }
}

fn is_welcome(bytes: &[u8]) -> bool {
    bytes.first() != Some(&UNWELCOME)
}

/// The loop of firmware/device.c, once more.
struct Loop<'a, 'b> {
    lent: &'a Lent,
    ports: Vec<Port>,
    ask: &'a mut Ask<'b>,
}

impl Loop<'_, '_> {
    fn has(&self, fault: Fault) -> bool {
        self.lent.fault == fault
    }

    fn hardware(&mut self, port: usize) -> &mut Peripheral {
        let port = if self.has(Fault::HardwareOfTheFirstPort) { 0 } else { port };
        &mut self.ports[port].peripheral
    }

    fn hear(&mut self, port: usize, wire: &Wire) -> Heard {
        let lends = !self.has(Fault::ReplyNotLentAgain) || *wire != Wire::Taken;
        let at = &self.ports[port];
        let reply = if lends { &at.reply[..] } else { &[] };
        let heard = (self.ask)(PipeCall::new(&at.image, &at.pipe, reply, wire));
        (self.ports[port].image, self.ports[port].pipe) = (heard.image.clone(), heard.pipe.clone());
        heard
    }

    fn follow(&mut self, port: usize) {
        let image = &self.ports[port].image;
        let waits = image[2] < 128 && self.has(Fault::AddressFollowedAtSetup);
        let address = if waits { image[2] } else { image[1] };
        self.hardware(port).address = address;
    }

    fn open_endpoints(&mut self, port: usize) {
        let mut open =
            if self.has(Fault::EndpointsNeverClosed) { self.hardware(port).open.clone() } else { Vec::new() };
        let first = u8::from(self.has(Fault::FirstEndpointSkipped));
        let end = if self.has(Fault::OneEndpointOnly) { first + 1 } else { 255 };
        for number in first..end {
            let Some(part) = endpoints::endpoint(self.lent, &self.ports[port].image, number).part else { break };
            open.push(self.lent.slice(part.block)[part.offset + 2]);
        }
        self.hardware(port).open = open;
    }

    /// The bytes of a packet, where they lie now.
    fn packet(&self, port: usize, heard: &Heard) -> Vec<u8> {
        let part = heard.part.map_or(&[][..], |part| {
            let block = match part.block {
                Block::Serial => &self.lent.serial,
                Block::Reply => &self.ports[port].reply,
                block => self.lent.slice(block),
            };
            &block[part.offset..part.offset + part.length]
        });
        let handed = !heard.bytes.is_empty() && !self.has(Fault::PacketOfOldBytes);
        if handed {
            heard.bytes.clone()
        } else {
            part.to_vec()
        }
    }

    fn obey(&mut self, port: usize, heard: &Heard) {
        let packet = self.packet(port, heard);
        let in_data = heard.pipe[0] == DATA_IN && !self.has(Fault::EarlyStatusNotExpected);
        let received = usize::from(Transfer::read(&heard.pipe).unwrap_or(AT_REST).moved);
        match heard.order {
            Order::Nothing if heard.number == 0 => self.follow(port),
            Order::Send => {
                self.hardware(port).packet = Some(packet);
                self.hardware(port).awaits_status |= in_data;
            }
            Order::Await => self.hardware(port).awaits_status = true,
            Order::Receive => self.hardware(port).room = Some((received, usize::from(heard.room))),
            Order::Stall => self.hardware(port).stalled = true,
            Order::Nothing | Order::Ask => {}
        }
    }

    fn tell(&mut self, port: usize, wire: &Wire) -> Heard {
        let heard = self.hear(port, wire);
        self.obey(port, &heard);
        heard
    }

    fn setup(&mut self, port: usize, setup: &[u8]) {
        let heard = self.hear(port, &Wire::Setup(setup.to_vec()));
        let changes = match (setup[0], setup[1]) {
            (0, requests::SET_CONFIGURATION) => !self.has(Fault::EndpointsNotChangedBySetConfiguration),
            (1, requests::SET_INTERFACE) => !self.has(Fault::EndpointsNotChangedBySetInterface),
            _ => false,
        };
        if heard.number == 0 && changes {
            self.open_endpoints(port);
        }
        if heard.number == 0 || heard.order == Order::Ask {
            self.follow(port);
        }
        self.obey(port, &heard);
        if heard.order == Order::Ask {
            let (answer, reply) = application_setup(&self.ports[port].kept, setup);
            (self.ports[port].reply, self.ports[port].room) = (reply, vec![0; MOST_KEPT]);
            self.tell(port, &answer);
        }
    }

    fn event(&mut self, port: usize, wire: &Wire) {
        let port = if self.has(Fault::EventsGoToTheFirstPort) { 0 } else { port };
        match wire {
            Wire::Setup(setup) => self.setup(port, setup),
            Wire::Reset(_) => {
                let heard = self.hear(port, wire);
                self.open_endpoints(port);
                self.obey(port, &heard);
            }
            Wire::Received(_) => {
                if self.tell(port, wire).order == Order::Ask {
                    let received = usize::from(Transfer::read(&self.ports[port].pipe).unwrap_or(AT_REST).moved);
                    let bytes = self.ports[port].room[..received.min(MOST_KEPT)].to_vec();
                    let answer = if is_welcome(&bytes) { Wire::Accept } else { Wire::Refuse };
                    if answer == Wire::Accept {
                        self.ports[port].kept = bytes;
                    }
                    self.tell(port, &answer);
                }
            }
            _ => {
                self.tell(port, wire);
                let speed = self.ports[port].image[7];
                let selector = if self.has(Fault::TestModeByItsByte) { speed } else { speed / 16 };
                if speed > 1 {
                    self.hardware(port).test_mode = selector;
                }
            }
        }
    }
}

/// What the host knows of a port: the record that the library's own events leave, and what the application keeps.
#[derive(Clone)]
struct Known {
    image: Vec<u8>,
    kept: Vec<u8>,
}

/// How the runs went.
#[derive(Default)]
pub struct Tally {
    pub runs: usize,
    pub transfers: usize,
    pub packets: usize,
    /// What the host saw first that should not be.
    pub noticed: Option<String>,
}

type Seen = Result<(), String>;

struct Host<'a, 'b> {
    device: Loop<'a, 'b>,
    /// The same sets, without a fault.
    right: &'a Lent,
    known: Vec<Known>,
    /// Takes every packet and ends every transfer.
    faithful: bool,
    /// What it read last.
    got: Vec<u8>,
    random: &'a mut Random,
    tally: &'a mut Tally,
}

fn expect(holds: bool, what: &str) -> Seen {
    if holds {
        Ok(())
    } else {
        Err(what.to_string())
    }
}

impl Host<'_, '_> {
    fn peripheral(&mut self, port: usize) -> &mut Peripheral {
        &mut self.device.ports[port].peripheral
    }

    fn record(&self, port: usize) -> Record {
        Record::read(&self.known[port].image).unwrap_or(Record::fresh())
    }

    /// The library's own event.
    fn know(&mut self, port: usize, event: &Event) -> Outcome {
        let outcome = self.right.event(&self.known[port].image, event);
        self.known[port].image = outcome.image.clone();
        outcome
    }

    /// "Nothing else moves the device": its record, address, endpoints and test mode are those of the library's own events.
    fn check(&mut self) -> Seen {
        for port in 0..self.known.len() {
            let record = self.record(port);
            let Ok(boards) = &self.right.opened else { return Ok(()) };
            let selected = record.selected(boards.in_use(record.speed));
            let current = selected.iter().flat_map(|one| &one.settings).filter(|setting| record.is_current(setting));
            let open: Vec<u8> = current.flat_map(|setting| &setting.endpoints).map(|one| one.address).collect();
            let (at, peripheral) = (&self.device.ports[port], &self.device.ports[port].peripheral);
            expect(
                at.image == self.known[port].image,
                "the device record is another than the library's own events leave",
            )?;
            expect(at.kept == self.known[port].kept, "the application has other bytes than the host gave it")?;
            expect(peripheral.address == record.address, "the peripheral answers to another address")?;
            expect(peripheral.open == open, "other endpoints are open than those of the current settings")?;
            let entered = if record.is_in_test_mode() { record.speed / 16 } else { 0 };
            expect(peripheral.test_mode == entered, "another test mode is entered, or none")?;
        }
        Ok(())
    }

    /// Whether a host that is not faithful does something else now.
    fn strays(&mut self, chance: usize) -> bool {
        !self.faithful && self.random.percent(chance)
    }

    fn reset(&mut self, port: usize) -> Seen {
        let speed = if self.right.high.is_some() { self.random.pick(&[0, 1, 1]) } else { 0 };
        let kept = self.peripheral(port).clone();
        *self.peripheral(port) =
            Peripheral { address: kept.address, open: kept.open, test_mode: kept.test_mode, ..Peripheral::default() };
        self.device.event(port, &Wire::Reset(speed));
        self.know(port, &Event::BusReset(speed as u8));
        self.check()
    }

    /// The host's IN token: the packet that was handed over, and the loop hears that it was taken.
    fn take(&mut self, port: usize) -> Result<Vec<u8>, String> {
        let packet = self.peripheral(port).packet.take().ok_or("no packet came")?;
        self.tally.packets += 1;
        self.device.event(port, &Wire::Taken);
        Ok(packet)
    }

    fn give(&mut self, port: usize, bytes: &[u8]) -> Seen {
        let (place, room) = self.peripheral(port).room.take().ok_or("no packet was taken")?;
        if bytes.len() <= room && place + bytes.len() <= MOST_KEPT {
            self.device.ports[port].room[place..place + bytes.len()].copy_from_slice(bytes);
        }
        self.tally.packets += 1;
        self.device.event(port, &Wire::Received(bytes.len() as u16));
        Ok(())
    }

    fn send_status(&mut self, port: usize) -> Seen {
        expect(self.peripheral(port).awaits_status, "the host's status packet was not waited for")?;
        expect(self.device.ports[port].pipe != AT_REST.bytes(), "the transfer has ended before its status stage")?;
        self.device.event(port, &Wire::Received(0));
        self.end(port)
    }

    /// "A status end is told once for each transfer that ended", and then the pipe is idle.
    fn end(&mut self, port: usize) -> Seen {
        self.know(port, &Event::StatusEnd);
        expect(self.device.ports[port].pipe == AT_REST.bytes(), "the transfer has not ended with its status stage")?;
        self.check()
    }

    /// Our empty packet; a stray OUT before it changes nothing.
    fn take_status(&mut self, port: usize) -> Seen {
        if self.strays(20) {
            self.device.event(port, &Wire::Received(0));
            self.check()?;
        }
        if self.strays(12) {
            return Ok(()); // never taken: what comes next drops the transfer
        }
        expect(self.device.ports[port].pipe[0] == STATUS_IN, "the status stage is not there")?;
        expect(self.take(port)?.is_empty(), "the status packet is not empty")?;
        self.end(port)
    }

    /// "What the host reads is the reply", whole or, where the host ends early, its beginning.
    fn read(&mut self, port: usize, reply: &[u8], asked: usize) -> Seen {
        let size = self.packet_size(port);
        let patience = if self.strays(30) { self.random.below(4) } else { usize::MAX };
        let mut got = Vec::new();
        for packet in 0.. {
            if packet == patience {
                break;
            }
            let bytes = self.take(port)?;
            got.extend(&bytes);
            expect(reply.starts_with(&got), "the host reads something else than the reply")?;
            if bytes.len() < size || got.len() == asked {
                expect(got.len() == reply.len(), "the reply ends before its end")?;
                expect(self.peripheral(port).packet.is_none(), "a packet goes out after the last")?;
                break;
            }
        }
        self.got = got;
        if self.strays(8) {
            return Ok(());
        }
        self.send_status(port)
    }

    fn packet_size(&self, port: usize) -> usize {
        let Ok(boards) = &self.right.opened else { return 8 };
        let board = boards.in_use(self.record(port).speed);
        usize::from(board.entries[0].body(self.right.slice(board.block()))[7])
    }

    /// The host's bytes, all as promised, or one packet too long or too short, which stalls.
    fn write(&mut self, port: usize, asked: usize) -> Seen {
        let size = self.packet_size(port);
        let mut bytes = self.random.bytes(asked);
        if self.random.percent(15) {
            bytes[0] = UNWELCOME;
        }
        let wrong = if self.random.percent(15) { self.random.below(asked.div_ceil(size)) } else { usize::MAX };
        for (packet, chunk) in bytes.chunks(size).enumerate() {
            if self.random.percent(3) {
                return Ok(());
            }
            let sent = match packet == wrong {
                true if self.random.percent(50) => chunk[1..].to_vec(),
                true => [chunk, &[0]].concat(),
                false => chunk.to_vec(),
            };
            self.give(port, &sent)?;
            if packet == wrong {
                return expect(self.peripheral(port).stalled, "a packet of another length than promised was taken");
            }
        }
        if !is_welcome(&bytes) {
            return expect(self.peripheral(port).stalled, "bytes that the application refused were taken");
        }
        self.known[port].kept = bytes;
        self.take_status(port)
    }

    fn transfer(&mut self, port: usize, setup: &[u8]) -> Seen {
        let peripheral = self.peripheral(port);
        (peripheral.stalled, peripheral.packet, peripheral.awaits_status, peripheral.room) = (false, None, false, None);
        let outcome = self.know(port, &Event::Setup(setup.to_vec()));
        self.tally.transfers += 1;
        self.device.event(port, &Wire::Setup(setup.to_vec()));
        self.check()?;
        let asked = usize::from(Setup::read(setup).map_or(0, |setup| setup.length));
        let (answer, own) = application_setup(&self.known[port].kept, setup);
        let stalled = self.peripheral(port).stalled;
        match (outcome.number, answer) {
            (0, _) | (10, Wire::Accept) if asked == 0 => self.take_status(port),
            (0, _) => {
                let reply = self.bytes_of(&outcome);
                self.read(port, &reply, asked)
            }
            (10, Wire::Reply) => self.read(port, &own[..own.len().min(asked)], asked),
            (10, Wire::Room(room)) if asked <= usize::from(room) => self.write(port, asked),
            _ => {
                expect(stalled, "a refused setup was not answered with STALL")?;
                expect(self.peripheral(port).packet.is_none(), "a refused setup sends something")
            }
        }
    }

    fn bytes_of(&self, outcome: &Outcome) -> Vec<u8> {
        outcome.part.map_or(outcome.bytes.clone(), |part| {
            let block = if part.block == Block::Serial { &self.right.serial } else { self.right.slice(part.block) };
            block[part.offset..part.offset + part.length].to_vec()
        })
    }

    fn setup(&mut self, port: usize) -> Vec<u8> {
        let record = self.record(port);
        let Ok(boards) = &self.right.opened else { return vec![0; 8] };
        let board = boards.in_use(record.speed);
        let setup = |request_type, code, value, length| Setup { request_type, code, value, index: 0, length }.bytes();
        let any = self.random.between(0, 220) as u16;
        let length = self.random.pick(&[0, 1, 8, 64, 200, 201, any, any]);
        let code = self.random.pick(&[2, 4, 4, 4, 5]);
        let configuration = board.configurations[self.random.below(board.configurations.len())].value;
        match self.random.below(12) {
            0..=2 => setup(self.random.pick(&[VENDOR_WRITES, VENDOR_READS]), code, 0, length),
            3 if record.state != CONFIGURED => setup(0, requests::SET_ADDRESS, self.random.between(1, 127) as u16, 0),
            4 | 5 => setup(0, requests::SET_CONFIGURATION, u16::from(configuration), 0),
            6 => setup(0x80, requests::GET_DESCRIPTOR, self.random.pick(&[0x0100, 0x0200, 0x0300]), 255),
            _ => questions::setup(board, &record, self.random).bytes(),
        }
    }

    /// "Enumeration, packet by packet": the host reads exactly the set's bytes and ends with a Configured device.
    fn enumerate(&mut self, port: usize) -> Seen {
        self.reset(port)?;
        let Ok(boards) = &self.right.opened else { return Ok(()) };
        let board = boards.in_use(self.record(port).speed);
        let set = self.right.slice(board.block());
        let address = self.random.between(1, 127) as u16;
        let value = u16::from(board.configurations[self.random.below(board.configurations.len())].value);
        let setup =
            |request_type, code, value, index, length| Setup { request_type, code, value, index, length }.bytes();
        self.transfer(port, &setup(0, requests::SET_ADDRESS, address, 0, 0))?;
        for entry in &board.entries {
            let asked = u16::from_be_bytes([entry.descriptor_type, entry.index]);
            let length = self.random.pick(&[entry.length as u16, 65_535]);
            self.transfer(port, &setup(0x80, requests::GET_DESCRIPTOR, asked, entry.language, length))?;
            expect(self.got == entry.body(set), "the host reads something else than the set's bytes")?;
        }
        self.transfer(port, &setup(0, requests::SET_CONFIGURATION, value, 0, 0))?;
        let record = self.record(port);
        let configured = record.state == CONFIGURED && u16::from(record.address) == address;
        expect(configured && u16::from(record.configuration) == value, "the device is not Configured")
    }

    fn run(&mut self) -> Seen {
        let enumerated = if self.faithful { self.known.len() } else { 0 };
        for port in 0..enumerated {
            self.enumerate(port)?;
        }
        self.faithful = false;
        for port in 0..self.known.len() {
            self.reset(port)?;
        }
        for _ in 0..self.random.between(5, 30) {
            let port = self.random.below(self.known.len());
            if self.random.percent(6) {
                self.reset(port)?;
                continue;
            }
            let setup = self.setup(port);
            self.transfer(port, &setup)?;
        }
        Ok(())
    }
}

/// One run from power-on, at one port or at two.
pub fn run(lent: &Lent, right: &Lent, random: &mut Random, tally: &mut Tally, ask: &mut Ask) {
    let (image, pipe) = (Record::fresh().image(), AT_REST.bytes());
    let known = Known { image: image.clone(), kept: Vec::new() };
    let (reply, room, kept) = (Vec::new(), Vec::new(), Vec::new());
    let port = Port { image, pipe, reply, room, kept, peripheral: Peripheral::default() };
    let ports = random.pick(&[1, 1, 2]);
    tally.runs += 1;
    let device = Loop { lent, ports: vec![port; ports], ask };
    let faithful = random.percent(30);
    let known = vec![known; ports];
    let seen = Host { device, right, known, faithful, got: Vec::new(), random, tally: &mut *tally }.run();
    if let Err(what) = seen {
        tally.noticed.get_or_insert(what);
    }
}

/// Runs of at least so many transfers, each event of which a program must answer alike.
pub fn compared(comparison: &mut Comparison, transfers: usize, seed: u64, fault: Fault) -> Tally {
    let (mut random, mut tally) = (Random::new(seed), Tally::default());
    while tally.transfers < transfers && tally.noticed.is_none() && !comparison.stopped() {
        let right = any_board(&mut random, Fault::None);
        let lent = Arc::new(Lent { fault, ..right.clone() });
        for _ in 0..RUNS_ON_A_BOARD {
            run(&lent, &right, &mut random, &mut tally, &mut |call| {
                let heard = call.hear(&lent);
                comparison.ask(&lent, Call::pipe(&lent, call));
                heard
            });
        }
    }
    tally
}

/// So many runs of this reference by itself: whether a fault shows in them.
pub fn alone(runs: usize, seed: u64, fault: Fault) -> Tally {
    let (mut random, mut tally) = (Random::new(seed), Tally::default());
    while tally.runs < runs && tally.noticed.is_none() {
        let right = any_board(&mut random, Fault::None);
        let lent = Lent { fault, ..right.clone() };
        run(&lent, &right, &mut random, &mut tally, &mut |call| call.hear(&lent));
    }
    tally
}
