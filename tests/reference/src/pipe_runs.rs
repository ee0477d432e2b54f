//! What is asked of the pipe: runs from power-on by any host and any application, and events on forged pipe records.

use std::sync::Arc;

use crate::call::{Call, PipeCall};
use crate::compare::Comparison;
use crate::draft::Draft;
use crate::events::{Event, Lent};
use crate::fault::Fault;
use crate::octets::hex;
use crate::pair::Boards;
use crate::pair_draft::{any_pair, valid_pair};
use crate::pipe::{self, Heard, Transfer, Wire, AT_REST, PIPE_LENGTH};
use crate::questions;
use crate::random::Random;
use crate::record::{Record, CONFIGURED};
use crate::requests::{self, Setup};
use crate::runs::any_set;

pub const STAGES: [&str; 8] =
    ["idle", "asking (a setup)", "data in", "status out", "data out", "asking (its bytes)", "status in", "stalled"];
pub const EVENTS: [&str; 9] = ["setup", "taken", "received", "reset", "reply", "room", "accept", "refuse", "other"];
pub const ORDERS: [&str; 6] = ["nothing", "send", "await", "receive", "stall", "ask"];

/// How often each event came in each stage of a pipe record that fits, and each order was given.
#[derive(Default)]
pub struct Tally {
    pub met: [[usize; EVENTS.len()]; STAGES.len()],
    pub orders: [usize; ORDERS.len()],
}

/// Runs and single events, of one set and of two.
pub fn wires(comparison: &mut Comparison, calls: usize, seed: u64, fault: Fault) -> Tally {
    draw(seed, fault, usize::MAX, &mut |lent, call| {
        comparison.ask(lent, Call::pipe(lent, call));
        comparison.calls < calls && !comparison.stopped()
    })
}

/// The same as a file of vectors: at least so many questions, of small sets.
pub fn vectors(questions: usize, seed: u64) -> String {
    let mut lines = vec![VECTORS_BEGIN.to_string()];
    let (mut lends, mut asked) = (Vec::new(), 0);
    draw(seed, Fault::None, LONGEST_IN_VECTORS, &mut |lent, call| {
        let blocks = [&call.image, &call.pipe, &call.reply, &call.setup];
        if blocks.iter().any(|block| block.len() > LONGEST_IN_VECTORS) {
            return true;
        }
        let high = lent.high.as_ref().map_or("none".to_string(), |high| hex(high));
        let blocks = [("set", hex(&lent.set)), ("high", high), ("serial", hex(&lent.serial))];
        let blocks = blocks.into_iter().chain([
            ("record", hex(&call.image)),
            ("pipe", hex(&call.pipe)),
            ("reply", hex(&call.reply)),
        ]);
        let now: Vec<String> = blocks.map(|(name, bytes)| format!("{name} {bytes}")).collect();
        lines.extend(now.iter().filter(|line| !lends.contains(*line)).cloned());
        lends = now;
        let call = Call::pipe(lent, call);
        lines.push(format!("{} -> {}", call.question(), call.answer_words(&call.answer(lent))));
        asked += 1;
        asked < questions
    });
    lines.join("\n") + "\n"
}

const VECTORS_BEGIN: &str = "# the pipe: drawn and answered by tests/reference\nrules l2 l6 l7 l12";
const LONGEST_IN_VECTORS: usize = 400;

/// Hands each call over until it is told to stop; sets are no longer than this.
fn draw(seed: u64, fault: Fault, longest: usize, each: &mut Each) -> Tally {
    let mut asker = Asker { each, goes_on: true, random: Random::new(seed), fault, longest, tally: Tally::default() };
    while asker.goes_on {
        asker.visit();
    }
    asker.tally
}

type Each<'a> = dyn FnMut(&Arc<Lent>, PipeCall) -> bool + 'a;

struct Asker<'a, 'b> {
    each: &'a mut Each<'b>,
    goes_on: bool,
    random: Random,
    fault: Fault,
    longest: usize,
    tally: Tally,
}

impl Asker<'_, '_> {
    /// One set or two, acceptable mostly.
    fn board(&mut self) -> Lent {
        let accepted = self.random.percent(90);
        if self.random.percent(50) {
            let (full, high, serial) = if accepted { valid_pair(&mut self.random) } else { any_pair(&mut self.random) };
            return Lent::two(full, high, serial, self.fault);
        }
        let draft = Draft::valid(&mut self.random);
        let (set, serial) = if accepted { (draft.set(), draft.serial) } else { any_set(&mut self.random) };
        Lent::new(set, serial, self.fault)
    }

    fn visit(&mut self) {
        let lent = Arc::new(self.board());
        if lent.set.len() + lent.high.as_ref().map_or(0, Vec::len) > self.longest {
            return;
        }
        if let Ok(boards) = &lent.opened {
            self.run(&lent, boards);
        }
        for _ in 0..self.random.between(4, 16) {
            self.single(&lent);
        }
    }

    fn ask(&mut self, lent: &Arc<Lent>, call: PipeCall) -> Heard {
        let (stage, event) = (call.pipe.first().copied().unwrap_or(0), usize::from(call.number.min(8)));
        let heard = call.hear(lent);
        let fits = heard.number != 8 && call.pipe.len() == PIPE_LENGTH;
        if fits && usize::from(stage) < STAGES.len() {
            self.tally.met[usize::from(stage)][event] += 1;
        }
        self.tally.orders[heard.order as usize] += 1;
        self.goes_on &= (self.each)(lent, call);
        heard
    }

    /// From power-on, with whatever the pipe record holds then; the host breaks in, resets, sends too much or too little.
    fn run(&mut self, lent: &Arc<Lent>, boards: &Boards) {
        let mut image = Record::fresh().image();
        let mut pipe = if self.random.percent(80) { AT_REST.bytes() } else { self.random.bytes(PIPE_LENGTH) };
        let mut reply = Vec::new();
        if self.random.percent(60) {
            image = questions::fitting(boards, &mut self.random).image();
        }
        for _ in 0..self.random.between(10, 120) {
            let (Some(record), Some(transfer)) = (Record::read(&image), Transfer::read(&pipe)) else { return };
            if self.random.percent(2) {
                // what is not endpoint zero's comes in between
                let event = self.random.pick(&[0, 1, 2, 3]);
                let event = [Event::Suspend, Event::Resume, Event::Power(1), Event::Wake][event].clone();
                image = lent.event(&image, &event).image;
            }
            let wire = self.next(boards, &record, &transfer);
            if matches!(wire, Wire::Reply) {
                reply = self.reply(&transfer);
            }
            let lends = self.lent_reply(&transfer, &reply);
            let call = self.with_unread(PipeCall::new(&image, &pipe, &lends, &wire), &wire);
            let heard = self.ask(lent, call);
            (image, pipe) = (heard.image, heard.pipe);
        }
    }

    /// The reply is lent while it goes out, mostly; one that is cut short does not fit.
    fn lent_reply(&mut self, transfer: &Transfer, reply: &[u8]) -> Vec<u8> {
        let needed = transfer.block == pipe::IN_REPLY || transfer.stage == pipe::ASKING_SETUP;
        match self.random.below(100) {
            0 | 1 if !reply.is_empty() => reply[..reply.len() - 1].to_vec(),
            2 => Vec::new(),
            _ if needed => reply.to_vec(),
            _ if self.random.percent(80) => Vec::new(),
            _ => reply.to_vec(),
        }
    }

    /// A value, a setup and a reply that the event does not read.
    fn with_unread(&mut self, mut call: PipeCall, wire: &Wire) -> PipeCall {
        if !wire.reads_value() && self.random.percent(50) {
            call.value = self.random.between(0, 65_535) as u16;
        }
        if !matches!(wire, Wire::Setup(_)) && self.random.percent(30) {
            let length = self.random.pick(&[1, 7, 8, 9]);
            call.setup = self.random.bytes(length);
        }
        call
    }

    /// Shorter than asked, as long, longer, or nothing.
    fn reply(&mut self, transfer: &Transfer) -> Vec<u8> {
        let (asked, size) = (usize::from(transfer.asked), usize::from(transfer.size.max(8)));
        let any = self.random.below(200);
        let near = [asked, asked.saturating_sub(1), asked + 1, size, 2 * size, size - 1, 0, any, any + asked];
        let length = self.random.pick(&near).min(70_000);
        self.random.bytes(length)
    }

    /// What the host or the application does next, mostly what the stage waits for.
    fn next(&mut self, boards: &Boards, record: &Record, transfer: &Transfer) -> Wire {
        if self.random.percent(match transfer.stage {
            pipe::IDLE | pipe::STALLED => 12,
            _ => 75,
        }) {
            return self.waited_for(transfer);
        }
        match self.random.below(20) {
            0 => self.any_event(transfer),
            1 => Wire::Reset(self.speed()),
            2 => Wire::Received(self.length(transfer)),
            3 => Wire::Taken,
            4 => Wire::of_number(self.random.pick(&[4, 5, 6, 7]), transfer.asked, &[]),
            5 => Wire::Setup(questions::of_wrong_length(self.setup(boards, record), &mut self.random)),
            _ => Wire::Setup(self.setup(boards, record)),
        }
    }

    fn waited_for(&mut self, transfer: &Transfer) -> Wire {
        match transfer.stage {
            pipe::ASKING_SETUP if self.random.percent(10) => {
                Wire::of_number(self.random.pick(&[4, 5, 6, 7]), transfer.asked, &[])
            }
            pipe::ASKING_SETUP if transfer.asked == 0 => Wire::Accept,
            pipe::ASKING_SETUP if transfer.reads == 1 => Wire::Reply,
            pipe::ASKING_SETUP => {
                let more = transfer.asked.saturating_add(1);
                Wire::Room(self.random.pick(&[transfer.asked, transfer.asked, more, u16::MAX, transfer.asked - 1]))
            }
            pipe::DATA_IN if self.random.percent(5) => Wire::Received(0),
            pipe::DATA_IN | pipe::STATUS_IN => Wire::Taken,
            pipe::STATUS_OUT => Wire::Received(0),
            pipe::DATA_OUT => {
                let left = transfer.asked.saturating_sub(transfer.moved);
                Wire::Received(left.min(u16::from(transfer.size)))
            }
            pipe::ASKING_BYTES if self.random.percent(70) => Wire::Accept,
            pipe::ASKING_BYTES => Wire::Refuse,
            _ => self.any_event(transfer),
        }
    }

    fn any_event(&mut self, transfer: &Transfer) -> Wire {
        let any = self.random.between(8, 255) as u8;
        let number = self.random.pick(&[1, 2, 3, 4, 5, 6, 7, 8, 255, any]);
        let setup = self.random.bytes(8);
        let length = self.length(transfer);
        Wire::of_number(number, length, &setup)
    }

    fn speed(&mut self) -> u16 {
        let any = self.random.between(0, 65_535) as u16;
        self.random.pick(&[0, 0, 1, 1, 1, 2, 255, 256, 257, any])
    }

    /// The length of a packet of the host's: right, one off, empty, or more than there is room for.
    fn length(&mut self, transfer: &Transfer) -> u16 {
        let due = transfer.asked.saturating_sub(transfer.moved).min(u16::from(transfer.size));
        let any = self.random.between(0, 65_535) as u16;
        let left = transfer.asked.saturating_sub(transfer.moved);
        self.random.pick(&[due, due.saturating_add(1), due.saturating_sub(1), 0, 1, left, 64, any])
    }

    /// A request of chapter 9, or one of the application's own, with data in either direction or without.
    fn setup(&mut self, boards: &Boards, record: &Record) -> Vec<u8> {
        if self.random.percent(45) {
            return self.application_request();
        }
        let board = boards.in_use(record.speed);
        if record.state != CONFIGURED && self.random.percent(30) {
            let value = u16::from(board.configurations[0].value);
            let (code, value) = self.random.pick(&[(requests::SET_ADDRESS, 9), (requests::SET_CONFIGURATION, value)]);
            return Setup { request_type: 0, code, value, index: 0, length: 0 }.bytes();
        }
        questions::setup(board, record, &mut self.random).bytes()
    }

    fn application_request(&mut self) -> Vec<u8> {
        let request_type = self.random.pick(&[0x21, 0xa1, 0x40, 0xc0, 0x41, 0xc1]);
        let any = self.random.between(0, 300) as u16;
        let length = self.random.pick(&[0, 1, 7, 8, 9, 16, 63, 64, 65, 130, any, any, 65_535]);
        let [code, value, index] = [self.random.byte(), self.random.byte(), self.random.byte()];
        Setup { request_type, code, value: u16::from(value), index: u16::from(index), length }.bytes()
    }

    // ---- forged pipe records

    /// One event on a pipe record that fits or nearly does, with any device record.
    fn single(&mut self, lent: &Arc<Lent>) {
        let boards = lent.opened.as_ref().ok();
        let image = questions::image(boards, &mut self.random);
        let any = self.random.between(0, 80);
        let reply = self.random.bytes(any);
        let transfer = self.forged(lent, &image, &reply);
        let mut pipe = transfer.bytes();
        if self.random.percent(3) {
            pipe = self.random.bytes(PIPE_LENGTH);
        }
        if self.random.percent(5) {
            pipe = questions::of_wrong_length(pipe, &mut self.random);
        }
        let wire = match self.random.below(10) {
            0..=4 => self.waited_for(&transfer),
            5..=7 => self.any_event(&transfer),
            _ => {
                let record = Record::read(&image).unwrap_or(Record::fresh());
                Wire::Setup(boards.map_or(vec![0; 8], |boards| self.setup(boards, &record)))
            }
        };
        let call = self.with_unread(PipeCall::new(&image, &pipe, &reply, &wire), &wire);
        self.ask(lent, call);
    }

    /// Every field inside its bounds, then one of them on an edge or beyond.
    fn forged(&mut self, lent: &Lent, image: &[u8], reply: &[u8]) -> Transfer {
        let stage = self.random.below(STAGES.len()) as u8;
        let block = self.random.below(4) as u8;
        let high = image.get(7).is_some_and(|speed| *speed != 0);
        let set = lent.high.as_ref().filter(|_| high).unwrap_or(&lent.set);
        let room = [2, set.len(), lent.serial.len(), reply.len()][usize::from(block)];
        let place = self.random.between(0, room);
        let length = self.random.between(0, room - place);
        let more = self.random.pick(&[0, 0, 1, 8, 64, 300]);
        let asked = (length + more).min(65_535) as u16;
        let size = self.random.pick(&[8, 16, 32, 64]);
        let packets = length as u16 / u16::from(size);
        let near = [0, packets, packets.saturating_sub(1), asked, asked.saturating_sub(u16::from(size)), asked / 2];
        let moved = self.random.pick(&near).min(asked);
        let reads = self.random.below(2) as u8;
        let (place, length) = (place as u16, length as u16);
        let mut forged = Transfer { stage, block, place, length, asked, moved, size, reads, ..AT_REST };
        let any = self.random.between(0, 65_535) as u16;
        match self.random.below(24) {
            0 => forged.stage = self.random.pick(&[8, 9, 255]),
            1 => forged.block = self.random.pick(&[4, 5, 255]),
            2 => forged.place = self.random.pick(&[forged.place.wrapping_add(1), any, u16::MAX]),
            3 => forged.length = self.random.pick(&[forged.length.wrapping_add(1), asked, asked.wrapping_add(1), any]),
            4 => forged.asked = self.random.pick(&[forged.length.wrapping_sub(1), 0, any]),
            5 => forged.moved = self.random.pick(&[asked.wrapping_add(1), any, u16::MAX]),
            6 => forged.size = self.random.pick(&[0, 0, 0, 1, 9, 24, 128, 255]),
            7 => forged.reads = self.random.pick(&[2, 128, 255]),
            8 => forged.zeros[self.random.below(4)] = self.random.pick(&[1, 128, 255]),
            9 => forged.place = (room - usize::from(forged.length)) as u16,
            10 => {
                (forged.block, forged.place, forged.length) =
                    self.random.pick(&[(0, 0, 2), (0, 1, 1), (0, 0, 3), (0, 2, 1)])
            }
            _ => {}
        }
        forged
    }
}
