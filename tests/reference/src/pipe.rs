//! The transfers of endpoint zero (docs/PIPE.md, whose sentences are cited as PIPE n): the pipe record, and what each event of the wire is answered and orders.

use crate::events::{Block, Event, Lent, Part};
use crate::fault::Fault;
use crate::octets::number;
use crate::packets;
use crate::record::{FULL_SPEED, NOTHING_WAITS};

pub const PIPE_LENGTH: usize = 16;

/// PIPE 7, byte 0.
pub const IDLE: u8 = 0;
pub const ASKING_SETUP: u8 = 1;
pub const DATA_IN: u8 = 2;
pub const STATUS_OUT: u8 = 3;
pub const DATA_OUT: u8 = 4;
pub const ASKING_BYTES: u8 = 5;
pub const STATUS_IN: u8 = 6;
pub const STALLED: u8 = 7;

/// PIPE 7, byte 1.
pub const NOWHERE: u8 = 0;
pub const IN_SET: u8 = 1;
pub const IN_SERIAL: u8 = 2;
pub const IN_REPLY: u8 = 3;

const RECORD_DOES_NOT_FIT: u8 = 8;
const SETUP_LENGTH_WRONG: u8 = 9;
const REQUEST_UNKNOWN: u8 = 10;

#[derive(Clone, Copy, PartialEq, Eq, Debug)]
pub enum Order {
    Nothing,
    Send,
    Await,
    Receive,
    Stall,
    Ask,
}

/// PIPE 1: what the peripheral or the application tells.
#[derive(Clone, PartialEq, Eq, Debug)]
pub enum Wire {
    Setup(Vec<u8>),
    Taken,
    Received(u16),
    Reset(u16),
    Reply,
    Room(u16),
    Accept,
    Refuse,
    /// A number that is no event's, with the value and the setup passed beside it.
    Other {
        number: u8,
        value: u16,
        setup: Vec<u8>,
    },
}

impl Wire {
    /// What an event does not read is not looked at.
    pub fn of_number(number: u8, value: u16, setup: &[u8]) -> Wire {
        match number {
            0 => Wire::Setup(setup.to_vec()),
            1 => Wire::Taken,
            2 => Wire::Received(value),
            3 => Wire::Reset(value),
            4 => Wire::Reply,
            5 => Wire::Room(value),
            6 => Wire::Accept,
            7 => Wire::Refuse,
            _ => Wire::Other { number, value, setup: setup.to_vec() },
        }
    }

    /// The number, the value and the setup that name the event.
    pub fn numbered(&self) -> (u8, u16, &[u8]) {
        match self {
            Wire::Setup(setup) => (0, 0, setup),
            Wire::Taken => (1, 0, &[]),
            Wire::Received(length) => (2, *length, &[]),
            Wire::Reset(speed) => (3, *speed, &[]),
            Wire::Reply => (4, 0, &[]),
            Wire::Room(room) => (5, *room, &[]),
            Wire::Accept => (6, 0, &[]),
            Wire::Refuse => (7, 0, &[]),
            Wire::Other { number, value, setup } => (*number, *value, setup),
        }
    }

    pub fn reads_value(&self) -> bool {
        matches!(self, Wire::Received(_) | Wire::Reset(_) | Wire::Room(_))
    }
}

/// The pipe record's fields.
#[derive(Clone, Copy, PartialEq, Eq, Debug)]
pub struct Transfer {
    pub stage: u8,
    pub block: u8,
    pub place: u16,
    pub length: u16,
    pub asked: u16,
    /// Data in: the packet under way; data out: the bytes received.
    pub moved: u16,
    pub size: u8,
    pub reads: u8,
    pub zeros: [u8; 4],
}

/// PIPE 9: "Idle is all zero."
pub const AT_REST: Transfer =
    Transfer { stage: IDLE, block: 0, place: 0, length: 0, asked: 0, moved: 0, size: 0, reads: 0, zeros: [0; 4] };

impl Transfer {
    pub fn read(pipe: &[u8]) -> Option<Transfer> {
        let pipe: &[u8; PIPE_LENGTH] = pipe.try_into().ok()?;
        Some(Transfer {
            stage: pipe[0],
            block: pipe[1],
            place: number(pipe, 2),
            length: number(pipe, 4),
            asked: number(pipe, 6),
            moved: number(pipe, 8),
            size: pipe[10],
            reads: pipe[11],
            zeros: [pipe[12], pipe[13], pipe[14], pipe[15]],
        })
    }

    pub fn bytes(&self) -> Vec<u8> {
        let mut bytes = vec![self.stage, self.block];
        for field in [self.place, self.length, self.asked, self.moved] {
            bytes.extend(field.to_le_bytes());
        }
        bytes.extend([self.size, self.reads]);
        bytes.extend(self.zeros);
        bytes
    }

    /// PIPE 28: "as many bytes as are still to come, at most bMaxPacketSize0"
    fn due(&self) -> u16 {
        self.asked.saturating_sub(self.moved).min(u16::from(self.size))
    }
}

/// What an event gives back and leaves.
#[derive(Clone, PartialEq, Eq, Debug)]
pub struct Heard {
    pub number: u8,
    pub order: Order,
    pub room: u16,
    pub bytes: Vec<u8>,
    pub part: Option<Part>,
    pub pipe: Vec<u8>,
    pub image: Vec<u8>,
}

/// What is lent beside the sets.
pub struct Pipe<'a> {
    pub lent: &'a Lent,
    pub image: &'a [u8],
    pub pipe: &'a [u8],
    pub reply: &'a [u8],
}

/// What becomes of a transfer.
struct Turn {
    transfer: Transfer,
    order: Order,
    ended: bool,
}

fn goes_on(transfer: Transfer, order: Order) -> Turn {
    Turn { transfer, order, ended: false }
}

impl Pipe<'_> {
    fn has(&self, fault: Fault) -> bool {
        self.lent.fault == fault
    }

    fn unheard(&self, number: u8) -> Heard {
        let (pipe, image) = (self.pipe.to_vec(), self.image.to_vec());
        Heard { number, order: Order::Nothing, room: 0, bytes: Vec::new(), part: None, pipe, image }
    }

    /// PIPE 11, 16: "A pipe record that has not 16 bytes gets 8 at every event, before all else"
    pub fn hear(&self, wire: &Wire) -> Heard {
        let transfer = match self.lent.fault {
            Fault::LongerPipePasses if self.pipe.len() > PIPE_LENGTH => Transfer::read(&self.pipe[..PIPE_LENGTH]),
            _ => Transfer::read(self.pipe),
        };
        let looks = !matches!(wire, Wire::Setup(_) | Wire::Reset(_) | Wire::Other { .. });
        match (transfer, wire) {
            (None, Wire::Setup(setup)) if self.has(Fault::SetupOnAnyPipe) => self.setup(setup),
            (None, _) => self.unheard(RECORD_DOES_NOT_FIT),
            (Some(transfer), _) if !looks && self.has(Fault::SetupNeedsFittingPipe) && !self.fits(&transfer) => {
                self.unheard(RECORD_DOES_NOT_FIT)
            }
            (Some(_), Wire::Reset(speed)) => self.reset(*speed),
            (Some(transfer), Wire::Setup(setup)) if self.drops_by_ending(&transfer) => {
                let ended = self.end(AT_REST);
                Pipe { image: &ended.image, ..*self }.setup(setup)
            }
            (Some(_), Wire::Setup(setup)) => self.setup(setup),
            // PIPE 4: "Any other event number counts as a setup that is not 8 bytes."
            (Some(_), Wire::Other { .. }) => self.setup(&[]),
            (Some(transfer), _) => self.go_on(&transfer, wire),
        }
    }

    /// A fault alone: a transfer that a SETUP drops counts as ended.
    fn drops_by_ending(&self, transfer: &Transfer) -> bool {
        self.has(Fault::DroppedTransferEnds) && transfer.stage == STATUS_IN
    }

    // ---- fitting

    /// PIPE 8: by byte 7 of the device record as the event found it.
    fn set_in_use(&self) -> (Block, &[u8]) {
        let high = self.image.get(7).is_some_and(|speed| *speed != FULL_SPEED) && !self.has(Fault::PipeOfFullSet);
        match &self.lent.high {
            Some(set) if high => (Block::High, set),
            _ => (Block::Set, &self.lent.set),
        }
    }

    fn block_length(&self, block: u8) -> usize {
        match block {
            NOWHERE if self.has(Fault::TwoBytesAreNoBlock) => 0,
            NOWHERE => 2,
            IN_SET => self.set_in_use().1.len(),
            IN_SERIAL => self.lent.serial.len(),
            _ => self.reply.len(),
        }
    }

    /// PIPE 12 to 15: "One of 16 bytes fits if .."
    fn fits(&self, transfer: &Transfer) -> bool {
        let stalled_or_idle = transfer.stage == IDLE || transfer.stage == STALLED;
        let no_size = transfer.size == 0 && (stalled_or_idle || self.has(Fault::NoSizeFits));
        let gathers = transfer.stage == DATA_OUT || transfer.stage == ASKING_BYTES;
        let ends = usize::from(transfer.place) + usize::from(transfer.length);
        (transfer.stage <= 7 || self.has(Fault::StageEightFits) && transfer.stage == 8)
            && (transfer.block <= 3 || self.has(Fault::BlockFourFits) && transfer.block == 4)
            && (transfer.reads <= 1 || self.has(Fault::AnyDirectionFits))
            && (transfer.zeros == [0; 4] || self.has(Fault::LastBytesIgnored))
            && ([8, 16, 32, 64].contains(&transfer.size) || no_size)
            && (transfer.length <= transfer.asked || self.has(Fault::ReplyAboveAskedFits))
            && (ends <= self.block_length(transfer.block) || self.has(Fault::ReplyOutsideBlockFits))
            && (!gathers || transfer.moved <= transfer.asked || self.has(Fault::TooManyReceivedFit))
    }

    // ---- setup and reset, which write the pipe record anew

    /// PIPE 18, 19, 22, 23: "The device record goes through the setup event. The transfer under way is dropped"
    fn setup(&self, setup: &[u8]) -> Heard {
        let outcome = self.lent.event(self.image, &Event::Setup(setup.to_vec()));
        let asks = match outcome.number {
            REQUEST_UNKNOWN => !self.has(Fault::ApplicationNotAsked),
            number => number == 11 && self.has(Fault::WrongStateAsks),
        };
        let turn = match outcome.number {
            SETUP_LENGTH_WRONG if self.has(Fault::WrongSetupLengthStalls) => self.stall(&AT_REST),
            SETUP_LENGTH_WRONG => return Heard { image: outcome.image, ..self.unheard(SETUP_LENGTH_WRONG) },
            0 => self.begin(self.started(setup, outcome.part, outcome.bytes.len())),
            _ if asks => goes_on(Transfer { stage: ASKING_SETUP, ..self.started(setup, None, 0) }, Order::Ask),
            _ => self.stall(&AT_REST),
        };
        let heard = self.heard(outcome.number, &turn, outcome.image);
        Heard { bytes: outcome.bytes, ..heard }
    }

    /// PIPE 20, 21: "Number 0 and wLength 0: status in, send an empty packet."
    fn begin(&self, transfer: Transfer) -> Turn {
        match transfer.asked {
            0 => goes_on(Transfer { stage: STATUS_IN, ..transfer }, Order::Send),
            _ => goes_on(transfer, Order::Send),
        }
    }

    /// PIPE 24: the transfer of a setup, as if its reply went out.
    fn started(&self, setup: &[u8], part: Option<Part>, bytes: usize) -> Transfer {
        let block = match part {
            None => NOWHERE,
            Some(Part { block: Block::Serial, .. }) => IN_SERIAL,
            Some(_) => IN_SET,
        };
        let (place, length) = part.map_or((0, bytes), |part| (part.offset, part.length));
        let reads = if self.has(Fault::DirectionIgnored) { 1 } else { setup[0] >> 7 };
        Transfer {
            stage: DATA_IN,
            block,
            place: place as u16,
            length: length as u16,
            asked: number(setup, 6),
            moved: 0,
            size: self.packet_size(),
            reads,
            zeros: [0; 4],
        }
    }

    /// PIPE 24: "bMaxPacketSize0 of the set in use"
    fn packet_size(&self) -> u8 {
        let Ok(boards) = &self.lent.opened else { return 0 };
        let set = self.set_in_use().1;
        let full = self.has(Fault::PacketSizeOfFullSet);
        let (board, set) = match (&boards.high, self.set_in_use().0) {
            (Some(high), Block::High) if !full => (high, set),
            _ => (&boards.full, &self.lent.set[..]),
        };
        board.entries[0].body(set)[7]
    }

    /// PIPE 3, 32: "Where that is 0 the pipe is idle; else nothing changes."
    fn reset(&self, speed: u16) -> Heard {
        let speed = match self.lent.fault {
            Fault::ResetSpeedByLowByte => speed as u8,
            Fault::SpeedNotTold => FULL_SPEED,
            _ => speed.min(255) as u8,
        };
        let outcome = self.lent.event(self.image, &Event::BusReset(speed));
        let rests = match self.lent.fault {
            Fault::ResetKeepsTransfer => false,
            Fault::RefusedResetEndsTransfer => true,
            _ => outcome.number == 0,
        };
        let pipe = if rests { AT_REST.bytes() } else { self.pipe.to_vec() };
        Heard { pipe, image: outcome.image, ..self.unheard(outcome.number) }
    }

    // ---- the events that look at the transfer

    /// PIPE 17, 38: "Every other event gives 8 for one that does not fit"
    fn go_on(&self, transfer: &Transfer, wire: &Wire) -> Heard {
        if !self.fits(transfer) {
            let pipe = if self.has(Fault::MisfitBecomesIdle) { AT_REST.bytes() } else { self.pipe.to_vec() };
            return Heard { pipe, ..self.unheard(RECORD_DOES_NOT_FIT) };
        }
        if self.has(Fault::PacketOpensSet) && self.lent.opened.is_err() {
            return self.unheard(7);
        }
        let turn = match wire {
            Wire::Taken => self.taken(transfer),
            Wire::Received(length) => self.received(transfer, *length),
            _ => self.answered(transfer, wire),
        };
        if turn.ended {
            self.end(turn.transfer)
        } else {
            self.heard(0, &turn, self.image.to_vec())
        }
    }

    /// PIPE 25, 26: "In status in: the transfer has ended. In any other stage: nothing."
    fn taken(&self, transfer: &Transfer) -> Turn {
        match (transfer.stage, self.lent.fault) {
            (STATUS_OUT, Fault::TakenEndsStatusOut) | (STATUS_IN, _) => self.ends(),
            (DATA_IN, Fault::SamePacketAgain) if transfer.moved == 0 => goes_on(*transfer, Order::Send),
            (DATA_IN, _) => self.send_next(transfer),
            _ => goes_on(*transfer, Order::Nothing),
        }
    }

    fn send_next(&self, transfer: &Transfer) -> Turn {
        let step = if self.has(Fault::PacketSkipped) { 2 } else { 1 };
        let next = u32::from(transfer.moved) + step;
        match self.packet(transfer, next) {
            Some(_) => goes_on(Transfer { moved: next as u16, ..*transfer }, Order::Send),
            None if self.has(Fault::EndsWithoutStatus) => self.ends(),
            None => goes_on(Transfer { stage: STATUS_OUT, ..*transfer }, Order::Await),
        }
    }

    fn packet(&self, transfer: &Transfer, packet: u32) -> Option<(usize, usize)> {
        packets::packet(usize::from(transfer.length), transfer.asked, u32::from(transfer.size), packet, self.lent.fault)
    }

    /// PIPE 27, 30: "an empty packet ends the transfer; another is the host's error"
    fn received(&self, transfer: &Transfer, length: u16) -> Turn {
        let fault = self.lent.fault;
        match transfer.stage {
            DATA_IN if fault == Fault::EarlyStatusIgnored => goes_on(*transfer, Order::Nothing),
            DATA_IN | STATUS_OUT if length == 0 || fault == Fault::AnyPacketIsStatus => self.ends(),
            DATA_IN | STATUS_OUT => self.stall(transfer),
            DATA_OUT => self.gather(transfer, length),
            STATUS_IN if fault == Fault::StrayPacketEndsStatusIn => self.ends(),
            _ => goes_on(*transfer, Order::Nothing),
        }
    }

    /// PIPE 28, 29: "If more are to come then: receive; if all are there: asking (its bytes), ask."
    fn gather(&self, transfer: &Transfer, length: u16) -> Turn {
        let short = length < transfer.due();
        let passes = match self.lent.fault {
            Fault::ShortPacketPasses => short && length > 0,
            Fault::EmptyPacketPasses => length == 0,
            Fault::LongPacketPasses => !short && length <= transfer.asked - transfer.moved,
            _ => false,
        };
        if length != transfer.due() && !passes {
            return self.stall(transfer);
        }
        let before = if self.has(Fault::BytesOfEachPacketAtTheStart) { 0 } else { transfer.moved };
        let moved = before + length;
        let gathered = Transfer { moved, ..*transfer };
        if moved < transfer.asked {
            return goes_on(gathered, Order::Receive);
        }
        if self.has(Fault::BytesTakenUnasked) {
            return goes_on(Transfer { stage: STATUS_IN, ..gathered }, Order::Send);
        }
        goes_on(Transfer { stage: ASKING_BYTES, ..gathered }, Order::Ask)
    }

    /// PIPE 33, 36, 37: "Its events count in asking alone."
    fn answered(&self, transfer: &Transfer, wire: &Wire) -> Turn {
        let fault = self.lent.fault;
        let of_setup = transfer.stage == ASKING_SETUP;
        let asks = of_setup || transfer.stage == ASKING_BYTES;
        let uncalled = match wire {
            Wire::Refuse => fault == Fault::RefusedUnasked && transfer.stage != STALLED,
            Wire::Accept => fault == Fault::AcceptedUnasked && transfer.stage == DATA_OUT,
            _ => false,
        };
        if !asks && !uncalled {
            return goes_on(*transfer, Order::Nothing);
        }
        let reads = transfer.reads == 1;
        let has_data = of_setup && transfer.asked > 0;
        match wire {
            Wire::Reply if has_data && (reads || fault == Fault::ReplyToAWrite) => self.reply(transfer),
            Wire::Reply if of_setup && reads && fault == Fault::ReplyWithoutData => self.reply(transfer),
            Wire::Room(room) if has_data && (!reads || fault == Fault::RoomForARead) => self.give_room(transfer, *room),
            Wire::Accept if !of_setup && fault == Fault::BytesRefusedAllTheSame => self.stall(transfer),
            Wire::Refuse if !of_setup && fault == Fault::RefusedBytesAccepted => {
                goes_on(Transfer { stage: STATUS_IN, ..*transfer }, Order::Send)
            }
            Wire::Accept if !has_data || fault == Fault::AcceptedWithoutItsData => {
                goes_on(Transfer { stage: STATUS_IN, ..*transfer }, Order::Send)
            }
            _ => self.stall(transfer),
        }
    }

    /// PIPE 34: "data in with the first wLength bytes of reply, or all of it where it is shorter"
    fn reply(&self, transfer: &Transfer) -> Turn {
        let longest = if self.has(Fault::ReplyLongerThanAsked) { u16::MAX } else { transfer.asked };
        let length = self.reply.len().min(usize::from(longest)) as u16;
        let block = if self.has(Fault::ReplyLiesInSet) { IN_SET } else { IN_REPLY };
        let sent = Transfer { stage: DATA_IN, block, place: 0, length, moved: 0, ..*transfer };
        goes_on(sent, Order::Send)
    }

    /// PIPE 35: "where that is at most n: data out, 0 in bytes 8–9, receive. Else as refuse."
    fn give_room(&self, transfer: &Transfer, room: u16) -> Turn {
        let least = match self.lent.fault {
            Fault::RoomNotMeasured => 0,
            Fault::RoomOneMore => transfer.asked.saturating_add(1),
            _ => transfer.asked,
        };
        if room < least {
            return self.stall(transfer);
        }
        goes_on(Transfer { stage: DATA_OUT, moved: 0, ..*transfer }, Order::Receive)
    }

    /// PIPE 9: "Stalled is all zero but byte 0."
    fn stall(&self, transfer: &Transfer) -> Turn {
        let rest = if self.has(Fault::StallKeepsTransfer) { *transfer } else { AT_REST };
        let order = if self.has(Fault::StallNotOrdered) { Order::Nothing } else { Order::Stall };
        goes_on(Transfer { stage: STALLED, ..rest }, order)
    }

    fn ends(&self) -> Turn {
        Turn { transfer: AT_REST, order: Order::Nothing, ended: true }
    }

    /// PIPE 31: "the device record goes through the status end event, the pipe is idle, nothing is ordered"
    fn end(&self, transfer: Transfer) -> Heard {
        let outcome = self.lent.event(self.image, &Event::StatusEnd);
        let waits = self.image.get(2).copied().unwrap_or(NOTHING_WAITS);
        let test_mode_waits = waits > 127 && waits != NOTHING_WAITS;
        let pipe = match self.lent.fault {
            Fault::EndedTransferStays => self.pipe.to_vec(),
            Fault::RefusedEndKeepsTransfer if outcome.number > 0 => self.pipe.to_vec(),
            _ => transfer.bytes(),
        };
        let (number, image) = match self.lent.fault {
            Fault::StatusEndNotTold => (0, self.image.to_vec()),
            Fault::TestModeNotEntered if test_mode_waits => (0, self.image.to_vec()),
            _ => (outcome.number, outcome.image),
        };
        Heard { pipe, image, ..self.unheard(number) }
    }

    /// PIPE 39 to 43: the order with what it needs, the packet that goes out or the room for the next.
    fn heard(&self, number: u8, turn: &Turn, image: Vec<u8>) -> Heard {
        let Turn { transfer, order, .. } = turn;
        let sends = *order == Order::Send && transfer.stage == DATA_IN;
        let in_block = match transfer.block {
            NOWHERE => None,
            IN_SET => Some(self.set_in_use().0),
            IN_SERIAL => Some(Block::Serial),
            _ => Some(Block::Reply),
        };
        let packet = self.packet(transfer, u32::from(transfer.moved)).filter(|_| sends);
        let part = in_block.zip(packet).map(|(block, (offset, length))| {
            let place = if self.has(Fault::PacketFromTheStart) { 0 } else { usize::from(transfer.place) };
            Part { block, offset: place + offset, length }
        });
        let room = match (order, self.lent.fault) {
            (Order::Receive, Fault::RoomIsPacketSize) => u16::from(transfer.size),
            (Order::Receive, _) => transfer.due(),
            _ => 0,
        };
        Heard { number, order: *order, room, bytes: Vec::new(), part, pipe: transfer.bytes(), image }
    }
}
