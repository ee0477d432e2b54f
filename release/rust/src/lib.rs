//! Heideklonk from Rust: USB 2.0 chapter 9 for devices. `sys` has the C calls as they are; what stands here lends them slices.
//!
//! Each function is one call: its number, bytes, part and record are that call's, as docs/FIRMWARE.md and include/heideklonk.h describe them. Nothing is
//! allocated. A part is a part of what was lent, and lives as long.
#![no_std]

pub mod sys;

use core::mem::size_of;
pub use sys::hk_record as Record;

#[cfg(not(target_endian = "little"))]
compile_error!("a record's bytes are its image on little-endian machines");

// A release's declarations link with that release's archive alone.
#[used]
static VERSION: unsafe extern "C" fn() -> u32 = sys::VERSION_SYMBOL;

/// Why a call refused: the number that the guide lists.
#[derive(Clone, Copy, Debug, PartialEq, Eq)]
pub struct Refusal(pub u8);

/// What a board lends and never changes: its set, of a board for both speeds that of full speed and that of high speed, and this unit's serial block.
#[derive(Clone, Copy)]
pub struct Board<'a> {
    pub set: &'a [u8],
    pub high: Option<&'a [u8]>,
    pub serial: &'a [u8],
}

/// What can happen to a device.
#[derive(Clone, Copy, Debug, PartialEq, Eq)]
pub enum Event<'s> {
    Setup(&'s [u8; 8]),
    StatusEnd,
    /// to this speed: 0 full, 1 high
    BusReset(u8),
    /// of this endpoint address
    Halt(u8),
    /// at this endpoint address
    PacketPassed(u8),
    /// 0 the bus, 1 its own supply
    Power(u8),
    Suspend,
    Resume,
    Wake,
}

impl<'s> Event<'s> {
    /// The event's number, its value, and the setup's bytes.
    fn words(self) -> (u8, u8, &'s [u8]) {
        match self {
            Event::Setup(bytes) => (0, 0, bytes),
            Event::StatusEnd => (1, 0, &[]),
            Event::BusReset(speed) => (2, speed, &[]),
            Event::Halt(endpoint) => (3, endpoint, &[]),
            Event::PacketPassed(endpoint) => (4, endpoint, &[]),
            Event::Power(source) => (5, source, &[]),
            Event::Suspend => (6, 0, &[]),
            Event::Resume => (7, 0, &[]),
            Event::Wake => (8, 0, &[]),
        }
    }
}

/// What an event is answered with: up to two bytes, or a part of the set or of the serial block.
#[derive(Clone, Copy, Debug)]
pub struct Answer<'a> {
    bytes: [u8; 2],
    count: u8,
    part: &'a [u8],
}

impl Answer<'_> {
    /// The bytes of the data stage. Cut them with `packet`.
    pub fn reply(&self) -> &[u8] {
        match self.count {
            0 => self.part,
            count => &self.bytes[..usize::from(count)],
        }
    }
}

fn done(number: u8) -> Result<(), Refusal> {
    match number {
        0 => Ok(()),
        number => Err(Refusal(number)),
    }
}

fn no_part() -> sys::hk_part {
    sys::hk_part { start: [].as_ptr(), length: 0 }
}

/// A part that a call handed back, of a slice that lives for 'a.
fn part_of<'a>(part: &sys::hk_part) -> &'a [u8] {
    if part.length == 0 {
        return &[];
    }
    // SAFETY: the library's statement says that the part lies in a slice that was lent, and every caller of this names the lifetime of those slices.
    unsafe { core::slice::from_raw_parts(part.start, part.length) }
}

/// A record to open: all zero is no record yet.
pub const fn no_record() -> Record {
    Record { state: 0, address: 0, waiting: 0, configuration: 0, wakeup: 0, power: 0, suspended: 0, speed: 0, alternates: [0; 16], halts: 0, toggles: 0 }
}

fn image(record: &mut Record) -> *mut u8 {
    (record as *mut Record).cast()
}

impl<'a> Board<'a> {
    /// Power-on: checks what is lent and makes the record fresh.
    pub fn open(&self, record: &mut Record) -> Result<(), Refusal> {
        let (set, serial) = (self.set, self.serial);
        // SAFETY: every pointer goes with its slice's length, and the record with its size.
        done(unsafe {
            match self.high {
                None => sys::hk_open(set.as_ptr(), set.len(), serial.as_ptr(), serial.len(), image(record), size_of::<Record>()),
                Some(high) => {
                    sys::hk_two_open(set.as_ptr(), set.len(), high.as_ptr(), high.len(), serial.as_ptr(), serial.len(), image(record), size_of::<Record>())
                }
            }
        })
    }

    /// An event.
    pub fn event(&self, record: &mut Record, event: Event) -> Result<Answer<'a>, Refusal> {
        let (number, value, setup) = event.words();
        let (set, serial) = (self.set, self.serial);
        let (mut bytes, mut count, mut part) = ([0; 2], 0, no_part());
        // SAFETY: as in open; the three results are written and overlap nothing.
        done(unsafe {
            match self.high {
                None => sys::hk_record_event(set.as_ptr(), set.len(), serial.as_ptr(), serial.len(), record, number, value, setup.as_ptr(), setup.len(),
                    bytes.as_mut_ptr(), &mut count, &mut part),
                Some(high) => sys::hk_two_event(set.as_ptr(), set.len(), high.as_ptr(), high.len(), serial.as_ptr(), serial.len(), image(record),
                    size_of::<Record>(), number, value, setup.as_ptr(), setup.len(), bytes.as_mut_ptr(), &mut count, &mut part),
            }
        })?;
        Ok(Answer { bytes, count, part: part_of(&part) })
    }

    /// The endpoint descriptors of the current settings, from 0 on.
    pub fn endpoint(&self, record: &Record, number: u8) -> Result<&'a [u8], Refusal> {
        let (set, serial, read) = (self.set, self.serial, (record as *const Record).cast());
        let mut part = no_part();
        // SAFETY: as in event; the record is only read.
        done(unsafe {
            match self.high {
                None => sys::hk_endpoint(set.as_ptr(), set.len(), serial.as_ptr(), serial.len(), read, size_of::<Record>(), number, &mut part),
                Some(high) => sys::hk_two_endpoint(set.as_ptr(), set.len(), high.as_ptr(), high.len(), serial.as_ptr(), serial.len(), read,
                    size_of::<Record>(), number, &mut part),
            }
        })?;
        Ok(part_of(&part))
    }
}

/// Packet `number` of a reply to a setup with this wLength, on an endpoint zero with packets of this size.
pub fn packet(reply: &[u8], asked: u16, size: u32, number: u32) -> Result<&[u8], Refusal> {
    let mut part = no_part();
    // SAFETY: the packet is a part of the reply.
    done(unsafe { sys::hk_packet(reply.as_ptr(), reply.len(), asked, size, number, &mut part) })?;
    Ok(part_of(&part))
}

/// For makers: which rule a refused set breaks, and at which byte. The opening number, the rule and the place; 0, 0, 0 for an accepted set.
pub fn explain(set: &[u8], serial: &[u8]) -> (u8, u16, u32) {
    let (mut rule, mut place) = (0, 0);
    // SAFETY: as in open.
    let number = unsafe { sys::hk_explain(set.as_ptr(), set.len(), serial.as_ptr(), serial.len(), &mut rule, &mut place) };
    (number, rule, place)
}

/// The same of a SuperSpeed set.
pub fn explain_super(set: &[u8], serial: &[u8]) -> (u8, u16, u32) {
    let (mut rule, mut place) = (0, 0);
    // SAFETY: as in open.
    let number = unsafe { sys::hk_super_explain(set.as_ptr(), set.len(), serial.as_ptr(), serial.len(), &mut rule, &mut place) };
    (number, rule, place)
}

/// The same of a pair: the opening number, the block (0 the full-speed set, 1 the high-speed set, 2 the serial block), the rule and the place.
pub fn explain_two(full: &[u8], high: &[u8], serial: &[u8]) -> (u8, u8, u16, u32) {
    let (mut block, mut rule, mut place) = (0, 0, 0);
    // SAFETY: as in open.
    let number = unsafe {
        sys::hk_two_explain(full.as_ptr(), full.len(), high.as_ptr(), high.len(), serial.as_ptr(), serial.len(), &mut block, &mut rule, &mut place)
    };
    (number, block, rule, place)
}

/// For makers: writes the set of these pieces, and gives its length.
pub fn write(pieces: &[u8], serial: &[u8], buffer: &mut [u8]) -> Result<usize, Refusal> {
    let mut written = 0;
    // SAFETY: as in open; the buffer is borrowed alone, so it overlaps nothing.
    done(unsafe { sys::hk_write(pieces.as_ptr(), pieces.len(), serial.as_ptr(), serial.len(), buffer.as_mut_ptr(), buffer.len(), &mut written) })?;
    Ok(usize::from(written))
}

/// The release of the archive, as 65,536 times the first number, 256 times the second, and the third.
pub fn version() -> u32 {
    // SAFETY: it takes nothing.
    unsafe { sys::VERSION_SYMBOL() }
}
