//! The bytes that go through the pipes between this program and the harness; tools/harness.c speaks the same.
//!
//! A command is an operation, a byte of placement flags, and what the operation takes; numbers are little-endian, a block
//! is four bytes of length and its bytes:
//!
//!     S block                lends a set from now on       U block        lends a serial block from now on
//!     H block                lends a high-speed set from now on: the calls for two sets go by it, S is the full-speed set
//!     o image                hk_open                       s image setup  hk_setup
//!     e image                hk_status_end                 r image        hk_bus_reset
//!     h endpoint(1) image    hk_halt                       p endpoint(1) image   hk_packet_passed
//!     P source(1) image      hk_power                      v event(1) value(1) record setup   hk_record_event
//!     z image                hk_suspend                    y image        hk_resume
//!     a image                hk_wake
//!     k reply_length(4) asked(2) size(4) number(4)         hk_packet
//!     n number(1) image      hk_endpoint                   R speed(1) image      hk_bus_reset_to
//!     O image                hk_two_open                   V event(1) value(1) image setup    hk_two_event
//!     N number(1) image      hk_two_endpoint
//!     q port(8) event(1) value(1) row setup   hk_port_event: the image is the row, Q the same for hk_two_port_event
//!     c event(1) value(2) image pipe reply setup   hk_pipe_event, C the same for hk_two_pipe_event: the image is the order(1),
//!                            the room(2), the pipe record and the image
//!     w pieces buffer        hk_write: length is what was written, the image is the buffer
//!     f image                hk_super_open                 F pieces buffer   hk_super_write, as hk_write
//!     i dump buffer          hk_import, in the same way    x buffer       hk_export
//!     t set                  hk_trim: length is the total, the image is the set
//!     X                      hk_explain: the bytes are the rule, the block and the offset are its place
//!     Y                      hk_super_explain, in the same way         Z              hk_two_explain
//!
//! Each call is answered with error(1) number(1) count(1) bytes(2) block(1) offset(4) length(4) and the image as a block.

use std::io::{self, Read, Write};

use crate::call::{Call, PipeCall};
use crate::events::{Block, Event, Outcome};
use crate::octets::{hex, number, wide_number};
use crate::record::FULL_SPEED;

/// How a call's blocks stand: NULL where empty, at the front edge of their room, and up to 3 bytes off the edge.
pub const FLAGS: u8 = 0x0f;

/// The largest block that either side takes.
const LONGEST_BLOCK: usize = 200_000;

pub enum Command {
    Set(Vec<u8>),
    Serial(Vec<u8>),
    High(Vec<u8>),
    Call(Call),
}

#[derive(Clone, PartialEq, Eq, Debug)]
pub struct Response {
    error: u8,
    number: u8,
    count: u8,
    bytes: [u8; 2],
    block: u8,
    offset: u32,
    length: u32,
    image: Vec<u8>,
}

impl Response {
    /// An outcome as C sees it: bytes not handed back are 0, a part not handed back is the block's first 0 bytes.
    pub fn of(call: &Call, outcome: &Outcome) -> Response {
        let mut bytes = [0; 2];
        bytes[..outcome.bytes.len()].copy_from_slice(&outcome.bytes);
        let no_part = if matches!(call, Call::Packet { .. }) { Block::Reply } else { Block::Set };
        let (block, offset, length) =
            outcome.part.map_or((no_part, 0, 0), |part| (part.block, part.offset, part.length));
        Response {
            error: 0,
            number: outcome.number,
            count: outcome.bytes.len() as u8,
            bytes,
            block: block as u8,
            offset: offset as u32,
            length: length as u32,
            image: outcome.image.clone(),
        }
    }

    pub fn write(&self, stream: &mut impl Write) -> io::Result<()> {
        stream.write_all(&[self.error, self.number, self.count, self.bytes[0], self.bytes[1], self.block])?;
        stream.write_all(&self.offset.to_le_bytes())?;
        stream.write_all(&self.length.to_le_bytes())?;
        write_block(stream, &self.image)
    }

    pub fn read(stream: &mut impl Read) -> io::Result<Response> {
        let head: [u8; 14] = read_array(stream)?;
        Ok(Response {
            error: head[0],
            number: head[1],
            count: head[2],
            bytes: [head[3], head[4]],
            block: head[5],
            offset: wide_number(&head, 6),
            length: wide_number(&head, 10),
            image: read_block(stream)?,
        })
    }

    /// What was got, and what was wrong besides.
    pub fn describe(&self) -> String {
        let error = match self.error {
            0 => "",
            1 => "; a byte outside the blocks, or in one that is only read, was changed",
            2 => "; the part lies in no block that was lent, or was not written",
            3 => "; memory outside the blocks was touched",
            4 => "; the call stopped the program",
            6 => "; the second way gave or left something else",
            _ => "; the command was not understood",
        };
        let block = ["set", "serial", "reply", "high"].get(usize::from(self.block)).unwrap_or(&"nowhere");
        format!(
            "{}, count {}, bytes {}, part {block}:{}:{}, image {}{error}",
            self.number,
            self.count,
            hex(&self.bytes),
            self.offset,
            self.length,
            hex(&self.image)
        )
    }
}

impl Command {
    pub fn write(&self, flags: u8, stream: &mut impl Write) -> io::Result<()> {
        let operation = match self {
            Command::Set(_) => b'S',
            Command::Serial(_) => b'U',
            Command::High(_) => b'H',
            Command::Call(Call::Open { .. }) => b'o',
            Command::Call(Call::Packet { .. }) => b'k',
            Command::Call(Call::Write { .. }) => b'w',
            Command::Call(Call::SuperOpen { .. }) => b'f',
            Command::Call(Call::SuperWrite { .. }) => b'F',
            Command::Call(Call::Import { .. }) => b'i',
            Command::Call(Call::Export { .. }) => b'x',
            Command::Call(Call::Numbered { .. }) => b'v',
            Command::Call(Call::Trim { .. }) => b't',
            Command::Call(Call::Endpoint { .. }) => b'n',
            Command::Call(Call::ResetTo { .. }) => b'R',
            Command::Call(Call::TwoOpen { .. }) => b'O',
            Command::Call(Call::TwoEvent { .. }) => b'V',
            Command::Call(Call::TwoEndpoint { .. }) => b'N',
            Command::Call(Call::Port { .. }) => b'q',
            Command::Call(Call::TwoPort { .. }) => b'Q',
            Command::Call(Call::Pipe(_)) => b'c',
            Command::Call(Call::TwoPipe(_)) => b'C',
            Command::Call(Call::Explain) => b'X',
            Command::Call(Call::TwoExplain) => b'Z',
            Command::Call(Call::SuperExplain) => b'Y',
            Command::Call(Call::Event { event, .. }) => match event {
                Event::Setup(_) => b's',
                Event::StatusEnd => b'e',
                Event::BusReset(FULL_SPEED) => b'r',
                Event::Halt(_) => b'h',
                Event::PacketPassed(_) => b'p',
                Event::Power(_) => b'P',
                Event::Suspend => b'z',
                Event::Resume => b'y',
                Event::Wake => b'a',
                // have no call of their own, and no command
                Event::BusReset(_) | Event::Other { .. } => return Err(io::ErrorKind::InvalidInput.into()),
            },
        };
        stream.write_all(&[operation, flags])?;
        match self {
            Command::Set(block) | Command::Serial(block) | Command::High(block) => write_block(stream, block),
            Command::Call(call) => write_call(call, stream),
        }
    }

    /// None at the end of the stream.
    pub fn read(stream: &mut impl Read) -> io::Result<Option<Command>> {
        let mut operation = [0];
        if stream.read(&mut operation)? == 0 {
            return Ok(None);
        }
        let _flags: [u8; 1] = read_array(stream)?;
        let command = match operation[0] {
            b'S' => Command::Set(read_block(stream)?),
            b'U' => Command::Serial(read_block(stream)?),
            b'H' => Command::High(read_block(stream)?),
            operation => Command::Call(read_call(operation, stream)?),
        };
        Ok(Some(command))
    }
}

fn write_call(call: &Call, stream: &mut impl Write) -> io::Result<()> {
    match call {
        Call::Open { image } | Call::SuperOpen { image } | Call::TwoOpen { image } => write_block(stream, image),
        Call::Event { image, event } => match event {
            Event::Setup(setup) => {
                write_block(stream, image)?;
                write_block(stream, setup)
            }
            Event::Halt(value) | Event::PacketPassed(value) | Event::Power(value) => {
                stream.write_all(&[*value])?;
                write_block(stream, image)
            }
            _ => write_block(stream, image),
        },
        Call::Numbered { record: image, number, value, setup } | Call::TwoEvent { image, number, value, setup } => {
            stream.write_all(&[*number, *value])?;
            write_block(stream, image)?;
            write_block(stream, setup)
        }
        Call::Port { row, port, number, value, setup } | Call::TwoPort { row, port, number, value, setup } => {
            stream.write_all(&port.to_le_bytes())?;
            stream.write_all(&[*number, *value])?;
            write_block(stream, row)?;
            write_block(stream, setup)
        }
        Call::Packet { reply_length, asked, size, packet } => {
            stream.write_all(&(*reply_length as u32).to_le_bytes())?;
            stream.write_all(&asked.to_le_bytes())?;
            stream.write_all(&size.to_le_bytes())?;
            stream.write_all(&packet.to_le_bytes())
        }
        Call::Write { pieces: given, buffer }
        | Call::SuperWrite { pieces: given, buffer }
        | Call::Import { dump: given, buffer } => {
            write_block(stream, given)?;
            write_block(stream, buffer)
        }
        Call::Export { buffer } | Call::Trim { set: buffer } => write_block(stream, buffer),
        Call::Endpoint { image, number }
        | Call::TwoEndpoint { image, number }
        | Call::ResetTo { image, speed: number } => {
            stream.write_all(&[*number])?;
            write_block(stream, image)
        }
        Call::Pipe(call) | Call::TwoPipe(call) => {
            stream.write_all(&[call.number])?;
            stream.write_all(&call.value.to_le_bytes())?;
            [&call.image, &call.pipe, &call.reply, &call.setup].iter().try_for_each(|block| write_block(stream, block))
        }
        Call::Explain | Call::TwoExplain | Call::SuperExplain => Ok(()),
    }
}

fn read_call(operation: u8, stream: &mut impl Read) -> io::Result<Call> {
    let event = match operation {
        b'o' => return Ok(Call::Open { image: read_block(stream)? }),
        b'O' => return Ok(Call::TwoOpen { image: read_block(stream)? }),
        b'k' => return read_packet(stream),
        b'w' => return Ok(Call::Write { pieces: read_block(stream)?, buffer: read_block(stream)? }),
        b'f' => return Ok(Call::SuperOpen { image: read_block(stream)? }),
        b'F' => return Ok(Call::SuperWrite { pieces: read_block(stream)?, buffer: read_block(stream)? }),
        b'i' => return Ok(Call::Import { dump: read_block(stream)?, buffer: read_block(stream)? }),
        b'x' => return Ok(Call::Export { buffer: read_block(stream)? }),
        b'v' => {
            let [number, value] = read_array(stream)?;
            return Ok(Call::Numbered { record: read_block(stream)?, number, value, setup: read_block(stream)? });
        }
        b't' => return Ok(Call::Trim { set: read_block(stream)? }),
        b'X' => return Ok(Call::Explain),
        b'Z' => return Ok(Call::TwoExplain),
        b'Y' => return Ok(Call::SuperExplain),
        b'c' => return Ok(Call::Pipe(read_pipe(stream)?)),
        b'C' => return Ok(Call::TwoPipe(read_pipe(stream)?)),
        b'V' => {
            let [number, value] = read_array(stream)?;
            return Ok(Call::TwoEvent { image: read_block(stream)?, number, value, setup: read_block(stream)? });
        }
        b'q' | b'Q' => {
            let port = u64::from_le_bytes(read_array(stream)?);
            let [number, value] = read_array(stream)?;
            let (row, setup) = (read_block(stream)?, read_block(stream)?);
            return Ok(match operation {
                b'q' => Call::Port { row, port, number, value, setup },
                _ => Call::TwoPort { row, port, number, value, setup },
            });
        }
        b'n' | b'N' | b'R' => {
            let number = read_array::<1>(stream)?[0];
            let image = read_block(stream)?;
            return Ok(match operation {
                b'n' => Call::Endpoint { image, number },
                b'N' => Call::TwoEndpoint { image, number },
                _ => Call::ResetTo { image, speed: number },
            });
        }
        b's' => {
            let image = read_block(stream)?;
            return Ok(Call::Event { image, event: Event::Setup(read_block(stream)?) });
        }
        b'e' => Event::StatusEnd,
        b'r' => Event::BusReset(FULL_SPEED),
        b'h' => Event::Halt(read_array::<1>(stream)?[0]),
        b'p' => Event::PacketPassed(read_array::<1>(stream)?[0]),
        b'P' => Event::Power(read_array::<1>(stream)?[0]),
        b'z' => Event::Suspend,
        b'y' => Event::Resume,
        b'a' => Event::Wake,
        _ => return Err(io::ErrorKind::InvalidData.into()),
    };
    Ok(Call::Event { image: read_block(stream)?, event })
}

fn read_pipe(stream: &mut impl Read) -> io::Result<PipeCall> {
    let [event, low, high] = read_array(stream)?;
    let (image, pipe, reply) = (read_block(stream)?, read_block(stream)?, read_block(stream)?);
    let (value, setup) = (u16::from_le_bytes([low, high]), read_block(stream)?);
    Ok(PipeCall { image, pipe, reply, number: event, value, setup })
}

fn read_packet(stream: &mut impl Read) -> io::Result<Call> {
    let bytes: [u8; 14] = read_array(stream)?;
    Ok(Call::Packet {
        reply_length: wide_number(&bytes, 0) as usize,
        asked: number(&bytes, 4),
        size: wide_number(&bytes, 6),
        packet: wide_number(&bytes, 10),
    })
}

fn read_array<const LENGTH: usize>(stream: &mut impl Read) -> io::Result<[u8; LENGTH]> {
    let mut bytes = [0; LENGTH];
    stream.read_exact(&mut bytes)?;
    Ok(bytes)
}

fn write_block(stream: &mut impl Write, block: &[u8]) -> io::Result<()> {
    stream.write_all(&(block.len() as u32).to_le_bytes())?;
    stream.write_all(block)
}

fn read_block(stream: &mut impl Read) -> io::Result<Vec<u8>> {
    let length = u32::from_le_bytes(read_array(stream)?) as usize;
    if length > LONGEST_BLOCK {
        return Err(io::ErrorKind::InvalidData.into());
    }
    let mut block = vec![0; length];
    stream.read_exact(&mut block)?;
    Ok(block)
}
