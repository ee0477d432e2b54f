//! The set writer of document 02, L1: pieces into a table by type, language and index, and the table into a set.

use std::collections::BTreeMap;

use crate::events::{Block, Outcome, Part};
use crate::fault::Fault;
use crate::kind::Kind;
use crate::octets::number;
use crate::opening::Board;
use crate::superspeed;

const LONGEST_SET: usize = 16_384;
const MOST_PIECES: usize = 64;

struct Piece<'a> {
    head: &'a [u8],
    body: &'a [u8],
}

/// What goes before what: the type, the language as a number, the index.
type Place = (u8, u16, u8);

impl Piece<'_> {
    fn place(&self, fault: Fault) -> Place {
        let language = match fault {
            Fault::LanguagesComparedAsBytes => u16::from_be_bytes([self.head[2], self.head[3]]),
            _ => number(self.head, 2),
        };
        (self.head[0], language, self.head[1])
    }
}

/// The pieces in the order in which they came; none where the last does not end where its length says.
fn cut(mut stream: &[u8], fault: Fault) -> Option<Vec<Piece<'_>>> {
    let mut pieces = Vec::new();
    while !stream.is_empty() {
        if stream.len() < 6 {
            return None;
        }
        let (head, rest) = stream.split_at(6);
        let length = usize::from(number(head, 4));
        if length > rest.len() && fault == Fault::LastPieceMayBeCut {
            pieces.push(Piece { head, body: rest });
            return Some(pieces);
        }
        let (body, rest) = (rest.get(..length)?, &rest[length..]);
        pieces.push(Piece { head, body });
        stream = rest;
    }
    Some(pieces)
}

/// The set, or none where a piece is there twice: then the opener would refuse it.
fn assembled(pieces: &[Piece], fault: Fault) -> Option<Vec<u8>> {
    let mut table: BTreeMap<Place, &Piece> = BTreeMap::new();
    for piece in pieces {
        let earlier = table.insert(piece.place(fault), piece);
        if earlier.is_some() && fault != Fault::PieceTwicePasses {
            return None;
        }
    }
    let front = if fault == Fault::OffsetsFromTheBodies { 0 } else { 4 + 8 * table.len() };
    let (mut contents, mut bodies): (Vec<u8>, Vec<u8>) = (Vec::new(), Vec::new());
    for piece in table.values() {
        contents.extend(&piece.head[..4]);
        contents.extend(((front + bodies.len()) as u16).to_le_bytes());
        contents.extend(&piece.head[4..]);
        bodies.extend(piece.body);
    }
    let total = 4 + contents.len() + bodies.len();
    let mut set = (total as u16).to_le_bytes().to_vec();
    set.extend([table.len() as u8, 0]);
    set.extend(contents);
    set.extend(bodies);
    Some(set)
}

/// The set that is to be written, or the number of the refusal.
fn written(kind: Kind, stream: &[u8], serial: &[u8], room: usize, fault: Fault) -> Result<Vec<u8>, u8> {
    let most = MOST_PIECES - usize::from(fault == Fault::SixtyFourthPieceRefused);
    let longest = LONGEST_SET - usize::from(fault == Fault::LongestWrittenOneLess);
    if fault == Fault::SizeBeforeWholeStream && stream.len() > LONGEST_SET {
        return Err(21);
    }
    let pieces = cut(stream, fault).ok_or(20)?;
    let size = 4 + pieces.iter().map(|piece| 8 + piece.body.len()).sum::<usize>();
    if fault == Fault::ShortBufferBeforeRefusal && room < size {
        return Err(22);
    }
    if pieces.len() > most || size > longest {
        return Err(21);
    }
    let set = assembled(&pieces, fault).ok_or(21)?;
    let serial = if fault == Fault::WrittenWithoutSerial { &[] } else { serial };
    let opens = match kind {
        Kind::Super => superspeed::open(&set, serial, fault).is_ok(),
        _ => Board::open(&set, serial, Fault::None).is_ok(),
    };
    if !opens {
        return Err(21);
    }
    let least = if fault == Fault::RoomForOneMore { set.len() + 1 } else { set.len() };
    if room < least {
        return Err(22);
    }
    Ok(set)
}

/// hk_write, or hk_super_write: the number, the buffer after it, and the set's length as the length of a part.
pub fn write(kind: Kind, stream: &[u8], serial: &[u8], buffer: &[u8], fault: Fault) -> Outcome {
    let mut after = buffer.to_vec();
    let (number, length) = match written(kind, stream, serial, buffer.len(), fault) {
        Err(number) => {
            if fault == Fault::RefusalTouchesBuffer && number != 20 {
                after.iter_mut().take(1).for_each(|byte| *byte ^= 1);
            }
            (number, 0)
        }
        Ok(set) => {
            after[..set.len()].copy_from_slice(&set);
            if fault == Fault::BytePastSetWritten {
                after.iter_mut().skip(set.len()).take(1).for_each(|byte| *byte = 0);
            }
            (0, set.len())
        }
    };
    Outcome { number, bytes: Vec::new(), part: Some(Part { block: Block::Set, offset: 0, length }), image: after }
}
