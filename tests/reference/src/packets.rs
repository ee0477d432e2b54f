//! Packets: how many a reply makes, and where packet k lies in it.

use crate::fault::Fault;

/// The number of packets; none where the size or the lengths are refused.
pub fn count(reply_length: usize, asked: u16, size: u32, fault: Fault) -> Option<usize> {
    let also = match fault {
        Fault::PacketSize128Passes => 128,
        Fault::PacketSize24Passes => 24,
        _ => 8,
    };
    let asked = usize::from(asked);
    let longer_passes = fault == Fault::ReplyLongerThanAskedPasses;
    if ![8, 16, 32, 64, also].contains(&size) || reply_length > asked && !longer_passes {
        return None;
    }
    let size = size as usize;
    let rounded_up = reply_length.div_ceil(size);
    let rounded_down_plus_one = reply_length / size + 1;
    let empty = reply_length == 0 && fault == Fault::EmptyReplyAlwaysHasPacket;
    if fault == Fault::EmptyLastPacketMissing {
        Some(rounded_up)
    } else if reply_length < asked || empty || fault == Fault::EmptyPacketWhenEqual {
        Some(rounded_down_plus_one)
    } else {
        Some(rounded_up)
    }
}

/// Offset and length of a packet in the reply; none is number 15.
pub fn packet(reply_length: usize, asked: u16, size: u32, packet: u32, fault: Fault) -> Option<(usize, usize)> {
    let reply_length = match fault {
        Fault::ReplyLengthSixteenBits => reply_length & 0xffff,
        _ => reply_length,
    };
    let packet = match fault {
        Fault::PacketNumberSixteenBits => packet as usize & 0xffff,
        _ => packet as usize,
    };
    let count = count(reply_length, asked, size, fault)?;
    let one_more = fault == Fault::PacketNumberOneMore && packet == count;
    if packet >= count && !one_more {
        return None;
    }
    let size = size as usize;
    let start = (packet * size).min(reply_length);
    let length = size.min(reply_length - start);
    match fault {
        Fault::LastPacketWhole => Some((start, size)),
        Fault::EmptyPacketStartsAtReply if length == 0 => Some((0, 0)),
        _ => Some((start, length)),
    }
}
