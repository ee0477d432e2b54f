//! The kinds of set: one lent alone, the full-speed or the high-speed one of a pair, or a SuperSpeed one.

use crate::descriptors::{Endpoint, BULK, ISOCHRONOUS};
use crate::fault::Fault;
use crate::rule::{require, Rule};

#[derive(Clone, Copy, PartialEq, Eq, Debug)]
pub enum Kind {
    Alone,
    PairedFull,
    PairedHigh,
    Super,
}

impl Kind {
    /// Types 6 and 7 as entries: "allowed in a set of a pair alone".
    pub fn is_paired(self) -> bool {
        matches!(self, Kind::PairedFull | Kind::PairedHigh)
    }

    pub fn control_sizes(self, fault: Fault) -> &'static [u8] {
        match self {
            Kind::PairedHigh if fault == Fault::HighControlSizeEightPasses => &[8, 64],
            Kind::PairedHigh if fault == Fault::HighControlSizeAsFullSpeed => &[8, 16, 32, 64],
            Kind::PairedHigh => &[64],
            Kind::Super if fault == Fault::SuperControlSizeAsFullSpeed => &[8, 9, 16, 32, 64],
            Kind::Super if fault == Fault::SuperControlSizeDoubled => &[9, 18, 36, 72],
            Kind::Super => &[9],
            _ if fault == Fault::MaxPacketSize128Passes => &[8, 16, 32, 64, 128],
            _ => &[8, 16, 32, 64],
        }
    }

    /// wMaxPacketSize and bInterval.
    pub fn check_endpoint(self, endpoint: &Endpoint, fault: Fault) -> Result<(), Rule> {
        match (self, endpoint.transfer_type()) {
            (Kind::PairedHigh, BULK) => {
                let size = match fault {
                    Fault::HighBulkSizeByLowBits => endpoint.packet_size & 0x07ff,
                    _ => endpoint.packet_size,
                };
                let as_full = fault == Fault::HighBulkSizeSixtyFourPasses && size == 64;
                require(size == 512 || as_full, Rule::BulkPacketSize)
            }
            (Kind::PairedHigh, ISOCHRONOUS) => {
                require(high_speed_size(endpoint, fault), Rule::IsochronousPacketSize)?;
                require((1..=16).contains(&endpoint.interval), Rule::IsochronousInterval)
            }
            (Kind::PairedHigh, _) => {
                require(high_speed_size(endpoint, fault), Rule::InterruptPacketSize)?;
                let longest = if fault == Fault::HighInterruptIntervalAsFullSpeed { 255 } else { 16 };
                require((1..=longest).contains(&endpoint.interval), Rule::InterruptInterval)
            }
            (Kind::Super, BULK) => {
                let as_high = fault == Fault::SuperBulkSize512Passes && endpoint.packet_size == 512;
                require(super_size(endpoint, fault) == 1024 || as_high, Rule::BulkPacketSize)
            }
            (Kind::Super, ISOCHRONOUS) => {
                let least = u16::from(fault == Fault::SuperIsochronousSizeZeroRefused);
                require((least..=1024).contains(&super_size(endpoint, fault)), Rule::IsochronousPacketSize)?;
                require((1..=16).contains(&endpoint.interval), Rule::IsochronousInterval)
            }
            (Kind::Super, _) => {
                let least = u16::from(fault != Fault::SuperInterruptSizeZeroPasses);
                require((least..=1024).contains(&super_size(endpoint, fault)), Rule::InterruptPacketSize)?;
                let longest = if fault == Fault::SuperInterruptIntervalAsFullSpeed { 255 } else { 16 };
                require((1..=longest).contains(&endpoint.interval), Rule::InterruptInterval)
            }
            (_, ISOCHRONOUS) => check_isochronous(endpoint, fault),
            (_, BULK) => check_bulk(endpoint, fault),
            _ => check_interrupt(endpoint, fault),
        }
    }
}

/// Bits 10–0 up to 1,024, bits 12–11 at most 2, bits 15–13 zero.
fn high_speed_size(endpoint: &Endpoint, fault: Fault) -> bool {
    let (size, bursts) = (endpoint.packet_size & 0x07ff, endpoint.packet_size >> 11 & 3);
    let largest = if fault == Fault::HighSizeOneMore { 1025 } else { 1024 };
    let most = if fault == Fault::HighBurstsThreePass { 3 } else { 2 };
    let high_bits_zero = endpoint.packet_size >> 13 == 0 || fault == Fault::HighSizeTopBitsIgnored;
    size <= largest && bursts <= most && high_bits_zero && (bursts == 0 || fault != Fault::HighBurstsRefused)
}

/// All 16 bits count.
fn super_size(endpoint: &Endpoint, fault: Fault) -> u16 {
    match fault {
        Fault::SuperSizeByLowBits => endpoint.packet_size & 0x07ff,
        _ => endpoint.packet_size,
    }
}

fn check_isochronous(endpoint: &Endpoint, fault: Fault) -> Result<(), Rule> {
    let largest = if fault == Fault::IsochronousSizeOneMore { 1024 } else { 1023 };
    let longest = if fault == Fault::IsochronousIntervalOneMore { 17 } else { 16 };
    require(endpoint.packet_size <= largest, Rule::IsochronousPacketSize)?;
    require((1..=longest).contains(&endpoint.interval), Rule::IsochronousInterval)
}

fn check_bulk(endpoint: &Endpoint, fault: Fault) -> Result<(), Rule> {
    let size = match fault {
        Fault::BulkSizeByLowByte => endpoint.packet_size & 0xff,
        _ => endpoint.packet_size,
    };
    require([8, 16, 32, 64].contains(&size), Rule::BulkPacketSize)?;
    require(endpoint.interval > 0 || fault != Fault::BulkIntervalZeroRefused, Rule::InterruptInterval)
}

fn check_interrupt(endpoint: &Endpoint, fault: Fault) -> Result<(), Rule> {
    let largest = if fault == Fault::InterruptSizeOneMore { 65 } else { 64 };
    require(endpoint.packet_size <= largest, Rule::InterruptPacketSize)?;
    require(endpoint.interval > 0 || fault == Fault::InterruptIntervalZeroPasses, Rule::InterruptInterval)
}
