//! The eight setup bytes and the request table: what is refused with 10, 11 and 12.

use crate::fault::Fault;
use crate::octets::number;
use crate::opening::{Board, STRING};
use crate::record::{Record, ADDRESS, CONFIGURED, DEFAULT, FULL_SPEED};

pub const SETUP_LENGTH: usize = 8;

pub const DEVICE_REMOTE_WAKEUP: u16 = 1;
pub const TEST_MODE: u16 = 2;

pub const GET_STATUS: u8 = 0x00;
pub const CLEAR_FEATURE: u8 = 0x01;
pub const SET_FEATURE: u8 = 0x03;
pub const SET_ADDRESS: u8 = 0x05;
pub const GET_DESCRIPTOR: u8 = 0x06;
pub const GET_CONFIGURATION: u8 = 0x08;
pub const SET_CONFIGURATION: u8 = 0x09;
pub const GET_INTERFACE: u8 = 0x0a;
pub const SET_INTERFACE: u8 = 0x0b;

#[derive(Clone, Copy, PartialEq, Eq, Debug)]
pub struct Setup {
    pub request_type: u8,
    pub code: u8,
    pub value: u16,
    pub index: u16,
    pub length: u16,
}

/// What the table fixes of one field.
#[derive(Clone, Copy, Debug)]
pub enum Field {
    Any,
    Is(u16),
    AtMost(u16),
    ZeroUnlessString,
}

#[derive(Clone, Copy, Debug)]
pub struct Row {
    pub request_type: u8,
    pub code: u8,
    value: Field,
    index: Field,
    length: Field,
}

const fn row(request_type: u8, code: u8, value: Field, index: Field, length: Field) -> Row {
    Row { request_type, code, value, index, length }
}

use Field::{Any, AtMost, Is, ZeroUnlessString};

pub const TABLE: [Row; 15] = [
    row(0x80, GET_STATUS, Is(0), Is(0), Is(2)),
    row(0x81, GET_STATUS, Is(0), Any, Is(2)),
    row(0x82, GET_STATUS, Is(0), Any, Is(2)),
    row(0x00, CLEAR_FEATURE, Any, Is(0), Is(0)),
    row(0x01, CLEAR_FEATURE, Any, Any, Is(0)),
    row(0x02, CLEAR_FEATURE, Any, Any, Is(0)),
    row(0x00, SET_FEATURE, Any, Is(0), Is(0)),
    row(0x01, SET_FEATURE, Any, Any, Is(0)),
    row(0x02, SET_FEATURE, Any, Any, Is(0)),
    row(0x00, SET_ADDRESS, AtMost(127), Is(0), Is(0)),
    row(0x80, GET_DESCRIPTOR, Any, ZeroUnlessString, Any),
    row(0x80, GET_CONFIGURATION, Is(0), Is(0), Is(1)),
    row(0x00, SET_CONFIGURATION, AtMost(255), Is(0), Is(0)),
    row(0x81, GET_INTERFACE, Is(0), Any, Is(1)),
    row(0x01, SET_INTERFACE, Any, Any, Is(0)),
];

impl Setup {
    pub fn read(bytes: &[u8]) -> Option<Setup> {
        if bytes.len() != SETUP_LENGTH {
            return None;
        }
        Some(Setup {
            request_type: bytes[0],
            code: bytes[1],
            value: number(bytes, 2),
            index: number(bytes, 4),
            length: number(bytes, 6),
        })
    }

    pub fn bytes(&self) -> Vec<u8> {
        let mut bytes = vec![self.request_type, self.code];
        for field in [self.value, self.index, self.length] {
            bytes.extend(field.to_le_bytes());
        }
        bytes
    }

    /// Device, interface, endpoint or another recipient: bits 4–0 of bmRequestType.
    pub fn recipient(&self) -> u8 {
        self.request_type & 0x1f
    }

    /// SET_FEATURE(TEST_MODE), which boards with two sets know; the selector is wIndex's high byte.
    pub fn asks_test_mode(&self, board: &Board) -> bool {
        let feature = if board.fault == Fault::TestModeByLowByte { self.value & 0xff } else { self.value };
        let known = board.is_paired() || board.fault == Fault::TestModeAlone;
        known && (self.request_type, self.code, feature) == (0x00, SET_FEATURE, TEST_MODE)
    }
}

impl Field {
    fn allows(self, field: u16, setup: &Setup) -> bool {
        match self {
            Any => true,
            Is(fixed) => field == fixed,
            AtMost(most) => field <= most,
            ZeroUnlessString => field == 0 || setup.value >> 8 == u16::from(STRING),
        }
    }
}

impl Row {
    fn allows(&self, setup: &Setup, fault: Fault) -> bool {
        let value = match (self.code, fault) {
            (SET_ADDRESS, Fault::HighestAddressOneMore) => AtMost(128),
            (SET_ADDRESS, Fault::HighestAddressOneLess) => AtMost(126),
            (SET_CONFIGURATION, Fault::LargeConfigurationValueDoesNotExist) => Any,
            _ => self.value,
        };
        let index = match (self.code, fault) {
            (GET_DESCRIPTOR, Fault::StringNeedsIndexZero) => Is(0),
            (GET_DESCRIPTOR, Fault::OtherTypesAllowAnyIndex) => Any,
            _ => self.index,
        };
        let asks_nothing = self.code == GET_DESCRIPTOR && setup.length == 0 && fault == Fault::AskedLengthZeroRefused;
        value.allows(setup.value, setup)
            && index.allows(setup.index, setup)
            && self.length.allows(setup.length, setup)
            && !asks_nothing
    }
}

/// "Default allows 05 and 06. Address allows all but 0A and 0B. Configured allows all but 05."
fn allowed_in(state: u8, code: u8, fault: Fault) -> bool {
    match state {
        DEFAULT => code == SET_ADDRESS || code == GET_DESCRIPTOR,
        ADDRESS => {
            let early = code == GET_INTERFACE && fault == Fault::GetInterfaceInAddressDoesNotExist;
            early || code != GET_INTERFACE && code != SET_INTERFACE
        }
        CONFIGURED => code != SET_ADDRESS || fault == Fault::SetAddressInConfigured,
        _ => false,
    }
}

/// "At high speed passes the state check in all three states", and "needs wIndex's low byte 0 (else 12)".
fn check_test_mode(setup: &Setup, record: &Record, fault: Fault) -> Result<(), u8> {
    let right = match fault {
        Fault::TestModeNeedsIndexZero => setup.index == 0 && setup.length == 0,
        Fault::TestModeLowByteIgnored => setup.length == 0,
        _ => setup.index & 0xff == 0 && setup.length == 0,
    };
    let passes_state = record.speed != FULL_SPEED && fault != Fault::TestModeInDefaultRefused;
    if fault == Fault::TestModeFieldsBeforeState && !right {
        return Err(12);
    }
    if !passes_state && !allowed_in(record.state, setup.code, fault) {
        return Err(11);
    }
    if fault == Fault::TestModeSelectorBeforeFields && !(1..=5).contains(&(setup.index >> 8)) {
        return Err(14);
    }
    if right {
        Ok(())
    } else {
        Err(12)
    }
}

/// The order is 10, 11, 12.
pub fn check(setup: &Setup, record: &Record, board: &Board) -> Result<(), u8> {
    let fault = board.fault;
    let same = |row: &&Row| (row.request_type, row.code) == (setup.request_type, setup.code);
    let row = TABLE.iter().find(same).ok_or(10)?;
    if setup.asks_test_mode(board) {
        return check_test_mode(setup, record, fault);
    }
    if fault == Fault::FieldsBeforeState && !row.allows(setup, fault) {
        return Err(12);
    }
    if !allowed_in(record.state, setup.code, fault) {
        return Err(11);
    }
    if row.allows(setup, fault) {
        Ok(())
    } else {
        Err(12)
    }
}
