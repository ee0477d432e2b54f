//! The device record, its 32-byte image, and whether it fits a board.

use crate::descriptors::{Configuration, Endpoint, Setting};
use crate::fault::Fault;
use crate::octets::wide_number;
use crate::opening::Board;

pub const IMAGE_LENGTH: usize = 32;
pub const NOTHING_WAITS: u8 = 255;

pub const DEFAULT: u8 = 0;
pub const ADDRESS: u8 = 1;
pub const CONFIGURED: u8 = 2;

pub const FULL_SPEED: u8 = 0;
pub const HIGH_SPEED: u8 = 1;

/// "It waits for the status end as 128 plus the selector in byte 2."
pub fn waiting_test(selector: u8) -> u8 {
    128 + selector
}

/// "Once entered, byte 7 is 1 plus 16 times the selector."
pub fn entered_test(selector: u8) -> u8 {
    HIGH_SPEED + 16 * selector
}

#[derive(Clone, PartialEq, Eq, Debug)]
pub struct Record {
    pub state: u8,
    pub address: u8,
    pub waiting: u8,
    pub configuration: u8,
    pub wakeup: u8,
    /// 0 the bus, 1 its own supply.
    pub power: u8,
    pub suspended: u8,
    /// 0 full speed, 1 high speed, 1 plus 16 times the selector in a test mode.
    pub speed: u8,
    pub alternates: [u8; 16],
    pub halts: u32,
    pub toggles: u32,
}

/// The bit of an endpoint address: e for OUT number e, 16 + e for IN.
pub fn bit(address: u8) -> u32 {
    let direction = if address & 0x80 != 0 { 16 } else { 0 };
    1 << (direction + u32::from(address & 15))
}

impl Record {
    pub fn fresh() -> Record {
        Record {
            state: DEFAULT,
            address: 0,
            waiting: NOTHING_WAITS,
            configuration: 0,
            wakeup: 0,
            power: 0,
            suspended: 0,
            speed: FULL_SPEED,
            alternates: [0; 16],
            halts: 0,
            toggles: 0,
        }
    }

    /// Any 32 bytes are the image of one record.
    pub fn read(image: &[u8]) -> Option<Record> {
        let image: &[u8; IMAGE_LENGTH] = image.try_into().ok()?;
        let mut alternates = [0; 16];
        alternates.copy_from_slice(&image[8..24]);
        Some(Record {
            state: image[0],
            address: image[1],
            waiting: image[2],
            configuration: image[3],
            wakeup: image[4],
            power: image[5],
            suspended: image[6],
            speed: image[7],
            alternates,
            halts: wide_number(image, 24),
            toggles: wide_number(image, 28),
        })
    }

    pub fn image(&self) -> Vec<u8> {
        let mut image = vec![self.state, self.address, self.waiting, self.configuration, self.wakeup, self.power];
        image.extend([self.suspended, self.speed]);
        image.extend(self.alternates);
        image.extend(self.halts.to_le_bytes());
        image.extend(self.toggles.to_le_bytes());
        image
    }

    pub fn fits(&self, board: &Board) -> bool {
        self.state_fits(board)
            && self.waiting_fits(board)
            && (self.wakeup == 0 || self.wakeup == 1 && wakeup_fits(board))
            && self.power_fits(board)
            && self.suspended_fits(board.fault)
            && self.speed_fits(board)
            && (0..16).all(|interface| self.alternate_fits(board, interface))
            && self.halts & !self.bits_that_may_stand(board, Fault::HaltOfOtherSettingFits) == 0
            && self.toggles & !self.bits_that_may_stand(board, Fault::IsochronousToggleFits) == 0
    }

    fn state_fits(&self, board: &Board) -> bool {
        let has_address = (1..=127).contains(&self.address);
        match self.state {
            DEFAULT => (self.address == 0 || board.fault == Fault::AddressInDefaultFits) && self.configuration == 0,
            ADDRESS => has_address && self.configuration == 0,
            CONFIGURED => has_address && board.configuration(self.configuration).is_some(),
            _ => false,
        }
    }

    /// Nothing, an address outside Configured, or at high speed a test mode; nothing once a test mode is entered.
    fn waiting_fits(&self, board: &Board) -> bool {
        let fault = board.fault;
        let highest = if fault == Fault::Waiting128Fits { 128 } else { 127 };
        let may_wait = self.state != CONFIGURED || fault == Fault::WaitingInConfiguredFits;
        let entered = self.is_in_test_mode() && fault != Fault::WaitingInTestModeFits;
        let waits_address = may_wait && self.waiting <= highest && !entered;
        self.waiting == NOTHING_WAITS || waits_address || self.test_mode_may_wait(board)
    }

    fn test_mode_may_wait(&self, board: &Board) -> bool {
        let at_speed = match board.fault {
            Fault::TestModeWaitsAtFullSpeedFits => self.speed <= HIGH_SPEED,
            _ => self.speed == HIGH_SPEED,
        };
        let last = if board.fault == Fault::SixthTestModeFits { 6 } else { 5 };
        let in_state = self.state != CONFIGURED || board.fault != Fault::TestModeInConfiguredDoesNotFit;
        let selected = (waiting_test(1)..=waiting_test(last)).contains(&self.waiting);
        board.is_paired() && at_speed && in_state && selected
    }

    /// 0 where one set is lent.
    fn speed_fits(&self, board: &Board) -> bool {
        match board.fault {
            Fault::ZeroBytesIgnored if !board.is_paired() => return true,
            Fault::HighSpeedAloneFits if !board.is_paired() => return self.speed <= HIGH_SPEED,
            Fault::AnySpeedFits if board.is_paired() => return true,
            _ => {}
        }
        let last = if board.fault == Fault::SixthTestModeFits { 6 } else { 5 };
        let at_high = self.speed == HIGH_SPEED || (1..=last).any(|selector| self.speed == entered_test(selector));
        self.speed == FULL_SPEED || board.is_paired() && at_high
    }

    pub fn is_in_test_mode(&self) -> bool {
        self.speed > HIGH_SPEED
    }

    pub fn waits_for_test_mode(&self) -> bool {
        self.waiting > 127 && self.waiting != NOTHING_WAITS
    }

    /// "Fitting a record now allows 0 or 1 there", whatever the configurations promise.
    fn power_fits(&self, board: &Board) -> bool {
        match board.fault {
            Fault::PowerTwoFits => self.power <= 2,
            Fault::OwnSupplyDoesNotFit => self.power == 0,
            Fault::OwnSupplyFitsSelfPoweredOnly => self.power == 0 || self.power == 1 && board.promises_own_supply(),
            _ => self.power <= 1,
        }
    }

    /// 0 or 1 in every state.
    fn suspended_fits(&self, fault: Fault) -> bool {
        match fault {
            Fault::SuspendedTwoFits => self.suspended <= 2,
            Fault::SuspendedInDefaultDoesNotFit if self.state == DEFAULT => self.suspended == 0,
            _ => self.suspended <= 1,
        }
    }

    fn alternate_fits(&self, board: &Board, interface: u8) -> bool {
        let alternate = self.alternates[usize::from(interface)];
        let exists = self.selected(board).is_some_and(|selected| interface < selected.interface_count);
        match self.selected(board) {
            Some(selected) if exists => selected.setting(interface, alternate).is_some(),
            _ => alternate == 0 || board.fault == Fault::AbsentInterfaceAlternateFits,
        }
    }

    /// The bits of the bulk and interrupt endpoints of the current settings; two faults let more stand.
    fn bits_that_may_stand(&self, board: &Board, lenient: Fault) -> u32 {
        let every_setting = lenient == Fault::HaltOfOtherSettingFits && board.fault == lenient;
        let every_type = lenient == Fault::IsochronousToggleFits && board.fault == lenient;
        let Some(selected) = self.selected(board) else { return 0 };
        let settings = selected.settings.iter().filter(|setting| every_setting || self.is_current(setting));
        let endpoints = settings.flat_map(|setting| &setting.endpoints);
        endpoints
            .filter(|endpoint| every_type || endpoint.has_halt())
            .fold(0, |bits, endpoint| bits | bit(endpoint.address))
    }

    /// The selected configuration: only Configured has one.
    pub fn selected<'a>(&self, board: &'a Board) -> Option<&'a Configuration> {
        if self.state == CONFIGURED {
            board.configuration(self.configuration)
        } else {
            None
        }
    }

    pub fn is_current(&self, setting: &Setting) -> bool {
        self.alternates[usize::from(setting.interface)] == setting.alternate
    }

    /// The endpoint that a current setting lists under this address.
    pub fn endpoint<'a>(&self, board: &'a Board, address: u8) -> Option<&'a Endpoint> {
        let selected = self.selected(board)?;
        let any_setting = board.fault == Fault::EndpointOfAnySetting;
        let mut current = selected.settings.iter().filter(|setting| any_setting || self.is_current(setting));
        let direction = if board.fault == Fault::EndpointWithoutDirection { 0x80 } else { 0 };
        let named = |endpoint: &&Endpoint| endpoint.address | direction == address | direction;
        current.find_map(|setting| setting.endpoints.iter().find(named))
    }
}

fn wakeup_fits(board: &Board) -> bool {
    board.supports_wakeup() || board.fault == Fault::WakeupWithoutSupportFits
}
