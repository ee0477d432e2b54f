//! Opening and every event, as the C boundary shows them: the number, the bytes, the part and the image left.

use crate::descriptors::Endpoint;
use crate::fault::Fault;
use crate::opening::{Board, CONFIGURATION, DEVICE, OTHER_SPEED, QUALIFIER, STRING};
use crate::pair::{Boards, Refused};
use crate::record::{bit, entered_test, waiting_test, Record};
use crate::record::{ADDRESS, CONFIGURED, DEFAULT, FULL_SPEED, HIGH_SPEED, IMAGE_LENGTH, NOTHING_WAITS};
use crate::requests::{self, Setup, SETUP_LENGTH};

#[derive(Clone, PartialEq, Eq, Debug)]
pub enum Event {
    Setup(Vec<u8>),
    StatusEnd,
    /// The speed: 0 full, 1 high.
    BusReset(u8),
    Halt(u8),
    PacketPassed(u8),
    /// The power source: 0 the bus, 1 its own supply.
    Power(u8),
    Suspend,
    Resume,
    Wake,
    /// A number that is no event's, with the value and the setup passed beside it.
    Other {
        number: u8,
        value: u8,
        setup: Vec<u8>,
    },
}

impl Event {
    /// The event that a call by number names; what it does not read is not looked at.
    pub fn of_number(number: u8, value: u8, setup: &[u8]) -> Event {
        match number {
            0 => Event::Setup(setup.to_vec()),
            1 => Event::StatusEnd,
            2 => Event::BusReset(value),
            3 => Event::Halt(value),
            4 => Event::PacketPassed(value),
            5 => Event::Power(value),
            6 => Event::Suspend,
            7 => Event::Resume,
            8 => Event::Wake,
            _ => Event::Other { number, value, setup: setup.to_vec() },
        }
    }

    /// The number, the value and the setup that name the event.
    pub fn numbered(&self) -> (u8, u8, &[u8]) {
        match self {
            Event::Setup(setup) => (0, 0, setup),
            Event::StatusEnd => (1, 0, &[]),
            Event::BusReset(speed) => (2, *speed, &[]),
            Event::Halt(address) => (3, *address, &[]),
            Event::PacketPassed(address) => (4, *address, &[]),
            Event::Power(source) => (5, *source, &[]),
            Event::Suspend => (6, 0, &[]),
            Event::Resume => (7, 0, &[]),
            Event::Wake => (8, 0, &[]),
            Event::Other { number, value, setup } => (*number, *value, setup),
        }
    }

    /// Whether a call by number looks at the value.
    pub fn reads_value(&self) -> bool {
        matches!(self, Event::BusReset(_) | Event::Halt(_) | Event::PacketPassed(_) | Event::Power(_))
    }
}

#[derive(Clone, Copy, PartialEq, Eq, Debug)]
pub enum Block {
    Set,
    Serial,
    Reply,
    High,
}

#[derive(Clone, Copy, PartialEq, Eq, Debug)]
pub struct Part {
    pub block: Block,
    pub offset: usize,
    pub length: usize,
}

/// What a call gives back and leaves.
#[derive(Clone, PartialEq, Eq, Debug)]
pub struct Outcome {
    pub number: u8,
    pub bytes: Vec<u8>,
    pub part: Option<Part>,
    pub image: Vec<u8>,
}

#[derive(PartialEq, Eq, Debug)]
enum Reply {
    Nothing,
    Bytes(Vec<u8>),
    Part(Part),
}

/// A reply, or the number of the refusal.
type Answer = Result<Reply, u8>;

/// One set or two and a serial block as they are lent, opened once.
#[derive(Clone, Debug)]
pub struct Lent {
    /// The one set, or the full-speed one.
    pub set: Vec<u8>,
    pub high: Option<Vec<u8>>,
    pub serial: Vec<u8>,
    pub opened: Result<Boards, Refused>,
    pub fault: Fault,
}

impl Outcome {
    pub fn new(number: u8, image: Vec<u8>) -> Outcome {
        Outcome { number, bytes: Vec::new(), part: None, image }
    }
}

impl Lent {
    pub fn new(set: Vec<u8>, serial: Vec<u8>, fault: Fault) -> Lent {
        let opened = Boards::open_alone(&set, &serial, fault);
        Lent { set, high: None, serial, opened, fault }
    }

    /// "The two sets are one accepted input."
    pub fn two(set: Vec<u8>, high: Vec<u8>, serial: Vec<u8>, fault: Fault) -> Lent {
        let opened = Boards::open_pair(&set, &high, &serial, fault);
        Lent { set, high: Some(high), serial, opened, fault }
    }

    /// The slice of that set.
    pub fn slice(&self, block: Block) -> &[u8] {
        match (&self.high, block) {
            (Some(high), Block::High) => high,
            _ => &self.set,
        }
    }

    /// The one set's board; of two sets there is none.
    pub fn alone(&self) -> Result<&Board, u8> {
        self.opened.as_ref().map(|boards| &boards.full).map_err(|refused| refused.number())
    }

    /// "An image not 32 bytes gives 8 before group 1; else it becomes the fresh record, accepted or not."
    pub fn open(&self, image: &[u8]) -> Outcome {
        let number = self.opened.as_ref().map_or_else(|refused| refused.number(), |_| 0);
        if image.len() != IMAGE_LENGTH {
            let late = self.fault == Fault::ImageLengthJudgedAfterGroups && number > 0;
            return Outcome::new(if late { number } else { 8 }, image.to_vec());
        }
        if number > 0 && self.fault == Fault::RefusedOpeningKeepsImage {
            return Outcome::new(number, image.to_vec());
        }
        let mut fresh = Record::fresh();
        if self.fault == Fault::OpeningKeepsPower {
            fresh.power = image[5];
        }
        if self.fault == Fault::OpeningKeepsSleep {
            fresh.suspended = image[6];
        }
        if self.fault == Fault::OpeningKeepsSpeed && self.high.is_some() {
            fresh.speed = image[7];
        }
        Outcome::new(number, fresh.image())
    }

    /// Record byte 7, but for faults.
    fn speed_looked_at(&self, record: &Record) -> u8 {
        match self.fault {
            Fault::FullSetAlwaysInUse => FULL_SPEED,
            Fault::FullSetInTestMode if record.is_in_test_mode() => FULL_SPEED,
            _ => record.speed,
        }
    }

    /// "Order: 7, 8, then for a setup 9 to 14, for a function event 16."
    pub fn event(&self, image: &[u8], event: &Event) -> Outcome {
        let unchanged = |number: u8| Outcome::new(number, image.to_vec());
        if self.fault == Fault::RecordBeforeSet && image.len() != IMAGE_LENGTH {
            return unchanged(8);
        }
        let Ok(boards) = &self.opened else { return unchanged(7) };
        let setup_length_wrong = matches!(event, Event::Setup(bytes) if bytes.len() != SETUP_LENGTH);
        if self.fault == Fault::SetupLengthBeforeRecord && setup_length_wrong {
            return unchanged(9);
        }
        let image = match self.fault {
            Fault::LongerImagePasses if image.len() > IMAGE_LENGTH => &image[..IMAGE_LENGTH],
            _ => image,
        };
        let mends = self.fault == Fault::BusResetMendsRecord && *event == Event::BusReset(FULL_SPEED);
        let Some(record) = Record::read(image) else { return unchanged(8) };
        let board = boards.in_use(self.speed_looked_at(&record));
        if !record.fits(board) && !mends {
            return unchanged(8);
        }
        Step { board, boards, record }.take(event)
    }
}

/// A record that fits the board in use, while an event changes it.
struct Step<'a> {
    board: &'a Board,
    boards: &'a Boards,
    record: Record,
}

/// The endpoint that a request names.
enum Named<'a> {
    Zero,
    Other(&'a Endpoint),
}

impl Step<'_> {
    fn take(mut self, event: &Event) -> Outcome {
        let answer = match event {
            Event::Setup(bytes) => self.setup(bytes),
            Event::StatusEnd => self.status_end(),
            Event::BusReset(speed) => self.bus_reset(*speed),
            Event::Halt(address) => self.halt(*address),
            Event::PacketPassed(address) => self.packet_passed(*address),
            Event::Power(source) => self.power(*source),
            Event::Suspend => self.suspend(),
            Event::Resume => self.resume(),
            Event::Wake => self.wake(),
            Event::Other { setup, .. } => self.unknown_event(setup),
        };
        let mut outcome = Outcome::new(0, self.record.image());
        match answer {
            Ok(Reply::Nothing) => {}
            Ok(Reply::Bytes(bytes)) => outcome.bytes = bytes,
            Ok(Reply::Part(part)) => outcome.part = Some(part),
            Err(number) => outcome.number = number,
        }
        outcome
    }

    fn has_fault(&self, fault: Fault) -> bool {
        self.board.fault == fault
    }

    /// The board in use; for the one fault, the full-speed set's.
    fn board_unless(&self, fault: Fault) -> &Board {
        if self.has_fault(fault) {
            &self.boards.full
        } else {
            self.board
        }
    }

    /// A setup of 8 bytes drops a waiting address and ends the sleep, whatever comes of it.
    fn setup(&mut self, bytes: &[u8]) -> Answer {
        let bytes = match self.board.fault {
            Fault::LongerSetupPasses if bytes.len() > SETUP_LENGTH => &bytes[..SETUP_LENGTH],
            _ => bytes,
        };
        let Some(setup) = Setup::read(bytes) else {
            if self.has_fault(Fault::WrongSetupLengthDropsWaitingAddress) {
                self.record.waiting = NOTHING_WAITS;
            }
            self.wake_up_if(Fault::WrongSetupLengthClearsSleep);
            let early = self.record.is_in_test_mode() && self.has_fault(Fault::TestModeBeforeSetupLength);
            return Err(if early { 17 } else { 9 });
        };
        let waited = self.record.waiting;
        let was_waiting_for_test = self.record.waits_for_test_mode();
        self.record.waiting = NOTHING_WAITS;
        let slept = std::mem::take(&mut self.record.suspended);
        let answer = self.answer_setup(&setup, was_waiting_for_test);
        if answer.is_err() && was_waiting_for_test && self.has_fault(Fault::RefusedSetupKeepsWaitingTestMode) {
            self.record.waiting = waited;
        }
        if answer.is_ok() && was_waiting_for_test && self.has_fault(Fault::AcceptedSetupKeepsWaitingTestMode) {
            self.record.waiting = waited;
        }
        let keeps_waiting = match &answer {
            Ok(_) => self.has_fault(Fault::AcceptedRequestKeepsWaitingAddress) && setup.code != requests::SET_ADDRESS,
            Err(10) => self.has_fault(Fault::UnknownRequestKeepsWaitingAddress),
            Err(11) => self.has_fault(Fault::RefusedStateKeepsWaitingAddress),
            Err(12) => self.has_fault(Fault::WrongFieldKeepsWaitingAddress),
            Err(_) => false,
        };
        if keeps_waiting {
            self.record.waiting = waited;
        }
        let keeps_sleep = match (&answer, self.board.fault) {
            (Ok(_), fault) => fault == Fault::AcceptedSetupKeepsSleep,
            (Err(14), Fault::RefusedFeatureKeepsSleep) => true,
            (Err(17), Fault::TestModeRefusalKeepsSleep) => true,
            (Err(_), fault) => fault == Fault::RefusedSetupKeepsSleep,
        };
        if keeps_sleep {
            self.record.suspended = slept;
        }
        answer
    }

    /// "17 any 8-byte setup once test mode is entered, after 9."
    fn answer_setup(&mut self, setup: &Setup, was_waiting_for_test: bool) -> Answer {
        let refuses = match self.board.fault {
            Fault::TestModeAnswersSetups => false,
            Fault::WaitingTestModeRefusesSetups => self.record.is_in_test_mode() || was_waiting_for_test,
            _ => self.record.is_in_test_mode(),
        };
        if refuses {
            return Err(if self.has_fault(Fault::TestModeRefusalIsOfState) { 11 } else { 17 });
        }
        requests::check(setup, &self.record, self.board)?;
        self.perform(setup)
    }

    /// Ends the sleep where only a fault would.
    fn wake_up_if(&mut self, fault: Fault) {
        if self.has_fault(fault) {
            self.record.suspended = 0;
        }
    }

    fn perform(&mut self, setup: &Setup) -> Answer {
        match (setup.request_type, setup.code) {
            (0x80, requests::GET_STATUS) => self.get_status_device(),
            (0x81, requests::GET_STATUS) => self.interface(setup.index).map(|_| Reply::Bytes(vec![0, 0])),
            (0x82, requests::GET_STATUS) => self.get_status_endpoint(setup),
            (0x00, requests::CLEAR_FEATURE) => self.feature_device(setup, 0),
            (0x00, requests::SET_FEATURE) if setup.asks_test_mode(self.board) => self.set_test_mode(setup),
            (0x00, requests::SET_FEATURE) => self.feature_device(setup, 1),
            (0x01, requests::CLEAR_FEATURE | requests::SET_FEATURE) => self.interface(setup.index).and(Err(14)),
            (0x02, requests::CLEAR_FEATURE) => self.clear_feature_endpoint(setup),
            (0x02, requests::SET_FEATURE) => self.set_feature_endpoint(setup),
            (_, requests::SET_ADDRESS) => self.set_address(setup.value),
            (_, requests::GET_DESCRIPTOR) => self.get_descriptor(setup),
            (_, requests::GET_CONFIGURATION) => Ok(Reply::Bytes(vec![self.record.configuration])),
            (_, requests::SET_CONFIGURATION) => self.set_configuration(setup.value),
            (_, requests::GET_INTERFACE) => self.get_interface(setup.index),
            _ => self.set_interface(setup),
        }
    }

    /// D0 is the power source in every state; D1 is wakeup.
    fn get_status_device(&self) -> Answer {
        let selected = self.record.selected(self.board).unwrap_or(&self.board.configurations[0]);
        let self_powered = match self.board.fault {
            Fault::SelfPoweredFromConfiguration => selected.attributes >> 6 & 1,
            Fault::SelfPoweredInConfiguredOnly if self.record.state != CONFIGURED => 0,
            _ => self.record.power,
        };
        let wakeup = if self.has_fault(Fault::WakeupNotReported) { 0 } else { self.record.wakeup };
        Ok(Reply::Bytes(vec![self_powered | wakeup << 1, 0]))
    }

    fn get_status_endpoint(&self, setup: &Setup) -> Answer {
        let halted = match self.endpoint(setup.index)? {
            Named::Zero => false,
            Named::Other(_) if self.has_fault(Fault::StatusOfAnyHalt) => self.record.halts != 0,
            Named::Other(endpoint) => endpoint.has_halt() && self.is_halted(endpoint.address),
        };
        Ok(Reply::Bytes(vec![u8::from(halted), 0]))
    }

    fn is_halted(&self, address: u8) -> bool {
        self.record.halts & bit(address) != 0
    }

    /// No packet passes there; one fault has a halt anywhere count.
    fn stops(&self, address: u8) -> bool {
        self.is_halted(address) || self.has_fault(Fault::HaltStopsEveryEndpoint) && self.record.halts != 0
    }

    /// An interface by its whole wIndex, in Configured alone.
    fn interface(&self, index: u16) -> Result<u8, u8> {
        let index = if self.has_fault(Fault::InterfaceByLowByte) { index & 0xff } else { index };
        let selected = self.record.selected(self.board).ok_or(13)?;
        let interface = u8::try_from(index).map_err(|_| 13)?;
        if interface < selected.interface_count {
            Ok(interface)
        } else {
            Err(13)
        }
    }

    /// Endpoint zero, or one in a current setting; wIndex counts whole.
    fn endpoint(&self, index: u16) -> Result<Named<'_>, u8> {
        let index = if self.has_fault(Fault::EndpointByLowByte) { index & 0xff } else { index };
        if index == 0 || index == 0x80 && !self.has_fault(Fault::EndpointZeroOnlyOut) {
            return Ok(Named::Zero);
        }
        let address = u8::try_from(index).map_err(|_| 13)?;
        self.record.endpoint(self.board, address).map(Named::Other).ok_or(13)
    }

    fn feature_device(&mut self, setup: &Setup, wakeup: u8) -> Answer {
        let supported = match self.record.selected(self.board) {
            Some(selected) if self.has_fault(Fault::WakeupOfSelectedConfigurationOnly) => {
                selected.attributes & 0x20 != 0
            }
            _ => self.board_unless(Fault::WakeupOfFullSet).supports_wakeup(),
        };
        let clears_test = self.has_fault(Fault::ClearFeatureKnowsTestMode) && self.board.is_paired() && wakeup == 0;
        if clears_test && setup.value == requests::TEST_MODE {
            return Ok(Reply::Nothing);
        }
        if self.selector(setup) != requests::DEVICE_REMOTE_WAKEUP || !supported {
            return Err(14);
        }
        self.record.wakeup = wakeup;
        Ok(Reply::Nothing)
    }

    /// "An invalid selector, or a test mode at full speed outside Default, gets 14."
    fn set_test_mode(&mut self, setup: &Setup) -> Answer {
        let selector = (setup.index >> 8) as u8;
        let selectors = match self.board.fault {
            Fault::SelectorZeroPasses => 0..=5,
            Fault::SelectorSixPasses => 1..=6,
            Fault::SelectorFiveRefused => 1..=4,
            _ => 1..=5,
        };
        let at_speed = self.record.speed == HIGH_SPEED || self.has_fault(Fault::TestModeAtFullSpeed);
        if !at_speed || !selectors.contains(&selector) {
            return Err(14);
        }
        if self.has_fault(Fault::TestModeNotInConfigured) && self.record.state == CONFIGURED {
            return Err(14);
        }
        self.record.waiting = waiting_test(selector);
        if self.has_fault(Fault::TestModeEnteredAtOnce) {
            return self.status_end();
        }
        Ok(Reply::Nothing)
    }

    fn selector(&self, setup: &Setup) -> u16 {
        if self.has_fault(Fault::FeatureByLowByte) {
            setup.value & 0xff
        } else {
            setup.value
        }
    }

    /// The endpoint whose halt a request sets or clears: 13 comes before 14.
    fn endpoint_to_halt(&self, setup: &Setup) -> Result<u8, u8> {
        let selected = self.selector(setup) == 0;
        if self.has_fault(Fault::FeatureBeforeExistence) && !selected {
            return Err(14);
        }
        match self.endpoint(setup.index)? {
            Named::Other(endpoint)
                if selected && (endpoint.has_halt() || self.has_fault(Fault::IsochronousMayHalt)) =>
            {
                Ok(endpoint.address)
            }
            Named::Zero if selected && self.has_fault(Fault::EndpointZeroMayHalt) => Ok(0),
            _ => Err(14),
        }
    }

    /// "Clearing a halt sets the toggle to 0, halted or not."
    fn clear_feature_endpoint(&mut self, setup: &Setup) -> Answer {
        let address = self.endpoint_to_halt(setup)?;
        if self.is_halted(address) || !self.has_fault(Fault::ToggleClearedOnlyIfHalted) {
            self.record.toggles &= !bit(address);
        }
        self.record.halts &= !bit(address);
        Ok(Reply::Nothing)
    }

    /// "Setting one keeps the toggle."
    fn set_feature_endpoint(&mut self, setup: &Setup) -> Answer {
        let address = self.endpoint_to_halt(setup)?;
        self.record.halts |= bit(address);
        if self.has_fault(Fault::HaltFeatureSuspends) {
            self.record.suspended = 1;
        }
        if self.has_fault(Fault::HaltFeatureClearsToggle) {
            self.record.toggles &= !bit(address);
        }
        Ok(Reply::Nothing)
    }

    /// The address waits for the status end.
    fn set_address(&mut self, value: u16) -> Answer {
        let none = value == 0 && self.has_fault(Fault::AddressZeroWaitsAsNone);
        self.record.waiting = if none { NOTHING_WAITS } else { value as u8 };
        if self.has_fault(Fault::AddressTakenAtOnce) {
            return self.status_end();
        }
        Ok(Reply::Nothing)
    }

    fn status_end(&mut self) -> Answer {
        self.wake_up_if(Fault::StatusEndClearsSleep);
        let waited = self.record.waiting;
        if waited == NOTHING_WAITS {
            return Ok(Reply::Nothing);
        }
        if self.record.waits_for_test_mode() && !self.has_fault(Fault::StatusEndTakesTestModeAsAddress) {
            return self.enter_test_mode(waited - waiting_test(0));
        }
        self.record.address = waited;
        let leads_to_default = waited == 0 && !self.has_fault(Fault::AddressZeroLeadsToAddress);
        self.record.state = if leads_to_default { DEFAULT } else { ADDRESS };
        if !self.has_fault(Fault::StatusEndKeepsWaitingAddress) {
            self.record.waiting = NOTHING_WAITS;
        }
        if self.has_fault(Fault::StatusEndClearsWakeup) {
            self.record.wakeup = 0;
        }
        Ok(Reply::Nothing)
    }

    /// State, address and configuration stay.
    fn enter_test_mode(&mut self, selector: u8) -> Answer {
        self.record.waiting = NOTHING_WAITS;
        self.record.speed = match self.board.fault {
            Fault::EnteredTestModeWithoutSpeed => 16 * selector,
            Fault::TestModeForgottenAtStatusEnd => self.record.speed,
            _ => entered_test(selector),
        };
        match self.board.fault {
            Fault::TestModeLeadsToDefault => {
                let Record { power, suspended, speed, wakeup, .. } = self.record;
                self.record = Record { power, suspended, speed, wakeup, ..Record::fresh() };
            }
            Fault::TestModeClearsWakeup => self.record.wakeup = 0,
            Fault::TestModeClearsSleep => self.record.suspended = 0,
            _ => {}
        }
        Ok(Reply::Nothing)
    }

    /// Never more than wLength bytes, from the start of the body.
    fn get_descriptor(&self, setup: &Setup) -> Answer {
        let [index, descriptor_type] = setup.value.to_le_bytes();
        let body = match descriptor_type {
            DEVICE if self.has_fault(Fault::DeviceIndexIgnored) => self.body_in_set(DEVICE, 0, 0)?,
            DEVICE | CONFIGURATION => self.body_in_set(descriptor_type, index, 0)?,
            QUALIFIER | OTHER_SPEED => self.of_the_other_speed(descriptor_type, index)?,
            STRING => self.string(index, setup.index)?,
            _ => return Err(13),
        };
        let longest = if self.has_fault(Fault::DescriptorLongerThanAsked) { u16::MAX } else { setup.length };
        let length = body.length.min(usize::from(longest));
        let at_set = length == 0 && self.has_fault(Fault::EmptyPartStartsAtSet);
        let offset = if at_set { 0 } else { body.offset };
        Ok(Reply::Part(Part { offset, length, ..body }))
    }

    fn body_in_set(&self, descriptor_type: u8, index: u8, language: u16) -> Result<Part, u8> {
        self.body_in(self.board, descriptor_type, index, language)
    }

    fn body_in(&self, board: &Board, descriptor_type: u8, index: u8, language: u16) -> Result<Part, u8> {
        let entry = board.entry(descriptor_type, index, language).ok_or(13)?;
        let block = if self.has_fault(Fault::PartInFullSet) { Block::Set } else { board.block() };
        Ok(Part { block, offset: entry.offset, length: entry.length })
    }

    /// Types 6 and 7, from the set in use; a set lent alone has none.
    fn of_the_other_speed(&self, descriptor_type: u8, index: u8) -> Result<Part, u8> {
        let other = self.boards.in_use(u8::from(self.board.block() == Block::Set));
        match (self.board.fault, descriptor_type) {
            (Fault::QualifierDoesNotExist, QUALIFIER) => Err(13),
            (Fault::OtherSpeedDoesNotExist, OTHER_SPEED) => Err(13),
            (Fault::OtherSpeedNeedsState, _) if self.record.state == DEFAULT => Err(13),
            (Fault::QualifierIndexNotAsked, QUALIFIER) => self.body_in_set(QUALIFIER, 0, 0),
            (Fault::QualifierFromOtherSet, QUALIFIER) => self.body_in(other, QUALIFIER, index, 0),
            (Fault::OtherSpeedIsOthersConfiguration, OTHER_SPEED) if self.board.is_paired() => {
                self.body_in(other, CONFIGURATION, index, 0)
            }
            _ => self.body_in_set(descriptor_type, index, 0),
        }
    }

    /// String 0 for any wIndex; others in one listed language; the serial index is answered from the serial block.
    fn string(&self, index: u8, asked: u16) -> Result<Part, u8> {
        let board = self.board_unless(Fault::StringsOfFullSet);
        let listed = board.languages.contains(&asked);
        if index == 0 && (listed || !self.has_fault(Fault::StringZeroNeedsListedLanguage)) {
            return self.body_in(board, STRING, 0, 0);
        }
        let language = self.language_for(board, index, asked).ok_or(13)?;
        let serial_index = self.board_unless(Fault::SerialIndexOfFullSet).serial_index;
        let is_serial = index != 0 && index == serial_index;
        if is_serial && (listed || !self.has_fault(Fault::SerialNeedsListedLanguage)) {
            return Ok(Part { block: Block::Serial, offset: 0, length: board.serial_length });
        }
        self.body_in(board, STRING, index, language)
    }

    /// "In the first listed language when the asked one is not listed."
    fn language_for(&self, board: &Board, index: u8, asked: u16) -> Option<u16> {
        let languages = &board.languages;
        let stands_in = |language: &&u16| board.entry(STRING, index, **language).is_some();
        let needs_entry = self.has_fault(Fault::FallsBackThoughLanguageListed);
        if languages.contains(&asked) && (!needs_entry || stands_in(&&asked)) {
            return Some(asked);
        }
        match self.board.fault {
            Fault::UnlistedLanguageDoesNotExist => None,
            Fault::LanguageZeroDoesNotExist if asked == 0 => None,
            Fault::FallsBackToLastLanguage => languages.last().copied(),
            Fault::FallsBackToAnyLanguage => languages.iter().find(stands_in).or(languages.first()).copied(),
            _ => languages.first().copied(),
        }
    }

    /// "0 leads to Address. Either way alternates, halts and toggles become 0, also for the same value again."
    fn set_configuration(&mut self, value: u16) -> Answer {
        let value = u8::try_from(value).map_err(|_| 13)?;
        let exists = match self.board.fault {
            Fault::ConfigurationSelectedByIndex => usize::from(value) <= self.board.configurations.len(),
            _ => self.board_unless(Fault::ConfigurationOfFullSet).configuration(value).is_some(),
        };
        if value != 0 && !exists {
            return Err(13);
        }
        let same = self.record.state == CONFIGURED && self.record.configuration == value;
        if same && self.has_fault(Fault::SameConfigurationKeepsSettings) {
            return Ok(Reply::Nothing);
        }
        self.record.state = if value == 0 { ADDRESS } else { CONFIGURED };
        self.record.configuration = value;
        self.record.alternates = [0; 16];
        self.record.halts = 0;
        if value != 0 || !self.has_fault(Fault::ConfigurationZeroKeepsToggles) {
            self.record.toggles = 0;
        }
        if self.has_fault(Fault::ConfigurationClearsWakeup) {
            self.record.wakeup = 0;
        }
        if self.has_fault(Fault::ConfigurationSetsPower) {
            self.record.power = self.record.selected(self.board).map_or(0, |selected| selected.attributes >> 6 & 1);
        }
        Ok(Reply::Nothing)
    }

    fn get_interface(&self, index: u16) -> Answer {
        let interface = usize::from(self.interface(index)?);
        let highest = self.record.alternates.iter().max().copied().unwrap_or(0);
        let of_highest = self.has_fault(Fault::AlternateOfHighestInterface);
        Ok(Reply::Bytes(vec![if of_highest { highest } else { self.record.alternates[interface] }]))
    }

    fn set_interface(&mut self, setup: &Setup) -> Answer {
        let interface = self.interface(setup.index)?;
        let value = if self.has_fault(Fault::AlternateByLowByte) { setup.value & 0xff } else { setup.value };
        let alternate = u8::try_from(value).map_err(|_| 13)?;
        let selected = self.record.selected(self.board).ok_or(13)?;
        selected.setting(interface, alternate).ok_or(13)?;
        let before = std::mem::replace(&mut self.record.alternates[usize::from(interface)], alternate);
        if self.has_fault(Fault::InterfaceClearsWakeup) {
            self.record.wakeup = 0;
        }
        let neighbour = usize::from(interface ^ 1);
        let has_neighbour = selected.setting(interface ^ 1, alternate).is_some();
        if has_neighbour && self.has_fault(Fault::SettingTakenByNeighbour) {
            self.record.alternates[neighbour] = alternate;
        }
        if before == alternate && self.has_fault(Fault::HaltsClearedOnlyWhenSettingDiffers) {
            return Ok(Reply::Nothing);
        }
        let cleared = self.bits_cleared(interface, before, alternate);
        self.record.halts &= !cleared;
        if !self.has_fault(Fault::InterfaceClearsHaltsOnly) {
            self.record.toggles &= !cleared;
        }
        Ok(Reply::Nothing)
    }

    /// "All endpoints of that interface, old and new setting, same setting included."
    fn bits_cleared(&self, interface: u8, before: u8, after: u8) -> u32 {
        if self.has_fault(Fault::InterfaceClearsEveryInterface) {
            return u32::MAX;
        }
        let selected = self.record.selected(self.board).into_iter();
        let settings = selected.flat_map(|selected| selected.settings_of(interface)).filter(|setting| {
            let old = setting.alternate == before && !self.has_fault(Fault::InterfaceClearsNewSettingOnly);
            old || setting.alternate == after
        });
        settings.flat_map(|setting| &setting.endpoints).fold(0, |bits, endpoint| bits | bit(endpoint.address))
    }

    /// The fresh record at that speed; the power source stays. A valid one in a test mode changes nothing.
    fn bus_reset(&mut self, speed: u8) -> Answer {
        let speed = if self.has_fault(Fault::ResetByLowBit) { speed & 1 } else { speed };
        let allowed = match self.board.fault {
            Fault::ResetToHighAlonePasses => speed <= HIGH_SPEED,
            Fault::ResetToHighRefused => speed == FULL_SPEED,
            Fault::ResetAboveOnePasses => speed == FULL_SPEED || self.board.is_paired(),
            Fault::TestModeTakesAnyReset if self.record.is_in_test_mode() => true,
            _ => speed == FULL_SPEED || speed == HIGH_SPEED && self.board.is_paired(),
        };
        if !allowed {
            return self.refused_reset();
        }
        if self.record.is_in_test_mode() && !self.has_fault(Fault::BusResetEndsTestMode) {
            self.wake_up_if(Fault::ResetInTestModeClearsSleep);
            return if self.has_fault(Fault::ResetInTestModeRefused) { Err(17) } else { Ok(Reply::Nothing) };
        }
        let before = self.record.clone();
        let answer = self.reset_record();
        self.record.speed = match self.board.fault {
            Fault::BusResetKeepsSpeed => before.speed,
            Fault::BusResetIsToFullSpeed => FULL_SPEED,
            _ => speed.min(HIGH_SPEED),
        };
        match self.board.fault {
            Fault::ResetToHighClearsPower if speed == HIGH_SPEED => self.record.power = 0,
            Fault::BusResetKeepsWaitingTestMode if before.waits_for_test_mode() => self.record.waiting = before.waiting,
            _ => {}
        }
        answer
    }

    fn refused_reset(&mut self) -> Answer {
        match self.board.fault {
            Fault::RefusedResetIsTaken => drop(self.reset_record()),
            Fault::RefusedResetDropsWaiting => self.record.waiting = NOTHING_WAITS,
            Fault::RefusedResetClearsSleep => self.record.suspended = 0,
            _ => {}
        }
        Err(16)
    }

    fn reset_record(&mut self) -> Answer {
        let wakeup = if self.has_fault(Fault::BusResetKeepsWakeup) { self.record.wakeup } else { 0 };
        let power = if self.has_fault(Fault::BusResetClearsPower) { 0 } else { self.record.power };
        let suspended = if self.has_fault(Fault::BusResetKeepsSleep) { self.record.suspended } else { 0 };
        self.record = Record { wakeup, power, suspended, ..Record::fresh() };
        Ok(Reply::Nothing)
    }

    /// Bulk or interrupt in a current setting; keeps the toggle.
    fn halt(&mut self, address: u8) -> Answer {
        self.wake_up_if(Fault::HaltClearsSleep);
        if self.record.is_in_test_mode() && self.has_fault(Fault::TestModeRefusesFunctionEvents) {
            return Err(17);
        }
        match self.record.endpoint(self.board, address) {
            Some(endpoint) if endpoint.has_halt() => {
                self.record.halts |= bit(endpoint.address);
                if self.has_fault(Fault::HaltEventClearsToggle) {
                    self.record.toggles &= !bit(endpoint.address);
                }
                Ok(Reply::Nothing)
            }
            _ => self.unfit_endpoint(),
        }
    }

    /// Flips the toggle and ends the sleep; bulk or interrupt, current, not halted.
    fn packet_passed(&mut self, address: u8) -> Answer {
        match self.record.endpoint(self.board, address) {
            Some(endpoint)
                if (endpoint.has_halt() || self.has_fault(Fault::IsochronousPassesPackets))
                    && (!self.stops(endpoint.address) || self.has_fault(Fault::HaltedEndpointPassesPackets)) =>
            {
                self.record.toggles ^= bit(endpoint.address);
                if self.has_fault(Fault::PacketPassedDropsTestMode) {
                    self.record.waiting = NOTHING_WAITS;
                }
                if !self.has_fault(Fault::PacketPassedKeepsSleep) {
                    self.record.suspended = 0;
                }
                Ok(Reply::Nothing)
            }
            _ => {
                self.wake_up_if(Fault::RefusedPacketClearsSleep);
                self.unfit_endpoint()
            }
        }
    }

    /// Leaves every other byte; "a power event with a value above 1 gets 16".
    fn power(&mut self, source: u8) -> Answer {
        self.wake_up_if(Fault::PowerEventClearsSleep);
        let source = if self.has_fault(Fault::PowerByLowBit) { source & 1 } else { source };
        let taken = source <= 1 && !(self.has_fault(Fault::PowerInDefaultIsNotTaken) && self.record.state == DEFAULT);
        if taken || self.has_fault(Fault::RefusedPowerIsTaken) {
            self.record.power = source.min(1);
        }
        if self.has_fault(Fault::PowerEventDropsWaitingAddress) {
            self.record.waiting = NOTHING_WAITS;
        }
        if self.has_fault(Fault::PowerEventClearsWakeup) {
            self.record.wakeup = 0;
        }
        if source <= 1 {
            Ok(Reply::Nothing)
        } else {
            Err(16)
        }
    }

    /// Always done, also twice.
    fn suspend(&mut self) -> Answer {
        if self.has_fault(Fault::SuspendTwiceIsRefused) && self.record.suspended == 1 {
            return Err(19);
        }
        let drops = match self.board.fault {
            Fault::SuspendDropsWaitingAddress => true,
            Fault::SuspendDropsWaitingTestMode => self.record.waits_for_test_mode(),
            _ => false,
        };
        if drops {
            self.record.waiting = NOTHING_WAITS;
        }
        if self.has_fault(Fault::SuspendClearsWakeup) {
            self.record.wakeup = 0;
        }
        if self.record.state == CONFIGURED || !self.has_fault(Fault::SuspendInConfiguredOnly) {
            self.record.suspended = 1;
        }
        Ok(Reply::Nothing)
    }

    fn resume(&mut self) -> Answer {
        if self.has_fault(Fault::ResumeAwakeIsRefused) && self.record.suspended == 0 {
            return Err(19);
        }
        if self.has_fault(Fault::ResumeDropsWaitingAddress) {
            self.record.waiting = NOTHING_WAITS;
        }
        self.record.suspended = 0;
        Ok(Reply::Nothing)
    }

    /// "Succeeds exactly if the device is suspended and wakeup is on, and changes nothing by itself."
    fn wake(&mut self) -> Answer {
        let suspended = self.record.suspended == 1 || self.has_fault(Fault::WakeWithoutSleep);
        let wakeup = self.record.wakeup == 1 || self.has_fault(Fault::WakeWithoutWakeup);
        let in_state = self.record.state == CONFIGURED || !self.has_fault(Fault::WakeInConfiguredOnly);
        let in_mode = !self.record.is_in_test_mode() || !self.has_fault(Fault::WakeNotInTestMode);
        if suspended && wakeup && in_state && in_mode {
            self.wake_up_if(Fault::WakeClearsSleep);
            return Ok(Reply::Nothing);
        }
        if self.has_fault(Fault::RefusedWakeDropsWaitingAddress) {
            self.record.waiting = NOTHING_WAITS;
        }
        Err(19)
    }

    /// "Any other number .. is answered as a setup that is not 8 bytes", whatever setup is passed.
    fn unknown_event(&mut self, setup: &[u8]) -> Answer {
        match self.board.fault {
            Fault::UnknownEventReadsSetup => return self.setup(setup),
            Fault::UnknownEventIsDone => return Ok(Reply::Nothing),
            Fault::UnknownEventDropsWaitingAddress => self.record.waiting = NOTHING_WAITS,
            _ => {}
        }
        Err(9)
    }

    fn unfit_endpoint(&mut self) -> Answer {
        if self.has_fault(Fault::UnfitEndpointDropsWaitingAddress) {
            self.record.waiting = NOTHING_WAITS;
        }
        Err(16)
    }
}
