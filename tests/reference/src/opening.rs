//! Opening: groups 1 to 6 in order; the first rule broken, or the board that the set and the serial block describe.

use crate::descriptors::Configuration;
use crate::events::Block;
use crate::fault::Fault;
use crate::kind::Kind;
use crate::octets::number;
use crate::rule::{require, Rule};

pub const DEVICE: u8 = 1;
pub const CONFIGURATION: u8 = 2;
pub const STRING: u8 = 3;
pub const QUALIFIER: u8 = 6;
pub const OTHER_SPEED: u8 = 7;
pub const STORE: u8 = 15;

/// One line of the set's contents.
#[derive(Clone, Copy, Debug)]
pub struct Entry {
    pub descriptor_type: u8,
    pub index: u8,
    pub language: u16,
    pub offset: usize,
    pub length: usize,
}

/// What an acceptable set and serial block say.
#[derive(Clone, Debug)]
pub struct Board {
    pub entries: Vec<Entry>,
    pub configurations: Vec<Configuration>,
    pub languages: Vec<u16>,
    pub serial_index: u8,
    pub serial_length: usize,
    pub kind: Kind,
    pub fault: Fault,
}

impl Entry {
    fn read(bytes: &[u8]) -> Entry {
        Entry {
            descriptor_type: bytes[0],
            index: bytes[1],
            language: number(bytes, 2),
            offset: usize::from(number(bytes, 4)),
            length: usize::from(number(bytes, 6)),
        }
    }

    pub fn body<'a>(&self, set: &'a [u8]) -> &'a [u8] {
        &set[self.offset..self.offset + self.length]
    }
}

impl Board {
    /// The first rule broken, in the order of the groups.
    pub fn open(set: &[u8], serial: &[u8], fault: Fault) -> Result<Board, Rule> {
        Board::open_as(Kind::Alone, set, serial, fault)
    }

    pub fn open_as(kind: Kind, set: &[u8], serial: &[u8], fault: Fault) -> Result<Board, Rule> {
        let set = if fault == Fault::SetLengthSixteenBits { &set[..set.len() % 65_536] } else { set };
        check_frame(set, fault)?;
        let entries = contents(kind, set, fault)?;
        let device = device(kind, set, &entries, fault)?;
        let configurations = configurations(kind, set, &entries, fault)?;
        if fault == Fault::SerialBeforeStrings {
            check_serial(device[16], serial, fault)?;
        }
        let languages =
            Strings { set, entries: &entries, device, configurations: &configurations, fault }.languages()?;
        check_serial(device[16], serial, fault)?;
        let serial_index = device[16];
        let serial_length = serial.len();
        Ok(Board { entries, configurations, languages, serial_index, serial_length, kind, fault })
    }

    /// Groups 1 and 2 alone.
    pub fn contents_of(kind: Kind, set: &[u8], fault: Fault) -> Result<Vec<Entry>, Rule> {
        check_frame(set, fault)?;
        contents(kind, set, fault)
    }

    /// Two sets are lent.
    pub fn is_paired(&self) -> bool {
        self.kind.is_paired()
    }

    /// The slice that the bodies lie in.
    pub fn block(&self) -> Block {
        if self.kind == Kind::PairedHigh {
            Block::High
        } else {
            Block::Set
        }
    }

    /// A configuration by its bConfigurationValue, never by its index.
    pub fn configuration(&self, value: u8) -> Option<&Configuration> {
        self.configurations.iter().find(|configuration| configuration.value == value)
    }

    pub fn entry(&self, descriptor_type: u8, index: u8, language: u16) -> Option<&Entry> {
        let asked = (descriptor_type, index, language);
        self.entries.iter().find(|entry| (entry.descriptor_type, entry.index, entry.language) == asked)
    }

    /// Some configuration says that it runs on its own supply: no rule asks this, some faults do.
    pub fn promises_own_supply(&self) -> bool {
        self.configurations.iter().any(|configuration| configuration.attributes & 0x40 != 0)
    }

    /// Remote wakeup is supported when some configuration says so.
    pub fn supports_wakeup(&self) -> bool {
        self.configurations.iter().any(|configuration| configuration.attributes & 0x20 != 0)
    }
}

fn check_frame(set: &[u8], fault: Fault) -> Result<(), Rule> {
    let longest = match fault {
        Fault::LongestSetOneMore => 16_385,
        Fault::LongestSetOneLess => 16_383,
        _ => 16_384,
    };
    let most = match fault {
        Fault::MostEntriesOneMore => 65,
        Fault::MostEntriesOneLess => 63,
        _ => 64,
    };
    require(set.len() >= 4, Rule::FrameShorterThanFour)?;
    require(set.len() <= longest, Rule::FrameLongerThan16384)?;
    require(usize::from(number(set, 0)) == set.len(), Rule::FrameTotal)?;
    require(set[2] >= 1, Rule::FrameNoEntry)?;
    require(set[2] <= most, Rule::FrameOver64Entries)?;
    require(set[3] == 0 || fault == Fault::ByteThreeIgnored, Rule::FrameByteThree)?;
    require(contents_end(set) <= set.len(), Rule::FrameContentsBeyondTotal)
}

fn contents_end(set: &[u8]) -> usize {
    4 + 8 * usize::from(set[2])
}

fn contents(kind: Kind, set: &[u8], fault: Fault) -> Result<Vec<Entry>, Rule> {
    let entries: Vec<Entry> = set[4..contents_end(set)].chunks(8).map(Entry::read).collect();
    let paired = kind.is_paired() || fault == Fault::TypesOfPairAloneToo;
    let known_type = |entry: &Entry| match entry.descriptor_type {
        DEVICE..=STRING => true,
        QUALIFIER if kind == Kind::Super => fault == Fault::SuperQualifierPasses,
        QUALIFIER | OTHER_SPEED => paired,
        STORE => kind == Kind::Super || fault == Fault::StoreAloneToo,
        _ => false,
    };
    require(entries.iter().all(known_type), Rule::EntryType)?;
    require(entries.windows(2).all(|pair| ascends(&pair[0], &pair[1], fault)), Rule::EntryOrder)?;
    let shortest = if fault == Fault::EntryOfTwoBytesRefused { 3 } else { 2 };
    require(entries.iter().all(|entry| entry.length >= shortest), Rule::EntryLength)?;
    require(entries[0].offset == contents_end(set), Rule::FirstBodyOffset)?;
    let joins = |pair: &[Entry]| pair[0].offset + pair[0].length == pair[1].offset;
    require(entries.windows(2).all(joins), Rule::NextBodyOffset)?;
    let last_end = entries.last().map_or(0, |last| last.offset + last.length);
    let short_end_passes = fault == Fault::BytesBehindLastBodyPass && last_end < set.len();
    require(last_end == set.len() || short_end_passes, Rule::LastBodyEnd)?;
    Ok(entries)
}

/// "Strictly ascending by type, then language, then index."
fn ascends(one: &Entry, next: &Entry, fault: Fault) -> bool {
    let key = |entry: &Entry| match fault {
        Fault::IndexAscendsBeforeLanguage => (entry.descriptor_type, u16::from(entry.index), entry.language),
        _ => (entry.descriptor_type, entry.language, u16::from(entry.index)),
    };
    key(one) < key(next) || fault == Fault::EqualEntriesPass && key(one) == key(next)
}

fn device<'a>(kind: Kind, set: &'a [u8], entries: &[Entry], fault: Fault) -> Result<&'a [u8], Rule> {
    let count_of = |asked: u8| entries.iter().filter(|entry| entry.descriptor_type == asked).count();
    require(count_of(DEVICE) > 0, Rule::DeviceEntryMissing)?;
    require(count_of(DEVICE) == 1, Rule::DeviceEntryRepeated)?;
    // types ascend, so the device stands first
    require(entries[0].index == 0, Rule::DeviceEntryIndex)?;
    require(entries[0].language == 0, Rule::DeviceEntryLanguage)?;
    let body = entries[0].body(set);
    require(body.len() == 18, Rule::DeviceBodyLength)?;
    require(body[0] == 18, Rule::DeviceLengthByte)?;
    require(body[1] == DEVICE, Rule::DeviceTypeByte)?;
    require(kind.control_sizes(fault).contains(&body[7]), Rule::DeviceMaxPacketSize)?;
    require(body[4] != 0 || body[5] == 0 || fault == Fault::SubclassIgnored, Rule::DeviceSubclass)?;
    let most = if fault == Fault::NinthConfigurationPasses { 9 } else { 8 };
    require(body[17] >= 1, Rule::DeviceNoConfiguration)?;
    require(body[17] <= most, Rule::DeviceOver8Configurations)?;
    let counted = usize::from(body[17]) == count_of(CONFIGURATION);
    let count_ignored = fault == Fault::ConfigurationEntriesNotCounted && count_of(CONFIGURATION) > 0;
    require(counted || count_ignored, Rule::DeviceConfigurationCount)?;
    Ok(body)
}

fn configurations(kind: Kind, set: &[u8], entries: &[Entry], fault: Fault) -> Result<Vec<Configuration>, Rule> {
    let mut configurations: Vec<Configuration> = Vec::new();
    for entry in entries.iter().filter(|entry| entry.descriptor_type == CONFIGURATION) {
        require(usize::from(entry.index) == configurations.len(), Rule::ConfigurationIndex)?;
        require(entry.language == 0, Rule::ConfigurationLanguage)?;
        let configuration = Configuration::read(kind, entry.body(set), fault)?;
        let zero_passes = fault == Fault::ConfigurationValueZeroPasses;
        require(configuration.value != 0 || zero_passes, Rule::ConfigurationValueZero)?;
        let compared = match fault {
            Fault::ConfigurationValueComparedWithLastOnly => configurations.len().saturating_sub(1),
            _ => 0,
        };
        let repeated = configurations[compared..].iter().any(|other| other.value == configuration.value);
        require(!repeated, Rule::ConfigurationValueRepeated)?;
        configurations.push(configuration);
    }
    Ok(configurations)
}

/// What group 5 looks at.
struct Strings<'a> {
    set: &'a [u8],
    entries: &'a [Entry],
    device: &'a [u8],
    configurations: &'a [Configuration],
    fault: Fault,
}

impl Strings<'_> {
    fn strings(&self) -> impl Iterator<Item = &Entry> {
        self.entries.iter().filter(|entry| entry.descriptor_type == STRING)
    }

    /// The listed languages, when every rule of group 5 is kept.
    fn languages(&self) -> Result<Vec<u16>, Rule> {
        for entry in self.strings() {
            self.check_body(entry.body(self.set))?;
            require(entry.language != 0 || entry.index == 0, Rule::LanguageZeroWithIndex)?;
            let any_language = self.fault == Fault::IndexZeroInAnyLanguage;
            require(entry.index != 0 || entry.language == 0 || any_language, Rule::IndexZeroWithLanguage)?;
        }
        let Some(zero) = self.strings().find(|entry| entry.index == 0) else {
            require(self.strings().next().is_none() && !self.refers(), Rule::StringZeroMissing)?;
            return Ok(Vec::new());
        };
        let alone = self.strings().count() == 1 && !self.refers();
        require(!alone || self.fault != Fault::StringZeroAloneRefused, Rule::StringZeroMissing)?;
        let languages = listed_languages(zero.body(self.set), self.fault)?;
        self.check_entries(&languages)?;
        self.check_references(&languages)?;
        Ok(languages)
    }

    fn check_body(&self, body: &[u8]) -> Result<(), Rule> {
        require(body.len() <= 254, Rule::StringOver254)?;
        require(usize::from(body[0]) == body.len(), Rule::StringLengthByte)?;
        require(body[1] == STRING, Rule::StringTypeByte)?;
        require(body.len() % 2 == 0, Rule::StringOddLength)
    }

    fn refers(&self) -> bool {
        let serial_counts = self.fault != Fault::SerialIndexNeedsNoStringZero;
        self.references().iter().any(|&(index, _)| index != 0) || self.serial_index() != 0 && serial_counts
    }

    fn serial_index(&self) -> u8 {
        self.device[16]
    }

    /// Every reference but iSerialNumber itself, with the rule it may break.
    fn references(&self) -> Vec<(u8, Rule)> {
        let mut references =
            vec![(self.device[14], Rule::ManufacturerMissing), (self.device[15], Rule::ProductMissing)];
        let looked_at =
            if self.fault == Fault::ReferenceOfLaterConfigurationsIgnored { 1 } else { self.configurations.len() };
        for configuration in &self.configurations[..looked_at] {
            references.push((configuration.string, Rule::ConfigurationStringMissing));
            for setting in &configuration.settings {
                if setting.alternate == 0 || self.fault != Fault::ReferenceOfAlternatesIgnored {
                    references.push((setting.string, Rule::InterfaceStringMissing));
                }
            }
        }
        references
    }

    fn check_entries(&self, languages: &[u16]) -> Result<(), Rule> {
        for entry in self.strings().filter(|entry| entry.index != 0) {
            require(languages.contains(&entry.language), Rule::LanguageNotListed)?;
            let at_serial = entry.index == self.serial_index() && self.fault != Fault::SerialEntryPasses;
            require(!at_serial, Rule::SerialIndexHasEntry)?;
            if self.fault == Fault::UnusedStringNeedsEveryLanguage {
                require(self.in_every_language(entry.index, languages), Rule::LanguageNotListed)?;
            }
        }
        Ok(())
    }

    fn check_references(&self, languages: &[u16]) -> Result<(), Rule> {
        for (index, rule) in self.references() {
            let serial = index == self.serial_index() && self.fault != Fault::ReferenceToSerialNeedsEntry;
            require(index == 0 || serial || self.in_every_language(index, languages), rule)?;
        }
        Ok(())
    }

    fn in_every_language(&self, index: u8, languages: &[u16]) -> bool {
        let asked = if self.fault == Fault::ReferenceInFirstLanguageOnly { &languages[..1] } else { languages };
        asked.iter().all(|&language| self.strings().any(|entry| (entry.index, entry.language) == (index, language)))
    }
}

/// "Index 0 lists one to four languages, nonzero, strictly ascending."
fn listed_languages(body: &[u8], fault: Fault) -> Result<Vec<u16>, Rule> {
    let most = match fault {
        Fault::FifthLanguagePasses => 5,
        Fault::FourthLanguageRefused => 3,
        _ => 4,
    };
    let languages: Vec<u16> = body[2..].chunks(2).map(|pair| number(pair, 0)).collect();
    require(!languages.is_empty(), Rule::NoLanguageListed)?;
    require(languages.len() <= most, Rule::Over4Languages)?;
    require(!languages.contains(&0), Rule::LanguageZeroListed)?;
    require(languages.windows(2).all(|pair| pair[0] < pair[1]), Rule::LanguageOrder)?;
    Ok(languages)
}

/// Group 6.
fn check_serial(serial_index: u8, serial: &[u8], fault: Fault) -> Result<(), Rule> {
    if serial_index == 0 {
        return require(serial.is_empty(), Rule::SerialNotEmpty);
    }
    let shortest = if fault == Fault::SerialOfTwoBytesPasses { 2 } else { 4 };
    require(serial.len() >= shortest, Rule::SerialShorterThanFour)?;
    require(serial.len() <= 254, Rule::SerialOver254)?;
    require(serial.len() % 2 == 0 || fault == Fault::SerialOfOddLengthPasses, Rule::SerialOddLength)?;
    let length_agrees = usize::from(serial[0]) == serial.len() || fault == Fault::SerialLengthByteIgnored;
    require(length_agrees, Rule::SerialLengthByte)?;
    require(serial[1] == STRING, Rule::SerialTypeByte)
}
