//! What is lent as one input: one set, or a full-speed and a high-speed one; of two, that their types 6 and 7 agree (24).

use crate::events::Block;
use crate::fault::Fault;
use crate::kind::Kind;
use crate::opening::{Board, Entry, CONFIGURATION, OTHER_SPEED, QUALIFIER};
use crate::rule::{require, Rule};

/// The board of the one set, or one for each speed.
#[derive(Clone, Debug)]
pub struct Boards {
    pub full: Board,
    pub high: Option<Board>,
}

/// The first rule broken, and the set that breaks it.
#[derive(Clone, Copy, PartialEq, Eq, Debug)]
pub struct Refused {
    pub rule: Rule,
    pub block: Block,
}

impl Refused {
    /// The number that opening gives back.
    pub fn number(self) -> u8 {
        self.rule.group()
    }
}

impl Boards {
    pub fn open_alone(set: &[u8], serial: &[u8], fault: Fault) -> Result<Boards, Refused> {
        let opened = Board::open(set, serial, fault);
        opened.map(|full| Boards { full, high: None }).map_err(|rule| Refused { rule, block: Block::Set })
    }

    /// "Opening gives the full-speed set's 1–6, the other's, then 24 if types 6 and 7 are not as said."
    pub fn open_pair(set: &[u8], high: &[u8], serial: &[u8], fault: Fault) -> Result<Boards, Refused> {
        let in_block = |block| move |rule| Refused { rule, block };
        let open_full = || Board::open_as(Kind::PairedFull, set, serial, fault).map_err(in_block(Block::Set));
        let kind = if fault == Fault::HighSetByFullLimits { Kind::PairedFull } else { Kind::PairedHigh };
        let open_high = || Board::open_as(kind, high, serial, fault).map_err(in_block(Block::High));
        let (full, other) = match fault {
            Fault::HighSetOpenedFirst => {
                let other = open_high()?;
                (open_full()?, other)
            }
            Fault::AgreementBeforeHighSet => {
                let full = open_full()?;
                let contents = Board::contents_of(Kind::PairedHigh, high, fault);
                if let Ok(entries) = &contents {
                    check_qualifier(set, &full.entries, high, entries, fault).map_err(in_block(Block::Set))?;
                }
                (full, open_high()?)
            }
            _ => (open_full()?, open_high()?),
        };
        agrees(set, &full.entries, high, &other.entries, fault).map_err(in_block(Block::Set))?;
        if fault != Fault::HighSetDoesNotMirror {
            agrees(high, &other.entries, set, &full.entries, fault).map_err(in_block(Block::High))?;
        }
        Ok(Boards { full, high: Some(other) })
    }

    /// The board in use, by record byte 7: 0 full speed, else high.
    pub fn in_use(&self, speed: u8) -> &Board {
        match &self.high {
            Some(high) if speed != 0 => high,
            _ => &self.full,
        }
    }
}

/// A set's types 6 and 7 are those that go with the other set.
fn agrees(set: &[u8], entries: &[Entry], other: &[u8], others: &[Entry], fault: Fault) -> Result<(), Rule> {
    check_qualifier(set, entries, other, others, fault)?;
    check_other_speed(set, entries, other, others, fault)
}

fn of_type(entries: &[Entry], wanted: u8) -> Vec<&Entry> {
    entries.iter().filter(|entry| entry.descriptor_type == wanted).collect()
}

/// "Its type 6 fields equal those of the other's device descriptor, last byte 0."
fn check_qualifier(set: &[u8], entries: &[Entry], other: &[u8], others: &[Entry], fault: Fault) -> Result<(), Rule> {
    let qualifiers = of_type(entries, QUALIFIER);
    let missing_passes = fault == Fault::QualifierMissingPasses && qualifiers.is_empty();
    if missing_passes {
        return Ok(());
    }
    require(!qualifiers.is_empty(), Rule::QualifierMissing)?;
    require(qualifiers.len() == 1 || fault == Fault::SecondQualifierPasses, Rule::QualifierRepeated)?;
    let qualifier = qualifiers[0];
    require(qualifier.index == 0 || fault == Fault::QualifierIndexIgnored, Rule::QualifierIndex)?;
    require(qualifier.language == 0, Rule::QualifierLanguage)?;
    let body = qualifier.body(set);
    require(body.len() == 10, Rule::QualifierBodyLength)?;
    require(body[0] == 10 || fault == Fault::QualifierLengthByteIgnored, Rule::QualifierLengthByte)?;
    require(body[1] == QUALIFIER, Rule::QualifierTypeByte)?;
    // types ascend, so the device stands first
    let device = if fault == Fault::QualifierOfOwnDevice { entries[0].body(set) } else { others[0].body(other) };
    if device.len() < 18 {
        return Err(Rule::QualifierFields);
    }
    let size_ignored = fault == Fault::QualifierPacketSizeIgnored;
    let compared = if size_ignored { 2..7 } else { 2..8 };
    require(body[compared.clone()] == device[compared], Rule::QualifierFields)?;
    require(body[8] == device[17] || fault == Fault::QualifierCountIgnored, Rule::QualifierConfigurations)?;
    require(body[9] == 0 || fault == Fault::QualifierLastByteIgnored, Rule::QualifierLastByte)
}

/// "Each set's type 7 bodies equal the other's type 2 bodies but for their type byte."
fn check_other_speed(set: &[u8], entries: &[Entry], other: &[u8], others: &[Entry], fault: Fault) -> Result<(), Rule> {
    let mirrors = of_type(entries, OTHER_SPEED);
    let mirrored = of_type(others, CONFIGURATION);
    let most = fault == Fault::OtherSpeedFewerPass && mirrors.len() < mirrored.len();
    require(mirrors.len() == mirrored.len() || most, Rule::OtherSpeedCount)?;
    for (mirror, configuration) in mirrors.iter().zip(&mirrored) {
        require(mirror.index == configuration.index, Rule::OtherSpeedIndex)?;
        require(mirror.language == 0 || fault == Fault::OtherSpeedLanguageIgnored, Rule::OtherSpeedLanguage)?;
        let (body, original) = (mirror.body(set), configuration.body(other));
        require(body.len() == original.len(), Rule::OtherSpeedLength)?;
        let type_byte = match fault {
            Fault::OtherSpeedTypeByteTwo => CONFIGURATION,
            Fault::OtherSpeedTypeByteIgnored => body[1],
            _ => OTHER_SPEED,
        };
        require(body[1] == type_byte, Rule::OtherSpeedTypeByte)?;
        let last = if fault == Fault::OtherSpeedLastByteIgnored { body.len() - 1 } else { body.len() };
        let same = body[0] == original[0] && body[2..last] == original[2..last];
        require(same || fault == Fault::OtherSpeedBytesIgnored, Rule::OtherSpeedBytes)?;
        if fault == Fault::OtherSpeedFirstOnly {
            break;
        }
    }
    Ok(())
}
