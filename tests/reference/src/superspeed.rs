//! SuperSpeed sets (document 02, L13): the BOS entry and the companions, and opening with them.

use crate::descriptors::{cut, Configuration};
use crate::events::{Lent, Outcome};
use crate::fault::Fault;
use crate::kind::Kind;
use crate::octets::number;
use crate::opening::{Board, Entry, CONFIGURATION, STORE};
use crate::record::{Record, IMAGE_LENGTH};
use crate::rule::Rule;

const ENDPOINT: u8 = 5;
const COMPANION: u8 = 48;

/// Why a set is refused: a rule that other kinds have too, or one of this kind's own.
#[derive(Clone, Copy, PartialEq, Eq, Debug)]
pub enum Broken {
    Common(Rule),
    StoreMissing,
    StoreRepeated,
    StoreIndex,
    StoreLanguage,
    StoreLength,
    StoreTotal,
    CompanionMissing,
    CompanionShort,
    CompanionElsewhere,
}

impl Broken {
    pub const OWN: [Broken; 9] = [
        Broken::StoreMissing,
        Broken::StoreRepeated,
        Broken::StoreIndex,
        Broken::StoreLanguage,
        Broken::StoreLength,
        Broken::StoreTotal,
        Broken::CompanionMissing,
        Broken::CompanionShort,
        Broken::CompanionElsewhere,
    ];

    /// "A broken BOS entry gives 3, a companion 4."
    pub fn group(self) -> u8 {
        match self {
            Broken::Common(rule) => rule.group(),
            Broken::CompanionMissing | Broken::CompanionShort | Broken::CompanionElsewhere => 4,
            _ => 3,
        }
    }
}

/// "There is one BOS entry (type 15, index 0, language 0, at least 5 bytes, bytes 2–3 its length)."
fn store_fault(set: &[u8], entries: &[Entry], fault: Fault) -> Option<Broken> {
    let stores: Vec<&Entry> = entries.iter().filter(|entry| entry.descriptor_type == STORE).collect();
    let Some(store) = stores.first() else {
        return (fault != Fault::StoreMissingPasses).then_some(Broken::StoreMissing);
    };
    let body = store.body(set);
    let shortest = if fault == Fault::StoreOfFourBytesPasses { 4 } else { 5 };
    let total = match fault {
        Fault::StoreTotalByLowByte => usize::from(body.get(2).copied().unwrap_or(0)) == body.len() % 256,
        Fault::StoreTotalIgnored => true,
        _ => body.len() >= 4 && usize::from(number(body, 2)) == body.len(),
    };
    let own_type = body[1] == STORE || fault != Fault::StoreTypeByteJudged;
    let broken = [
        (stores.len() > 1 && fault != Fault::StoreTwicePasses, Broken::StoreRepeated),
        (store.index != 0 && fault != Fault::StoreIndexIgnored, Broken::StoreIndex),
        (store.language != 0 && fault != Fault::StoreLanguageIgnored, Broken::StoreLanguage),
        (body.len() < shortest, Broken::StoreLength),
        (!total || !own_type, Broken::StoreTotal),
    ];
    broken.into_iter().find(|(is_broken, _)| *is_broken).map(|(_, rule)| rule)
}

/// "A companion (type 48, at least 6 bytes) stands directly after every endpoint and nowhere else." None where the body is not cut.
fn companion_fault(body: &[u8], fault: Fault) -> Option<Broken> {
    let descriptors = cut(body, Fault::None).ok()?;
    let shortest = if fault == Fault::CompanionOfFiveBytesPasses { 5 } else { 6 };
    let mut places = Vec::new();
    for (at, descriptor) in descriptors.iter().enumerate().filter(|(_, descriptor)| descriptor[1] == ENDPOINT) {
        let mut next = at + 1;
        while fault == Fault::CompanionMayComeLater && descriptors.get(next).is_some_and(|next| ![4, 5, COMPANION].contains(&next[1])) {
            next += 1;
        }
        places.push(next);
        match descriptors.get(next) {
            None if fault == Fault::LastCompanionMissingPasses => {}
            Some(companion) if companion[1] == COMPANION => {
                if companion.len() < shortest {
                    return Some(Broken::CompanionShort);
                }
            }
            _ if fault == Fault::IsochronousNeedsNoCompanion && descriptor.get(3).is_some_and(|attributes| attributes & 3 == 1) => {}
            _ => return Some(Broken::CompanionMissing),
        }
    }
    let stray = |&(at, descriptor): &(usize, &&[u8])| {
        let second = at > 0 && places.contains(&(at - 1)) && fault == Fault::SecondCompanionPasses;
        descriptor[1] == COMPANION && !places.contains(&at) && !second
    };
    let elsewhere = descriptors.iter().enumerate().any(|found| stray(&found));
    (elsewhere && fault != Fault::StrayCompanionPasses).then_some(Broken::CompanionElsewhere)
}

/// The groups in order; the kind's own rules stand in groups 3 and 4.
pub fn open(set: &[u8], serial: &[u8], fault: Fault) -> Result<Board, Broken> {
    let entries = Board::contents_of(Kind::Super, set, fault).map_err(Broken::Common)?;
    let opened = Board::open_as(Kind::Super, set, serial, fault).map_err(Broken::Common);
    let group = opened.as_ref().map_or_else(|broken| broken.group(), |_| 7);
    let store = store_fault(set, &entries, fault);
    let late = |after: u8| match fault {
        Fault::StoreAfterConfigurations => after > 4,
        _ => true,
    };
    if let Some(broken) = store.filter(|_| late(group)) {
        return Err(broken);
    }
    if group == 3 {
        return opened;
    }
    let bodies = entries.iter().filter(|entry| entry.descriptor_type == CONFIGURATION);
    let companion = bodies.filter_map(|entry| companion_fault(entry.body(set), fault)).next();
    let judged = fault != Fault::CompanionsAfterStrings || group > 5;
    if let Some(broken) = companion.filter(|_| judged) {
        return Err(broken);
    }
    opened
}

/// The configurations of an accepted set, or the number.
pub fn configurations(set: &[u8], serial: &[u8], fault: Fault) -> Result<Vec<Configuration>, u8> {
    open(set, serial, fault).map(|board| board.configurations).map_err(|broken| broken.group())
}

/// hk_super_open.
pub fn open_image(lent: &Lent, image: &[u8]) -> Outcome {
    if image.len() != IMAGE_LENGTH {
        return Outcome::new(8, image.to_vec());
    }
    let number = open(&lent.set, &lent.serial, lent.fault).map_or_else(|broken| broken.group(), |_| 0);
    if number > 0 && lent.fault == Fault::SuperRefusalKeepsImage {
        return Outcome::new(number, image.to_vec());
    }
    Outcome::new(number, Record::fresh().image())
}
