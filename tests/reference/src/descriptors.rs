//! A configuration body: its cut into descriptors, its interfaces, settings and endpoints, and their rules (group 4).

use crate::fault::Fault;
use crate::kind::Kind;
use crate::octets::number;
use crate::rule::{require, Rule};

pub const ISOCHRONOUS: u8 = 1;
pub const BULK: u8 = 2;
pub const INTERRUPT: u8 = 3;

#[derive(Clone, Debug)]
pub struct Endpoint {
    pub address: u8,
    pub attributes: u8,
    pub packet_size: u16,
    pub interval: u8,
}

/// One interface descriptor with the endpoints behind it.
#[derive(Clone, Debug)]
pub struct Setting {
    pub interface: u8,
    pub alternate: u8,
    pub endpoint_count: u8,
    pub string: u8,
    pub endpoints: Vec<Endpoint>,
}

#[derive(Clone, Debug)]
pub struct Configuration {
    pub value: u8,
    pub interface_count: u8,
    pub string: u8,
    pub attributes: u8,
    pub settings: Vec<Setting>,
}

impl Endpoint {
    fn read(descriptor: &[u8]) -> Endpoint {
        Endpoint {
            address: descriptor[2],
            attributes: descriptor[3],
            packet_size: number(descriptor, 4),
            interval: descriptor[6],
        }
    }

    pub fn transfer_type(&self) -> u8 {
        self.attributes & 3
    }

    /// Halts and toggles are kept for bulk and interrupt alone.
    pub fn has_halt(&self) -> bool {
        self.transfer_type() == BULK || self.transfer_type() == INTERRUPT
    }
}

impl Setting {
    fn read(descriptor: &[u8]) -> Setting {
        Setting {
            interface: descriptor[2],
            alternate: descriptor[3],
            endpoint_count: descriptor[4],
            string: descriptor[8],
            endpoints: Vec::new(),
        }
    }

    pub fn lists(&self, address: u8) -> bool {
        self.endpoints.iter().any(|endpoint| endpoint.address == address)
    }
}

impl Configuration {
    /// Reads a body that keeps every rule of a configuration body; else the first rule broken.
    pub fn read(kind: Kind, body: &[u8], fault: Fault) -> Result<Configuration, Rule> {
        let descriptors = cut(body, fault)?;
        let first = descriptors[0];
        check_first(first, body.len(), fault)?;
        let settings = settings(&descriptors[1..], fault)?;
        check_interfaces(first[4], &settings, fault)?;
        for endpoint in settings.iter().flat_map(|setting| &setting.endpoints) {
            check_endpoint(kind, endpoint, fault)?;
        }
        check_addresses(&settings, fault)?;
        Ok(Configuration {
            value: first[5],
            interface_count: first[4],
            string: first[6],
            attributes: first[7],
            settings,
        })
    }

    pub fn setting(&self, interface: u8, alternate: u8) -> Option<&Setting> {
        self.settings.iter().find(|setting| setting.interface == interface && setting.alternate == alternate)
    }

    pub fn settings_of(&self, interface: u8) -> impl Iterator<Item = &Setting> {
        self.settings.iter().filter(move |setting| setting.interface == interface)
    }
}

/// "Cut by bLength, every bLength at least 2 and inside the body, the last ending exactly at the body's end."
pub fn cut(body: &[u8], fault: Fault) -> Result<Vec<&[u8]>, Rule> {
    let shortest = if fault == Fault::DescriptorOfTwoBytesRefused { 3 } else { 2 };
    let mut descriptors = Vec::new();
    let mut rest = body;
    while !rest.is_empty() {
        let length = usize::from(rest[0]);
        require(length >= shortest, Rule::DescriptorLengthBelowTwo)?;
        if fault == Fault::LastOfARunNotWholePasses && length > rest.len() && is_in_a_run(&descriptors, rest) {
            break;
        }
        require(length <= rest.len(), Rule::DescriptorBeyondBody)?;
        let passed = fault == Fault::EndpointsPassedAsARun && rest[1] == 5 && is_in_a_run(&descriptors, rest);
        if !passed {
            descriptors.push(&rest[..length]);
        }
        rest = &rest[length..];
    }
    Ok(descriptors)
}

/// Whether a descriptor has the length of the class descriptor before it.
fn is_in_a_run(before: &[&[u8]], rest: &[u8]) -> bool {
    before.last().is_some_and(|last| last[1] >= 8 && rest[0] == last[0])
}

/// The configuration descriptor, which stands first.
fn check_first(first: &[u8], body_length: usize, fault: Fault) -> Result<(), Rule> {
    require(first[1] == 2, Rule::FirstDescriptorType)?;
    let longest = if fault == Fault::LongFirstDescriptorRefused { 9 } else { 255 };
    require((9..=longest).contains(&first.len()), Rule::FirstDescriptorLength)?;
    require(usize::from(number(first, 2)) == body_length, Rule::TotalLength)?;
    require(first[7] & 0x80 != 0, Rule::AttributesBitSeven)?;
    let low_bits = if fault == Fault::AttributesBitFourIgnored { 0x0f } else { 0x1f };
    require(first[7] & low_bits == 0, Rule::AttributesLowBits)?;
    let most = match fault {
        Fault::MaxPowerOneMore => 251,
        Fault::MaxPowerOneLess => 249,
        _ => 250,
    };
    require(first[8] <= most, Rule::MaxPower)
}

/// Gathers the interfaces with their endpoints; any other type is stepped over.
fn settings(descriptors: &[&[u8]], fault: Fault) -> Result<Vec<Setting>, Rule> {
    let mut settings: Vec<Setting> = Vec::new();
    for descriptor in descriptors {
        match descriptor[1] {
            6 if fault == Fault::DeviceQualifierSteppedOver => {}
            1 | 2 | 3 | 6 | 7 => return Err(Rule::DescriptorTypeRefused),
            4 => {
                require(descriptor.len() >= 9, Rule::InterfaceLength)?;
                settings.push(Setting::read(descriptor));
            }
            5 => {
                require(descriptor.len() >= 7, Rule::EndpointLength)?;
                match settings.last_mut() {
                    Some(setting) => setting.endpoints.push(Endpoint::read(descriptor)),
                    None if fault == Fault::EarlyEndpointPasses => {}
                    None => return Err(Rule::EndpointBeforeInterface),
                }
            }
            _ => {}
        }
    }
    Ok(settings)
}

/// The numbering of interfaces and alternates, and the number of endpoints behind each.
fn check_interfaces(count: u8, settings: &[Setting], fault: Fault) -> Result<(), Rule> {
    let most = match fault {
        Fault::SeventeenInterfacesPass => 17,
        Fault::SixteenInterfacesRefused => 15,
        _ => 16,
    };
    require(count >= 1, Rule::NoInterfaceCounted)?;
    require(count <= most, Rule::Over16Interfaces)?;
    let first = settings.first().ok_or(Rule::InterfaceMissing)?;
    require(first.interface == 0, Rule::FirstInterfaceNumber)?;
    require(first.alternate == 0, Rule::FirstInterfaceAlternate)?;
    for pair in settings.windows(2) {
        require(follows(&pair[0], &pair[1], fault), Rule::NextInterface)?;
    }
    let last_alternate = match fault {
        Fault::AlternateSixteenPasses => 16,
        Fault::AlternateFifteenRefused => 14,
        _ => 15,
    };
    require(settings.iter().all(|setting| setting.alternate <= last_alternate), Rule::AlternateOver15)?;
    require(settings.last().is_some_and(|last| last.interface == count - 1), Rule::LastInterface)?;
    let counted = if fault == Fault::LastSettingEndpointsNotCounted { settings.len() - 1 } else { settings.len() };
    let numbers_its_endpoints = |setting: &Setting| setting.endpoints.len() == usize::from(setting.endpoint_count);
    require(settings[..counted].iter().all(numbers_its_endpoints), Rule::EndpointCount)
}

/// "Either the same number and the alternate one higher, or the number one higher and alternate 0."
fn follows(before: &Setting, next: &Setting, fault: Fault) -> bool {
    let one_higher = |low: u8, high: u8| u16::from(low) + 1 == u16::from(high);
    let starts_interface =
        next.alternate == 0 || next.alternate == 1 && fault == Fault::InterfaceMayStartAtAlternateOne;
    before.interface == next.interface && one_higher(before.alternate, next.alternate)
        || one_higher(before.interface, next.interface) && starts_interface
}

fn check_endpoint(kind: Kind, endpoint: &Endpoint, fault: Fault) -> Result<(), Rule> {
    require(endpoint.address & 0x70 == 0, Rule::EndpointAddressBits)?;
    require(endpoint.address & 0x0f != 0, Rule::EndpointNumberZero)?;
    require(endpoint.attributes & 0xc0 == 0, Rule::EndpointAttributesHighBits)?;
    require(endpoint.transfer_type() != 0, Rule::EndpointControl)?;
    let middle_bits_free = endpoint.transfer_type() == ISOCHRONOUS && fault != Fault::IsochronousMiddleBitsRefused;
    require(endpoint.attributes & 0x3c == 0 || middle_bits_free, Rule::EndpointMiddleBits)?;
    kind.check_endpoint(endpoint, fault)
}

/// "An address occurs once in a setting and in no second interface of the same configuration."
fn check_addresses(settings: &[Setting], fault: Fault) -> Result<(), Rule> {
    for (at, setting) in settings.iter().enumerate() {
        for (place, endpoint) in setting.endpoints.iter().enumerate() {
            let repeated = |other: &Endpoint| same_address(endpoint, other, fault);
            require(!setting.endpoints[..place].iter().any(repeated), Rule::AddressTwiceInSetting)?;
            for other in settings[..at].iter().filter(|other| apart(other, setting, fault)) {
                require(!other.lists(endpoint.address), Rule::AddressInSecondInterface)?;
            }
        }
    }
    Ok(())
}

fn same_address(one: &Endpoint, other: &Endpoint, fault: Fault) -> bool {
    let direction = if fault == Fault::AddressWithoutDirectionInSetting { 0x80 } else { 0 };
    one.address | direction == other.address | direction
}

/// Whether two settings may not share an address.
fn apart(before: &Setting, setting: &Setting, fault: Fault) -> bool {
    match fault {
        Fault::AddressTwiceInAlternatesRefused => true,
        Fault::AddressComparedWithLastInterfaceOnly => before.interface + 1 == setting.interface,
        Fault::AddressComparedInFirstSettingsOnly => {
            before.interface != setting.interface && before.alternate == 0 && setting.alternate == 0
        }
        _ => before.interface != setting.interface,
    }
}
