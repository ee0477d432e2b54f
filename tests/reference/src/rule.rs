//! The rules of opening, each by name, so that it can be counted which of them a set broke.

macro_rules! rules {
    ($($group:literal { $($rule:ident)* })*) => {
        /// One rule of document 01, "The descriptor set", or of document 02, L7.
        #[derive(Clone, Copy, PartialEq, Eq, PartialOrd, Ord, Debug)]
        pub enum Rule { $($($rule,)*)* }

        impl Rule {
            pub const ALL: &'static [Rule] = &[$($(Rule::$rule,)*)*];

            /// The number that opening gives back for it.
            pub fn group(self) -> u8 {
                match self { $($(Rule::$rule => $group,)*)* }
            }
        }
    };
}

rules! {
    1 {
        FrameShorterThanFour FrameLongerThan16384 FrameTotal FrameNoEntry FrameOver64Entries FrameByteThree
        FrameContentsBeyondTotal
    }
    2 { EntryType EntryOrder EntryLength FirstBodyOffset NextBodyOffset LastBodyEnd }
    3 {
        DeviceEntryMissing DeviceEntryRepeated DeviceEntryIndex DeviceEntryLanguage DeviceBodyLength
        DeviceLengthByte DeviceTypeByte DeviceMaxPacketSize DeviceSubclass DeviceNoConfiguration
        DeviceOver8Configurations DeviceConfigurationCount
    }
    4 {
        ConfigurationIndex ConfigurationLanguage DescriptorLengthBelowTwo DescriptorBeyondBody
        FirstDescriptorType FirstDescriptorLength TotalLength AttributesBitSeven AttributesLowBits MaxPower
        DescriptorTypeRefused InterfaceLength EndpointLength EndpointBeforeInterface
        NoInterfaceCounted Over16Interfaces InterfaceMissing FirstInterfaceNumber FirstInterfaceAlternate
        NextInterface AlternateOver15 LastInterface EndpointCount
        EndpointAddressBits EndpointNumberZero EndpointAttributesHighBits EndpointControl EndpointMiddleBits
        BulkPacketSize InterruptPacketSize IsochronousPacketSize InterruptInterval IsochronousInterval
        AddressTwiceInSetting AddressInSecondInterface
        ConfigurationValueZero ConfigurationValueRepeated
    }
    5 {
        StringOver254 StringLengthByte StringTypeByte StringOddLength
        LanguageZeroWithIndex IndexZeroWithLanguage
        NoLanguageListed Over4Languages LanguageZeroListed LanguageOrder
        LanguageNotListed StringZeroMissing SerialIndexHasEntry
        ManufacturerMissing ProductMissing ConfigurationStringMissing InterfaceStringMissing
    }
    6 { SerialNotEmpty SerialOddLength SerialShorterThanFour SerialOver254 SerialLengthByte SerialTypeByte }
    24 {
        QualifierMissing QualifierRepeated QualifierIndex QualifierLanguage QualifierBodyLength QualifierLengthByte
        QualifierTypeByte QualifierFields QualifierConfigurations QualifierLastByte
        OtherSpeedCount OtherSpeedIndex OtherSpeedLanguage OtherSpeedLength OtherSpeedTypeByte OtherSpeedBytes
    }
}

/// The rule is broken unless the condition holds.
pub fn require(holds: bool, rule: Rule) -> Result<(), Rule> {
    if holds {
        Ok(())
    } else {
        Err(rule)
    }
}
