//! Planted faults: mistakes that an engineer could make, switched on at run time to see that the comparison notices each.

use crate::octets::kebab;

macro_rules! faults {
    ($($part:ident { $($fault:ident)* })*) => {
        /// A deviation from documents 01 and 02, or none.
        #[derive(Clone, Copy, PartialEq, Eq, Debug)]
        pub enum Fault { None, $($($fault,)*)* }

        $(pub const $part: &[Fault] = &[$(Fault::$fault,)*];)*
    };
}

faults! {
    OPENING {
        SetLengthSixteenBits LongestSetOneMore LongestSetOneLess MostEntriesOneMore MostEntriesOneLess ByteThreeIgnored
        IndexAscendsBeforeLanguage EqualEntriesPass EntryOfTwoBytesRefused BytesBehindLastBodyPass
        MaxPacketSize128Passes SubclassIgnored NinthConfigurationPasses ConfigurationEntriesNotCounted
        ConfigurationValueZeroPasses ConfigurationValueComparedWithLastOnly
        MaxPowerOneMore MaxPowerOneLess AttributesBitFourIgnored LongFirstDescriptorRefused
        DeviceQualifierSteppedOver DescriptorOfTwoBytesRefused LastOfARunNotWholePasses EndpointsPassedAsARun
        SeventeenInterfacesPass SixteenInterfacesRefused AlternateSixteenPasses AlternateFifteenRefused
        LastSettingEndpointsNotCounted EarlyEndpointPasses InterfaceMayStartAtAlternateOne
        AddressWithoutDirectionInSetting AddressTwiceInAlternatesRefused
        AddressComparedWithLastInterfaceOnly AddressComparedInFirstSettingsOnly
        IsochronousMiddleBitsRefused IsochronousSizeOneMore InterruptSizeOneMore BulkSizeByLowByte
        IsochronousIntervalOneMore InterruptIntervalZeroPasses BulkIntervalZeroRefused
        ReferenceInFirstLanguageOnly ReferenceOfAlternatesIgnored ReferenceOfLaterConfigurationsIgnored
        ReferenceToSerialNeedsEntry FifthLanguagePasses FourthLanguageRefused IndexZeroInAnyLanguage
        SerialEntryPasses SerialIndexNeedsNoStringZero StringZeroAloneRefused UnusedStringNeedsEveryLanguage
        SerialOfTwoBytesPasses SerialOfOddLengthPasses SerialLengthByteIgnored SerialBeforeStrings
        RefusedOpeningKeepsImage ImageLengthJudgedAfterGroups
    }
    EVENTS {
        AddressTakenAtOnce HaltsClearedOnlyWhenSettingDiffers ConfigurationSelectedByIndex
        EndpointWithoutDirection ToggleClearedOnlyIfHalted
        UnknownRequestKeepsWaitingAddress RefusedStateKeepsWaitingAddress WrongFieldKeepsWaitingAddress
        AcceptedRequestKeepsWaitingAddress WrongSetupLengthDropsWaitingAddress UnfitEndpointDropsWaitingAddress
        AddressZeroWaitsAsNone AddressZeroLeadsToAddress StatusEndKeepsWaitingAddress StatusEndClearsWakeup
        LongerImagePasses LongerSetupPasses FieldsBeforeState FeatureBeforeExistence RecordBeforeSet SetupLengthBeforeRecord
        HighestAddressOneMore HighestAddressOneLess LargeConfigurationValueDoesNotExist
        StringNeedsIndexZero StringZeroNeedsListedLanguage SerialNeedsListedLanguage OtherTypesAllowAnyIndex
        UnlistedLanguageDoesNotExist LanguageZeroDoesNotExist FallsBackThoughLanguageListed FallsBackToLastLanguage
        FallsBackToAnyLanguage
        DescriptorLongerThanAsked AskedLengthZeroRefused EmptyPartStartsAtSet DeviceIndexIgnored
        SelfPoweredFromConfiguration SelfPoweredInConfiguredOnly WakeupNotReported WakeupOfSelectedConfigurationOnly
        ConfigurationClearsWakeup SameConfigurationKeepsSettings ConfigurationZeroKeepsToggles
        InterfaceClearsNewSettingOnly InterfaceClearsEveryInterface InterfaceClearsHaltsOnly
        InterfaceByLowByte AlternateByLowByte FeatureByLowByte EndpointByLowByte
        IsochronousMayHalt EndpointOfAnySetting EndpointZeroOnlyOut EndpointZeroMayHalt
        HaltFeatureClearsToggle HaltEventClearsToggle HaltedEndpointPassesPackets IsochronousPassesPackets
        GetInterfaceInAddressDoesNotExist SetAddressInConfigured
        WaitingInConfiguredFits WakeupWithoutSupportFits IsochronousToggleFits AbsentInterfaceAlternateFits
        ZeroBytesIgnored HaltOfOtherSettingFits Waiting128Fits AddressInDefaultFits
        BusResetMendsRecord BusResetKeepsWakeup
        BusResetClearsPower OpeningKeepsPower PowerEventDropsWaitingAddress PowerEventClearsWakeup
        PowerByLowBit RefusedPowerIsTaken PowerInDefaultIsNotTaken PowerTwoFits OwnSupplyDoesNotFit
        OwnSupplyFitsSelfPoweredOnly ConfigurationSetsPower UnknownEventReadsSetup UnknownEventIsDone
        UnknownEventDropsWaitingAddress
        StatusEndClearsSleep RefusedPacketClearsSleep PacketPassedKeepsSleep HaltClearsSleep PowerEventClearsSleep
        WakeClearsSleep WakeWithoutWakeup WakeWithoutSleep WakeInConfiguredOnly RefusedWakeDropsWaitingAddress
        WrongSetupLengthClearsSleep RefusedSetupKeepsSleep RefusedFeatureKeepsSleep AcceptedSetupKeepsSleep
        BusResetKeepsSleep OpeningKeepsSleep SuspendDropsWaitingAddress SuspendClearsWakeup SuspendInConfiguredOnly
        SuspendTwiceIsRefused ResumeAwakeIsRefused ResumeDropsWaitingAddress SuspendedTwoFits
        SuspendedInDefaultDoesNotFit
        ResetToHighAlonePasses HighSpeedAloneFits TestModeAlone
    }
    PACKETS {
        EmptyLastPacketMissing EmptyPacketWhenEqual EmptyReplyAlwaysHasPacket PacketSize128Passes
        PacketSize24Passes ReplyLongerThanAskedPasses PacketNumberOneMore LastPacketWhole
        EmptyPacketStartsAtReply ReplyLengthSixteenBits PacketNumberSixteenBits
    }
    WRITER {
        LanguagesComparedAsBytes PieceTwicePasses ShortBufferBeforeRefusal BytePastSetWritten OffsetsFromTheBodies
        SixtyFourthPieceRefused LongestWrittenOneLess SizeBeforeWholeStream LastPieceMayBeCut RoomForOneMore
        WrittenWithoutSerial RefusalTouchesBuffer
    }
    DUMPS {
        BodyOfEightBytesSplits LastBodyMayBeCut DeviceAloneSplits SerialReferenceStays ConfigurationReferenceStays
        AlternateReferenceStays FunctionReferenceZeroed LongDumpBeforeSplit ConfigurationsFromOne ImportRoomBeforeRefusal
        ExportRoomBeforeOpening StringsExported ExportZeroesReferences ExportNeedsOneMore
    }
    TRIM {
        ManufacturerNotCounted ConfigurationNotCounted AlternatesNotCounted FunctionCounted ZeroGoesBesideSerial
        ZeroAlwaysStays FreedBytesStay
    }
    ENDPOINTS {
        EndpointsOfEverySetting EndpointsOfFirstConfiguration EndpointsByAddress EndpointsFromOne EndpointOffsetInBody
        EndpointOfSevenBytes MissingEndpointDoesNotExist MissingEndpointDropsWaitingAddress EndpointNotInThisState
    }
    PAIRS {
        HighSetOpenedFirst HighSetByFullLimits AgreementBeforeHighSet HighSetDoesNotMirror
        HighControlSizeEightPasses HighControlSizeAsFullSpeed HighBulkSizeByLowBits HighBulkSizeSixtyFourPasses
        HighSizeOneMore HighBurstsThreePass HighBurstsRefused HighSizeTopBitsIgnored HighInterruptIntervalAsFullSpeed
        QualifierMissingPasses SecondQualifierPasses QualifierIndexIgnored QualifierLengthByteIgnored
        QualifierOfOwnDevice QualifierPacketSizeIgnored QualifierCountIgnored QualifierLastByteIgnored
        OtherSpeedFewerPass OtherSpeedLanguageIgnored OtherSpeedTypeByteTwo OtherSpeedTypeByteIgnored
        OtherSpeedLastByteIgnored OtherSpeedBytesIgnored OtherSpeedFirstOnly
    }
    SPEEDS {
        TypesOfPairAloneToo OpeningKeepsSpeed FullSetAlwaysInUse FullSetInTestMode StringsOfFullSet SerialIndexOfFullSet WakeupOfFullSet
        ConfigurationOfFullSet PartInFullSet EndpointsOfFullSet EndpointsInFullSet
        QualifierDoesNotExist OtherSpeedDoesNotExist OtherSpeedNeedsState QualifierIndexNotAsked QualifierFromOtherSet
        OtherSpeedIsOthersConfiguration
        ResetByLowBit ResetToHighRefused ResetAboveOnePasses BusResetKeepsSpeed BusResetIsToFullSpeed
        ResetToHighClearsPower BusResetKeepsWaitingTestMode RefusedResetIsTaken RefusedResetDropsWaiting
        RefusedResetClearsSleep
        BusResetEndsTestMode ResetInTestModeClearsSleep ResetInTestModeRefused TestModeTakesAnyReset
        TestModeByLowByte TestModeNeedsIndexZero TestModeLowByteIgnored TestModeInDefaultRefused
        TestModeFieldsBeforeState TestModeSelectorBeforeFields SelectorZeroPasses SelectorSixPasses SelectorFiveRefused
        TestModeAtFullSpeed TestModeNotInConfigured TestModeEnteredAtOnce ClearFeatureKnowsTestMode
        RefusedSetupKeepsWaitingTestMode AcceptedSetupKeepsWaitingTestMode SuspendDropsWaitingTestMode
        WaitingTestModeRefusesSetups StatusEndTakesTestModeAsAddress EnteredTestModeWithoutSpeed
        TestModeForgottenAtStatusEnd TestModeLeadsToDefault TestModeClearsWakeup TestModeClearsSleep
        TestModeAnswersSetups TestModeRefusalKeepsSleep TestModeRefusalIsOfState TestModeBeforeSetupLength
        TestModeRefusesFunctionEvents WakeNotInTestMode
        WaitingInTestModeFits TestModeWaitsAtFullSpeedFits SixthTestModeFits TestModeInConfiguredDoesNotFit
        AnySpeedFits
    }
    SUPER {
        SuperControlSizeAsFullSpeed SuperControlSizeDoubled SuperBulkSize512Passes SuperSizeByLowBits
        SuperInterruptSizeZeroPasses SuperIsochronousSizeZeroRefused SuperInterruptIntervalAsFullSpeed
        StoreMissingPasses StoreTwicePasses StoreIndexIgnored StoreLanguageIgnored StoreOfFourBytesPasses
        StoreTotalIgnored StoreTotalByLowByte StoreTypeByteJudged StoreAfterConfigurations StoreAloneToo
        LastCompanionMissingPasses CompanionOfFiveBytesPasses CompanionMayComeLater SecondCompanionPasses
        StrayCompanionPasses IsochronousNeedsNoCompanion CompanionsAfterStrings SuperQualifierPasses
        SuperRefusalKeepsImage
    }
    EXPLAINED {
        Untold312 Untold313 Untold314 Untold315 Untold316 Untold437 Untold438 Untold439
        Untold2401 Untold2402 Untold2403 Untold2404 Untold2405 Untold2406 Untold2407 Untold2408 Untold2409 Untold2410
        Astray312 Astray313 Astray314 Astray315 Astray316 Astray437 Astray438 Astray439
        Astray2401 Astray2402 Astray2403 Astray2404 Astray2405 Astray2406 Astray2407 Astray2408 Astray2409 Astray2410
        Untold504 Untold509 Untold510 Astray504 Astray509 Astray510
        MissingStringZeroToldFirst UnlistedToldAtItsString StoreToldBeforeTheDevice CompanionsToldBeforeTheOthers
        ValueToldBeforeCompanions ShortCompanionToldFirst OtherSpeedsToldBeforeTheQualifier MissingOtherSpeedToldFirst
        HighSetBesideToldFirst HighBlockToldAsFull SerialFaultToldInTheSet PlacePastTheEnd
    }
    PORTS {
        NeighbourWritten PortTakenAsLength PortsFromOne PortByLowByte PortByLowFourBytes PortAfterSet RowOfNineRefused
        EmptyRowDoesNotFit RefusedPortDropsWaiting EveryRecordMustFit ResetOfEveryPort
    }
    STRIKES {
        HaltStopsEveryEndpoint StatusOfAnyHalt InterfaceClearsWakeup AlternateOfHighestInterface PacketPassedDropsTestMode
        HaltFeatureSuspends SettingTakenByNeighbour
    }
    PIPE {
        LongerPipePasses SetupOnAnyPipe SetupNeedsFittingPipe NoSizeFits StageEightFits BlockFourFits AnyDirectionFits
        LastBytesIgnored ReplyAboveAskedFits ReplyOutsideBlockFits TooManyReceivedFit WrongSetupLengthStalls
        WrongStateAsks ResetSpeedByLowByte ResetKeepsTransfer RefusedResetEndsTransfer MisfitBecomesIdle
        PacketOpensSet TakenEndsStatusOut AnyPacketIsStatus RefusedUnasked AcceptedUnasked ReplyToAWrite
        ReplyWithoutData RoomForARead AcceptedWithoutItsData StallKeepsTransfer RefusedEndKeepsTransfer
        RoomIsPacketSize
    }
    TRANSFERS {
        DroppedTransferEnds PipeOfFullSet TwoBytesAreNoBlock ApplicationNotAsked DirectionIgnored PacketSizeOfFullSet
        SpeedNotTold SamePacketAgain PacketSkipped EndsWithoutStatus EarlyStatusIgnored StrayPacketEndsStatusIn
        ShortPacketPasses EmptyPacketPasses LongPacketPasses BytesOfEachPacketAtTheStart BytesTakenUnasked
        BytesRefusedAllTheSame RefusedBytesAccepted ReplyLongerThanAsked ReplyLiesInSet RoomNotMeasured RoomOneMore
        StallNotOrdered EndedTransferStays StatusEndNotTold TestModeNotEntered PacketFromTheStart
    }
    LOOP {
        EndpointsNeverClosed FirstEndpointSkipped OneEndpointOnly EndpointsNotChangedBySetConfiguration
        EndpointsNotChangedBySetInterface TestModeByItsByte EventsGoToTheFirstPort HardwareOfTheFirstPort
        PacketOfOldBytes ReplyNotLentAgain AddressFollowedAtSetup EarlyStatusNotExpected
    }
    LISTER {
        AttributesInsteadOfTransferType PacketSizeByLowByte IndexInsteadOfValue FirstSettingsOnly
        SettingsInsteadOfInterfaces
    }
}

impl Fault {
    /// All that show at the C boundary.
    pub fn at_boundary() -> impl Iterator<Item = Fault> {
        [OPENING, EVENTS, PACKETS, ENDPOINTS, WRITER, DUMPS, TRIM, PAIRS, SPEEDS, PORTS, STRIKES, SUPER, EXPLAINED, PIPE, TRANSFERS]
            .into_iter()
            .flatten()
            .copied()
    }

    pub fn name(self) -> String {
        kebab(&format!("{self:?}"))
    }

    /// The rule that is never told.
    pub fn untold(self) -> Option<u16> {
        self.rule_behind("Untold")
    }

    /// The rule that is told one byte further on.
    pub fn astray(self) -> Option<u16> {
        self.rule_behind("Astray")
    }

    fn rule_behind(self, word: &str) -> Option<u16> {
        // most runs have no fault planted, and a name is dear
        (self != Fault::None).then(|| format!("{self:?}").strip_prefix(word)?.parse().ok()).flatten()
    }

    pub fn named(name: &str) -> Option<Fault> {
        let every = Fault::at_boundary().chain(LISTER.iter().chain(LOOP).copied()).chain([Fault::None]);
        every.into_iter().find(|fault| fault.name() == name)
    }
}
