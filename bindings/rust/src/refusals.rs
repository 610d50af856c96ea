//! The numbers of refusal and stop, with what each means. Written by tools/refusals from docs/refusals.md.

/// Why a call was refused, or a step or run stopped.
#[derive(Clone, Copy, Debug, PartialEq, Eq, Hash)]
#[non_exhaustive]
pub enum Refusal {
    /// 1: The configuration breaks document 01's rules.
    UnlawfulConfig,
    /// 2: A list has not the length that the configuration says, or the log's two lists differ in length.
    WrongLength,
    /// 3: The machine record is outside its ranges, or a memory cell is 2^W or more.
    OutOfRange,
    /// 4: PC is IM_SIZE or more: after JMP @, JSR @, RETWP, a return, or the last word (a direct target there is 7).
    PcOutside,
    /// 5: No row for the word, or for the instruction to be written.
    NoRow,
    /// 6: The row needs an option that is off.
    OptionOff,
    /// 7: A part is beyond its limit: register, data address, count, byte number, WP unit, unused bit, or too wide for its field.
    BeyondLimit,
    /// 8: In special-register mode the instruction is neither MOV %d,%s from 0, 1, 2, 3 or 7 nor SPR_OFF.
    SpecialMode,
    /// 9: A port read straight after a port write to another address.
    PortTurnaround,
    /// 10: A call with the return stack full.
    StackFull,
    /// 11: A return with the return stack empty.
    StackEmpty,
    /// 12: The new WP and REG_SIZE go beyond RM_SIZE.
    BankOutside,
    /// 13: A data address from a register is DM_SIZE or more.
    DataAddress,
    /// 14: A port read with no input left.
    NoInput,
    /// 15: A port write with no room in the log.
    LogFull,
    /// 16: A budget above 1,000,000.
    Budget,
    /// 17: A rule of the certificate (document 01: sheet) is broken; address and rule are answered.
    RuleBroken,
    /// 18: The page is too small for the next line or text, or the place is beyond it.
    PageFull,
    /// 19: The image file has the wrong length.
    FileLength,
    /// 20: A block of the image file has the wrong number.
    BlockNumber,
    /// 21: A block of the image file has the wrong checksum (document 01: check).
    BlockCheck,
    /// 22: The image file has filling that is not zero.
    Filling,
    /// 23: An instruction text longer than 20 bytes.
    TextTooLong,
    /// 24: The line starts with a label that an earlier line starts with; it is the first such line.
    LabelRepeated,
    /// 25: The line names a label that no line starts with.
    LabelUnknown,
    /// 26: A line not in the form, unsupported, or with a name's digit above 3 or an offset no multiple of 16.
    LineForm,
    /// 27: A MOVX, to data memory or from it, and no LDYX has run since reset (K4).
    IndexNotLoaded,
    /// 36: More than 1,024 lines start with a label, or more words than are lent.
    SourceTooLong,
    /// A number that this version does not know; no call of this one answers it.
    Unknown(u32),
}

impl Refusal {
    /// All that have a name, by their numbers.
    pub const ALL: [Refusal; 28] = [
        Refusal::UnlawfulConfig,
        Refusal::WrongLength,
        Refusal::OutOfRange,
        Refusal::PcOutside,
        Refusal::NoRow,
        Refusal::OptionOff,
        Refusal::BeyondLimit,
        Refusal::SpecialMode,
        Refusal::PortTurnaround,
        Refusal::StackFull,
        Refusal::StackEmpty,
        Refusal::BankOutside,
        Refusal::DataAddress,
        Refusal::NoInput,
        Refusal::LogFull,
        Refusal::Budget,
        Refusal::RuleBroken,
        Refusal::PageFull,
        Refusal::FileLength,
        Refusal::BlockNumber,
        Refusal::BlockCheck,
        Refusal::Filling,
        Refusal::TextTooLong,
        Refusal::LabelRepeated,
        Refusal::LabelUnknown,
        Refusal::LineForm,
        Refusal::IndexNotLoaded,
        Refusal::SourceTooLong,
    ];

    /// The documents' number.
    pub const fn number(self) -> u32 {
        match self {
            Refusal::UnlawfulConfig => 1,
            Refusal::WrongLength => 2,
            Refusal::OutOfRange => 3,
            Refusal::PcOutside => 4,
            Refusal::NoRow => 5,
            Refusal::OptionOff => 6,
            Refusal::BeyondLimit => 7,
            Refusal::SpecialMode => 8,
            Refusal::PortTurnaround => 9,
            Refusal::StackFull => 10,
            Refusal::StackEmpty => 11,
            Refusal::BankOutside => 12,
            Refusal::DataAddress => 13,
            Refusal::NoInput => 14,
            Refusal::LogFull => 15,
            Refusal::Budget => 16,
            Refusal::RuleBroken => 17,
            Refusal::PageFull => 18,
            Refusal::FileLength => 19,
            Refusal::BlockNumber => 20,
            Refusal::BlockCheck => 21,
            Refusal::Filling => 22,
            Refusal::TextTooLong => 23,
            Refusal::LabelRepeated => 24,
            Refusal::LabelUnknown => 25,
            Refusal::LineForm => 26,
            Refusal::IndexNotLoaded => 27,
            Refusal::SourceTooLong => 36,
            Refusal::Unknown(number) => number,
        }
    }

    /// What it means, in words.
    #[rustfmt::skip]
    pub const fn meaning(self) -> &'static str {
        match self {
            Refusal::UnlawfulConfig => "The configuration breaks document 01's rules",
            Refusal::WrongLength => "A list has not the length that the configuration says, or the log's two lists differ in length",
            Refusal::OutOfRange => "The machine record is outside its ranges, or a memory cell is 2^W or more",
            Refusal::PcOutside => "PC is IM_SIZE or more: after JMP @, JSR @, RETWP, a return, or the last word (a direct target there is 7)",
            Refusal::NoRow => "No row for the word, or for the instruction to be written",
            Refusal::OptionOff => "The row needs an option that is off",
            Refusal::BeyondLimit => "A part is beyond its limit: register, data address, count, byte number, WP unit, unused bit, or too wide for its field",
            Refusal::SpecialMode => "In special-register mode the instruction is neither MOV %d,%s from 0, 1, 2, 3 or 7 nor SPR_OFF",
            Refusal::PortTurnaround => "A port read straight after a port write to another address",
            Refusal::StackFull => "A call with the return stack full",
            Refusal::StackEmpty => "A return with the return stack empty",
            Refusal::BankOutside => "The new WP and REG_SIZE go beyond RM_SIZE",
            Refusal::DataAddress => "A data address from a register is DM_SIZE or more",
            Refusal::NoInput => "A port read with no input left",
            Refusal::LogFull => "A port write with no room in the log",
            Refusal::Budget => "A budget above 1,000,000",
            Refusal::RuleBroken => "A rule of the certificate (document 01: sheet) is broken; address and rule are answered",
            Refusal::PageFull => "The page is too small for the next line or text, or the place is beyond it",
            Refusal::FileLength => "The image file has the wrong length",
            Refusal::BlockNumber => "A block of the image file has the wrong number",
            Refusal::BlockCheck => "A block of the image file has the wrong checksum (document 01: check)",
            Refusal::Filling => "The image file has filling that is not zero",
            Refusal::TextTooLong => "An instruction text longer than 20 bytes",
            Refusal::LabelRepeated => "The line starts with a label that an earlier line starts with; it is the first such line",
            Refusal::LabelUnknown => "The line names a label that no line starts with",
            Refusal::LineForm => "A line not in the form, unsupported, or with a name's digit above 3 or an offset no multiple of 16",
            Refusal::IndexNotLoaded => "A MOVX, to data memory or from it, and no LDYX has run since reset (K4)",
            Refusal::SourceTooLong => "More than 1,024 lines start with a label, or more words than are lent",
            Refusal::Unknown(_) => "A number that this version does not know",
        }
    }

    /// The refusal of a call that answered this number; none for 0, a pass.
    pub const fn from_number(number: u32) -> Option<Refusal> {
        Some(match number {
            0 => return None,
            1 => Refusal::UnlawfulConfig,
            2 => Refusal::WrongLength,
            3 => Refusal::OutOfRange,
            4 => Refusal::PcOutside,
            5 => Refusal::NoRow,
            6 => Refusal::OptionOff,
            7 => Refusal::BeyondLimit,
            8 => Refusal::SpecialMode,
            9 => Refusal::PortTurnaround,
            10 => Refusal::StackFull,
            11 => Refusal::StackEmpty,
            12 => Refusal::BankOutside,
            13 => Refusal::DataAddress,
            14 => Refusal::NoInput,
            15 => Refusal::LogFull,
            16 => Refusal::Budget,
            17 => Refusal::RuleBroken,
            18 => Refusal::PageFull,
            19 => Refusal::FileLength,
            20 => Refusal::BlockNumber,
            21 => Refusal::BlockCheck,
            22 => Refusal::Filling,
            23 => Refusal::TextTooLong,
            24 => Refusal::LabelRepeated,
            25 => Refusal::LabelUnknown,
            26 => Refusal::LineForm,
            27 => Refusal::IndexNotLoaded,
            36 => Refusal::SourceTooLong,
            _ => Refusal::Unknown(number),
        })
    }
}
