//! What a call answers: document 01, "What the caller hears".

#[derive(Clone, Copy, Debug, PartialEq, Eq)]
pub struct Answer {
    pub number: u32,
    pub place: u32,
    pub rounds: u32,
    pub mask: u32,
}

/// Why a call refuses: finer than the number, for counting.
#[derive(Clone, Copy, Debug, PartialEq, Eq)]
pub enum Cause {
    Length,
    LastFourBytes,
    TooManyUnknowns,
    TooManyRecords,
    TooManyChannels,
    TooManyLines,
    TrailerByteNine,
    Distance,
    PartOfEquation,
    RecordRange,
    ColumnAboveUnknowns,
    Channel,
    LineCode,
    LineOperand,
    LineUnusedByte,
    NoSuchLine,
    TableTooShort,
    WideUnit,
    WideEquation,
    WideReplaced,
    WideRow,
    WideResult,
    ClashStep1,
    ClashStep4,
}

impl Cause {
    pub fn number(self) -> u32 {
        self.entry().0
    }

    pub fn text(self) -> &'static str {
        self.entry().1
    }

    fn entry(self) -> (u32, &'static str) {
        match self {
            Cause::Length => (1, "length"),
            Cause::LastFourBytes => (2, "last four bytes"),
            Cause::TooManyUnknowns => (3, "V"),
            Cause::TooManyRecords => (3, "U"),
            Cause::TooManyChannels => (3, "C"),
            Cause::TooManyLines => (3, "N"),
            Cause::TrailerByteNine => (3, "trailer byte 9"),
            Cause::Distance => (4, "distance or length"),
            Cause::PartOfEquation => (4, "part of an equation"),
            Cause::RecordRange => (5, "record out of range"),
            Cause::ColumnAboveUnknowns => (5, "column V to 23"),
            Cause::Channel => (6, "channel"),
            Cause::LineCode => (7, "line code"),
            Cause::LineOperand => (7, "line operand"),
            Cause::LineUnusedByte => (7, "line unused byte"),
            Cause::NoSuchLine => (11, "no such line"),
            Cause::TableTooShort => (8, "table too short"),
            Cause::WideUnit => (9, "wide line unit"),
            Cause::WideEquation => (9, "wide equation"),
            Cause::WideReplaced => (9, "wide equation after replacing"),
            Cause::WideRow => (9, "wide row after a round"),
            Cause::WideResult => (9, "wide result"),
            Cause::ClashStep1 => (10, "clash in step 1"),
            Cause::ClashStep4 => (10, "clash in step 4"),
        }
    }
}

#[derive(Clone, Copy, Debug, PartialEq, Eq)]
pub struct Refusal {
    pub cause: Cause,
    pub place: usize,
}

impl Refusal {
    pub fn answer(self) -> Answer {
        Answer {
            number: self.cause.number(),
            place: self.place as u32,
            rounds: 0,
            mask: 0,
        }
    }
}

/// Ends the caller's work with a refusal if `bad`.
pub fn refuse_if(bad: bool, cause: Cause, place: usize) -> Result<(), Refusal> {
    if bad {
        return Err(Refusal { cause, place });
    }
    Ok(())
}
