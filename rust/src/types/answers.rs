//! Refusals, endings and answers.

use std::fmt;

/// Makes an enum from a table of the rules: each case has a number and a name.
macro_rules! table {
    ($(#[$about:meta])* $name:ident: $($(#[$when:meta])* $case:ident = $number:literal $word:literal,)*) => {
        $(#[$about])*
        #[derive(Clone, Copy, Debug, PartialEq, Eq)]
        pub enum $name {
            $($(#[$when])* $case = $number,)*
        }

        impl $name {
            /// Every case, in the order of the numbers.
            pub const ALL: &'static [$name] = &[$($name::$case,)*];

            /// The case's number.
            pub fn number(self) -> u32 {
                self as u32
            }

            /// The case with this number, if there is one.
            pub fn from_number(number: u32) -> Option<Self> {
                $name::ALL.iter().copied().find(|case| case.number() == number)
            }
        }

        impl fmt::Display for $name {
            fn fmt(&self, f: &mut fmt::Formatter<'_>) -> fmt::Result {
                f.write_str(match self {
                    $($name::$case => $word,)*
                })
            }
        }
    };
}

table! {
    /// Why a call was refused. It prints as the name in the rules' table.
    Refusal:
    /// 1: the bytes end too early.
    Short = 1 "short weight",
    /// 2: a map of 64 or more, a present field that is 0 or not of the kind, or a
    /// stray bit in a word.
    Foreign = 2 "foreign matter",
    /// 3: the kind is above 12.
    UnknownKind = 3 "unknown variety",
    /// 4: a register, condition, shift or event is out of range.
    OffRange = 4 "off grade",
    /// 5: more than 1,023 instructions.
    Oversize = 5 "oversize",
    /// 6: bytes follow the last instruction.
    Trailing = 6 "overweight",
    /// 7: the layout is not right, or memory has another length.
    BadLayout = 7 "bad layout",
    /// 8: a GOIF jumps past the end of the routine.
    BadLanding = 8 "bad landing",
    /// 9: the output is too short.
    SmallOutput = 9 "small hopper",
    /// 10: the policy is not right, or does not fit the layout.
    BadPolicy = 10 "bad policy",
    /// 11: four commands that are no allowed bundle, or the last bundle is not HALT.
    BadBundle = 11 "bad bundle",
    /// 12: the number of commands is not that of 1, 2, 4, ... 1,024 bundles.
    BadCount = 12 "bad count",
    /// 13: the base is not a multiple of the number of commands.
    BadBase = 13 "bad base",
    /// 14: the landings are not strictly rising, or one is above 1,023.
    BadLandings = 14 "bad landing list",
    /// 15: the policy would have more than 16 states.
    TooManyStates = 15 "too many states",
    /// 16: the drawing has no start, not 1 to 16 states, the wrong length, or a bit
    /// for a state that does not exist.
    BadDrawing = 16 "bad drawing",
    /// 17: an event above 15, an odd number of events, or more than four different
    /// ones.
    BadPair = 17 "bad pair",
    /// 18: a GOX, or a GOIF to its own instruction or a lower one.
    NotForward = 18 "not forward",
}

table! {
    /// How a run ended. It prints as the name in the rules' table.
    Ending:
    /// 7: the run was refused: layout not right, or memory of another length.
    Refused = 7 "bad layout",
    /// 20: the routine finished.
    Done = 20 "ended",
    /// 21: the policy stopped the routine: the event was not allowed.
    NoArrow = 21 "no arrow",
    /// 22: a bad address or a bad command.
    Fault = 22 "fault",
    /// 23: a pause: the log has no room for the next event.
    LogFull = 23 "log full",
    /// 24: a pause: there is no reading for the next event.
    Silent = 24 "probe silent",
    /// 25: a pause: the budget is used up.
    Spent = 25 "spent",
    /// 26: the routine was stopped: a jump through a register to an instruction that
    /// is no landing.
    NoLanding = 26 "no landing",
}

/// What every operation but running answers.
#[derive(Clone, Copy, Debug, PartialEq, Eq)]
#[must_use]
pub enum Answer {
    /// Success: how many words, bytes or commands were written. Checking and
    /// installing give 0.
    Taken(u32),
    /// A refusal: nothing that was lent has changed.
    Refused {
        /// Why.
        refusal: Refusal,
        /// The number of the bad instruction or bundle, else 0.
        place: u32,
    },
}

impl Answer {
    /// A refusal with its place.
    pub fn refused(refusal: Refusal, place: usize) -> Self {
        Answer::Refused {
            refusal,
            place: place as u32,
        }
    }

    /// 0, or the number of the refusal.
    pub fn number(self) -> u32 {
        match self {
            Answer::Taken(_) => 0,
            Answer::Refused { refusal, .. } => refusal.number(),
        }
    }

    /// Whether nothing was refused.
    pub fn is_taken(self) -> bool {
        matches!(self, Answer::Taken(_))
    }
}

/// What a run answers. A refused run has three zeros after its ending.
#[derive(Clone, Copy, Debug, PartialEq, Eq)]
#[must_use]
pub struct RunAnswer {
    /// How the run ended.
    pub ending: Ending,
    /// Commands executed, a fault included.
    pub steps: u32,
    /// Events recorded; each takes two log cells.
    pub pairs: u32,
    /// Readings used.
    pub readings: u32,
}
