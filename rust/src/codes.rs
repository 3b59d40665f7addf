//! The codes by their names, and a reply as five numbers.

use std::fmt;

macro_rules! codes {
    ($($(#[$words:meta])* $name:ident = $number:literal,)*) => {
        /// The codes by their names, each with its number: those of `include/stoerwjok.h`, to which a test holds them.
        #[derive(Clone, Copy, Debug, PartialEq, Eq, PartialOrd, Ord, Hash)]
        pub enum Code {
            $($(#[$words])* $name = $number,)*
        }

        impl Code {
            /// All codes, in the order of their numbers.
            pub const ALL: &'static [Code] = &[$(Code::$name,)*];
        }
    };
}

codes! {
    /// Feasible and the plan fits; or past accepted; or text read or written; or the room is within its limits.
    Good = 0,
    /// Infeasible.
    None = 1,
    /// The room text breaks the grammar. Place: first bad line, from 0.
    Text = 2,
    /// Engines out of range.
    Engines = 3,
    /// The number of jobs out of range.
    Jobs = 4,
    /// A job's numbers out of range. Place: least bad job.
    Job = 5,
    /// More than 32 sections, or a bad one. Place: 32, or least bad index.
    Section = 6,
    /// More than 16 links, or a bad one. Place: 16, or least bad index.
    Link = 7,
    /// The least common multiple of the periods is above 4,096. Place: job at which it first passes.
    Long = 8,
    /// The table is longer than 4,194,304 numbers.
    Table = 9,
    /// More configurations than the table holds.
    Room = 10,
    /// Plan or text longer than its buffer. Place: length needed.
    Short = 11,
    /// The past is not in the centre. Place: length of its shortest beginning outside the centre.
    Out = 12,
}

impl Code {
    /// The code with this number.
    pub fn of(number: u64) -> Option<Code> {
        Code::ALL
            .iter()
            .copied()
            .find(|code| code.number() == number)
    }

    /// The code's number.
    pub fn number(self) -> u64 {
        self as u64
    }
}

/// The paper's name, in capitals.
impl fmt::Display for Code {
    fn fmt(&self, to: &mut fmt::Formatter<'_>) -> fmt::Result {
        to.pad(&format!("{self:?}").to_uppercase())
    }
}

/// A reply as its code and four numbers. Fields that the code does not name are 0.
#[derive(Clone, Copy, Debug, PartialEq, Eq)]
pub struct Numbers {
    pub code: Code,
    pub count: u64,
    pub place: u64,
    pub prefix: u64,
    pub cycle: u64,
}

impl Numbers {
    /// A code, and 0 for the rest.
    pub fn of(code: Code) -> Numbers {
        Numbers {
            code,
            count: 0,
            place: 0,
            prefix: 0,
            cycle: 0,
        }
    }

    pub(crate) fn at(self, place: u64) -> Numbers {
        Numbers { place, ..self }
    }

    pub(crate) fn counting(self, count: u64) -> Numbers {
        Numbers { count, ..self }
    }
}

/// The five numbers that a call laid down.
impl From<[u64; 5]> for Numbers {
    fn from([code, count, place, prefix, cycle]: [u64; 5]) -> Numbers {
        Numbers {
            code: Code::of(code).expect("a number of the list of codes"),
            count,
            place,
            prefix,
            cycle,
        }
    }
}
