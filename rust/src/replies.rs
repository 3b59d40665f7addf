//! What each call can answer, and nothing that it cannot.

use crate::{Code, Numbers, Room};

/// A refusal that rests on the room alone.
#[derive(Clone, Copy, Debug, PartialEq, Eq)]
pub enum Refusal {
    /// Engines out of range.
    Engines,
    /// The number of jobs out of range.
    Jobs,
    /// A job's numbers out of range. Place: least bad job.
    Job { place: u64 },
    /// More than 32 sections, or a bad one. Place: 32, or least bad index.
    Section { place: u64 },
    /// More than 16 links, or a bad one. Place: 16, or least bad index.
    Link { place: u64 },
    /// The least common multiple of the periods is above 4,096. Place: job at which it first passes.
    Long { place: u64 },
}

/// The answer to a check.
#[derive(Clone, Copy, Debug, PartialEq, Eq)]
pub enum Checked {
    /// The room is within its limits.
    Good,
    /// The text breaks the grammar. Place: first bad line, from 0.
    Text { place: u64 },
    /// The room is not within its limits.
    Refused(Refusal),
}

/// The answer to planning.
#[derive(Clone, Copy, Debug, PartialEq, Eq)]
pub enum Planned<'a> {
    /// The room is feasible, has so many configurations, and this is its plan.
    Good { count: u64, plan: Plan<'a> },
    /// The room is infeasible, and has so many configurations.
    None { count: u64 },
    /// The text breaks the grammar. Place: first bad line, from 0.
    Text { place: u64 },
    /// The room is not within its limits.
    Refused(Refusal),
    /// The table is longer than 4,194,304 numbers.
    Table,
    /// The room has more configurations than the table holds.
    Room,
    /// The plan is longer than its buffer. Place: slots needed.
    Short { place: u64 },
}

/// The answer to judging a past.
#[derive(Clone, Copy, Debug, PartialEq, Eq)]
pub enum Judged {
    /// The past is in the centre; the room has so many configurations.
    Good { count: u64 },
    /// The text breaks the grammar. Place: first bad line, from 0.
    Text { place: u64 },
    /// The room is not within its limits.
    Refused(Refusal),
    /// The table is longer than 4,194,304 numbers.
    Table,
    /// The room has more configurations than the table holds.
    Room,
    /// The past is not in the centre. Place: length of its shortest beginning outside.
    Out { count: u64, place: u64 },
}

/// The answer to reading a text.
#[allow(clippy::large_enum_variant)]
#[derive(Clone, Copy, Debug, PartialEq, Eq)]
pub enum Reading {
    /// The room whose text it is.
    Good(Room),
    /// The text breaks the grammar. Place: first bad line, from 0.
    Text { place: u64 },
}

/// The answer to writing a room.
#[derive(Clone, Copy, Debug, PartialEq, Eq)]
pub enum Written<'a> {
    /// The room's text, at the start of its buffer.
    Good(&'a [u8]),
    /// The room is not within its limits.
    Refused(Refusal),
    /// The text is longer than its buffer. Place: bytes needed.
    Short { place: u64 },
}

/// A plan: the masks of its prefix once, then those of its cycle for ever.
#[derive(Clone, Copy, Debug, PartialEq, Eq)]
pub struct Plan<'a> {
    prefix: &'a [u16],
    cycle: &'a [u16],
}

impl<'a> Plan<'a> {
    pub fn prefix(&self) -> &'a [u16] {
        self.prefix
    }

    /// Never empty.
    pub fn cycle(&self) -> &'a [u16] {
        self.cycle
    }

    /// The mask of any slot.
    pub fn slot(&self, number: u64) -> u16 {
        let length = self.prefix.len() as u64;
        match number < length {
            true => self.prefix[number as usize],
            false => self.cycle[((number - length) % self.cycle.len() as u64) as usize],
        }
    }

    /// The masks from slot 0 on, without end.
    pub fn slots(&self) -> impl Iterator<Item = u16> + 'a {
        let prefix = self.prefix.iter();
        prefix.chain(self.cycle.iter().cycle()).copied()
    }
}

/// The jobs that run in a slot with this mask, in the order of their numbers.
pub fn jobs(mask: u16) -> impl Iterator<Item = usize> {
    (0..16).filter(move |job| mask >> job & 1 == 1)
}

impl Refusal {
    /// The reply as its numbers.
    pub fn numbers(&self) -> Numbers {
        match *self {
            Refusal::Engines => Numbers::of(Code::Engines),
            Refusal::Jobs => Numbers::of(Code::Jobs),
            Refusal::Job { place } => Numbers::of(Code::Job).at(place),
            Refusal::Section { place } => Numbers::of(Code::Section).at(place),
            Refusal::Link { place } => Numbers::of(Code::Link).at(place),
            Refusal::Long { place } => Numbers::of(Code::Long).at(place),
        }
    }
}

impl Checked {
    /// The reply as its numbers.
    pub fn numbers(&self) -> Numbers {
        match *self {
            Checked::Good => Numbers::of(Code::Good),
            Checked::Text { place } => Numbers::of(Code::Text).at(place),
            Checked::Refused(refusal) => refusal.numbers(),
        }
    }
}

impl Planned<'_> {
    /// The reply as its numbers.
    pub fn numbers(&self) -> Numbers {
        match *self {
            Planned::Good { count, plan } => Numbers {
                count,
                prefix: plan.prefix.len() as u64,
                cycle: plan.cycle.len() as u64,
                ..Numbers::of(Code::Good)
            },
            Planned::None { count } => Numbers::of(Code::None).counting(count),
            Planned::Text { place } => Numbers::of(Code::Text).at(place),
            Planned::Refused(refusal) => refusal.numbers(),
            Planned::Table => Numbers::of(Code::Table),
            Planned::Room => Numbers::of(Code::Room),
            Planned::Short { place } => Numbers::of(Code::Short).at(place),
        }
    }
}

impl Judged {
    /// The reply as its numbers.
    pub fn numbers(&self) -> Numbers {
        match *self {
            Judged::Good { count } => Numbers::of(Code::Good).counting(count),
            Judged::Text { place } => Numbers::of(Code::Text).at(place),
            Judged::Refused(refusal) => refusal.numbers(),
            Judged::Table => Numbers::of(Code::Table),
            Judged::Room => Numbers::of(Code::Room),
            Judged::Out { count, place } => Numbers::of(Code::Out).counting(count).at(place),
        }
    }
}

impl Reading {
    /// The reply as its numbers.
    pub fn numbers(&self) -> Numbers {
        match *self {
            Reading::Good(_) => Numbers::of(Code::Good),
            Reading::Text { place } => Numbers::of(Code::Text).at(place),
        }
    }
}

impl Written<'_> {
    /// The reply as its numbers.
    pub fn numbers(&self) -> Numbers {
        match *self {
            Written::Good(text) => Numbers::of(Code::Good).at(text.len() as u64),
            Written::Refused(refusal) => refusal.numbers(),
            Written::Short { place } => Numbers::of(Code::Short).at(place),
        }
    }
}

/// From the numbers that a call laid down. The calls are proved to give no other code.
#[cfg(feature = "linked")]
mod from_numbers {
    use super::*;

    fn never(code: Code) -> ! {
        unreachable!("{code} is no answer to this call")
    }

    impl Refusal {
        pub(crate) fn of(Numbers { code, place, .. }: Numbers) -> Refusal {
            match code {
                Code::Engines => Refusal::Engines,
                Code::Jobs => Refusal::Jobs,
                Code::Job => Refusal::Job { place },
                Code::Section => Refusal::Section { place },
                Code::Link => Refusal::Link { place },
                Code::Long => Refusal::Long { place },
                other => never(other),
            }
        }
    }

    impl Checked {
        pub(crate) fn of(numbers: Numbers) -> Checked {
            let place = numbers.place;
            match numbers.code {
                Code::Good => Checked::Good,
                Code::Text => Checked::Text { place },
                _ => Checked::Refused(Refusal::of(numbers)),
            }
        }
    }

    impl Planned<'_> {
        pub(crate) fn of(numbers: Numbers, buffer: &[u16]) -> Planned<'_> {
            let Numbers { count, place, .. } = numbers;
            match numbers.code {
                Code::Good => {
                    let (prefix, after) = buffer.split_at(numbers.prefix as usize);
                    let cycle = &after[..numbers.cycle as usize];
                    let plan = Plan { prefix, cycle };
                    Planned::Good { count, plan }
                }
                Code::None => Planned::None { count },
                Code::Text => Planned::Text { place },
                Code::Table => Planned::Table,
                Code::Room => Planned::Room,
                Code::Short => Planned::Short { place },
                _ => Planned::Refused(Refusal::of(numbers)),
            }
        }
    }

    impl Judged {
        pub(crate) fn of(numbers: Numbers) -> Judged {
            let Numbers { count, place, .. } = numbers;
            match numbers.code {
                Code::Good => Judged::Good { count },
                Code::Text => Judged::Text { place },
                Code::Table => Judged::Table,
                Code::Room => Judged::Room,
                Code::Out => Judged::Out { count, place },
                _ => Judged::Refused(Refusal::of(numbers)),
            }
        }
    }

    impl Reading {
        pub(crate) fn of(numbers: Numbers, bytes: &[u8; Room::BYTES]) -> Reading {
            let place = numbers.place;
            match numbers.code {
                Code::Good => Reading::Good(Room::from_bytes(bytes)),
                Code::Text => Reading::Text { place },
                other => never(other),
            }
        }
    }

    impl Written<'_> {
        pub(crate) fn of(numbers: Numbers, buffer: &[u8]) -> Written<'_> {
            let place = numbers.place;
            match numbers.code {
                Code::Good => Written::Good(&buffer[..place as usize]),
                Code::Short => Written::Short { place },
                _ => Written::Refused(Refusal::of(numbers)),
            }
        }
    }
}
