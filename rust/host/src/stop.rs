//! Why a step or a run stopped.

use std::fmt;

use crate::exit::Exit;
use crate::raw::Answer;
use crate::refusal::{verdict_at, Refusal};
use crate::words;

/// 01's faults, and that of a window.
#[derive(Clone, Copy, Debug, PartialEq, Eq)]
#[non_exhaustive]
pub enum Fault {
    /// 1: no base, or external base where RAM is needed.
    NoBase,
    /// 2: past RAM.
    PastRam,
    /// 3: off the external page.
    OffExternalPage,
    /// 4: stack access past 0x18000.
    PastStack,
    /// 5: SP below 0x10000.
    LowStack,
    /// 6: literal load past the page.
    PastPage,
    /// 7: access to RAM outside the window.
    OutsideWindow,
    /// A number that this version doesn't know.
    Unknown(u32),
}

impl Fault {
    /// The fault of a number.
    pub fn of(number: u32) -> Fault {
        match number {
            1 => Fault::NoBase,
            2 => Fault::PastRam,
            3 => Fault::OffExternalPage,
            4 => Fault::PastStack,
            5 => Fault::LowStack,
            6 => Fault::PastPage,
            7 => Fault::OutsideWindow,
            unknown => Fault::Unknown(unknown),
        }
    }

    /// Its number.
    pub fn number(self) -> u32 {
        match self {
            Fault::NoBase => 1,
            Fault::PastRam => 2,
            Fault::OffExternalPage => 3,
            Fault::PastStack => 4,
            Fault::LowStack => 5,
            Fault::PastPage => 6,
            Fault::OutsideWindow => 7,
            Fault::Unknown(number) => number,
        }
    }
}

impl fmt::Display for Fault {
    fn fmt(&self, f: &mut fmt::Formatter<'_>) -> fmt::Result {
        let number = self.number();
        write!(f, "fault {number}: {}", words::fault(number))
    }
}

/// Why a step or a run stopped.
#[derive(Clone, Copy, Debug, PartialEq, Eq)]
#[non_exhaustive]
pub enum Stop {
    /// All of the budget is spent.
    Budget,
    /// A service for the host, which [`exit`](Stop::exit) decodes.
    Service {
        /// The low byte of its halfword.
        low: u8,
        /// The literal, for low bytes 01 to 7F.
        literal: Option<u32>,
    },
    /// A fault. Its instruction isn't counted and changed nothing.
    Fault(Fault),
    /// The mark of an unlisted halfword. Demand 3 shows that it is never met.
    Unlisted,
    /// Numbers that this version doesn't know.
    Unknown {
        /// Why it stopped.
        kind: u32,
        /// What the kind carries.
        value: u32,
        /// The literal.
        literal: u32,
    },
}

/// A literal that is bad, so that without its literal a service which needs
/// one is no exit.
const BAD_LITERAL: u32 = 2;

impl Stop {
    /// The stop of the three numbers in an accepted answer.
    fn of(kind: u32, value: u32, literal: u32) -> Stop {
        match (kind, u8::try_from(value)) {
            (0, _) => Stop::Budget,
            (1, Ok(low)) => Stop::Service { low, literal: None },
            (2, Ok(low)) => Stop::Service {
                low,
                literal: Some(literal),
            },
            (3, _) => Stop::Fault(Fault::of(value)),
            (4, _) => Stop::Unlisted,
            _ => Stop::Unknown {
                kind,
                value,
                literal,
            },
        }
    }

    /// The number of its kind.
    pub fn kind(self) -> u32 {
        match self {
            Stop::Budget => 0,
            Stop::Service { literal: None, .. } => 1,
            Stop::Service {
                literal: Some(_), ..
            } => 2,
            Stop::Fault(_) => 3,
            Stop::Unlisted => 4,
            Stop::Unknown { kind, .. } => kind,
        }
    }

    /// What a service asks of the host; nothing for another stop.
    pub fn exit(self) -> Option<Exit> {
        match self {
            Stop::Service { low, literal } => Exit::of(low, literal.unwrap_or(BAD_LITERAL)),
            _ => None,
        }
    }
}

impl fmt::Display for Stop {
    fn fmt(&self, f: &mut fmt::Formatter<'_>) -> fmt::Result {
        let words = words::stop(self.kind());
        match self {
            Stop::Budget | Stop::Unlisted => write!(f, "{words}"),
            Stop::Service { low, literal: None } => write!(f, "{words} {low:02X}"),
            Stop::Service {
                low,
                literal: Some(literal),
            } => write!(f, "{words} {low:02X} {literal:08X}"),
            Stop::Fault(fault) => write!(f, "{fault}"),
            Stop::Unknown { kind, .. } => write!(f, "stop {kind}: {words}"),
        }
    }
}

/// What a step or a run that isn't refused answers.
#[derive(Clone, Copy, Debug, PartialEq, Eq)]
#[non_exhaustive]
pub struct Stopped {
    /// Why it stopped.
    pub stop: Stop,
    /// The counted steps.
    pub steps: u32,
}

impl Stopped {
    /// What the numbers of an answer say.
    pub(crate) fn of(answer: Answer) -> Result<Stopped, Refusal> {
        verdict_at(answer.code, answer.position)?;
        Ok(Stopped {
            stop: Stop::of(answer.kind, answer.value, answer.literal),
            steps: answer.steps,
        })
    }
}

#[cfg(test)]
mod tests {
    use super::*;

    /// An answer of these numbers, after 9 steps.
    fn answer(code: u32, kind: u32, value: u32) -> Result<Stopped, Refusal> {
        Stopped::of(Answer {
            code,
            kind,
            value,
            literal: 0x8000_0002,
            position: 37,
            steps: 9,
        })
    }

    #[test]
    fn kinds_of_stops() {
        let literal = Some(0x8000_0002);
        let fault = |number| Stop::Fault(Fault::of(number));
        let cases = [
            (0, 0, Stop::Budget, "budget is spent"),
            (1, 0xE8, service(0xE8, None), "service exit E8"),
            (
                2,
                1,
                service(1, literal),
                "service exit with its literal 01 80000002",
            ),
            (3, 2, fault(2), "fault 2: past RAM"),
            (4, 0, Stop::Unlisted, "unlisted halfword"),
        ];
        for (kind, value, stop, shown) in cases {
            assert_eq!(answer(0, kind, value), Ok(Stopped { stop, steps: 9 }));
            assert_eq!(stop.kind(), kind);
            assert_eq!(stop.to_string(), shown);
        }
    }

    fn service(low: u8, literal: Option<u32>) -> Stop {
        Stop::Service { low, literal }
    }

    #[test]
    fn unknown_numbers_are_values() {
        let literal = 0x8000_0002;
        for (kind, value) in [(1, 256), (2, u32::MAX), (5, 3), (6, 0), (u32::MAX, 1)] {
            let stop = Stop::Unknown {
                kind,
                value,
                literal,
            };
            assert_eq!(answer(0, kind, value), Ok(Stopped { stop, steps: 9 }));
            assert_eq!((stop.kind(), stop.exit()), (kind, None));
        }
        let stop = Stop::of(6, 0, 0);
        assert_eq!(stop.to_string(), "stop 6: unknown");
        assert_eq!(Stop::of(3, 8, 0), Stop::Fault(Fault::Unknown(8)));
        assert_eq!(answer(4, 5, 4), Err(Refusal::Unknown(4)));
    }

    #[test]
    fn a_refused_answer_keeps_its_position() {
        let no_record = Refusal::NoRecord { position: 37 };
        assert_eq!(answer(255, 5, 255), Err(no_record));
        assert_eq!(answer(41, 5, 41), Err(Refusal::SpBounds));
    }
}
