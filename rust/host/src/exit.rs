//! What a service exit asks of the host.

use std::fmt;

use crate::raw::{self, ExitNumbers};
use crate::words;

/// What a service exit asks of the host, with all that its encoding holds.
///
/// The library decodes it and goes no further: SP, registers and place are
/// the host's to change.
#[derive(Clone, Copy, Debug, PartialEq, Eq)]
#[non_exhaustive]
pub enum Exit {
    /// Back to the caller.
    Return,
    /// A call.
    Call {
        /// Where it goes.
        address: u32,
        /// By how many words SP is to be lowered.
        words: u32,
    },
    /// A call that doesn't come back.
    TailCall {
        /// Where it goes.
        address: u32,
        /// By how many words SP is to be lowered.
        words: u32,
    },
    /// A syscall by a literal.
    Syscall {
        /// 0 to 8191.
        number: u32,
        /// A constant for it, 15 bits.
        immediate: u32,
    },
    /// A syscall by a literal that doesn't come back.
    TailSyscall {
        /// 0 to 8191.
        number: u32,
        /// A constant for it, 15 bits.
        immediate: u32,
    },
    /// A branch to another page.
    LongBranch {
        /// Where it goes.
        address: u32,
    },
    /// A syscall by the low byte alone.
    DirectSyscall {
        /// 0 to 63, its bit in [`Program::never_return`](crate::Program::never_return).
        number: u32,
    },
    /// A breakpoint.
    Breakpoint,
    /// A call by the word in a register, which is read like a call's literal
    /// but for bits 31, 1 and 0, which are ignored: `Exit::of(1, word & 0x7FFF_FFFC)`
    /// has its address and words.
    CallRegister {
        /// 0 to 7.
        register: usize,
    },
    /// Such a call that doesn't come back.
    TailCallRegister {
        /// 0 to 7.
        register: usize,
    },
    /// Numbers that this version doesn't know.
    Unknown(ExitNumbers),
}

impl Exit {
    /// The exit of a low byte and its literal, which counts for 01 to 7F
    /// only. Nothing for a service that is no exit, or is bad.
    pub fn of(low: u8, literal: u32) -> Option<Exit> {
        Exit::of_numbers(raw::exit(low.into(), literal))
    }

    /// What the numbers say.
    fn of_numbers(numbers: ExitNumbers) -> Option<Exit> {
        let ExitNumbers {
            kind,
            number,
            immediate,
            address,
            words,
        } = numbers;
        let register = number as usize;
        Some(match kind {
            0 => return None,
            1 => Exit::Return,
            2 => Exit::Call { address, words },
            3 => Exit::TailCall { address, words },
            4 => Exit::Syscall { number, immediate },
            5 => Exit::TailSyscall { number, immediate },
            6 => Exit::LongBranch { address },
            7 => Exit::DirectSyscall { number },
            8 => Exit::Breakpoint,
            9 => Exit::CallRegister { register },
            10 => Exit::TailCallRegister { register },
            _ => Exit::Unknown(numbers),
        })
    }

    /// The number of its kind.
    pub fn kind(self) -> u32 {
        match self {
            Exit::Return => 1,
            Exit::Call { .. } => 2,
            Exit::TailCall { .. } => 3,
            Exit::Syscall { .. } => 4,
            Exit::TailSyscall { .. } => 5,
            Exit::LongBranch { .. } => 6,
            Exit::DirectSyscall { .. } => 7,
            Exit::Breakpoint => 8,
            Exit::CallRegister { .. } => 9,
            Exit::TailCallRegister { .. } => 10,
            Exit::Unknown(numbers) => numbers.kind,
        }
    }
}

impl fmt::Display for Exit {
    fn fmt(&self, f: &mut fmt::Formatter<'_>) -> fmt::Result {
        let kind = self.kind();
        let said = words::exit(kind);
        match self {
            Exit::Return | Exit::Breakpoint => write!(f, "{said}"),
            Exit::Call { address, words } | Exit::TailCall { address, words } => {
                write!(f, "{said} to 0x{address:08X}, SP less {words} words")
            }
            Exit::Syscall { number, immediate } | Exit::TailSyscall { number, immediate } => {
                write!(f, "{said} {number} with {immediate}")
            }
            Exit::LongBranch { address } => write!(f, "{said} to 0x{address:08X}"),
            Exit::DirectSyscall { number } => write!(f, "{said} {number}"),
            Exit::CallRegister { register } | Exit::TailCallRegister { register } => {
                write!(f, "{said} r{register}")
            }
            Exit::Unknown(_) => write!(f, "exit {kind}: {said}"),
        }
    }
}

#[cfg(test)]
mod tests {
    use super::*;

    /// The numbers of a kind, all of them different.
    fn numbers(kind: u32) -> ExitNumbers {
        ExitNumbers {
            kind,
            number: 5,
            immediate: 6,
            address: 0x8000_0100,
            words: 7,
        }
    }

    #[test]
    fn kinds_of_exits() {
        let shown = [
            "return",
            "call to 0x80000100, SP less 7 words",
            "tail call to 0x80000100, SP less 7 words",
            "syscall 5 with 6",
            "tail syscall 5 with 6",
            "long branch to 0x80000100",
            "direct syscall 5",
            "breakpoint",
            "call by register r5",
            "tail call by register r5",
            "exit 11: unknown",
        ];
        assert_eq!(Exit::of_numbers(numbers(0)), None);
        for (kind, shown) in (1..).zip(shown) {
            let exit = Exit::of_numbers(numbers(kind)).expect("an exit");
            assert_eq!(exit.kind(), kind);
            assert_eq!(exit.to_string(), shown);
            assert!(shown.contains(words::exit(kind)));
        }
    }

    #[test]
    fn unknown_numbers_are_values() {
        for kind in [11, 255, u32::MAX] {
            let exit = Exit::of_numbers(numbers(kind));
            assert_eq!(exit, Some(Exit::Unknown(numbers(kind))));
        }
    }
}
