//! 01's "Services": the low byte of DFxx, and the literal words.

use super::decode::Register;
use super::exits::Exit;
use super::memory::EXTERNAL_START;
use super::page::NeverReturn;

/// What a service does, apart from what it does to the base.
#[derive(Clone, Copy, Debug, PartialEq, Eq)]
pub enum Action {
    /// Ends the run and is left to the host.
    Exit(Exit),
    /// Nothing but the base rule.
    Preload,
    /// base = validate(register)
    SetBaseFrom(Register),
    /// base = validate(address)
    SetBase(u32),
    /// SP less so many bytes.
    LowerStack(u32),
    /// The register stored at SP plus so many bytes.
    StackStore { register: Register, offset: u32 },
    /// The register loaded from SP plus so many bytes.
    StackLoad { register: Register, offset: u32 },
}

impl Action {
    /// True if the flow does not go on to the next instruction.
    pub fn is_terminator(self, never_return: NeverReturn) -> bool {
        matches!(self, Action::Exit(exit) if exit.is_terminator(never_return))
    }
}

/// A service by its low byte.
#[derive(Clone, Copy, Debug, PartialEq, Eq)]
pub enum Service {
    /// The low byte says all.
    Direct(Action),
    /// The literal word at this bundle number says what to do.
    ByLiteral(usize),
}

/// The table of services; nothing for the reserved bytes E9 to EF.
pub fn service(low: u8) -> Option<Service> {
    let register = Register::from(low & 7);
    let action = match low {
        0x00 => Action::Exit(Exit::Return),
        0x01..=0x7F => return Some(Service::ByLiteral(usize::from(low))),
        0x80..=0xBF => Action::Exit(Exit::DirectSyscall {
            number: u32::from(low & 0x3F),
        }),
        0xC0..=0xDF => Action::LowerStack(4 * u32::from(low & 0x1F)),
        0xE0..=0xE7 => Action::SetBaseFrom(register),
        0xE8 => Action::Exit(Exit::Breakpoint),
        0xE9..=0xEF => return None,
        0xF0..=0xFF => Action::Exit(Exit::CallRegister {
            register,
            tail: low & 8 != 0,
        }),
    };
    Some(Service::Direct(action))
}

/// Largest syscall number of a literal word.
const LAST_SYSCALL: u32 = 8191;

/// What a literal word stands for, or nothing if it is bad.
pub fn literal_service(word: u32) -> Option<Action> {
    match word >> 29 {
        0b000..=0b011 => literal_call(word),
        0b100 | 0b101 => literal_syscall(word),
        0b110 => address_operation(word, false),
        _ => address_operation(word, true),
    }
}

/// Bit 31 clear: a call or a tail call of F + 4a, SP less n words.
fn literal_call(word: u32) -> Option<Action> {
    let a = (word >> 2) & 0x003F_FFFF;
    let call = |tail| Exit::Call {
        address: EXTERNAL_START + 4 * a,
        words: word >> 24,
        tail,
    };
    match word & 3 {
        0 => Some(Action::Exit(call(false))),
        1 => Some(Action::Exit(call(true))),
        _ => None,
    }
}

/// Top bits 10: a syscall or a tail syscall.
fn literal_syscall(word: u32) -> Option<Action> {
    let number = (word >> 16) & 0x3FFF;
    let syscall = Exit::Syscall {
        number,
        immediate: (word & 0xFFFF) >> 1,
        tail: word & 1 == 1,
    };
    (number <= LAST_SYSCALL).then_some(Action::Exit(syscall))
}

/// Top bits 110 or 111 (`external`): an operation on a 24-bit value.
fn address_operation(word: u32, external: bool) -> Option<Action> {
    let a = word & 0x00FF_FFFF;
    let address = if external { EXTERNAL_START + a } else { a };
    let register = (a >> 21) as Register;
    let offset = a & 0x001F_FFFF;
    match ((word >> 24) & 0x1F, external) {
        (0, _) => Some(Action::Exit(Exit::LongBranch { address })),
        (1, _) => Some(Action::Preload),
        (2, _) => Some(Action::SetBase(address)),
        (3, false) => Some(Action::LowerStack(4 * a)),
        (4, false) => Some(Action::StackStore { register, offset }),
        (5, false) => Some(Action::StackLoad { register, offset }),
        _ => None,
    }
}
