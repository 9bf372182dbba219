//! 002's exits: what a service that is left to the host asks of it.

use super::decode::Register;
use super::page::NeverReturn;
use super::services::{literal_service, service, Action, Service};

/// An exit with the fields of its encoding.
#[derive(Clone, Copy, Debug, PartialEq, Eq)]
pub enum Exit {
    Return,
    /// By the literal: `0nnnnnnn aaaaaaaa aaaaaaaa aaaaaa0t`.
    Call {
        address: u32,
        words: u32,
        tail: bool,
    },
    /// By the literal: `10nnnnnn nnnnnnnn iiiiiiii iiiiiiit`.
    Syscall {
        number: u32,
        immediate: u32,
        tail: bool,
    },
    /// By the literal: operation 0.
    LongBranch {
        address: u32,
    },
    DirectSyscall {
        number: u32,
    },
    Breakpoint,
    CallRegister {
        register: Register,
        tail: bool,
    },
}

impl Exit {
    /// True if the flow does not go on to the next instruction.
    pub fn is_terminator(self, never_return: NeverReturn) -> bool {
        match self {
            Exit::Return | Exit::LongBranch { .. } => true,
            Exit::DirectSyscall { number } => never_return.holds(number),
            Exit::Breakpoint => false,
            Exit::Call { tail, .. }
            | Exit::Syscall { tail, .. }
            | Exit::CallRegister { tail, .. } => tail,
        }
    }
}

/// The exit of a low byte and its literal, if it is one; no number above 255
/// is a low byte.
pub fn exit_of(low: u32, literal: u32) -> Option<Exit> {
    let action = match service(u8::try_from(low).ok()?)? {
        Service::Direct(action) => action,
        Service::ByLiteral(_) => literal_service(literal)?,
    };
    match action {
        Action::Exit(exit) => Some(exit),
        _ => None,
    }
}
