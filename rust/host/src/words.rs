//! What is said of a number: the table "Words" of `docs/MACHINE.md`.

use crate::{AT_BASE_KIND, AT_BASE_OFFSET, AT_FLAGS, AT_PLACE, AT_R0, AT_SP};

/// What is said of a number that has no words.
const UNKNOWN: &str = "unknown";

/// The words of what a call answers.
pub fn refusal(number: u32) -> &'static str {
    match number {
        0 => "accepted",
        1 => "page is above 256 bytes or no multiple of 4; for an image, not 256 bytes",
        2 => "RAM is not 32768 bytes",
        3 => "external data is above 16777216 bytes or no multiple of 256",
        5 => "place is not fit",
        6 => "stored form, or the room lent for it, is not 44 bytes",
        7 => "stored or given record is out of range",
        8 => "asked bundle is not in the page",
        9 => "short form is not in shortest groups, is cut off or is followed by bytes",
        10 => "room for the written form is too small",
        12 => "image is not 1 to 4096 pages of 256 bytes",
        13 => "page is not in the image",
        14 => "index is not one byte a page",
        18 => "unknown profile",
        20 => "window starts above its end or ends above 32768",
        21 => "index byte is not its page's count",
        41 => "SP is below 0x10000 or above 0x18000",
        42 => "SP is no multiple of 4",
        43 => "RAM offset is not below 2^20",
        44 => "external offset is not below the external data's length",
        255 => "bytes hold no record",
        _ => UNKNOWN,
    }
}

/// The field of a record that begins at a position of its 44 bytes. To be asked only
/// with 7, where 0 is r0's, or with 255 and a position above 0: elsewhere 0 stands
/// where no field is told.
pub fn field(position: u32) -> &'static str {
    match position {
        AT_R0 => "r0",
        4 => "r1",
        8 => "r2",
        12 => "r3",
        16 => "r4",
        20 => "r5",
        24 => "r6",
        28 => "r7",
        AT_SP => "SP",
        AT_BASE_KIND => "base kind",
        AT_BASE_OFFSET => "base offset",
        AT_PLACE => "place",
        AT_FLAGS => "flags",
        _ => UNKNOWN,
    }
}

/// The words of a fault.
pub fn fault(number: u32) -> &'static str {
    match number {
        1 => "no base, or external base where RAM is needed",
        2 => "past RAM",
        3 => "off the external page",
        4 => "stack access past 0x18000",
        5 => "SP below 0x10000",
        6 => "literal load past the page",
        7 => "access to RAM outside the window",
        _ => UNKNOWN,
    }
}

/// The words of a stop, by its kind.
pub fn stop(kind: u32) -> &'static str {
    match kind {
        0 => "budget is spent",
        1 => "service exit",
        2 => "service exit with its literal",
        3 => "fault",
        4 => "unlisted halfword",
        5 => "refused",
        _ => UNKNOWN,
    }
}

/// The words of an exit, by its kind.
pub fn exit(kind: u32) -> &'static str {
    match kind {
        0 => "no exit",
        1 => "return",
        2 => "call",
        3 => "tail call",
        4 => "syscall",
        5 => "tail syscall",
        6 => "long branch",
        7 => "direct syscall",
        8 => "breakpoint",
        9 => "call by register",
        10 => "tail call by register",
        _ => UNKNOWN,
    }
}
