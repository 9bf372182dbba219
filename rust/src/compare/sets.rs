//! Sets of direct syscalls that never return: empty, full, of one bit, around
//! one bit, and others.

use crate::random::Random;
use crate::second::page::NeverReturn;

/// The set of one syscall.
pub fn only(number: u32) -> NeverReturn {
    NeverReturn(1 << number)
}

/// Any set, often one of the plainest.
pub fn any(random: &mut Random) -> NeverReturn {
    let one = only(random.below(64) as u32);
    match random.below(6) {
        0 => NeverReturn::NONE,
        1 => NeverReturn::ALL,
        2 => one,
        3 => without(NeverReturn::ALL, one),
        _ => NeverReturn(random.next()),
    }
}

/// The members of a set that are not in another.
pub fn without(set: NeverReturn, other: NeverReturn) -> NeverReturn {
    NeverReturn(set.0 & !other.0)
}

/// Sets with a syscall, each beside one without it: alone and none; all and all
/// but it; all but its neighbours and only these; a random one both ways.
pub fn with_and_without(random: &mut Random, number: u32) -> [[NeverReturn; 2]; 4] {
    let one = only(number);
    let neighbours = NeverReturn(one.0 << 1 | one.0 >> 1);
    let random = NeverReturn(random.next());
    [
        [one, NeverReturn::NONE],
        [NeverReturn::ALL, without(NeverReturn::ALL, one)],
        [without(NeverReturn::ALL, neighbours), neighbours],
        [NeverReturn(random.0 | one.0), without(random, one)],
    ]
}

/// The kind of a set, by name.
pub fn kind(set: NeverReturn) -> &'static str {
    match set.0.count_ones() {
        0 => "empty",
        1 => "of one",
        64 => "full",
        _ => "other",
    }
}

/// The kinds of sets.
pub const KINDS: [&str; 4] = ["empty", "of one", "full", "other"];
