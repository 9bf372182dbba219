//! Pages about one direct syscall, or about what must not be taken for one,
//! each with the counts that 01 and 02 give it.

use crate::assemble::{self as asm, Bundle};

/// A page by what it is about, and its counts in the two cases that it is made
/// for.
pub struct Shape<T> {
    pub name: &'static str,
    pub bundles: fn(T) -> Vec<Bundle>,
    pub counts: [usize; 2],
}

pub(super) const fn shape<T>(
    name: &'static str,
    (one, other): (usize, usize),
    bundles: fn(T) -> Vec<Bundle>,
) -> Shape<T> {
    Shape {
        name,
        bundles,
        counts: [one, other],
    }
}

/// The direct syscall of a number.
fn direct(number: u16) -> u16 {
    asm::service(0x80 + number)
}

/// The word of a syscall by a literal; `tail` is 0 or 1.
fn syscall_word(number: u16, tail: u16) -> Bundle {
    [tail, 0x8000 | number]
}

/// A register's number from that of a syscall.
fn register(number: u16) -> u16 {
    number & 7
}

const NOP: u16 = asm::NOP;
const RETURN: u16 = asm::RETURN;
const UNLISTED: u16 = 0xDE00;
/// A service by the word of bundle 1.
const BY_WORD: u16 = 0xDF01;

/// Direct syscalls, 0 to 63, by where they stand: the counts if the syscall never
/// returns and if it goes on.
pub const DIRECT: [Shape<u16>; 21] = [
    shape("02's page", (1, 0), |n| vec![[NOP, direct(n)]]),
    shape("first half, at the end", (1, 0), |n| vec![[direct(n), NOP]]),
    shape("first half", (2, 2), |n| {
        vec![[direct(n), NOP], [RETURN, NOP]]
    }),
    shape("second half", (2, 2), |n| {
        vec![[NOP, direct(n)], [NOP, RETURN]]
    }),
    shape("end of a full page", (64, 63), |n| {
        let mut bundles = vec![[NOP, RETURN]; 63];
        bundles.push([NOP, direct(n)]);
        bundles
    }),
    shape("before a bad bundle", (1, 0), |n| {
        vec![[NOP, direct(n)], [UNLISTED, NOP]]
    }),
    shape("twice", (1, 0), |n| vec![[direct(n), direct(n)]]),
    shape("behind b", (1, 1), |n| vec![[asm::HALT, direct(n)]]),
    shape("behind a return", (1, 1), |n| vec![[RETURN, direct(n)]]),
    shape("behind a tail call", (1, 1), |n| {
        vec![[asm::service(0xF8), direct(n)]]
    }),
    shape("behind a tail syscall by a word", (1, 1), |n| {
        vec![[BY_WORD, direct(n)], syscall_word(n, 1)]
    }),
    shape("before a target in a bundle", (1, 0), |n| {
        vec![[direct(n), asm::HALT]]
    }),
    shape("before a target before the page", (1, 0), |n| {
        vec![[direct(n), 0xE7FC]]
    }),
    shape("before a bad word", (1, 0), |n| {
        vec![[direct(n), BY_WORD], [2, 0]]
    }),
    shape("before a word past the page", (1, 0), |n| {
        vec![[direct(n), asm::service(0x7F)]]
    }),
    shape("before an unlisted halfword", (0, 0), |n| {
        vec![[direct(n), UNLISTED]]
    }),
    shape("before a 32-bit opening", (0, 0), |n| {
        vec![[direct(n), 0xF8C9]]
    }),
    shape("loop through the first half", (1, 1), |n| {
        vec![[direct(n), asm::branch(0, 1, 0)]]
    }),
    shape("loop through the second half", (2, 2), |n| {
        vec![[NOP, direct(n)], [asm::branch(1, 0, 0), NOP]]
    }),
    shape("counted loop", (3, 3), |n| {
        vec![
            [asm::constant8(0, 7, 3), NOP],
            [asm::constant8(3, 7, 1), direct(n)],
            [asm::conditional(1, 2, 0, 1), RETURN],
        ]
    }),
    shape("behind a branch over it", (2, 2), |n| {
        vec![[asm::conditional(0, 0, 0, 1), direct(n)], [RETURN, NOP]]
    }),
];

/// What no set touches, at the end of a page or before a return.
pub const OTHERS: [Shape<u16>; 9] = [
    shape("syscall by a word, at the end", (0, 0), |n| {
        vec![[NOP, BY_WORD], syscall_word(n, 0)]
    }),
    shape("syscall by a word", (1, 1), |n| {
        vec![[BY_WORD, RETURN], syscall_word(n, 0)]
    }),
    shape("tail syscall by a word", (1, 1), |n| {
        vec![[NOP, BY_WORD], syscall_word(n, 1)]
    }),
    shape("breakpoint, at the end", (0, 0), |_| {
        vec![[NOP, asm::service(0xE8)]]
    }),
    shape("breakpoint", (1, 1), |_| vec![[asm::service(0xE8), RETURN]]),
    shape("call, at the end", (0, 0), |n| {
        vec![[NOP, asm::service(0xF0 + register(n))]]
    }),
    shape("call", (1, 1), |n| {
        vec![[asm::service(0xF0 + register(n)), RETURN]]
    }),
    shape("tail call", (1, 1), |n| {
        vec![[NOP, asm::service(0xF8 + register(n))]]
    }),
    shape("sp less, then base from a register", (2, 2), |n| {
        let base = asm::service(0xE0 + register(n));
        vec![[asm::service(0xC0 + n % 32), base], [RETURN, NOP]]
    }),
];
