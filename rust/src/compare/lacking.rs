//! Pages about what the small profile lacks, each with the counts that 01 and 02
//! give it under the full profile and under the small one.

use super::shapes::{shape, Shape};
use crate::assemble::{self as asm, Bundle, HALT, NOP, RETURN};

/// cbz, or cbnz with `nonzero` 1, of register n.
#[derive(Clone, Copy, Debug)]
pub struct CompareBranch {
    pub nonzero: u16,
    pub n: u16,
}

impl CompareBranch {
    /// The halfword that branches from a half of a bundle to a bundle in reach.
    fn to(self, from: usize, half: usize, target: usize) -> u16 {
        let half = asm::compare_branch(self.nonzero, self.n, from, half, target);
        half.expect("a target in reach")
    }

    /// The halfword with the least offset, whose target in a second half is no
    /// bundle's start.
    fn shortest(self) -> u16 {
        self.to(0, 0, 1)
    }
}

const UNLISTED: u16 = 0xDE00;
/// A service by the word of bundle 1.
const BY_WORD: u16 = 0xDF01;
/// The word of a preload, but for its low half.
const PRELOAD: u16 = 0xC100;
const ENDING: Bundle = [NOP, RETURN];

/// As many returning bundles as leave two of a full page.
fn all_but_two() -> Vec<Bundle> {
    vec![ENDING; 62]
}

/// cbz and cbnz by where they stand.
pub const BRANCHES: [Shape<CompareBranch>; 17] = [
    shape("first half", (2, 0), |b| vec![[b.to(0, 0, 1), NOP], ENDING]),
    shape("second half", (3, 0), |b| {
        vec![[NOP, b.to(0, 1, 2)], ENDING, ENDING]
    }),
    shape("both halves", (3, 0), |b| {
        vec![[b.to(0, 0, 1), b.to(0, 1, 2)], ENDING, ENDING]
    }),
    shape("before a return", (2, 0), |b| {
        vec![[b.to(0, 0, 1), RETURN], ENDING]
    }),
    shape("after code", (3, 1), |b| {
        vec![ENDING, [b.to(1, 0, 2), RETURN], ENDING]
    }),
    shape("never reached", (3, 0), |b| {
        vec![[asm::branch(0, 0, 2), NOP], [b.to(1, 0, 2), RETURN], ENDING]
    }),
    shape("nearly at the end of a full page", (64, 62), |b| {
        let mut bundles = all_but_two();
        bundles.extend([[b.to(62, 0, 63), NOP], ENDING]);
        bundles
    }),
    shape("past the page", (1, 1), |b| {
        vec![ENDING, [b.to(1, 0, 9), RETURN]]
    }),
    shape("to the middle of a bundle", (1, 1), |b| {
        vec![ENDING, [NOP, b.shortest()], ENDING]
    }),
    shape("behind b", (1, 0), |b| vec![[HALT, b.to(0, 1, 2)]]),
    shape("behind b, to the middle of a bundle", (1, 0), |b| {
        vec![[HALT, b.shortest()]]
    }),
    shape("behind a return", (2, 1), |b| {
        vec![ENDING, [RETURN, b.to(1, 1, 3)]]
    }),
    shape("behind a tail call", (1, 0), |b| {
        vec![[asm::service(0xF8), b.to(0, 1, 20)]]
    }),
    shape("behind a tail syscall by a word", (1, 0), |b| {
        vec![[BY_WORD, b.to(0, 1, 2)], [1, 0x8000]]
    }),
    shape("before an unlisted halfword", (1, 1), |b| {
        vec![ENDING, [b.to(1, 0, 2), UNLISTED], ENDING]
    }),
    shape("in the word of a service", (1, 1), |b| {
        vec![[BY_WORD, RETURN], [b.shortest(), PRELOAD]]
    }),
    shape("in a loaded word", (1, 1), |b| {
        vec![[asm::load_literal(0, 0), RETURN], [UNLISTED, b.shortest()]]
    }),
];

/// 32-bit instructions by where they stand.
pub const WIDE: [Shape<Bundle>; 12] = [
    shape("first", (2, 0), |wide| vec![wide, ENDING]),
    shape("twice", (3, 0), |wide| vec![wide, wide, ENDING]),
    shape("after code", (3, 1), |wide| vec![ENDING, wide, ENDING]),
    shape("never reached", (3, 0), |wide| {
        vec![[asm::branch(0, 0, 2), NOP], wide, ENDING]
    }),
    shape("nearly at the end of a full page", (64, 62), |wide| {
        let mut bundles = all_but_two();
        bundles.extend([wide, ENDING]);
        bundles
    }),
    shape("at the end", (1, 1), |wide| vec![ENDING, wide]),
    shape("as a loaded word", (1, 1), |wide| {
        vec![[asm::load_literal(0, 0), RETURN], wide]
    }),
    shape("opened in a second half", (1, 1), |[first, _]| {
        vec![ENDING, [NOP, first], ENDING]
    }),
    shape("across two bundles", (1, 1), |[first, second]| {
        vec![ENDING, [NOP, first], [second, NOP], ENDING]
    }),
    shape("opened behind b", (0, 0), |[first, _]| vec![[HALT, first]]),
    shape("opened behind a return", (1, 1), |[first, _]| {
        vec![ENDING, [RETURN, first]]
    }),
    shape("opened behind a tail call", (1, 1), |[first, _]| {
        vec![ENDING, [asm::service(0xFF), first]]
    }),
];
