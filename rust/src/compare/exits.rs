//! The exits: every low byte, and numbers that are none, each with literals of
//! every row of 002's table and on both sides of its edges.

use super::{Comparison, Same};
use crate::names::{self, Row, BAD_WORDS, WORDS};
use crate::random::Random;

/// Numbers of syscalls at their edges.
const NUMBERS: [u32; 6] = [0, 1, 8190, 8191, 8192, 16_383];
/// Constants of syscalls, with the tail bit below them.
const CONSTANTS: [u32; 10] = [0, 1, 2, 3, 0x7FFE, 0x7FFF, 0x8000, 0x8001, 0xFFFE, 0xFFFF];
/// Low 24 bits to stand below every top byte.
const LOWER: [u32; 11] = [
    0, 1, 2, 3, 4, 0x7F_FFFF, 0x80_0000, 0xFF_FFFC, 0xFF_FFFD, 0xFF_FFFE, 0xFF_FFFF,
];
/// How many words are taken at random, of each row and of any.
const RANDOM_OF_A_ROW: usize = 50;
const RANDOM: usize = 1000;

/// The whole part.
pub fn compare(comparison: &mut Comparison) -> Same {
    let mut random = Random::of_page(comparison.seed, 6 << 40);
    let none = [0x7FFF_FFFF, 0x8000_0000, 0xFFFF_FF00, u32::MAX];
    for literal in literals(&mut random) {
        comparison.tally.class("exit words", names::word(literal));
        for low in (0..0x200).chain(none) {
            comparison.exit(low, literal)?;
        }
    }
    Ok(())
}

/// All literals that each low byte is handed.
fn literals(random: &mut Random) -> Vec<u32> {
    let mut all = Vec::new();
    for row in WORDS.iter().chain(&BAD_WORDS) {
        all.extend(of_row(random, row));
    }
    all.extend((0..=u32::from(u8::MAX)).flat_map(|top| LOWER.map(|low| top << 24 | low)));
    all.extend(NUMBERS.iter().flat_map(|&number| syscalls(number)));
    all.extend((0..RANDOM).map(|_| random.bits()));
    all
}

/// Words of a row: its free bits all clear, all set, each alone set or clear,
/// and at random.
fn of_row(random: &mut Random, row: &Row<u32>) -> Vec<u32> {
    let alone = (0..32).map(|bit| 1 << bit);
    let free = [0, u32::MAX].into_iter();
    free.chain(alone.clone())
        .chain(alone.map(|bit: u32| !bit))
        .chain((0..RANDOM_OF_A_ROW).map(|_| random.bits()))
        .map(|free| row.value | free & !row.mask)
        .collect()
}

/// Words with the number of a syscall, good or bad.
fn syscalls(number: u32) -> [u32; CONSTANTS.len()] {
    CONSTANTS.map(|constant| 0x8000_0000 | number << 16 | constant)
}
