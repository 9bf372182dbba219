//! Filters that load and store in a loop, by a base and on the stack, mostly inside a
//! window.

use super::cases::Case;
use super::records;
use crate::assemble::{self as asm, page_bytes, Bundle, LOADS, NOP, RETURN, STORES};
use crate::random::{self, Random};
use crate::second::profile::SMALL;
use crate::second::record::{Record, RAM_START};
use crate::second::window::Window;

/// Service E0: the base is validate(r0).
const BASE: u16 = 0xDFE0;
/// Most bytes between r0 or SP and an access by it.
const MOST_SPAN: usize = 200;
/// Most turns of a loop.
const MOST_TURNS: usize = 12;

/// A filter for a profile and a window: r0 and SP begin in it, r7 counts the turns.
pub fn filter(random: &mut Random, window: Window, profile: u32) -> Case {
    let length = (window.end - window.start) as usize;
    let span = (length / 2).clamp(1, MOST_SPAN);
    let mut inside = || window.start + random.below(length.saturating_sub(span) + 1) as u32;
    let (base, sp) = (RAM_START + inside(), RAM_START + inside() / 4 * 4);
    let mut record = Record {
        sp,
        ..records::fit(random, 0)
    };
    record.registers[0] = base;
    record.registers[7] = random.between(1, MOST_TURNS) as u32;
    let page = page_bytes(&page(random, span, profile));
    Case { page, record }
}

/// A loop of accesses so many bytes apart at most, a return, and the words of two
/// literal operations.
fn page(random: &mut Random, span: usize, profile: u32) -> Vec<Bundle> {
    let pieces = random.between(3, 12);
    let behind = pieces + 2;
    let mut bundles = vec![[BASE, NOP]];
    while bundles.len() < pieces {
        bundles.push(match profile {
            SMALL => by_stack(random, span, behind),
            _ => any_access(random, span, behind),
        });
    }
    let last = bundles.len();
    bundles.push([asm::constant8(3, 7, 1), asm::conditional(1, last, 1, 0)]);
    bundles.push([RETURN, RETURN]);
    let offsets = [random.below(span), random.below(span)];
    for (word, offset) in [0xC420_0000, 0xC540_0000].into_iter().zip(offsets) {
        bundles.push(asm::word(word | offset as u32));
    }
    bundles
}

/// An access by the base or on the stack; the base is set anew, and may move on.
fn any_access(random: &mut Random, span: usize, behind: usize) -> Bundle {
    let t = register(random);
    let imm12 = match random.below(60) {
        0 => random.field(4096),
        _ => random.field(span),
    };
    match random.below(10) {
        0..=2 => asm::memory(random.pick(&STORES), t, imm12),
        3..=5 => asm::memory(random.pick(&LOADS) + random.field(2), t, imm12),
        6 => [asm::constant8(2, 0, random.field(5)), BASE],
        _ => by_stack(random, span, behind),
    }
}

/// An access on the stack beside a calculation, or by a literal behind the code.
fn by_stack(random: &mut Random, span: usize, behind: usize) -> Bundle {
    let (t, d) = (register(random), register(random));
    let words = random.field(span.div_ceil(4));
    let half = random::calculation_half(random, d);
    match random.below(4) {
        0 => [asm::stack_store(t, words), half],
        1 => [asm::stack_load(t, words), half],
        _ => [asm::service((behind + random.below(2)) as u16), BASE],
    }
}

/// A register that the loop may change.
fn register(random: &mut Random) -> u16 {
    1 + random.field(6)
}
