//! Ranges of RAM to hand over as windows: the whole, empty and small ones, those at
//! the edges of an access, others, and those that are refused.

use super::reach::Reach;
use crate::random::Random;
use crate::second::memory::RAM_SIZE;
use crate::second::record::{Base, Record, RAM_START};
use crate::second::window::Window;

/// The end of RAM.
const END: u32 = RAM_SIZE as u32;

const fn range(start: u32, end: u32) -> Window {
    Window { start, end }
}

/// Windows that are refused: they start above their end, end past RAM, or both. Cut to
/// 16 bits, the last three would not be.
pub const REFUSED: [Window; 14] = [
    range(1, 0),
    range(0, END + 1),
    range(END + 2, END + 1),
    range(END, END - 1),
    range(END, END + 1),
    range(END, 0),
    range(END + 1, END + 1),
    range(u32::MAX, END),
    range(0, u32::MAX),
    range(u32::MAX, END + 1),
    range(16_385, 16_384),
    range(0x1_0004, END),
    range(0x1_0000, 0x1_0004),
    range(0x2_0000, 0x1_8000),
];

/// Windows at the edges of what is allowed.
pub const ALLOWED: [Window; 7] = [
    Window::WHOLE,
    range(0, 0),
    range(END, END),
    range(16_384, 16_384),
    range(END - 1, END),
    range(0, 1),
    range(1, END),
];

/// The window from one offset to the other, whichever comes first.
fn between(one: u32, other: u32) -> Window {
    range(one.min(other), one.max(other))
}

/// An offset at most so far from another, in RAM or at its end.
fn near(random: &mut Random, offset: u32, most: usize) -> u32 {
    let above = offset.min(END) + random.below(2 * most + 1) as u32;
    above.saturating_sub(most as u32).min(END)
}

/// Any window that is allowed; in half of the cases the whole RAM, so that all else is
/// met as well.
pub fn any(random: &mut Random) -> Window {
    let [one, other] = [(); 2].map(|()| random.below(RAM_SIZE + 1) as u32);
    match random.below(10) {
        0..=4 => Window::WHOLE,
        5 => range(one, one),
        6 => range(one, (one + random.below(6) as u32).min(END)),
        7 => range(0, one),
        8 => range(one, END),
        _ => between(one, other),
    }
}

/// A window whose edges, or one of them, are at most two bytes from those of an access.
pub fn at_edges(random: &mut Random, reach: Reach) -> Window {
    let start = near(random, reach.at as u32, 2);
    let end = near(random, reach.end() as u32, 2);
    match random.below(4) {
        0 => range(0, end),
        1 => range(start, END),
        _ => between(start, end),
    }
}

/// An offset near that of a record's base or SP.
fn near_record(random: &mut Random, record: &Record) -> u32 {
    let at = match record.base {
        Base::Ram(offset) if random.chance(50) => offset,
        _ => record.sp.wrapping_sub(RAM_START),
    };
    near(random, at, 8)
}

/// A window for a run from a record: any, or one with an edge near SP or the base.
pub fn for_run(random: &mut Random, record: &Record) -> Window {
    let edge = near_record(random, record);
    match random.below(8) {
        0..=3 => any(random),
        4 => range(0, edge),
        5 => range(edge, END),
        _ => between(edge, near(random, edge, 100)),
    }
}

/// A part of RAM: small, some hundreds of bytes, or of any length.
pub fn part(random: &mut Random) -> Window {
    let most = random.pick(&[8, 400, RAM_SIZE - 1]);
    let length = random.below(most + 1);
    let start = random.below(RAM_SIZE - length + 1);
    range(start as u32, (start + length) as u32)
}

/// Two parts of RAM that don't overlap, often with nothing between them.
pub fn apart(random: &mut Random) -> [Window; 2] {
    let Window { start, end } = part(random);
    let cut = random.between(start as usize, end as usize) as u32;
    let gap = match random.chance(50) {
        true => 0,
        false => random.below((end - cut) as usize + 1) as u32,
    };
    let mut windows = [range(start, cut), range(cut + gap, end)];
    if random.chance(50) {
        windows.reverse();
    }
    windows
}

/// The kind of a window, by name.
pub fn kind(window: Window) -> &'static str {
    let Window { start, end } = window;
    match (start > end, end > END) {
        (true, false) => "start above its end",
        (false, true) => "end past RAM",
        (true, true) => "start above its end, that past RAM",
        (false, false) => match end - start {
            0 => "empty",
            1..=3 => "of 1 to 3 bytes",
            4 | 5 => "of 4 or 5 bytes",
            END => "whole",
            _ => "other",
        },
    }
}

/// The kinds of windows that are refused, and of those that are not.
pub const KINDS_REFUSED: [&str; 3] = [
    "start above its end",
    "end past RAM",
    "start above its end, that past RAM",
];
pub const KINDS_ALLOWED: [&str; 5] = [
    "empty",
    "of 1 to 3 bytes",
    "of 4 or 5 bytes",
    "whole",
    "other",
];
