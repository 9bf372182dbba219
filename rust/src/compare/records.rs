//! Records and addresses at the edges that 01 names, and others.

use crate::random::Random;
use crate::second::arith::Flags;
use crate::second::memory::{EXTERNAL_START, RAM_SIZE};
use crate::second::record::{Base, Record, RAM_END, RAM_OFFSETS, RAM_START};

/// Values of registers: edges of shifts, of signs, of RAM and of external data.
pub const EDGES: [u32; 40] = [
    0,
    1,
    2,
    3,
    7,
    8,
    31,
    32,
    33,
    34,
    63,
    64,
    127,
    128,
    255,
    256,
    257,
    0x7FFF,
    0x8000,
    0x8080,
    0xFFFF,
    0x1_0000,
    0x1_7FFC,
    0x1_7FFF,
    0x1_8000,
    0xF_FFFF,
    0x10_0000,
    0x11_0000,
    0x5555_5555,
    0x7FFF_FFFE,
    0x7FFF_FFFF,
    0x8000_0000,
    0x8000_0001,
    0x8000_00FF,
    0x8000_0100,
    0xFFFF_0000,
    0xFFFF_FF7F,
    0xFFFF_FF80,
    0xFFFF_FFFE,
    0xFFFF_FFFF,
];

/// Addresses at the edges of RAM, of its aliases and of external data.
const ADDRESSES: [u32; 22] = [
    0,
    1,
    0xFFFF,
    0x1_0000,
    0x1_0001,
    0x1_7FFC,
    0x1_7FFF,
    0x1_8000,
    0xF_FFFF,
    0x10_0000,
    0x10_FFFF,
    0x11_0000,
    0x11_7FFF,
    0x7FFF_FFFF,
    0x8000_0000,
    0x8000_00FF,
    0x8000_0100,
    0x80FF_FFFF,
    0x8100_0000,
    0xFFFF_0000,
    0xFFFF_FFFE,
    0xFFFF_FFFF,
];

/// A value for a register.
pub fn value(random: &mut Random) -> u32 {
    match random.below(10) {
        0..=5 => random.pick(&EDGES),
        6 | 7 => random.bits(),
        _ => random.below(300) as u32,
    }
}

/// An address to make a base of, with so many bytes of external data.
pub fn address(random: &mut Random, external: usize) -> u32 {
    let end = EXTERNAL_START + external as u32;
    match random.below(10) {
        0..=3 => random.pick(&ADDRESSES),
        4 | 5 => near(random, end, 2),
        6 => EXTERNAL_START + random.below(external.max(1)) as u32,
        7 => RAM_START + random.below(RAM_SIZE) as u32,
        8 => random.bits(),
        _ => near(random, RAM_END, 5),
    }
}

/// A number at most `reach` away, around the ends of 32 bits if need be.
pub fn near(random: &mut Random, number: u32, reach: usize) -> u32 {
    let above = random.below(2 * reach + 1) as u32;
    number.wrapping_sub(reach as u32).wrapping_add(above)
}

/// SP of a fit record, often at or near an end of RAM.
fn stack_pointer(random: &mut Random) -> u32 {
    let words = match random.below(6) {
        0 => 0,
        1 => 0x2000,
        2 => random.below(4),
        3 => 0x2000 - random.below(4),
        4 => 0x2000 - random.below(260),
        _ => random.below(0x2001),
    };
    RAM_START + 4 * words as u32
}

/// A fit base, often at an edge.
pub fn base(random: &mut Random, external: usize) -> Base {
    match random.below(6) {
        0 => Base::None,
        1 => Base::Ram(random.below(RAM_SIZE) as u32),
        2 => Base::Ram(near(random, RAM_SIZE as u32 - 2, 3)),
        3 => {
            let rows = [0, 1, 0x8000, 0xE_FFFF, 0xF_0000, 0xF_FFFF];
            Base::Ram(random.pick(&rows))
        }
        _ if external == 0 => Base::None,
        _ => Base::External(external_offset(random, external)),
    }
}

/// An offset in external data, often at an edge of one of its pages.
fn external_offset(random: &mut Random, external: usize) -> u32 {
    let page = 256 * random.below(external / 256);
    let at = match random.below(4) {
        0 => 0,
        1 => 255,
        2 => 255 - random.below(8),
        _ => random.below(256),
    };
    (page + at) as u32
}

/// All four flags.
pub fn flags(number: usize) -> Flags {
    Flags {
        n: number & 8 != 0,
        z: number & 4 != 0,
        c: number & 2 != 0,
        v: number & 1 != 0,
    }
}

/// A fit record, at place 0.
pub fn fit(random: &mut Random, external: usize) -> Record {
    let mut registers = [0; 8];
    for register in &mut registers {
        *register = value(random);
    }
    Record {
        registers,
        sp: stack_pointer(random),
        flags: flags(random.below(16)),
        place: 0,
        base: base(random, external),
    }
}

/// SPs out of range that are multiples of 4.
pub const SP_OUT: [u32; 6] = [0xFFFC, 0x1_8004, 0, 0x11_0000, 0x8001_0000, 0xFFFF_FFFC];
/// SPs in range that are no multiples of 4.
pub const SP_UNALIGNED: [u32; 6] = [0x1_0001, 0x1_0002, 0x1_0003, 0x1_7FFD, 0x1_7FFE, 0x1_7FFF];
/// SPs out of range that are no multiples of 4.
pub const SP_OUT_UNALIGNED: [u32; 6] = [0xFFFE, 0xFFFF, 0x1_8001, 0x1_8002, 1, u32::MAX];
/// RAM offsets out of range.
pub const RAM_OUT: [u32; 5] = [RAM_OFFSETS, RAM_OFFSETS + 1, 1 << 24, 1 << 31, u32::MAX];

/// An external offset that is not below so much data's length.
pub fn past_external(random: &mut Random, external: usize) -> u32 {
    external as u32 + random.pick(&[0, 1, 255, 256, 1 << 30])
}

/// The record with SP or base out of range, for so much external data.
pub fn unfit(random: &mut Random, record: &Record, external: usize) -> Record {
    let mut record = record.clone();
    match random.below(5) {
        0 => record.sp = random.pick(&SP_OUT),
        1 => record.sp = random.pick(&SP_UNALIGNED),
        2 => record.sp = random.pick(&SP_OUT_UNALIGNED),
        3 => record.base = Base::Ram(random.pick(&RAM_OUT)),
        _ => record.base = Base::External(past_external(random, external)),
    }
    record
}

/// What room for a stored form holds before a call.
pub const FILLING: u8 = 0xAA;

/// The positions at which bytes are spoilt, so that they hold no record; with
/// none, their length is wrong. At 36 and 37 the base is overwritten: an offset for
/// refusal 43 or 44 can stay wrong only where the length or the flags alone are
/// spoilt.
pub const SPOILS: [&[u8]; 7] = [&[], &[36], &[37], &[43], &[36, 37], &[36, 43], &[37, 43]];

/// The bytes spoilt at these positions.
pub fn spoil(random: &mut Random, bytes: &mut Vec<u8>, positions: &[u8]) {
    if positions.is_empty() {
        bytes.resize(random.pick(&[0, 1, 36, 43, 45, 88, 100]), 0);
    }
    if positions.contains(&37) {
        bytes[36] = 0;
        bytes[37 + random.below(4)] |= 1 << random.below(8);
    }
    if positions.contains(&36) {
        bytes[36] = random.between(3, 255) as u8;
    }
    if positions.contains(&43) {
        bytes[43] = random.between(16, 255) as u8;
    }
}
