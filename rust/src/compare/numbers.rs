//! Short forms made without either side: a number for each field, in as many groups
//! as are asked for, and what the papers say of them.

use super::sides::Told;
use crate::random::Random;

/// What a number of at most five groups lies below.
pub const PAST: u64 = 1 << 35;

/// A number for each field; the offset is left out where the kind is 0.
#[derive(Clone, Copy, Debug, Default)]
pub struct Numbers {
    pub registers: [u64; 8],
    pub sp: u64,
    pub kind: u64,
    pub offset: u64,
    pub place: u64,
    pub flags: u64,
}

impl Numbers {
    /// All that are written, in their order.
    pub fn written(&self) -> Vec<u64> {
        let mut all = self.registers.to_vec();
        all.extend([self.sp, self.kind]);
        if self.kind != 0 {
            all.push(self.offset);
        }
        all.extend([self.place, self.flags]);
        all
    }

    /// The groups of each, as few as can be.
    pub fn groups(&self) -> Vec<Vec<u8>> {
        let shortest = |value: u64| in_groups(value, least_groups(value));
        self.written().into_iter().map(shortest).collect()
    }

    /// The short form.
    pub fn bytes(&self) -> Vec<u8> {
        self.groups().concat()
    }

    /// What unpacking it tells.
    pub fn told(&self) -> Told {
        let offsets = match self.kind {
            1 => 1 << 20,
            2 => 1 << 24,
            _ => u64::MAX,
        };
        let registers = (0..).step_by(4).zip(self.registers);
        let fields = registers
            .map(|(position, value)| (position, value < 1 << 32))
            .chain([
                (32, self.sp <= 8192),
                (36, self.kind <= 2),
                (37, self.offset < offsets),
                (41, self.place <= 127),
                (43, self.flags <= 15),
            ]);
        let mut failing = fields.filter(|(_, fits)| !fits);
        let first = failing.next();
        first.map_or(Told::ACCEPTED, |(position, _)| Told::at(7, position))
    }

    /// The 44 bytes, if they are in range.
    pub fn stored(&self) -> Vec<u8> {
        let sp = 0x1_8000 - 4 * self.sp;
        let offset = if self.kind == 0 { 0 } else { self.offset };
        let mut bytes = Vec::new();
        for word in self.registers.into_iter().chain([sp]) {
            bytes.extend(&word.to_le_bytes()[..4]);
        }
        bytes.push(self.kind as u8);
        bytes.extend(&offset.to_le_bytes()[..4]);
        bytes.extend([self.place as u8, 0, self.flags as u8]);
        bytes
    }
}

/// How many groups a number needs.
pub fn least_groups(value: u64) -> usize {
    let further = [7, 14, 21, 28, 35, 42, 49, 56];
    1 + further.iter().filter(|&bits| value >> bits > 0).count()
}

/// A number in so many groups, of which the last may be zero: nine at most.
pub fn in_groups(value: u64, groups: usize) -> Vec<u8> {
    let mut bytes = Vec::new();
    for at in 0..groups {
        let more = if at + 1 < groups { 128 } else { 0 };
        bytes.push((value >> (7 * at)) as u8 % 128 + more);
    }
    bytes
}

/// A number that needs exactly so many groups and is at most `most`.
fn needing(random: &mut Random, groups: usize, most: u64) -> u64 {
    let least = if groups == 1 {
        0
    } else {
        1 << (7 * (groups - 1))
    };
    let last = most.min((1 << (7 * groups)) - 1);
    match random.below(8) {
        0 => least,
        1 => last,
        _ => least + random.next() % (last - least + 1),
    }
}

/// Numbers of at most these values whose groups come to so many, with an offset where
/// the kind, which is the tenth, has one.
fn spread(random: &mut Random, most: &[u64], least_kind: u64, total: usize) -> Numbers {
    let mut groups = vec![1; most.len()];
    while groups.iter().sum::<usize>() < total {
        let at = random.below(most.len());
        groups[at] = least_groups(most[at]).min(groups[at] + 1);
    }
    let mut values = groups
        .iter()
        .zip(most)
        .map(|(&groups, &most)| needing(random, groups, most));
    let mut next = || values.next().unwrap_or(0);
    Numbers {
        registers: [(); 8].map(|()| next()),
        sp: next(),
        kind: next().max(least_kind),
        offset: if least_kind == 0 { 0 } else { next() },
        place: next(),
        flags: next(),
    }
}

/// The last values in range: r0 to r7, then those of SP, a kind and its offset, place
/// and flags.
fn last_in_range(kind: u64) -> Vec<u64> {
    let mut most = vec![(1 << 32) - 1; 8];
    most.extend([8192, kind]);
    match kind {
        0 => {}
        1 => most.push((1 << 20) - 1),
        _ => most.push((1 << 24) - 1),
    }
    most.extend([127, 15]);
    most
}

/// Numbers in range whose form has so many bytes, 12 to 49.
pub fn in_range(random: &mut Random, length: usize) -> Numbers {
    let kind = match length {
        12 => 0,
        13..=45 => random.below(3) as u64,
        46..=48 => random.between(1, 2) as u64,
        _ => 2,
    };
    spread(random, &last_in_range(kind), kind, length)
}

/// Numbers of at most five groups whose form has so many bytes, 12 to 65.
pub fn any(random: &mut Random, length: usize) -> Numbers {
    let without = length == 12 || (length <= 56 && random.chance(20));
    let mut most = vec![PAST - 1; if without { 12 } else { 13 }];
    if without {
        most[9] = 0;
    }
    spread(random, &most, u64::from(!without), length)
}
