//! Seeded pages to compare on: pages that do real work from a fresh record,
//! closed sections, damaged pages, mixed halfwords and wrong lengths.

use crate::assemble::{self as asm, Bundle};

/// The seed that is used if none is given.
pub const DEFAULT_SEED: u64 = 20_120_704;

/// A small generator (xorshift64*).
pub struct Random(u64);

impl Random {
    /// The generator of a seed; neighbouring seeds give unlike numbers.
    pub fn new(seed: u64) -> Random {
        let mut random = Random(seed.wrapping_mul(0x9E37_79B9_7F4A_7C15) | 1);
        for _ in 0..8 {
            random.next();
        }
        random
    }

    /// The generator of one page of a seed.
    pub fn of_page(seed: u64, page: u64) -> Random {
        let mut outer = Random::new(seed);
        Random::new(outer.next() ^ page.wrapping_mul(0xD134_2543_DE82_EF95))
    }

    /// The next 64 bits.
    pub(crate) fn next(&mut self) -> u64 {
        self.0 ^= self.0 >> 12;
        self.0 ^= self.0 << 25;
        self.0 ^= self.0 >> 27;
        self.0.wrapping_mul(0x2545_F491_4F6C_DD1D)
    }

    /// A number below `n`.
    pub(crate) fn below(&mut self, n: usize) -> usize {
        ((self.next() >> 32) % n as u64) as usize
    }

    /// A number from `low` up to and with `high`.
    pub(crate) fn between(&mut self, low: usize, high: usize) -> usize {
        low + self.below(high - low + 1)
    }

    /// True in so many of a hundred cases.
    pub(crate) fn chance(&mut self, percent: usize) -> bool {
        self.below(100) < percent
    }

    /// A field below `n`.
    pub(crate) fn field(&mut self, n: usize) -> u16 {
        self.below(n) as u16
    }

    /// One of the given values.
    pub(crate) fn pick<T: Copy>(&mut self, values: &[T]) -> T {
        values[self.below(values.len())]
    }

    /// Thirty-two bits.
    pub(crate) fn bits(&mut self) -> u32 {
        (self.next() >> 32) as u32
    }

    /// Sixteen bits.
    pub(crate) fn halfword(&mut self) -> u16 {
        (self.next() >> 48) as u16
    }

    /// A word that is often at an edge of the signed or unsigned range.
    pub(crate) fn word(&mut self) -> u32 {
        const EDGES: [u32; 10] = [
            0,
            1,
            2,
            31,
            0x7FFF_FFFF,
            0x8000_0000,
            0x8000_0001,
            0xFFFF_FFFF,
            0xFFFF_FFFE,
            0x0000_8080,
        ];
        match self.below(4) {
            0 => (self.next() >> 32) as u32,
            1 => self.below(300) as u32,
            _ => self.pick(&EDGES),
        }
    }
}

/// The bytes of page number `page` of a seed.
pub fn page(seed: u64, page: u64) -> Vec<u8> {
    let mut random = Random::of_page(seed, page);
    match random.below(100) {
        0..=46 => asm::page_bytes(&work_page(&mut random)),
        47..=58 => asm::page_bytes(&condition_page(&mut random)),
        59..=67 => asm::page_bytes(&literal_page(&mut random)),
        68..=74 => asm::page_bytes(&near_page(&mut random)),
        75..=79 => asm::page_bytes(&sections(&mut random)),
        80..=88 => damaged_page(&mut random),
        89..=92 => asm::page_bytes(&mixed_page(&mut random)),
        93..=97 => wrong_length(&mut random),
        _ => noise(&mut random),
    }
}

// ---- pages that do real work -------------------------------------------

/// A page under construction: `code` bundles, then literal words and data.
struct Builder<'a> {
    random: &'a mut Random,
    bundles: Vec<Bundle>,
    /// How many bundles are code.
    code: usize,
    /// The service words that follow the code.
    literals: Vec<u32>,
    /// How many bundles the page will have.
    total: usize,
    /// Words that SP was lowered by, as far as is known.
    depth: usize,
    /// Registers below this number may be written.
    writable: usize,
    /// The address that most of the page's bases lie near.
    home: u32,
}

/// A page of pieces that mostly run to the end of its code.
pub(crate) fn work_page(random: &mut Random) -> Vec<Bundle> {
    let code = random.between(3, 56);
    Builder::new(random, code).page(Builder::prologue, Builder::piece)
}

/// A page of compares, each with conditional branches after it.
fn condition_page(random: &mut Random) -> Vec<Bundle> {
    let code = random.between(30, 60);
    Builder::new(random, code).page(|_| {}, Builder::condition_chain)
}

impl<'a> Builder<'a> {
    /// A builder of a page with so many bundles of code.
    fn new(random: &'a mut Random, code: usize) -> Builder<'a> {
        let literals: Vec<u32> = (0..random.below((64 - code).min(6) + 1))
            .map(|_| service_word(random))
            .collect();
        let total = random.between(code + literals.len(), 64);
        let home = 0x1_0000 + random.below(0x6000) as u32;
        Builder {
            random,
            bundles: Vec::new(),
            code,
            literals,
            total,
            depth: 0,
            writable: 8,
            home,
        }
    }

    /// The page that starts so and goes on with such pieces.
    fn page(mut self, start: fn(&mut Self), piece: fn(&mut Self)) -> Vec<Bundle> {
        start(&mut self);
        while self.room() > 0 {
            piece(&mut self);
        }
        self.terminator();
        self.words();
        self.bundles
    }
}

impl Builder<'_> {
    /// Bundles left before the last one of the code.
    fn room(&self) -> usize {
        (self.code - 1).saturating_sub(self.bundles.len())
    }

    /// The number of the bundle that comes next.
    fn here(&self) -> usize {
        self.bundles.len()
    }

    /// Adds a bundle if there is room for it.
    fn push(&mut self, bundle: Bundle) {
        if self.room() > 0 {
            self.bundles.push(bundle);
        }
    }

    /// A register that may be written.
    fn target(&mut self) -> u16 {
        self.random.field(self.writable)
    }

    /// Gives registers values and lowers the stack.
    fn prologue(&mut self) {
        if self.random.chance(75) {
            let words = self.random.between(1, 31);
            self.lower_stack(words);
        }
        for _ in 0..self.random.below(6) {
            let (d, value) = (self.target(), self.random.word());
            self.constant(d, value);
        }
    }

    /// d = value, by MOVW and MOVT.
    fn constant(&mut self, d: u16, value: u32) {
        let [low, high] = asm::word(value);
        self.push(asm::movw(d, low));
        if high != 0 || self.random.chance(20) {
            self.push(asm::movt(d, high));
        }
    }

    /// One piece of code.
    fn piece(&mut self) {
        match self.random.below(200) {
            0..=37 => self.calculation(),
            38..=47 => self.register_shift(),
            48..=58 => self.wide_calculation(),
            59..=63 => self.division(),
            64..=89 => self.compare_and_branch(),
            90..=91 => self.condition_chain(),
            92..=101 => self.zero_branch(),
            102..=107 => self.plain_branch(),
            108..=133 => self.memory(),
            134..=151 => self.stack(),
            152..=163 => self.literal_load(),
            164..=181 => self.literal_service(),
            182..=191 => self.counted_loop(),
            192..=194 => self.checksum(),
            195 => self.sink_stack(),
            196 => self.loop_without_end(),
            197 => self.exit(),
            198 => self.bare_access(),
            _ => self.far_literal_load(),
        }
    }

    /// A harmless 16-bit instruction.
    fn calculation_half(&mut self) -> u16 {
        let d = self.target();
        calculation_half(self.random, d)
    }

    /// Two harmless 16-bit instructions.
    fn calculation(&mut self) {
        let bundle = [self.calculation_half(), self.calculation_half()];
        self.push(bundle);
    }

    /// A shift by register, at times by 0, 32 or more, whose carry is then
    /// added in.
    fn register_shift(&mut self) {
        let (d, m) = (self.target(), self.target());
        let amount = match self.random.below(3) {
            0 => self.random.field(32),
            _ => self.random.pick(&[0, 1, 4, 31, 32, 33, 36, 64, 255]),
        };
        let shift = asm::data(self.random.pick(&[2, 3, 4, 7]), m, d);
        self.push([asm::constant8(0, m, amount), shift]);
        let (n, e) = (self.random.field(8), self.target());
        self.push([asm::data(5, n, e), asm::NOP]);
    }

    /// A bundle with the given half first or last.
    fn beside(&mut self, half: u16) {
        let other = self.calculation_half();
        let bundle = if self.random.chance(50) {
            [half, other]
        } else {
            [other, half]
        };
        self.push(bundle);
    }

    /// A division or a 16-bit constant.
    fn wide_calculation(&mut self) {
        let (d, n, m) = (self.target(), self.random.field(8), self.random.field(8));
        let imm16 = self.random.halfword();
        let bundle = match self.random.below(4) {
            0 => asm::movw(d, imm16),
            1 => asm::movt(d, imm16),
            2 => asm::sdiv(d, n, m),
            _ => asm::udiv(d, n, m),
        };
        self.push(bundle);
    }

    /// A division of a word by a small number of either sign.
    fn division(&mut self) {
        let (d, n, m) = (self.target(), self.target(), self.target());
        let value = self.random.word() ^ (self.random.field(2) as u32) << 31;
        let small = self.random.below(12) as u32;
        self.constant(n, value);
        let divisor = if self.random.chance(40) {
            small.wrapping_neg()
        } else {
            small
        };
        self.constant(m, divisor);
        let signed = self.random.chance(60);
        self.push(if signed {
            asm::sdiv(d, n, m)
        } else {
            asm::udiv(d, n, m)
        });
    }

    /// A later bundle of the code to go to.
    fn later(&mut self) -> usize {
        let near = (self.here() + 4).min(self.code - 1);
        let last = if self.random.chance(80) {
            near
        } else {
            self.code - 1
        };
        self.random.between(self.here() + 1, last)
    }

    /// Sets flags and branches on a condition, often after an overflow.
    fn compare_and_branch(&mut self) {
        let (n, m) = (self.random.field(8), self.random.field(8));
        if self.random.chance(40) && self.room() > 6 {
            let (a, b) = (self.target(), self.target());
            let (x, y) = (self.random.word(), self.random.word());
            self.constant(a, x);
            self.constant(b, y);
            let condition = self.random.pick(&[10, 11, 12, 13]);
            return self.branch_after(asm::data(10, b, a), condition);
        }
        let imm8 = self.random.field(256);
        let compare = match self.random.below(5) {
            0 => asm::constant8(1, n, imm8),
            1 => asm::data(8, m, n),
            2 => asm::data(11, m, n),
            3 => self.calculation_half(),
            _ => asm::data(10, m, n),
        };
        let condition = self.random.field(14);
        self.branch_after(compare, condition);
    }

    /// A compare in one half and a branch in the next.
    fn branch_after(&mut self, compare: u16, condition: u16) {
        if self.room() < 2 {
            return self.push([compare, asm::NOP]);
        }
        if self.random.chance(60) {
            let (here, target) = (self.here(), self.later());
            return self.push([compare, asm::conditional(condition, here, 1, target)]);
        }
        let other = self.calculation_half();
        let order = self.random.chance(50);
        self.push(if order {
            [other, compare]
        } else {
            [compare, asm::NOP]
        });
        let (here, target) = (self.here(), self.later());
        let second = match self.random.below(3) {
            0 => asm::conditional(self.random.field(14), here, 1, target),
            _ => self.calculation_half(),
        };
        self.push([asm::conditional(condition, here, 0, target), second]);
    }

    /// Two values that often overflow when compared, or are equal.
    fn compared_values(&mut self) -> (u32, u32) {
        const OVERFLOWS: [(u32, u32); 5] = [
            (0x8000_0000, 1),
            (0x7FFF_FFFF, 0xFFFF_FFFF),
            (0x8000_0001, 0x7FFF_FFFF),
            (0x7FFF_FFFE, 0x8000_0000),
            (0x8000_0000, 0x8000_0000),
        ];
        let any = self.random.word();
        match self.random.below(10) {
            0..=4 => self.random.pick(&OVERFLOWS),
            5 => (any, any),
            6 => (any, any.wrapping_neg()),
            _ => (any, self.random.word()),
        }
    }

    /// One compare, then several branches that each skip a bundle; what
    /// stands between them keeps the flags.
    fn condition_chain(&mut self) {
        let (a, b) = (self.random.field(4), 4 + self.random.field(3));
        let (x, y) = self.compared_values();
        self.constant(a, x);
        self.constant(b, y);
        let d = self.random.field(8);
        let compare = match self.random.below(8) {
            0 | 1 => asm::data(11, b, a),
            2 => asm::add_subtract(self.random.field(2), b, a, d),
            3 => asm::data(self.random.pick(&[5, 6]), b, a),
            _ => asm::data(10, b, a),
        };
        self.push([asm::NOP, compare]);
        for _ in 0..self.random.between(3, 7) {
            if self.room() < 2 {
                return self.push([asm::NOP, asm::NOP]);
            }
            let (here, condition) = (self.here(), self.random.field(14));
            let (m, d) = (self.random.field(8), self.random.field(8));
            let quiet = asm::extend(self.random.field(4), m, d);
            self.push([asm::conditional(condition, here, 0, here + 2), quiet]);
            let imm16 = self.random.halfword();
            self.push(asm::movw(d, imm16));
        }
    }

    /// CBZ or CBNZ forward.
    fn zero_branch(&mut self) {
        let (here, half) = (self.here(), self.random.below(2));
        let (nonzero, n, target) = (self.random.field(2), self.random.field(8), self.later());
        let other = self.calculation_half();
        let Some(branch) = asm::compare_branch(nonzero, n, here, half, target) else {
            return;
        };
        self.push(if half == 0 {
            [branch, other]
        } else {
            [other, branch]
        });
    }

    /// B forward; after it in a bundle, anything listed.
    fn plain_branch(&mut self) {
        let (here, target) = (self.here(), self.later());
        let bundle = if self.random.chance(50) {
            [asm::branch(here, 0, target), listed_half(self.random)]
        } else {
            [self.calculation_half(), asm::branch(here, 1, target)]
        };
        self.push(bundle);
    }

    /// An address to make a base of, mostly well inside RAM.
    fn address(&mut self) -> u32 {
        let inside = self.random.below(0x7000) as u32;
        match self.random.below(60) {
            0 => 0x17FFC + self.random.below(8) as u32,
            1 => 0x11_0000 + inside,
            2 => 0x8000_0000 + inside,
            3 => self.random.pick(&[0, 0xFFFF, 0x18000, 0xF_FFFF]),
            4 => 0x7FF1_0000 + inside,
            5..=20 => 0x1_0000 + inside,
            _ => self.home + self.random.below(6) as u32,
        }
    }

    /// Makes a base and goes through it a few times.
    fn memory(&mut self) {
        let (p, address) = (self.target(), self.address());
        self.constant(p, address);
        if self.random.chance(80) {
            self.beside(asm::service(0xE0 + p));
        } else {
            self.push([asm::service(0xE0 + p), asm::NOP]);
        }
        if self.random.chance(2) {
            self.stack();
        }
        self.accesses();
    }

    /// A few loads and stores by the base, most of them near each other.
    fn accesses(&mut self) {
        if self.random.chance(60) {
            let (first, t) = (self.random.pick(&asm::STORES), self.random.field(8));
            let imm12 = self.random.field(3);
            self.push(asm::memory(first, t, imm12));
        }
        for _ in 0..self.random.between(1, 6) {
            let near = if self.random.chance(85) { 6 } else { 0x1000 };
            let imm12 = self.random.field(near);
            let first = self.access();
            let t = if asm::STORES.contains(&first) {
                self.random.field(8)
            } else {
                self.target()
            };
            self.push(asm::memory(first, t, imm12));
            if self.random.chance(25) {
                self.calculation();
            }
        }
    }

    /// The first halfword of a load or store.
    fn access(&mut self) -> u16 {
        if self.random.chance(45) {
            self.random.pick(&asm::STORES)
        } else {
            self.random.pick(&asm::LOADS) + self.random.field(2)
        }
    }

    /// SP less so many words.
    fn lower_stack(&mut self, words: usize) {
        self.depth += words;
        self.beside(asm::service(0xC0 + words as u16));
    }

    /// Loads and stores by SP, and addresses from it.
    fn stack(&mut self) {
        if self.random.chance(15) {
            let words = self.random.below(32);
            self.lower_stack(words);
        }
        let (t, d) = (self.random.field(8), self.target());
        let any = self.random.field(256);
        if self.depth == 0 && self.random.chance(90) {
            return self.beside(asm::add_from_sp(d, any));
        }
        let words = self.random.below(self.depth.max(1)) as u16;
        let words = if self.random.chance(3) { any } else { words };
        let half = match self.random.below(3) {
            0 => asm::stack_store(t, words),
            1 => asm::stack_load(d, words),
            _ => asm::add_from_sp(d, any),
        };
        self.beside(half);
    }

    /// A literal load, mostly inside the page.
    fn literal_load(&mut self) {
        let (t, from) = (self.target(), self.here());
        let last = self.total - from - 2;
        let words = match self.random.below(30) {
            0 => self.random.field(256),
            1 => last as u16,
            _ => self.random.between(0, last) as u16,
        };
        self.beside(asm::load_literal(t, words));
    }

    /// A service by one of the literal words after the code; one that sets
    /// the base is followed by accesses, and now and then another is too.
    fn literal_service(&mut self) {
        if self.literals.is_empty() {
            return;
        }
        let number = self.random.below(self.literals.len());
        let sets_base = self.literals[number] >> 24 == 0xC2;
        self.beside(asm::service((self.code + number) as u16));
        if self.random.chance(if sets_base { 90 } else { 3 }) {
            self.accesses();
        }
    }

    /// A loop whose counter, r7, its body keeps.
    fn counted_loop(&mut self) {
        if self.room() < 4 || self.writable < 8 {
            return self.calculation();
        }
        let turns = self.random.between(1, 40) as u16;
        let other = self.calculation_half();
        self.push([other, asm::constant8(0, 7, turns)]);
        let start = self.here();
        self.writable = 7;
        let end = start + self.random.between(1, (self.room() - 1).min(8));
        while self.here() < end {
            match self.random.below(9) {
                0 => self.wide_calculation(),
                1 => self.stack(),
                2 => self.literal_load(),
                3 | 4 => self.memory(),
                _ => self.calculation(),
            }
        }
        self.writable = 8;
        let here = self.here();
        self.push([asm::constant8(3, 7, 1), asm::conditional(1, here, 1, start)]);
    }

    /// Joins words of RAM near the home address, so that stores show.
    fn checksum(&mut self) {
        if self.room() < 8 {
            return self.calculation();
        }
        let (address, turns) = (self.home, self.random.between(4, 12) as u16);
        self.constant(6, address);
        self.push([asm::constant8(0, 5, 3), asm::constant8(0, 7, turns)]);
        let start = self.here();
        self.push([asm::data(7, 5, 4), asm::service(0xE6)]);
        self.push(asm::memory(asm::LOADS[0], 3, 0));
        self.push([asm::data(1, 3, 4), asm::constant8(2, 6, 4)]);
        let here = self.here();
        self.push([asm::constant8(3, 7, 1), asm::conditional(1, here, 1, start)]);
    }

    /// Lowers the stack many times, at times too far.
    fn sink_stack(&mut self) {
        if self.room() < 4 {
            return self.calculation();
        }
        let turns = self.random.between(90, 250) as u16;
        self.push([asm::NOP, asm::constant8(0, 7, turns)]);
        let start = self.here();
        self.push([asm::service(0xDF), asm::service(0xDF)]);
        let here = self.here();
        self.push([asm::constant8(3, 7, 1), asm::conditional(1, here, 1, start)]);
    }

    /// A literal load at the page's end or past it.
    fn far_literal_load(&mut self) {
        let (t, from) = (self.target(), self.here());
        let words = self.total - from - 2 + self.random.below(3);
        self.beside(asm::load_literal(t, words as u16));
    }

    /// A branch back that may go on until the budget is spent.
    fn loop_without_end(&mut self) {
        let (here, target) = (self.here(), self.random.below(self.here() + 1));
        let condition = self.random.field(14);
        let compare = self.calculation_half();
        self.push([compare, asm::conditional(condition, here, 1, target)]);
    }

    /// A service that ends the run.
    fn exit(&mut self) {
        let low = match self.random.below(4) {
            0 => 0xE8,
            1 => 0xF0 + self.random.field(8),
            2 => self.random.pick(&[0x00, 0xF8, 0xFF]),
            _ => 0x80 + self.random.field(64),
        };
        self.beside(asm::service(low));
    }

    /// A load or store that may have no base.
    fn bare_access(&mut self) {
        let (first, t) = (self.access(), self.target());
        let imm12 = self.random.field(0x1000);
        self.push(asm::memory(first, t, imm12));
    }

    /// The last bundle of the code.
    fn terminator(&mut self) {
        let here = self.here();
        let end = match self.random.below(12) {
            0 => asm::service(0xF8 + self.random.field(8)),
            1 if self.random.chance(50) => asm::branch(here, 1, self.random.below(here + 1)),
            1 => return self.bundles.push([asm::HALT, listed_half(self.random)]),
            2 | 3 => return self.exit_then_return(),
            _ => asm::RETURN,
        };
        let other = self.calculation_half();
        self.bundles.push([other, end]);
    }

    /// An exit that goes on, and a return after it.
    fn exit_then_return(&mut self) {
        let low = match self.random.below(3) {
            0 => 0xE8,
            1 => 0xF0 + self.random.field(8),
            _ => 0x80 + self.random.field(64),
        };
        self.bundles.push([asm::service(low), asm::RETURN]);
    }

    /// The literal words and data after the code.
    fn words(&mut self) {
        for &value in &self.literals {
            self.bundles.push(asm::word(value));
        }
        while self.bundles.len() < self.total {
            let value = self.random.word();
            self.bundles.push(asm::word(value));
        }
    }
}

/// A literal word of a service; few end the run and very few are bad.
pub(crate) fn service_word(random: &mut Random) -> u32 {
    let register = (random.below(8) as u32) << 21;
    let inside = random.below(16) as u32;
    let low = random.below(1 << 24) as u32;
    match random.below(44) {
        0..=5 => 0xC100_0000 | low,
        6..=13 => 0xC200_0000 | (0x1_0000 + random.below(0x7000) as u32),
        14..=15 => 0xE100_0000 | low,
        16 => 0xE200_0000 | low,
        17..=20 => 0xC300_0000 | random.below(64) as u32,
        21 => 0xC300_0000 | low,
        22..=26 => 0xC400_0000 | register | inside,
        27..=31 => 0xC500_0000 | register | inside,
        32 => (random.pick(&[0xC400_0000u32, 0xC500_0000])) | low,
        33 | 34 => (random.below(0x8000_0000) as u32) & !3,
        35 | 36 => (random.below(0x8000_0000) as u32) & !3 | 1,
        37 | 38 => 0x8000_0000 | (random.below(8192) as u32) << 16 | low & 0xFFFE,
        39 | 40 => 0x8000_0000 | (random.below(8192) as u32) << 16 | low & 0xFFFF | 1,
        41 => random.pick(&[0xC000_0000, 0xE000_0000]) | low,
        42 => 0xC200_0000 | low,
        _ => edge_word(random),
    }
}

/// Service words at the edges, some of them bad.
pub(crate) fn edge_word(random: &mut Random) -> u32 {
    let low = random.pick(&[0, 1, 0x7C, 0x1_0000, 0x1_7FFC, 0x10_0000, 0xFF_FFFF]);
    let high = random.pick(&[0xC000_0000, 0xE000_0000]);
    match random.below(10) {
        0..=4 => high | (random.below(8) as u32) << 24 | low,
        5 => high | (random.below(32) as u32) << 24 | low,
        6 => 0x8000_0000 | random.pick(&[0x1FFF, 0x2000, 0x3FFF]) << 16 | low & 0xFFFF,
        _ => random.below(128) as u32 | random.pick(&[0, 0x7FFF_FF80]),
    }
}

/// A short page about one service by a literal word.
fn literal_page(random: &mut Random) -> Vec<Bundle> {
    let (d, m) = (random.field(8), random.field(8));
    let total = random.between(6, 12);
    let at = random.between(5, total);
    let value = if random.chance(60) {
        edge_word(random)
    } else {
        service_word(random)
    };
    let (imm16, access) = (random.halfword(), listed_access(random));
    let mut bundles = vec![
        asm::movw(d, imm16),
        [
            asm::service(0xC0 + random.field(32)),
            asm::add_from_sp(m, 0),
        ],
        [asm::service(0xE0 + m), asm::service(at as u16)],
        [asm::NOP, asm::add_from_sp(m ^ 1, 1)],
        [asm::RETURN, listed_half(random)],
    ];
    if random.chance(40) {
        bundles[3] = access;
    }
    while bundles.len() < total {
        bundles.push(asm::word(value));
    }
    bundles
}

// ---- single halfwords ---------------------------------------------------

/// A 16-bit instruction that only works on registers, with target `d`.
pub(crate) fn calculation_half(random: &mut Random, d: u16) -> u16 {
    let (n, m) = (random.field(8), random.field(8));
    match random.below(20) {
        0..=2 => {
            let imm5 = random.pick(&[0, 1, 4, 31]) ^ random.field(4);
            asm::shift_constant(random.field(3), imm5, m, d)
        }
        3..=5 => asm::add_subtract(random.field(4), m, n, d),
        6..=8 => {
            let imm8 = random.field(256);
            asm::constant8(random.field(4), d, imm8)
        }
        9..=16 => asm::data(random.field(16), m, d),
        17 => asm::mov_register(m, d),
        18 => asm::extend(random.field(4), m, d),
        _ => asm::NOP,
    }
}

/// A halfword of any listed 16-bit encoding, with any fields.
pub(crate) fn listed_half(random: &mut Random) -> u16 {
    let low = random.halfword();
    match random.below(14) {
        0 | 1 => low & 0x3FFF,
        2 | 3 => 0x4000 | low & 0x03FF,
        4 => 0x4600 | low & 0x3F,
        5 => 0x4800 | low & 0x07FF,
        6 => 0x9000 | low & 0x0FFF,
        7 => 0xA800 | low & 0x07FF,
        8 => 0xB200 | low & 0xFF,
        9 => asm::NOP,
        10 => 0xB100 | low & 0x0AFF,
        11 => 0xD000 | random.field(14) << 8 | low & 0xFF,
        12 => 0xE000 | low & 0x07FF,
        _ => listed_service(random),
    }
}

/// A service that is not reserved.
fn listed_service(random: &mut Random) -> u16 {
    match random.field(256) {
        low @ 0xE9..=0xEF => asm::service(low - 0xE0),
        low => asm::service(low),
    }
}

/// A halfword that no listed encoding matches, or nearly one that does.
pub(crate) fn odd_half(random: &mut Random) -> u16 {
    random.pick(&[
        0xDE00, 0xDEFF, 0xDFE9, 0xDFEA, 0xDFEC, 0xDFEF, 0xDFE8, 0xBF01, 0xBF10, 0xB300, 0xB000,
        0xB400, 0xBA00, 0xBE00, 0xBC00, 0xB240, 0x4640, 0x4680, 0x4700, 0x4478, 0x5000, 0x6000,
        0x7800, 0x8000, 0xA000, 0xC000, 0xC800, 0xE800, 0xF000, 0xF8C8, 0xF8C9, 0xF8D9, 0xF8D7,
        0xF8DA, 0xF888, 0xF8A8, 0xF898, 0xF998, 0xF9B9, 0xF9D8, 0xF989, 0xF9C9, 0xF849, 0xF859,
        0xF8E9, 0xF240, 0xF6C0, 0xF200, 0xF340, 0xFB90, 0xFB98, 0xFBB7, 0xFBA0, 0xFBD0, 0xFFFF,
        0x0000, 0xB900, 0xB1FF, 0xBBF8, 0xE400, 0xE7FF, 0xD0FF, 0xDD80, 0xDF7F, 0xDF3F,
    ])
}

/// A load or store with a small offset.
fn listed_access(random: &mut Random) -> Bundle {
    let (t, imm12) = (random.field(8), random.field(64));
    let first = match random.below(2) {
        0 => random.pick(&asm::STORES),
        _ => random.pick(&asm::LOADS) + random.field(2),
    };
    asm::memory(first, t, imm12)
}

/// A bundle of any listed encoding.
fn listed_bundle(random: &mut Random) -> Bundle {
    if random.chance(70) {
        [listed_half(random), listed_half(random)]
    } else {
        listed_wide(random)
    }
}

/// A 32-bit instruction of any listed encoding.
fn listed_wide(random: &mut Random) -> Bundle {
    let (d, n, m) = (random.field(8), random.field(8), random.field(8));
    let imm16 = random.halfword();
    match random.below(6) {
        0 => asm::movw(d, imm16),
        1 => asm::movt(d, imm16),
        2 => asm::sdiv(d, n, m),
        3 => asm::udiv(d, n, m),
        4 => asm::memory(random.pick(&asm::STORES), d, imm16),
        _ => asm::memory(random.pick(&asm::LOADS) + (n & 1), d, imm16),
    }
}

// ---- other pages --------------------------------------------------------

/// Sections that each end in a terminator and mostly branch within what
/// stands before their end, so that many prefixes are closed.
fn sections(random: &mut Random) -> Vec<Bundle> {
    let total = random.between(4, 64);
    let mut bundles = Vec::new();
    while bundles.len() < total {
        let end = (bundles.len() + random.between(1, 8)).min(total);
        while bundles.len() + 1 < end {
            let bundle = section_bundle(random, bundles.len(), end);
            bundles.push(bundle);
        }
        let from = bundles.len();
        let d = random.field(8);
        let last = match random.below(4) {
            0 => [asm::branch(from, 0, random.below(end)), listed_half(random)],
            1 => [
                calculation_half(random, d),
                asm::branch(from, 1, random.below(end)),
            ],
            2 => [asm::RETURN, listed_half(random)],
            _ => [calculation_half(random, d), asm::service(0xF8 + d)],
        };
        bundles.push(last);
    }
    if random.chance(60) {
        let at = random.below(total);
        bundles[at][random.below(2)] = odd_half(random);
    }
    bundles
}

/// A bundle within a section that ends before `end`.
fn section_bundle(random: &mut Random, from: usize, end: usize) -> Bundle {
    let (d, condition) = (random.field(8), random.field(14));
    let reach = if random.chance(92) { end } else { 64 };
    let half = calculation_half(random, d);
    let target = random.below(reach);
    match random.below(8) {
        0 => [asm::conditional(condition, from, 0, target), half],
        1 => [half, asm::conditional(condition, from, 1, target)],
        2 => asm::movw(d, half),
        3 => {
            let nonzero = random.field(2);
            let forward = random.between(from + 1, end.max(from + 1));
            [
                half,
                asm::compare_branch(nonzero, d, from, 1, forward).unwrap_or(asm::NOP),
            ]
        }
        _ => [half, calculation_half(random, condition & 7)],
    }
}

/// Bundles that are one bit, or one odd halfword, from a listed one. The
/// lister tells of each whether it is bad.
fn near_page(random: &mut Random) -> Vec<Bundle> {
    (0..random.between(20, 64))
        .map(|_| near_bundle(random))
        .collect()
}

/// A bundle that is listed but for one bit or halfword.
fn near_bundle(random: &mut Random) -> Bundle {
    let (half, flip) = (random.below(2), 1 << random.below(16));
    let d = random.field(8);
    let quiet = random.pick(&[asm::NOP, asm::RETURN, asm::constant8(0, d, flip)]);
    let mut bundle = match random.below(4) {
        0 | 1 => listed_wide(random),
        2 => [quiet, listed_half(random)],
        _ => [listed_half(random), quiet],
    };
    match random.below(4) {
        0 => bundle[half] = odd_half(random),
        1 => {}
        _ => bundle[half] ^= flip,
    }
    bundle
}

/// A good page with some damage.
fn damaged_page(random: &mut Random) -> Vec<u8> {
    let mut bytes = asm::page_bytes(&work_page(random));
    for _ in 0..random.between(1, 3) {
        damage(random, &mut bytes);
    }
    bytes
}

/// One damage to a page.
pub(crate) fn damage(random: &mut Random, bytes: &mut Vec<u8>) {
    if bytes.len() < 4 {
        return;
    }
    let half = 2 * random.below(bytes.len() / 2);
    let at = random.below(bytes.len());
    let put = |bytes: &mut Vec<u8>, at: usize, value: u16| {
        bytes[at..at + 2].copy_from_slice(&value.to_le_bytes());
    };
    match random.below(16) {
        0..=4 => bytes[at] ^= 1 << random.below(8),
        5..=7 => put(bytes, half, odd_half(random)),
        8..=10 => put(bytes, half, listed_half(random)),
        11 => put(bytes, half, random.halfword()),
        12 => bytes.truncate(at),
        13 => bytes.truncate(at - at % 4),
        14 => bytes.extend(std::iter::repeat_n(0, random.between(1, 9))),
        _ => bytes.swap(half, at),
    }
}

/// Random halfwords of all listed encodings, most with a return at the end.
fn mixed_page(random: &mut Random) -> Vec<Bundle> {
    let total = random.between(1, 64);
    let mut bundles: Vec<Bundle> = (0..total).map(|_| listed_bundle(random)).collect();
    if random.chance(70) {
        bundles[random.below(total.min(5))] = [asm::RETURN, asm::NOP];
        bundles[total - 1] = [asm::RETURN, asm::HALT];
    }
    bundles
}

/// Bytes whose number is wrong for a page, or at an edge.
fn wrong_length(random: &mut Random) -> Vec<u8> {
    let length = random.pick(&[
        0, 1, 2, 3, 5, 6, 7, 250, 253, 254, 255, 257, 258, 259, 260, 264, 512, 513, 1024,
    ]);
    let bundle = [0xFE, 0xE7, 0x00, 0xBF];
    bundle.into_iter().cycle().take(length).collect()
}

/// A page of random bytes after a return, or from its start.
fn noise(random: &mut Random) -> Vec<u8> {
    let total = random.between(1, 64);
    let mut bytes: Vec<u8> = (0..4 * total).map(|_| random.field(256) as u8).collect();
    if random.chance(60) {
        bytes[..4].copy_from_slice(&asm::page_bytes(&[[0x2001, asm::RETURN]]));
    }
    bytes
}
