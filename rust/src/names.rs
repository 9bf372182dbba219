//! 01's rows of encodings, services and literal words, each by mask, value and
//! name: cases are made from them, and tallies are kept by their names.

use crate::second::page::Page;

/// The numbers whose bits under `mask` are `value`.
pub struct Row<T> {
    pub mask: T,
    pub value: T,
    pub name: &'static str,
}

const fn row<T>(mask: T, value: T, name: &'static str) -> Row<T> {
    Row { mask, value, name }
}

/// The 16-bit rows but for the services.
pub const NARROW: [Row<u16>; 54] = [
    row(0xF800, 0x0000, "lsl by constant"),
    row(0xF800, 0x0800, "lsr by constant"),
    row(0xF800, 0x1000, "asr by constant"),
    row(0xFE00, 0x1800, "add register"),
    row(0xFE00, 0x1A00, "sub register"),
    row(0xFE00, 0x1C00, "add imm3"),
    row(0xFE00, 0x1E00, "sub imm3"),
    row(0xF800, 0x2000, "mov imm8"),
    row(0xF800, 0x2800, "cmp imm8"),
    row(0xF800, 0x3000, "add imm8"),
    row(0xF800, 0x3800, "sub imm8"),
    row(0xFFC0, 0x4000, "and"),
    row(0xFFC0, 0x4040, "eor"),
    row(0xFFC0, 0x4080, "lsl"),
    row(0xFFC0, 0x40C0, "lsr"),
    row(0xFFC0, 0x4100, "asr"),
    row(0xFFC0, 0x4140, "adc"),
    row(0xFFC0, 0x4180, "sbc"),
    row(0xFFC0, 0x41C0, "ror"),
    row(0xFFC0, 0x4200, "tst"),
    row(0xFFC0, 0x4240, "rsb"),
    row(0xFFC0, 0x4280, "cmp"),
    row(0xFFC0, 0x42C0, "cmn"),
    row(0xFFC0, 0x4300, "orr"),
    row(0xFFC0, 0x4340, "mul"),
    row(0xFFC0, 0x4380, "bic"),
    row(0xFFC0, 0x43C0, "mvn"),
    row(0xFFC0, 0x4600, "mov"),
    row(0xF800, 0x4800, "literal load"),
    row(0xF800, 0x9000, "sp store"),
    row(0xF800, 0x9800, "sp load"),
    row(0xF800, 0xA800, "add from sp"),
    row(0xFFC0, 0xB200, "sxth"),
    row(0xFFC0, 0xB240, "sxtb"),
    row(0xFFC0, 0xB280, "uxth"),
    row(0xFFC0, 0xB2C0, "uxtb"),
    row(0xFFFF, 0xBF00, "nop"),
    row(0xFD00, 0xB100, "cbz"),
    row(0xFD00, 0xB900, "cbnz"),
    row(0xFF00, 0xD000, "beq"),
    row(0xFF00, 0xD100, "bne"),
    row(0xFF00, 0xD200, "bcs"),
    row(0xFF00, 0xD300, "bcc"),
    row(0xFF00, 0xD400, "bmi"),
    row(0xFF00, 0xD500, "bpl"),
    row(0xFF00, 0xD600, "bvs"),
    row(0xFF00, 0xD700, "bvc"),
    row(0xFF00, 0xD800, "bhi"),
    row(0xFF00, 0xD900, "bls"),
    row(0xFF00, 0xDA00, "bge"),
    row(0xFF00, 0xDB00, "blt"),
    row(0xFF00, 0xDC00, "bgt"),
    row(0xFF00, 0xDD00, "ble"),
    row(0xF800, 0xE000, "b"),
];

/// The services that the low byte tells.
pub const SERVICES: [Row<u16>; 7] = [
    row(0xFFFF, 0xDF00, "return"),
    row(0xFFC0, 0xDF80, "direct syscall"),
    row(0xFFE0, 0xDFC0, "sp less"),
    row(0xFFF8, 0xDFE0, "base from register"),
    row(0xFFFF, 0xDFE8, "breakpoint"),
    row(0xFFF8, 0xDFF0, "call"),
    row(0xFFF8, 0xDFF8, "tail call"),
];

/// The literal words that stand for a service.
pub const WORDS: [Row<u32>; 13] = [
    row(0x8000_0003, 0x0000_0000, "word: call"),
    row(0x8000_0003, 0x0000_0001, "word: tail call"),
    row(0xE000_0001, 0x8000_0000, "word: syscall"),
    row(0xE000_0001, 0x8000_0001, "word: tail syscall"),
    row(0xFF00_0000, 0xC000_0000, "word: long branch"),
    row(0xFF00_0000, 0xC100_0000, "word: preload"),
    row(0xFF00_0000, 0xC200_0000, "word: set base"),
    row(0xFF00_0000, 0xC300_0000, "word: sp less"),
    row(0xFF00_0000, 0xC400_0000, "word: store"),
    row(0xFF00_0000, 0xC500_0000, "word: load"),
    row(0xFF00_0000, 0xE000_0000, "word: external long branch"),
    row(0xFF00_0000, 0xE100_0000, "word: external preload"),
    row(0xFF00_0000, 0xE200_0000, "word: external set base"),
];

/// The bad literal words; the first row that matches names a word.
pub const BAD_WORDS: [Row<u32>; 7] = [
    row(0x8000_0002, 0x0000_0002, "bad word: call with 1x"),
    row(0xE000_0000, 0xA000_0000, "bad word: syscall above 8191"),
    row(0xFF00_0000, 0xE300_0000, "bad word: external sp less"),
    row(0xFF00_0000, 0xE400_0000, "bad word: external store"),
    row(0xFF00_0000, 0xE500_0000, "bad word: external load"),
    row(0xE000_0000, 0xC000_0000, "bad word: operation above 5"),
    row(
        0xE000_0000,
        0xE000_0000,
        "bad word: external operation above 5",
    ),
];

/// The 32-bit rows: first halfword above the second.
pub const WIDE: [Row<u32>; 17] = [
    row(0xFFFF_8000, 0xF8C9_0000, "str by r9"),
    row(0xFFFF_8000, 0xF889_0000, "strb by r9"),
    row(0xFFFF_8000, 0xF8A9_0000, "strh by r9"),
    row(0xFFFF_8000, 0xF8D8_0000, "ldr by r8"),
    row(0xFFFF_8000, 0xF8D9_0000, "ldr by r9"),
    row(0xFFFF_8000, 0xF898_0000, "ldrb by r8"),
    row(0xFFFF_8000, 0xF899_0000, "ldrb by r9"),
    row(0xFFFF_8000, 0xF8B8_0000, "ldrh by r8"),
    row(0xFFFF_8000, 0xF8B9_0000, "ldrh by r9"),
    row(0xFFFF_8000, 0xF998_0000, "ldrsb by r8"),
    row(0xFFFF_8000, 0xF999_0000, "ldrsb by r9"),
    row(0xFFFF_8000, 0xF9B8_0000, "ldrsh by r8"),
    row(0xFFFF_8000, 0xF9B9_0000, "ldrsh by r9"),
    row(0xFBF0_8800, 0xF240_0000, "movw"),
    row(0xFBF0_8800, 0xF2C0_0000, "movt"),
    row(0xFFF8_F8F8, 0xFB90_F0F0, "sdiv"),
    row(0xFFF8_F8F8, 0xFBB0_F0F0, "udiv"),
];

/// The name of the first row that matches.
fn first<T>(rows: &[Row<T>], bits: T) -> Option<&'static str>
where
    T: Copy + PartialEq + std::ops::BitAnd<Output = T>,
{
    let found = rows.iter().find(|row| bits & row.mask == row.value);
    found.map(|row| row.name)
}

/// True for cbz and cbnz.
pub fn is_compare_branch(half: u16) -> bool {
    matches!(half >> 8, 0xB1 | 0xB3 | 0xB9 | 0xBB)
}

/// True if a first halfword belongs to a 32-bit row.
pub fn opens_a_row(half: u16) -> bool {
    let bits = u32::from(half) << 16;
    let matches = |row: &Row<u32>| (bits ^ row.value) & row.mask & 0xFFFF_0000 == 0;
    WIDE.iter().any(matches)
}

/// The name of what a literal word stands for, good or bad.
pub fn word(word: u32) -> &'static str {
    let name = first(&WORDS, word).or_else(|| first(&BAD_WORDS, word));
    name.unwrap_or("no word")
}

/// The name of the instruction at a place of the page, if a row matches it.
pub fn at(page: Page, place: usize) -> Option<&'static str> {
    if place / 2 >= page.bundles() {
        return None;
    }
    let half = page.halfword(place);
    if half >= 0xE800 {
        let second = place.is_multiple_of(2).then(|| page.halfword(place + 1))?;
        return first(&WIDE, u32::from(half) << 16 | u32::from(second));
    }
    match half {
        0xDF01..=0xDF7F => page.word(usize::from(half & 0x7F)).map(word),
        _ => first(&NARROW, half).or_else(|| first(&SERVICES, half)),
    }
}
