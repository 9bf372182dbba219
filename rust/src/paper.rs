//! Fixed pages: those of 01's "Pages and steps to check", and pages written to
//! act out "Errors this trade makes" and the edges of "Services" and "Memory".

use crate::assemble::page_bytes;

/// A fixed page with the count it must have by 01.
pub struct PaperPage {
    pub name: &'static str,
    pub bundles: &'static [[u16; 2]],
    pub count: usize,
}

impl PaperPage {
    /// The page's bytes.
    pub fn bytes(&self) -> Vec<u8> {
        page_bytes(self.bundles)
    }
}

/// The page whose listing and run 01 prints whole.
pub const PRINTED: &[[u16; 2]] = &[
    [0x2800, 0xD001],
    [0x2001, 0xDF00],
    [0x2000, 0xDF00],
    [0x2000, 0xBF00],
];

/// What the lister prints for [`PRINTED`].
pub const PRINTED_LISTING: &str = "\
bundles 4 count 3
0 2800 D001 ok 2
1 2001 DF00 ok -
2 2000 DF00 ok -
3 2000 BF00 out 4
";

/// What the runner prints for [`PRINTED`].
pub const PRINTED_RUN: &str = "\
stop service 00
steps 4
place 5
regs 00000000 00000000 00000000 00000000 00000000 00000000 00000000 00000000
flags 0110
";

/// The 17 pages that 01 gives, then pages that act out its rules.
pub const PAGES: &[PaperPage] = &[
    page("empty", &[], 0),
    page("return", &[[0x2001, 0xDF00]], 1),
    page("runs past the end", &[[0x2001, 0xBF00]], 0),
    page("b to itself", &[[0xE7FE, 0xBF00]], 1),
    page("unlisted after b", &[[0xE7FE, 0xDE00]], 0),
    page("target 2", &[[0xBF00, 0xE7FE]], 0),
    page("target 0 from the second half", &[[0xBF00, 0xE7FD]], 1),
    page("target before the page", &[[0xE7FC, 0xBF00]], 0),
    page(
        "leads to a bad bundle",
        &[[0xE000, 0xBF00], [0x2001, 0xBF00], [0xDE00, 0xDE00]],
        0,
    ),
    page("store by r9", &[[0xF8C9, 0x0000], [0x2001, 0xDF00]], 2),
    page("store by r8", &[[0xF8C8, 0x0000], [0x2001, 0xDF00]], 0),
    page("tail call word", &[[0xBF00, 0xDF01], [0x0001, 0x0000]], 1),
    page("bad word", &[[0xBF00, 0xDF01], [0x0002, 0x0000]], 0),
    page("call word", &[[0xBF00, 0xDF01], [0x0000, 0x0000]], 0),
    page("word past page", &[[0xBF00, 0xDF02], [0x0001, 0x0000]], 0),
    page("syscall at the end", &[[0xBF00, 0xDF80]], 0),
    page("printed", PRINTED, 3),
    page("movw", &[[0xF241, 0x2034], [0xDF00, 0xBF00]], 2),
    page("compare with overflow, blt", COMPARE_OVERFLOW, 5),
    page("word store at 32,764", STORE_LAST, 5),
    page("word store at 32,765", STORE_PAST, 5),
    page("lsr and asr by constant 0", SHIFT_CONSTANT_ZERO, 4),
    page("lsl by register 0, 32, 33", SHIFT_REGISTER, 6),
    page("ror by 4", &shift_by(ROR, 4), 3),
    page("ror by 32", &shift_by(ROR, 32), 3),
    page("lsr by 32", &shift_by(LSR, 32), 3),
    page("lsr by 33", &shift_by(LSR, 33), 3),
    page("asr by 32", &shift_by(ASR, 32), 3),
    page("asr by 255", &shift_by(ASR, 255), 3),
    page("mul keeps c and v", MULTIPLY, 4),
    page("divisions", DIVISIONS, 6),
    page("division toward zero", TOWARD_ZERO, 5),
    page("d001 in the second half", SECOND_HALF_BRANCH, 3),
    page("literal from both halves", LITERALS, 2),
    page("literal past the page", &[[0x4801, 0xDF00]], 1),
    page(
        "load without base",
        &[[0xF8D8, 0x0000], [0xDF00, 0xBF00]],
        2,
    ),
    page("stack access past the end", &[[0x9000, 0xDF00]], 1),
    page("sp too low", SP_TOO_LOW, 1),
    page("alias of ram", ALIAS, 6),
    page("signed and unsigned loads", SIGNED_LOADS, 9),
    page("sp down to the start of ram", &lower_stack(0x2000), 2),
    page("sp one word further", &lower_stack(0x2001), 2),
    page("no base after sp less", &base_after(0xC300_0000), 5),
    page("no base after preload", &base_after(0xC100_0000), 5),
    page(
        "no base after external preload",
        &base_after(0xE100_0000),
        5,
    ),
    page("no base after long store", &base_after(0xC420_000C), 5),
    page("no base after long load", &base_after(0xC520_0000), 5),
    page("base set by a word", &base_after(0xC201_7FFC), 5),
    page("base past ram by a word", &base_after(0xC201_7FFD), 5),
    page("no external data for a word", &base_after(0xE201_0000), 5),
    page("long store past the end", &base_after(0xC420_000D), 5),
    page("long load past the end", &base_after(0xC530_0000), 5),
    page("operation 6", &base_after(0xC600_0000), 0),
    page("sp less under 111", &base_after(0xE300_0000), 0),
    page("last syscall", &base_after(0x9FFF_0000), 5),
    page("syscall too large", &base_after(0xA000_0000), 0),
];

const fn page(name: &'static str, bundles: &'static [[u16; 2]], count: usize) -> PaperPage {
    PaperPage {
        name,
        bundles,
        count,
    }
}

/// cmp of 0x80000000 with 1, then BLT over the first return.
pub const COMPARE_OVERFLOW: &[[u16; 2]] = &[
    [0x2001, 0x07C0],
    [0x2101, 0x4288],
    [0xDB02, 0xBF00],
    [0x4613, 0xDF00],
    [0xB2C4, 0xDF00],
];

/// base = validate(0x17FFC), then a word store.
pub const STORE_LAST: &[[u16; 2]] = &[
    [0xF647, 0x70FC],
    [0xF2C0, 0x0001],
    [0xDFE0, 0xBF00],
    [0xF8C9, 0x0000],
    [0xDF00, 0xBF00],
];

/// The same, one byte further.
pub const STORE_PAST: &[[u16; 2]] = &[
    [0xF647, 0x70FC],
    [0xF2C0, 0x0001],
    [0xDFE0, 0xBF00],
    [0xF8C9, 0x0001],
    [0xDF00, 0xBF00],
];

/// r0 = 0x80000000; r1 = LSR by 32, r2 = ASR by 32.
pub const SHIFT_CONSTANT_ZERO: &[[u16; 2]] = &[
    [0x2001, 0x07C0],
    [0x0801, 0xBF00],
    [0x1002, 0xBF00],
    [0xDF00, 0xBF00],
];

/// r1, r2, r3 = 3 shifted left by 0, 32 and 33.
pub const SHIFT_REGISTER: &[[u16; 2]] = &[
    [0x2103, 0x2203],
    [0x2303, 0x2400],
    [0x2520, 0x2621],
    [0x40A1, 0x40AA],
    [0x40B3, 0xBF00],
    [0xDF00, 0xBF00],
];

/// Sets C and V by a compare, then multiplies.
pub const MULTIPLY: &[[u16; 2]] = &[
    [0x2001, 0x07C0],
    [0x2801, 0x2103],
    [0x4341, 0xBF00],
    [0xDF00, 0xBF00],
];

/// Divisions by 0 and of 0x80000000 by -1.
pub const DIVISIONS: &[[u16; 2]] = &[
    [0x2001, 0x07C0],
    [0x2100, 0x43CA],
    [0xFB90, 0xF3F1],
    [0xFB90, 0xF4F2],
    [0xFBB0, 0xF5F1],
    [0xDF00, 0xBF00],
];

/// -7 / 2 and -7 / -2.
pub const TOWARD_ZERO: &[[u16; 2]] = &[
    [0x2007, 0x4240],
    [0x2102, 0x424A],
    [0xFB90, 0xF3F1],
    [0xFB90, 0xF4F2],
    [0xDF00, 0xBF00],
];

/// Z is set, so D001 goes to bundle 2.
pub const SECOND_HALF_BRANCH: &[[u16; 2]] = &[[0x2800, 0xD001], [0x2001, 0xDF00], [0x2002, 0xDF00]];

/// The same word read from both halves of bundle 0.
pub const LITERALS: &[[u16; 2]] = &[[0x4801, 0x4901], [0xDF00, 0xBF00], [0x5678, 0x1234]];

/// SP less 4 x 0xFFFFFF by a literal word.
pub const SP_TOO_LOW: &[[u16; 2]] = &[[0xDF01, 0xDF00], [0xFFFF, 0xC3FF]];

/// A byte stored at 0x10000 and read at its alias 0x110000.
pub const ALIAS: &[[u16; 2]] = &[
    [0x2101, 0x0409],
    [0x225A, 0xDFE1],
    [0xF889, 0x2003],
    [0x4803, 0xDFE0],
    [0xF898, 0x3003],
    [0xDF00, 0xBF00],
    [0x0000, 0x0011],
    [0x0000, 0x0011],
];

/// A halfword of 0x8281 stored, then its loads of both signs.
pub const SIGNED_LOADS: &[[u16; 2]] = &[
    [0x2001, 0x0400],
    [0xF248, 0x2181],
    [0xDFE0, 0xBF00],
    [0xF8A9, 0x1000],
    [0xF998, 0x2000],
    [0xF9B9, 0x3000],
    [0xF898, 0x4001],
    [0xF8B9, 0x5000],
    [0xDF00, 0xBF00],
];

/// LSR, ASR and ROR of r0 by r1.
pub const LSR: u16 = 0x40C8;
pub const ASR: u16 = 0x4108;
pub const ROR: u16 = 0x41C8;

/// 0x80000000 shifted by so many, in r0.
pub const fn shift_by(shift: u16, amount: u16) -> [[u16; 2]; 3] {
    [[0x2001, 0x07C0], [0x2100 | amount, shift], [0xDF00, 0xBF00]]
}

/// SP less four times `words` by a literal word, then r0 = SP.
pub const fn lower_stack(words: u16) -> [[u16; 2]; 3] {
    [[0xDF02, 0xA800], [0xDF00, 0xBF00], [words, 0xC300]]
}

/// SP is lowered by four words and the base set to RAM; then comes a service
/// by a literal word, and a word is loaded by r8.
pub const fn base_after(word: u32) -> [[u16; 2]; 6] {
    [
        [0x2001, 0x0400],
        [0xDFC4, 0xDFE0],
        [0xBF00, 0xDF05],
        [0xF8D8, 0x1000],
        [0xDF00, 0xBF00],
        [word as u16, (word >> 16) as u16],
    ]
}
