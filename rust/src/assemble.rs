//! Encodings by name, to write pages with. The fields are put where 01 and
//! the manual show them; nothing here uses the decoder.

/// One bundle: its first and second halfword.
pub type Bundle = [u16; 2];

/// NOP.
pub const NOP: u16 = 0xBF00;
/// The service that returns.
pub const RETURN: u16 = 0xDF00;
/// B to its own address.
pub const HALT: u16 = 0xE7FE;

/// The bytes of a page.
pub fn page_bytes(bundles: &[Bundle]) -> Vec<u8> {
    bundles
        .iter()
        .flatten()
        .flat_map(|half| half.to_le_bytes())
        .collect()
}

/// A data word as a bundle.
pub fn word(value: u32) -> Bundle {
    [(value & 0xFFFF) as u16, (value >> 16) as u16]
}

/// 000kk imm5 m d: LSL (0), LSR (1) or ASR (2) by constant.
pub fn shift_constant(kind: u16, imm5: u16, m: u16, d: u16) -> u16 {
    kind << 11 | (imm5 & 31) << 6 | m << 3 | d
}

/// 00011 op x n d: ADD, SUB by register (0, 1) and by three bits (2, 3).
pub fn add_subtract(op: u16, x: u16, n: u16, d: u16) -> u16 {
    0x1800 | op << 9 | (x & 7) << 6 | n << 3 | d
}

/// 001 op d imm8: MOV (0), CMP (1), ADD (2), SUB (3) with eight bits.
pub fn constant8(op: u16, d: u16, imm8: u16) -> u16 {
    0x2000 | op << 11 | d << 8 | (imm8 & 0xFF)
}

/// 010000 op m d: the sixteen register operations.
pub fn data(op: u16, m: u16, d: u16) -> u16 {
    0x4000 | op << 6 | m << 3 | d
}

/// MOV of a register without flags.
pub fn mov_register(m: u16, d: u16) -> u16 {
    0x4600 | m << 3 | d
}

/// Literal load of the word `words` bundles past the next.
pub fn load_literal(t: u16, words: u16) -> u16 {
    0x4800 | t << 8 | (words & 0xFF)
}

/// Store at SP plus four times `words`.
pub fn stack_store(t: u16, words: u16) -> u16 {
    0x9000 | t << 8 | (words & 0xFF)
}

/// Load at SP plus four times `words`.
pub fn stack_load(t: u16, words: u16) -> u16 {
    0x9800 | t << 8 | (words & 0xFF)
}

/// ADD from SP.
pub fn add_from_sp(d: u16, words: u16) -> u16 {
    0xA800 | d << 8 | (words & 0xFF)
}

/// SXTH, SXTB, UXTH, UXTB by `kind` 0 to 3.
pub fn extend(kind: u16, m: u16, d: u16) -> u16 {
    0xB200 | kind << 6 | m << 3 | d
}

/// The offset, in halfwords, of a branch at half `half` of bundle `from`.
fn branch_offset(from: usize, half: usize, target: usize) -> i32 {
    2 * target as i32 - (2 * from + half) as i32 - 2
}

/// CBZ, or CBNZ with `nonzero` 1; nothing if the target is out of reach.
pub fn compare_branch(
    nonzero: u16,
    n: u16,
    from: usize,
    half: usize,
    target: usize,
) -> Option<u16> {
    let offset = u16::try_from(branch_offset(from, half, target)).ok()?;
    (offset < 64).then_some(0xB100 | nonzero << 11 | (offset >> 5) << 9 | (offset & 31) << 3 | n)
}

/// A conditional branch from a half of a bundle to a bundle.
pub fn conditional(condition: u16, from: usize, half: usize, target: usize) -> u16 {
    0xD000 | condition << 8 | (branch_offset(from, half, target) & 0xFF) as u16
}

/// B from a half of a bundle to a bundle.
pub fn branch(from: usize, half: usize, target: usize) -> u16 {
    0xE000 | (branch_offset(from, half, target) & 0x7FF) as u16
}

/// A service by its low byte.
pub fn service(low: u16) -> u16 {
    0xDF00 | (low & 0xFF)
}

/// The load and store first halfwords: stores by r9.
pub const STORES: [u16; 3] = [0xF8C9, 0xF889, 0xF8A9];
/// Loads by r8; those by r9 are one more.
pub const LOADS: [u16; 5] = [0xF8D8, 0xF898, 0xF8B8, 0xF998, 0xF9B8];

/// A load or store: first halfword, register, twelve bits of offset.
pub fn memory(first: u16, t: u16, imm12: u16) -> Bundle {
    [first, t << 12 | (imm12 & 0xFFF)]
}

/// MOVW.
pub fn movw(d: u16, imm16: u16) -> Bundle {
    move_constant(0xF240, d, imm16)
}

/// MOVT.
pub fn movt(d: u16, imm16: u16) -> Bundle {
    move_constant(0xF2C0, d, imm16)
}

/// imm16 = imm4 : i : imm3 : imm8, spread over both halfwords.
fn move_constant(first: u16, d: u16, imm16: u16) -> Bundle {
    let (imm4, i) = (imm16 >> 12, (imm16 >> 11) & 1);
    let (imm3, imm8) = ((imm16 >> 8) & 7, imm16 & 0xFF);
    [first | i << 10 | imm4, imm3 << 12 | d << 8 | imm8]
}

/// SDIV: d = n / m.
pub fn sdiv(d: u16, n: u16, m: u16) -> Bundle {
    [0xFB90 | n, 0xF0F0 | d << 8 | m]
}

/// UDIV: d = n / m.
pub fn udiv(d: u16, n: u16, m: u16) -> Bundle {
    [0xFBB0 | n, 0xF0F0 | d << 8 | m]
}
