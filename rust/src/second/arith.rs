//! The manual's shared operations: addition with carry, shifts with carry
//! out, conditions and division.

/// The four condition flags.
#[derive(Clone, Copy, Debug, Default, PartialEq, Eq)]
pub struct Flags {
    pub n: bool,
    pub z: bool,
    pub c: bool,
    pub v: bool,
}

impl Flags {
    /// N and Z as a result sets them; C and V are kept.
    pub fn with_nz(self, result: u32) -> Flags {
        Flags {
            n: sint(result) < 0,
            z: result == 0,
            ..self
        }
    }
}

/// UInt(x): 32 bits read as an unsigned number.
pub fn uint(x: u32) -> u64 {
    u64::from(x)
}

/// SInt(x): 32 bits read as a two's complement number.
pub fn sint(x: u32) -> i64 {
    let unsigned = i64::from(x);
    if bit(x, 31) {
        unsigned - (1 << 32)
    } else {
        unsigned
    }
}

/// `x<n>`: one bit of a word.
pub fn bit(x: u32, n: u32) -> bool {
    (x >> n) & 1 == 1
}

/// The low 32 bits of a wider number.
fn low_word(x: u64) -> u32 {
    (x & 0xFFFF_FFFF) as u32
}

/// The low 32 bits, in two's complement, of a signed number.
fn low_word_signed(x: i64) -> u32 {
    low_word(x.rem_euclid(1 << 32) as u64)
}

/// AddWithCarry: the sum, its carry and its overflow.
pub fn add_with_carry(x: u32, y: u32, carry: bool) -> (u32, bool, bool) {
    let unsigned_sum = uint(x) + uint(y) + u64::from(carry);
    let signed_sum = sint(x) + sint(y) + i64::from(carry);
    let result = low_word(unsigned_sum);
    (
        result,
        uint(result) != unsigned_sum,
        sint(result) != signed_sum,
    )
}

/// The kinds of shift.
#[derive(Clone, Copy, Debug, PartialEq, Eq)]
pub enum Shift {
    Lsl,
    Lsr,
    Asr,
    Ror,
}

/// Shift_C: by 0 keeps value and carry, else the shift's own rule.
pub fn shift_c(x: u32, kind: Shift, n: u32, carry: bool) -> (u32, bool) {
    match (n, kind) {
        (0, _) => (x, carry),
        (_, Shift::Lsl) => lsl_c(x, n),
        (_, Shift::Lsr) => lsr_c(x, n),
        (_, Shift::Asr) => asr_c(x, n),
        (_, Shift::Ror) => ror_c(x, n),
    }
}

/// LSL_C for n above 0: the carry is bit 32 of the extended value.
fn lsl_c(x: u32, n: u32) -> (u32, bool) {
    if n > 32 {
        return (0, false);
    }
    let extended = uint(x) << n;
    (low_word(extended), (extended >> 32) & 1 == 1)
}

/// LSR_C for n above 0: the carry is bit n-1 of the zero-extended value.
fn lsr_c(x: u32, n: u32) -> (u32, bool) {
    if n > 32 {
        return (0, false);
    }
    (low_word(uint(x) >> n), (uint(x) >> (n - 1)) & 1 == 1)
}

/// ASR_C for n above 0: the carry is bit n-1 of the sign-extended value.
fn asr_c(x: u32, n: u32) -> (u32, bool) {
    let n = n.min(33);
    let result = sint(x).div_euclid(1 << n);
    let below = sint(x).div_euclid(1 << (n - 1));
    (low_word_signed(result), below.rem_euclid(2) == 1)
}

/// ROR_C for n above 0: the carry is bit 31 of the result.
fn ror_c(x: u32, n: u32) -> (u32, bool) {
    let m = n % 32;
    let result = low_word((uint(x) << 32 | uint(x)) >> m);
    (result, bit(result, 31))
}

/// ConditionPassed: three bits choose the test, the lowest inverts it.
pub fn condition_passed(condition: u8, flags: Flags) -> bool {
    let Flags { n, z, c, v } = flags;
    let test = match condition >> 1 {
        0 => z,
        1 => c,
        2 => n,
        3 => v,
        4 => c && !z,
        5 => n == v,
        6 => n == v && !z,
        _ => true,
    };
    if condition & 1 == 1 {
        !test
    } else {
        test
    }
}

/// Sign-extends the low `width` bits of a value to 32 bits.
pub fn sign_extend(x: u32, width: u32) -> u32 {
    let low = x & ((1 << width) - 1);
    if bit(low, width - 1) {
        low.wrapping_sub(1 << width)
    } else {
        low
    }
}

/// SDIV: rounded toward zero; by zero gives zero.
pub fn sdiv(n: u32, m: u32) -> u32 {
    if m == 0 {
        0
    } else {
        low_word_signed(sint(n) / sint(m))
    }
}

/// UDIV: rounded toward zero; by zero gives zero.
pub fn udiv(n: u32, m: u32) -> u32 {
    if m == 0 {
        0
    } else {
        low_word(uint(n) / uint(m))
    }
}

/// MUL: the low 32 bits of the product.
pub fn multiply(n: u32, m: u32) -> u32 {
    low_word(uint(n) * uint(m))
}
