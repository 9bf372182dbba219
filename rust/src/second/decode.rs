//! The decoder: 01's "Listed encodings", field by field as the manual's
//! decoding tables nest them.

use super::arith::Shift;
use super::services::{service, Service};

/// A register number, 0 to 7.
pub type Register = usize;

/// The sixteen register operations of 010000xx.
#[derive(Clone, Copy, Debug, PartialEq, Eq)]
pub enum DataOp {
    And,
    Eor,
    Shift(Shift),
    Adc,
    Sbc,
    Tst,
    Rsb,
    Cmp,
    Cmn,
    Orr,
    Mul,
    Bic,
    Mvn,
}

/// The second operand of an addition or subtraction.
#[derive(Clone, Copy, Debug, PartialEq, Eq)]
pub enum Operand {
    Register(Register),
    Constant(u32),
}

/// The size of a memory access.
#[derive(Clone, Copy, Debug, PartialEq, Eq)]
pub enum Size {
    Byte,
    Halfword,
    Word,
}

impl Size {
    /// The size in bytes.
    pub fn bytes(self) -> usize {
        match self {
            Size::Byte => 1,
            Size::Halfword => 2,
            Size::Word => 4,
        }
    }
}

/// Which base register a load goes by.
#[derive(Clone, Copy, Debug, PartialEq, Eq)]
pub enum BaseRegister {
    R8,
    R9,
}

/// A listed instruction.
#[derive(Clone, Copy, Debug, PartialEq, Eq)]
pub enum Instruction {
    /// `amount` is the shift itself: LSR and ASR by constant 0 have 32 here.
    ShiftConstant {
        kind: Shift,
        amount: u32,
        m: Register,
        d: Register,
    },
    Add {
        n: Register,
        operand: Operand,
        d: Register,
    },
    Sub {
        n: Register,
        operand: Operand,
        d: Register,
    },
    MovConstant {
        d: Register,
        constant: u32,
    },
    CmpConstant {
        n: Register,
        constant: u32,
    },
    /// `m` is bits 5-3, `dn` bits 2-0.
    Data {
        op: DataOp,
        m: Register,
        dn: Register,
    },
    MovRegister {
        m: Register,
        d: Register,
    },
    LoadLiteral {
        t: Register,
        words: usize,
    },
    StackStore {
        t: Register,
        offset: u32,
    },
    StackLoad {
        t: Register,
        offset: u32,
    },
    AddFromSp {
        d: Register,
        offset: u32,
    },
    Extend {
        width: u32,
        signed: bool,
        m: Register,
        d: Register,
    },
    Nop,
    /// CBZ, or CBNZ where `nonzero`; `offset` in bytes.
    CompareBranch {
        nonzero: bool,
        n: Register,
        offset: i32,
    },
    ConditionalBranch {
        condition: u8,
        offset: i32,
    },
    Branch {
        offset: i32,
    },
    Service {
        low: u8,
        service: Service,
    },
    Store {
        size: Size,
        t: Register,
        offset: usize,
    },
    Load {
        size: Size,
        signed: bool,
        base: BaseRegister,
        t: Register,
        offset: usize,
    },
    Movw {
        d: Register,
        constant: u32,
    },
    Movt {
        d: Register,
        constant: u32,
    },
    Divide {
        signed: bool,
        n: Register,
        m: Register,
        d: Register,
    },
}

/// The field `h<high:low>`.
fn field(h: u16, high: u32, low: u32) -> u32 {
    (u32::from(h) >> low) & ((1 << (high - low + 1)) - 1)
}

/// A three-bit register field that ends at bit `low`.
fn register(h: u16, low: u32) -> Register {
    field(h, low + 2, low) as Register
}

/// A four-bit register field that ends at bit `low`, if it names r0 to r7.
fn low_register(h: u16, low: u32) -> Option<Register> {
    let number = field(h, low + 3, low);
    (number < 8).then_some(number as Register)
}

/// A signed field of `width` low bits, doubled: a branch offset in bytes.
fn signed_offset(h: u16, width: u32) -> i32 {
    let raw = field(h, width - 1, 0) as i32;
    let half = 1 << (width - 1);
    2 * if raw >= half { raw - 2 * half } else { raw }
}

/// True if a first halfword opens a 32-bit instruction.
pub fn opens_wide(h: u16) -> bool {
    matches!(field(h, 15, 11), 0b11101..=0b11111)
}

/// A 16-bit instruction, or nothing if no listed encoding matches.
pub fn narrow(h: u16) -> Option<Instruction> {
    match field(h, 15, 14) {
        0b00 => Some(shift_add_move_compare(h)),
        0b01 => data_or_literal(h),
        0b10 => stack_or_miscellaneous(h),
        _ => branch_or_service(h),
    }
}

/// 00xxxxxx: shift by constant, add, subtract, move and compare.
fn shift_add_move_compare(h: u16) -> Instruction {
    let rdn = register(h, 8);
    let constant = field(h, 7, 0);
    match field(h, 13, 11) {
        0b000 => shift_constant(h, Shift::Lsl),
        0b001 => shift_constant(h, Shift::Lsr),
        0b010 => shift_constant(h, Shift::Asr),
        0b011 => add_subtract(h),
        0b100 => Instruction::MovConstant { d: rdn, constant },
        0b101 => Instruction::CmpConstant { n: rdn, constant },
        0b110 => Instruction::Add {
            n: rdn,
            operand: Operand::Constant(constant),
            d: rdn,
        },
        _ => Instruction::Sub {
            n: rdn,
            operand: Operand::Constant(constant),
            d: rdn,
        },
    }
}

/// DecodeImmShift: a constant of 0 means 32 for LSR and ASR.
fn shift_constant(h: u16, kind: Shift) -> Instruction {
    let amount = match (kind, field(h, 10, 6)) {
        (Shift::Lsr | Shift::Asr, 0) => 32,
        (_, imm5) => imm5,
    };
    Instruction::ShiftConstant {
        kind,
        amount,
        m: register(h, 3),
        d: register(h, 0),
    }
}

/// 00011xxx: three operands, the last a register or three bits.
fn add_subtract(h: u16) -> Instruction {
    let (n, d) = (register(h, 3), register(h, 0));
    let operand = match field(h, 10, 10) {
        0 => Operand::Register(register(h, 6)),
        _ => Operand::Constant(field(h, 8, 6)),
    };
    match field(h, 9, 9) {
        0 => Instruction::Add { n, operand, d },
        _ => Instruction::Sub { n, operand, d },
    }
}

/// 01xxxxxx: register operations, the plain move and the literal load.
fn data_or_literal(h: u16) -> Option<Instruction> {
    match field(h, 13, 10) {
        0b0000 => Some(Instruction::Data {
            op: data_op(field(h, 9, 6)),
            m: register(h, 3),
            dn: register(h, 0),
        }),
        0b0001 => match field(h, 9, 6) {
            0b1000 => Some(Instruction::MovRegister {
                m: register(h, 3),
                d: register(h, 0),
            }),
            _ => None,
        },
        0b0010 | 0b0011 => Some(Instruction::LoadLiteral {
            t: register(h, 8),
            words: field(h, 7, 0) as usize,
        }),
        _ => None,
    }
}

/// The register operation of a four-bit opcode.
fn data_op(opcode: u32) -> DataOp {
    match opcode {
        0b0000 => DataOp::And,
        0b0001 => DataOp::Eor,
        0b0010 => DataOp::Shift(Shift::Lsl),
        0b0011 => DataOp::Shift(Shift::Lsr),
        0b0100 => DataOp::Shift(Shift::Asr),
        0b0101 => DataOp::Adc,
        0b0110 => DataOp::Sbc,
        0b0111 => DataOp::Shift(Shift::Ror),
        0b1000 => DataOp::Tst,
        0b1001 => DataOp::Rsb,
        0b1010 => DataOp::Cmp,
        0b1011 => DataOp::Cmn,
        0b1100 => DataOp::Orr,
        0b1101 => DataOp::Mul,
        0b1110 => DataOp::Bic,
        _ => DataOp::Mvn,
    }
}

/// 10xxxxxx: SP load and store, add from SP, and the 1011 group.
fn stack_or_miscellaneous(h: u16) -> Option<Instruction> {
    let t = register(h, 8);
    let offset = 4 * field(h, 7, 0);
    match field(h, 13, 11) {
        0b010 => Some(Instruction::StackStore { t, offset }),
        0b011 => Some(Instruction::StackLoad { t, offset }),
        0b101 => Some(Instruction::AddFromSp { d: t, offset }),
        0b110 | 0b111 => miscellaneous(h),
        _ => None,
    }
}

/// 1011xxxx: compare and branch, extensions and NOP.
fn miscellaneous(h: u16) -> Option<Instruction> {
    match (field(h, 10, 10), field(h, 8, 8)) {
        (0, 1) => Some(Instruction::CompareBranch {
            nonzero: field(h, 11, 11) == 1,
            n: register(h, 0),
            offset: 2 * (32 * field(h, 9, 9) + field(h, 7, 3)) as i32,
        }),
        _ => match field(h, 11, 8) {
            0b0010 => Some(extension(h)),
            0b1111 if field(h, 7, 0) == 0 => Some(Instruction::Nop),
            _ => None,
        },
    }
}

/// 10110010: bits 7-6 give SXTH, SXTB, UXTH, UXTB.
fn extension(h: u16) -> Instruction {
    let (signed, width) = match field(h, 7, 6) {
        0b00 => (true, 16),
        0b01 => (true, 8),
        0b10 => (false, 16),
        _ => (false, 8),
    };
    Instruction::Extend {
        width,
        signed,
        m: register(h, 3),
        d: register(h, 0),
    }
}

/// 11xxxxxx: conditional branches, services and B.
fn branch_or_service(h: u16) -> Option<Instruction> {
    match field(h, 13, 11) {
        0b010 | 0b011 => conditional_or_service(h),
        0b100 => Some(Instruction::Branch {
            offset: signed_offset(h, 11),
        }),
        _ => None,
    }
}

/// 1101cccc: conditions 0 to 13, then undefined (14) and services (15).
fn conditional_or_service(h: u16) -> Option<Instruction> {
    match field(h, 11, 8) {
        14 => None,
        15 => {
            let low = field(h, 7, 0) as u8;
            service(low).map(|service| Instruction::Service { low, service })
        }
        condition => Some(Instruction::ConditionalBranch {
            condition: condition as u8,
            offset: signed_offset(h, 8),
        }),
    }
}

/// A 32-bit instruction, or nothing if no listed encoding matches.
pub fn wide(first: u16, second: u16) -> Option<Instruction> {
    match field(first, 15, 11) {
        0b11110 => move_constant(first, second),
        0b11111 => match field(first, 10, 9) {
            0b00 => memory_access(first, second),
            0b01 => divide(first, second),
            _ => None,
        },
        _ => None,
    }
}

/// 11110x10 x100xxxx, 0xxx0xxx: MOVW and MOVT.
fn move_constant(first: u16, second: u16) -> Option<Instruction> {
    let d = low_register(second, 8)?;
    let constant = field(first, 3, 0) << 12
        | field(first, 10, 10) << 11
        | field(second, 14, 12) << 8
        | field(second, 7, 0);
    match (field(second, 15, 15), field(first, 9, 4)) {
        (0, 0b100100) => Some(Instruction::Movw { d, constant }),
        (0, 0b101100) => Some(Instruction::Movt { d, constant }),
        _ => None,
    }
}

/// 1111100x: loads and stores with twelve bits of offset.
fn memory_access(first: u16, second: u16) -> Option<Instruction> {
    let t = low_register(second, 12)?;
    let offset = field(second, 11, 0) as usize;
    let signed = field(first, 8, 8) == 1;
    let long_offset = field(first, 7, 7) == 1;
    let size = match field(first, 6, 5) {
        0b00 => Size::Byte,
        0b01 => Size::Halfword,
        0b10 => Size::Word,
        _ => return None,
    };
    let base = match field(first, 3, 0) {
        8 => BaseRegister::R8,
        9 => BaseRegister::R9,
        _ => return None,
    };
    match (long_offset, field(first, 4, 4)) {
        (true, 0) if !signed && base == BaseRegister::R9 => {
            Some(Instruction::Store { size, t, offset })
        }
        (true, 1) if !(signed && size == Size::Word) => Some(Instruction::Load {
            size,
            signed,
            base,
            t,
            offset,
        }),
        _ => None,
    }
}

/// 11111011 10x10xxx, 11110xxx 11110xxx: SDIV and UDIV.
fn divide(first: u16, second: u16) -> Option<Instruction> {
    let (n, d, m) = (
        low_register(first, 0)?,
        low_register(second, 8)?,
        low_register(second, 0)?,
    );
    if field(second, 15, 12) != 0b1111 || field(second, 7, 4) != 0b1111 {
        return None;
    }
    let signed = match field(first, 8, 4) {
        0b11001 => true,
        0b11011 => false,
        _ => return None,
    };
    Some(Instruction::Divide { signed, n, m, d })
}
