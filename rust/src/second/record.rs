//! The record, the tests of a fit record, and its stored form of 44 bytes, with
//! 02's refusals that say which field is wrong.

use super::arith::Flags;
use super::refusal::Refusal;
use super::rules::Rules;

/// First address of user RAM, and lowest SP.
pub const RAM_START: u32 = 0x10000;
/// One past the last address of user RAM, and highest SP.
pub const RAM_END: u32 = 0x18000;
/// RAM offsets lie below this.
pub const RAM_OFFSETS: u32 = 1 << 20;
/// Most external data, in bytes.
pub const MOST_EXTERNAL: u32 = 1 << 24;
/// Last place a stored form may hold.
pub const LAST_PLACE: u16 = 127;
/// Size of the stored form.
pub const STORED: usize = 44;

/// Where the fields that can fail begin in the stored form, in its order.
pub const AT_SP: u8 = 32;
pub const AT_KIND: u8 = 36;
pub const AT_OFFSET: u8 = 37;
pub const AT_PLACE: u8 = 41;
pub const AT_FLAGS: u8 = 43;

/// The base that r8 and r9 stand for.
#[derive(Clone, Copy, Debug, Default, PartialEq, Eq)]
pub enum Base {
    #[default]
    None,
    Ram(u32),
    External(u32),
}

/// The whole record of the machine.
#[derive(Clone, Debug, PartialEq, Eq)]
pub struct Record {
    pub registers: [u32; 8],
    pub sp: u32,
    pub flags: Flags,
    pub place: u16,
    pub base: Base,
}

impl Record {
    /// The fresh record: all zero, SP at the end of RAM, no base.
    pub fn fresh() -> Record {
        Record {
            registers: [0; 8],
            sp: RAM_END,
            flags: Flags::default(),
            place: 0,
            base: Base::None,
        }
    }
}

/// What a step and a run refuse a record by, with so many bytes of external
/// data: 41 to 44 by 01's "Fit record", then 5.
pub fn unfit(record: &Record, external: usize, place_is_fit: bool) -> Option<u8> {
    if !(RAM_START..=RAM_END).contains(&record.sp) {
        return Some(41);
    }
    if !record.sp.is_multiple_of(4) {
        return Some(42);
    }
    match record.base {
        Base::Ram(offset) if offset >= RAM_OFFSETS => Some(43),
        Base::External(offset) if offset as usize >= external => Some(44),
        _ => (!place_is_fit).then_some(5),
    }
}

/// The fields of the stored form, in its order and with any values.
#[derive(Clone, Copy, Debug, PartialEq, Eq)]
pub struct Fields {
    pub registers: [u32; 8],
    pub sp: u32,
    pub kind: u8,
    pub offset: u32,
    pub place: u16,
    pub flags: u8,
}

impl Fields {
    /// The fields of 44 bytes; nothing of another length.
    pub fn read(bytes: &[u8]) -> Option<Fields> {
        if bytes.len() != STORED {
            return None;
        }
        let byte = |at: u8| bytes[usize::from(at)];
        let word = |at: u8| u32::from_le_bytes([0, 1, 2, 3].map(|next| byte(at + next)));
        Some(Fields {
            registers: [0, 4, 8, 12, 16, 20, 24, 28].map(word),
            sp: word(AT_SP),
            kind: byte(AT_KIND),
            offset: word(AT_OFFSET),
            place: u16::from_le_bytes([byte(AT_PLACE), byte(AT_PLACE + 1)]),
            flags: byte(AT_FLAGS),
        })
    }

    /// The fields of any record.
    pub fn of(record: &Record) -> Fields {
        let (kind, offset) = match record.base {
            Base::None => (0, 0),
            Base::Ram(offset) => (1, offset),
            Base::External(offset) => (2, offset),
        };
        let Flags { n, z, c, v } = record.flags;
        Fields {
            registers: record.registers,
            sp: record.sp,
            kind,
            offset,
            place: record.place,
            flags: 8 * u8::from(n) + 4 * u8::from(z) + 2 * u8::from(c) + u8::from(v),
        }
    }

    /// The positions of the fields out of range, first to last.
    pub fn out_of_range(&self) -> Vec<u8> {
        let sp_fits = (RAM_START..=RAM_END).contains(&self.sp) && self.sp.is_multiple_of(4);
        let offset_fits = match self.kind {
            0 => self.offset == 0,
            1 => self.offset < RAM_OFFSETS,
            2 => self.offset < MOST_EXTERNAL,
            _ => true,
        };
        let failing = [
            (AT_SP, !sp_fits),
            (AT_KIND, self.kind > 2),
            (AT_OFFSET, !offset_fits),
            (AT_PLACE, self.place > LAST_PLACE),
            (AT_FLAGS, self.flags > 15),
        ];
        positions(&failing)
    }

    /// The positions of the fields that no record has, first to last.
    pub fn of_no_record(&self) -> Vec<u8> {
        let failing = [
            (AT_KIND, self.kind > 2),
            (AT_OFFSET, self.kind == 0 && self.offset != 0),
            (AT_FLAGS, self.flags > 15),
        ];
        positions(&failing)
    }

    /// The record with these fields, which must be a record's.
    pub fn record(&self) -> Record {
        let base = match self.kind {
            1 => Base::Ram(self.offset),
            2 => Base::External(self.offset),
            _ => Base::None,
        };
        Record {
            registers: self.registers,
            sp: self.sp,
            flags: Flags {
                n: self.flags & 8 != 0,
                z: self.flags & 4 != 0,
                c: self.flags & 2 != 0,
                v: self.flags & 1 != 0,
            },
            place: self.place,
            base,
        }
    }
}

/// The positions whose fields fail.
fn positions(fields: &[(u8, bool)]) -> Vec<u8> {
    let failing = fields.iter().filter(|(_, fails)| *fails);
    failing.map(|&(position, _)| position).collect()
}

/// The record that bytes hold, or the library's refusal 255: another length is
/// told by position 0.
pub fn given(rules: Rules, bytes: &[u8]) -> Result<Record, Refusal> {
    let fields = Fields::read(bytes).ok_or(Refusal::at(255, 0))?;
    match (rules.no_record)(&fields) {
        Some(position) => Err(Refusal::at(255, position)),
        None => Ok(fields.record()),
    }
}

/// The record of a stored form, or its refusal, 6 or 7.
pub(super) fn stored(rules: Rules, bytes: &[u8]) -> Result<Record, Refusal> {
    let fields = Fields::read(bytes).ok_or(Refusal::plain(6))?;
    match (rules.out_of_range)(&fields) {
        Some(position) => Err(Refusal::at(7, position)),
        None => Ok(fields.record()),
    }
}

/// Stores the record that bytes hold in the room lent; the refusal, if any, is 6 or
/// 7, also where they hold none.
pub fn store_bytes(rules: Rules, bytes: &[u8], room: &mut [u8]) -> Option<Refusal> {
    if room.len() != STORED {
        return Some(Refusal::plain(6));
    }
    match stored(rules, bytes) {
        Err(refusal) => Some(refusal),
        Ok(record) => {
            room.copy_from_slice(&stored_bytes(&record));
            None
        }
    }
}

/// Reads a stored form back; refused (6 or 7), the record is the fresh one.
pub fn read_back(rules: Rules, bytes: &[u8]) -> (Record, Option<Refusal>) {
    match stored(rules, bytes) {
        Err(refusal) => (Record::fresh(), Some(refusal)),
        Ok(record) => (record, None),
    }
}

/// The bytes of the stored form, in 01's order, of any record.
pub fn stored_bytes(record: &Record) -> Vec<u8> {
    let fields = Fields::of(record);
    let mut bytes = Vec::with_capacity(STORED);
    for register in fields.registers {
        bytes.extend(register.to_le_bytes());
    }
    bytes.extend(fields.sp.to_le_bytes());
    bytes.push(fields.kind);
    bytes.extend(fields.offset.to_le_bytes());
    bytes.extend(fields.place.to_le_bytes());
    bytes.push(fields.flags);
    bytes
}
