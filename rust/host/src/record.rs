//! The record, and its 44 bytes.

use crate::raw;
use crate::refusal::{verdict, verdict_at, Refusal};

/// Bytes of a record's stored form.
pub const RECORD_LENGTH: usize = 44;

/// Position of r0 in the stored form, of the type that a [`Refusal`] carries; r1 to
/// r7 follow every four bytes.
pub const AT_R0: u32 = 0;
/// Position of SP in the stored form.
pub const AT_SP: u32 = 32;
/// Position of the base's kind in the stored form.
pub const AT_BASE_KIND: u32 = 36;
/// Position of the base's offset in the stored form.
pub const AT_BASE_OFFSET: u32 = 37;
/// Position of the place in the stored form.
pub const AT_PLACE: u32 = 41;
/// Position of the flags in the stored form.
pub const AT_FLAGS: u32 = 43;

/// The condition flags.
#[derive(Clone, Copy, Debug, Default, PartialEq, Eq)]
pub struct Flags {
    /// Negative.
    pub n: bool,
    /// Zero.
    pub z: bool,
    /// Carry.
    pub c: bool,
    /// Overflow.
    pub v: bool,
}

/// What loads and stores go by.
#[derive(Clone, Copy, Debug, Default, PartialEq, Eq)]
#[non_exhaustive]
pub enum Base {
    /// Nothing: every load and store by it faults.
    #[default]
    None,
    /// A RAM offset.
    Ram(u32),
    /// An offset in the external data.
    External(u32),
    /// Numbers that this version doesn't know, or none with an offset. No record
    /// has such a base: a step and a run refuse it with [`Refusal::NoRecord`].
    Unknown {
        /// Which base it is.
        kind: u32,
        /// Its offset.
        offset: u32,
    },
}

/// The record of the machine, fit or not.
///
/// Fields will be added. A record that is written so stays right, since what it
/// doesn't name is that of the fresh record:
///
/// ```
/// # use marshbodkin::Record;
/// let record = Record { place: 2, ..Record::default() };
/// ```
#[derive(Clone, Copy, Debug, PartialEq, Eq)]
pub struct Record {
    /// r0 to r7.
    pub registers: [u32; 8],
    /// The stack pointer.
    pub sp: u32,
    /// The condition flags.
    pub flags: Flags,
    /// A halfword number from 0: twice the bundle's, one more for its second half.
    pub place: u16,
    /// What loads and stores go by.
    pub base: Base,
}

/// A record that no step or run accepts, since SP isn't fit.
const UNFIT: Record = Record {
    registers: [0; 8],
    sp: 0,
    flags: Flags {
        n: false,
        z: false,
        c: false,
        v: false,
    },
    place: 0,
    base: Base::None,
};

/// The fresh record: all zero, SP 0x18000, base none.
impl Default for Record {
    fn default() -> Record {
        let mut bytes = [0; RECORD_LENGTH];
        let fresh = verdict(raw::fresh(&mut bytes)).and_then(|()| Record::from_bytes(&bytes));
        // The library never refuses room of 44 bytes; if it did, nothing
        // would run.
        fresh.unwrap_or(UNFIT)
    }
}

impl Record {
    /// The stored form, to be kept or sent. Refusal: 7, with the position of the
    /// first field that is out of range.
    pub fn store(&self) -> Result<[u8; RECORD_LENGTH], Refusal> {
        let mut room = [0; RECORD_LENGTH];
        let (code, position) = raw::store(&self.to_bytes(), &mut room);
        verdict_at(code, position)?;
        Ok(room)
    }

    /// The record of a stored form. Refusals: 6; 7, with the position of the first
    /// field that is out of range.
    ///
    /// ```
    /// use marshbodkin::{Record, AT_PLACE};
    ///
    /// let mut stored = Record::default().store()?;
    /// stored[AT_PLACE as usize] = 128;
    /// let refused = Record::load(&stored).unwrap_err();
    /// let said = "refused 7 41: stored or given record is out of range at place";
    /// assert_eq!(refused.to_string(), said);
    /// # Ok::<(), marshbodkin::Refusal>(())
    /// ```
    pub fn load(stored: &[u8]) -> Result<Record, Refusal> {
        let mut bytes = [0; RECORD_LENGTH];
        let (code, position) = raw::load(stored, &mut bytes);
        verdict_at(code, position)?;
        Record::from_bytes(&bytes)
    }

    /// The bytes by which a record crosses to the library: the layout of the
    /// stored form, without its range tests.
    pub(crate) fn to_bytes(self) -> [u8; RECORD_LENGTH] {
        let (kind, offset) = self.base.parts();
        let mut bytes = [0; RECORD_LENGTH];
        for (number, register) in (0..).zip(self.registers) {
            put(&mut bytes, AT_R0 + 4 * number, &register.to_le_bytes());
        }
        put(&mut bytes, AT_SP, &self.sp.to_le_bytes());
        put(&mut bytes, AT_BASE_KIND, &[kind]);
        put(&mut bytes, AT_BASE_OFFSET, &offset.to_le_bytes());
        put(&mut bytes, AT_PLACE, &self.place.to_le_bytes());
        put(&mut bytes, AT_FLAGS, &[self.flags.number()]);
        bytes
    }

    /// The record that the bytes hold. They hold none if the base kind is
    /// above 2, an offset stands with none, or the flags are above 15; the first
    /// of these tells the position.
    pub(crate) fn from_bytes(bytes: &[u8; RECORD_LENGTH]) -> Result<Record, Refusal> {
        let no_record = |position| Refusal::NoRecord { position };
        let word = |position| u32::from_le_bytes(part(bytes, position));
        let ([kind], [flags]) = (part(bytes, AT_BASE_KIND), part(bytes, AT_FLAGS));
        let base = match Base::of(kind.into(), word(AT_BASE_OFFSET)) {
            Base::Unknown { kind: 0, .. } => return Err(no_record(AT_BASE_OFFSET)),
            Base::Unknown { .. } => return Err(no_record(AT_BASE_KIND)),
            known => known,
        };
        Ok(Record {
            registers: std::array::from_fn(|number| word(AT_R0 + 4 * number as u32)),
            sp: word(AT_SP),
            flags: Flags::of(flags).ok_or(no_record(AT_FLAGS))?,
            place: u16::from_le_bytes(part(bytes, AT_PLACE)),
            base,
        })
    }
}

/// Reads a stored form back, as [`Record::load`] does.
impl TryFrom<&[u8]> for Record {
    type Error = Refusal;

    fn try_from(stored: &[u8]) -> Result<Record, Refusal> {
        Record::load(stored)
    }
}

/// The stored form, as [`Record::store`] gives it.
impl TryFrom<&Record> for [u8; RECORD_LENGTH] {
    type Error = Refusal;

    fn try_from(record: &Record) -> Result<[u8; RECORD_LENGTH], Refusal> {
        record.store()
    }
}

/// Writes the bytes of a field.
fn put(bytes: &mut [u8; RECORD_LENGTH], position: u32, field: &[u8]) {
    bytes[position as usize..][..field.len()].copy_from_slice(field);
}

/// The bytes of a field, as many as are asked for.
fn part<const WIDTH: usize>(bytes: &[u8; RECORD_LENGTH], position: u32) -> [u8; WIDTH] {
    std::array::from_fn(|at| bytes[position as usize + at])
}

impl Flags {
    /// 8N+4Z+2C+V.
    fn number(self) -> u8 {
        8 * u8::from(self.n) + 4 * u8::from(self.z) + 2 * u8::from(self.c) + u8::from(self.v)
    }

    /// The flags of a number up to 15.
    fn of(number: u8) -> Option<Flags> {
        let bit = |value: u8| number & value != 0;
        let flags = Flags {
            n: bit(8),
            z: bit(4),
            c: bit(2),
            v: bit(1),
        };
        (number <= 15).then_some(flags)
    }
}

impl Base {
    /// Kind and offset. An unknown base crosses as a kind that no record has, but
    /// none with an offset as it is: there the offset is what is wrong.
    fn parts(self) -> (u8, u32) {
        match self {
            Base::None => (0, 0),
            Base::Ram(offset) => (1, offset),
            Base::External(offset) => (2, offset),
            Base::Unknown { kind: 0, offset } if offset != 0 => (0, offset),
            Base::Unknown { offset, .. } => (u8::MAX, offset),
        }
    }

    /// The base of a kind and an offset, which is zero for none.
    pub(crate) fn of(kind: u32, offset: u32) -> Base {
        match (kind, offset) {
            (0, 0) => Base::None,
            (1, offset) => Base::Ram(offset),
            (2, offset) => Base::External(offset),
            (kind, offset) => Base::Unknown { kind, offset },
        }
    }
}

#[cfg(test)]
mod tests {
    use super::*;

    /// A record with every part different, and unfit.
    fn full_record() -> Record {
        Record {
            registers: std::array::from_fn(|k| 0x8123_4567 + 0x1111_1111 * k as u32),
            sp: 0xF1E2_D3C4,
            flags: Flags {
                n: true,
                z: false,
                c: false,
                v: true,
            },
            place: 0xFF80,
            base: Base::Ram(0x0A0B_0C0D),
        }
    }

    #[test]
    fn bytes_of_a_record() {
        let bytes = full_record().to_bytes();
        assert_eq!(bytes[..8], [0x67, 0x45, 0x23, 0x81, 0x78, 0x56, 0x34, 0x92]);
        assert_eq!(
            bytes[28..36],
            [0xDE, 0xBC, 0x9A, 0xF8, 0xC4, 0xD3, 0xE2, 0xF1]
        );
        assert_eq!(bytes[36..], [1, 0x0D, 0x0C, 0x0B, 0x0A, 0x80, 0xFF, 9]);
        assert_eq!(Record::from_bytes(&bytes), Ok(full_record()));
    }

    #[test]
    fn every_flag_and_base_crosses() {
        let bases = [Base::None, Base::Ram(7), Base::External(9)];
        for (number, base) in (0..16).flat_map(|number| bases.map(|base| (number, base))) {
            let flags = Flags::of(number).expect("a number up to 15");
            let given = Record {
                flags,
                base,
                ..full_record()
            };
            assert_eq!(given.to_bytes()[43], number);
            assert_eq!(Record::from_bytes(&given.to_bytes()), Ok(given));
        }
    }

    #[test]
    fn bytes_that_hold_no_record() {
        let with = |at: usize, byte: u8| {
            let mut changed = Record::default().to_bytes();
            changed[at] = byte;
            Record::from_bytes(&changed)
        };
        for (at, byte, position) in [(36, 3, 36), (37, 1, 37), (40, 1, 37), (43, 16, 43)] {
            assert_eq!(with(at, byte), Err(Refusal::NoRecord { position }));
        }
        assert_eq!(with(42, 0xFF).map(|record| record.place), Ok(0xFF00));
    }

    #[test]
    fn the_first_field_tells_the_position() {
        let mut bytes = [0xFF; RECORD_LENGTH];
        for (position, at, mended) in [(36, 36, 0), (37, 36, 1), (43, 43, 15)] {
            let refused = Refusal::NoRecord { position };
            assert_eq!(Record::from_bytes(&bytes), Err(refused));
            bytes[at] = mended;
        }
        assert!(Record::from_bytes(&bytes).is_ok());
    }

    #[test]
    fn an_unknown_base_crosses_as_no_record() {
        for (kind, offset) in [(0, 1), (3, 5), (255, 5), (256, 5), (u32::MAX, 5)] {
            assert_eq!(Base::of(kind, offset), Base::Unknown { kind, offset });
        }
        for kind in [1, 2, 3, 255, 256, u32::MAX] {
            assert_eq!(Base::Unknown { kind, offset: 5 }.parts(), (255, 5));
        }
        let none_with = |offset| Base::Unknown { kind: 0, offset };
        assert_eq!(none_with(5).parts(), (0, 5));
        assert_eq!(none_with(0).parts(), (255, 0));
    }
}
