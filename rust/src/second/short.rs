//! 02's short stored form, each part a number in groups: r0 to r7,
//! (0x18000 - SP)/4, base kind, offset (left out for none), place, flags.

use super::groups::{self, Taken};
use super::record::{
    stored, stored_bytes, Fields, Record, AT_FLAGS, AT_KIND, AT_OFFSET, AT_PLACE, AT_SP,
    LAST_PLACE, MOST_EXTERNAL, RAM_END, RAM_OFFSETS, RAM_START, STORED,
};
use super::refusal::Refusal;
use super::rules::Rules;

/// Least bytes of the short form of a record in range.
pub const LEAST: usize = 12;
/// Most bytes of it.
pub const MOST: usize = 49;

/// The fields in the short form's order, each by its position in the 44-byte form.
pub const FIELDS: [u8; 13] = [
    0, 4, 8, 12, 16, 20, 24, 28, AT_SP, AT_KIND, AT_OFFSET, AT_PLACE, AT_FLAGS,
];

/// A number of a short form, with the position of its field.
#[derive(Clone, Copy, Debug, PartialEq, Eq)]
pub struct Number {
    pub position: u8,
    pub value: u64,
}

/// Why bytes are no short form.
#[derive(Clone, Copy, Debug, PartialEq, Eq)]
pub enum Flaw {
    /// In the number of the field at this position.
    Number(u8, groups::Flaw),
    /// Bytes behind the last number.
    Followed,
}

/// What bytes are read as: the numbers before the first flaw, whatever they are.
#[derive(Clone, Debug, PartialEq, Eq)]
pub struct Reading {
    pub numbers: Vec<Number>,
    pub flaw: Option<Flaw>,
}

/// Packs a stored form into the room lent: the short form's length, or 6, 7 or 10.
pub type Pack = fn(Rules, &[u8], &mut [u8]) -> Result<usize, Refusal>;
/// Unpacks a short form into the room lent, or is refused by 6, 9 or 7.
pub type Unpack = fn(Rules, &[u8], &mut [u8]) -> Result<(), Refusal>;

/// The rules of the short form that can be exchanged.
#[derive(Clone, Copy)]
pub struct ShortRules {
    /// The groups of a number.
    pub write: fn(u64) -> Vec<u8>,
    /// The number that bytes begin with.
    pub read: fn(&[u8]) -> Result<Taken<'_>, groups::Flaw>,
    /// Whether an offset follows a base kind.
    pub has_offset: fn(u64) -> bool,
    /// The number that stands for SP.
    pub sp_number: fn(u32) -> u64,
    /// The SP of a number, if one is in range.
    pub sp_of: fn(u64) -> Option<u32>,
    /// What a reading is refused by.
    pub verdict: fn(ShortRules, &Reading) -> Option<Refusal>,
    /// Puts a form into the room lent: its length, or 10.
    pub put: fn(&[u8], &mut [u8]) -> Result<usize, Refusal>,
    /// The order in which packing tests.
    pub pack: Pack,
    /// The order in which unpacking tests.
    pub unpack: Unpack,
}

impl ShortRules {
    /// The papers'.
    pub const RIGHT: ShortRules = ShortRules {
        write: groups::write,
        read: groups::read,
        has_offset: |kind| kind != 0,
        sp_number: |sp| u64::from(RAM_END - sp) / 4,
        sp_of,
        verdict,
        put,
        pack,
        unpack,
    };
}

/// The SP of a number, which counts words down from the end of RAM.
fn sp_of(number: u64) -> Option<u32> {
    let words = u64::from(RAM_END - RAM_START) / 4;
    (number <= words).then(|| RAM_END - 4 * number as u32)
}

impl Reading {
    /// Reads bytes field by field.
    pub fn of(rules: ShortRules, bytes: &[u8]) -> Reading {
        let mut numbers: Vec<Number> = Vec::new();
        let mut rest = bytes;
        for position in FIELDS {
            let kind = numbers.last().map_or(0, |last| last.value);
            if position == AT_OFFSET && !(rules.has_offset)(kind) {
                continue;
            }
            match (rules.read)(rest) {
                Ok((value, behind)) => {
                    numbers.push(Number { position, value });
                    rest = behind;
                }
                Err(flaw) => {
                    let flaw = Some(Flaw::Number(position, flaw));
                    return Reading { numbers, flaw };
                }
            }
        }
        let flaw = (!rest.is_empty()).then_some(Flaw::Followed);
        Reading { numbers, flaw }
    }

    /// The number of a field, if it was read.
    pub fn value(&self, position: u8) -> Option<u64> {
        let mut own = self.numbers.iter().filter(|it| it.position == position);
        own.next().map(|number| number.value)
    }

    /// The positions of the numbers out of range or past their fields, first to
    /// last.
    pub fn out_of_range(&self, rules: ShortRules) -> Vec<u8> {
        let offsets = match self.value(AT_KIND) {
            Some(0) => 1,
            Some(1) => u64::from(RAM_OFFSETS),
            Some(2) => u64::from(MOST_EXTERNAL),
            _ => 1 << 32,
        };
        let fits = |&Number { position, value }: &Number| match position {
            AT_SP => (rules.sp_of)(value).is_some(),
            AT_KIND => value <= 2,
            AT_OFFSET => value < offsets,
            AT_PLACE => value <= u64::from(LAST_PLACE),
            AT_FLAGS => value <= 15,
            _ => value < 1 << 32,
        };
        let failing = self.numbers.iter().filter(|number| !fits(number));
        failing.map(|number| number.position).collect()
    }

    /// The record of a reading that isn't refused.
    fn record(&self, rules: ShortRules) -> Record {
        let value = |position| self.value(position).unwrap_or(0);
        let fields = Fields {
            registers: [0, 4, 8, 12, 16, 20, 24, 28].map(|at| value(at) as u32),
            sp: (rules.sp_of)(value(AT_SP)).unwrap_or(RAM_END),
            kind: value(AT_KIND) as u8,
            offset: value(AT_OFFSET) as u32,
            place: value(AT_PLACE) as u16,
            flags: value(AT_FLAGS) as u8,
        };
        fields.record()
    }
}

/// 9 for the whole of the bytes, then 7 for the first field.
fn verdict(rules: ShortRules, reading: &Reading) -> Option<Refusal> {
    match (reading.flaw, reading.out_of_range(rules).first()) {
        (Some(_), _) => Some(Refusal::plain(9)),
        (None, Some(&position)) => Some(Refusal::at(7, position)),
        (None, None) => None,
    }
}

/// The short form of a record in range.
fn form(rules: ShortRules, record: &Record) -> Vec<u8> {
    let fields = Fields::of(record);
    let kind = u64::from(fields.kind);
    let mut numbers = fields.registers.map(u64::from).to_vec();
    numbers.extend([(rules.sp_number)(fields.sp), kind]);
    if (rules.has_offset)(kind) {
        numbers.push(fields.offset.into());
    }
    numbers.extend([u64::from(fields.place), u64::from(fields.flags)]);
    numbers.into_iter().flat_map(rules.write).collect()
}

/// The form at the start of the room; the bytes behind it stay.
fn put(form: &[u8], room: &mut [u8]) -> Result<usize, Refusal> {
    let start = room.get_mut(..form.len()).ok_or(Refusal::plain(10))?;
    start.copy_from_slice(form);
    Ok(form.len())
}

/// 6 and 7 of the 44 bytes, then 10.
fn pack(rules: Rules, bytes: &[u8], room: &mut [u8]) -> Result<usize, Refusal> {
    let record = stored(rules, bytes)?;
    (rules.short.put)(&form(rules.short, &record), room)
}

/// 6 of the room, then 9 and 7.
fn unpack(rules: Rules, bytes: &[u8], room: &mut [u8]) -> Result<(), Refusal> {
    if room.len() != STORED {
        return Err(Refusal::plain(6));
    }
    let reading = Reading::of(rules.short, bytes);
    match (rules.short.verdict)(rules.short, &reading) {
        Some(refusal) => Err(refusal),
        None => {
            room.copy_from_slice(&stored_bytes(&reading.record(rules.short)));
            Ok(())
        }
    }
}
