//! Packing and unpacking on both sides, each with the way back: whatever is
//! accepted must return to the same bytes.

use marshbodkin::raw;

use super::records::FILLING;
use super::sides::Told;
use super::{report, Comparison};
use crate::second::record::STORED;
use crate::second::short::MOST;
use crate::show;

/// What packing gives.
#[derive(Clone, Debug, PartialEq, Eq)]
pub struct Packed {
    pub told: Told,
    /// The short form's length, 0 where it is refused.
    pub length: usize,
    pub room: Vec<u8>,
}

impl Packed {
    /// The short form, at the start of the room.
    pub fn form(&self) -> &[u8] {
        &self.room[..self.length]
    }
}

/// What unpacking gives: what it tells, and the room.
pub type Unpacked = (Told, Vec<u8>);

impl Comparison {
    /// Packing a stored form into room of these bytes and, accepted, unpacking it.
    pub fn pack(&mut self, stored: &[u8], room: &[u8]) -> Result<Packed, String> {
        let packed = self.packed(stored, room)?;
        if packed.told == Told::ACCEPTED {
            let back = self.unpacked(packed.form(), &[FILLING; STORED])?;
            if back != (Told::ACCEPTED, stored.to_vec()) {
                return Err(not_back("stored", stored, packed.form()));
            }
        }
        Ok(packed)
    }

    /// Unpacking a short form into room of these bytes and, accepted, packing it.
    pub fn unpack(&mut self, form: &[u8], room: &[u8]) -> Result<Unpacked, String> {
        let (told, bytes) = self.unpacked(form, room)?;
        if told == Told::ACCEPTED {
            let back = self.packed(&bytes, &[FILLING; MOST])?;
            if (back.told, back.form()) != (Told::ACCEPTED, form) {
                return Err(not_back("short", form, &bytes));
            }
        }
        Ok((told, bytes))
    }

    /// Packing alone.
    fn packed(&mut self, stored: &[u8], room: &[u8]) -> Result<Packed, String> {
        let (mut library, mut second) = (room.to_vec(), room.to_vec());
        let (code, length, position) = raw::pack(stored, &mut library);
        let library = Packed {
            told: Told { code, position },
            length,
            room: library,
        };
        let answer = (self.rules.short.pack)(self.rules, stored, &mut second);
        let second = Packed {
            told: Told::of(answer.err()),
            length: answer.unwrap_or(0),
            room: second,
        };
        if library != second {
            return Err(report::packing(stored, room, [&library, &second]));
        }
        if second.room[second.length..] != room[second.length..] {
            return Err("both sides change bytes past the short form".to_string());
        }
        self.tally.packed(stored, room.len(), &second);
        Ok(second)
    }

    /// Unpacking alone.
    fn unpacked(&mut self, form: &[u8], room: &[u8]) -> Result<Unpacked, String> {
        let (mut library, mut second) = (room.to_vec(), room.to_vec());
        let (code, position) = raw::unpack(form, &mut library);
        let told = Told { code, position };
        let answer = (self.rules.short.unpack)(self.rules, form, &mut second);
        let expected = Told::of(answer.err());
        if (told, &library) != (expected, &second) {
            let sides = [(told, &library), (expected, &second)];
            return Err(report::form("unpack", form, room, sides));
        }
        if expected != Told::ACCEPTED && second != room {
            return Err("both sides refuse to unpack, but change the room".to_string());
        }
        self.tally.unpacked(form, room.len(), expected);
        Ok((expected, second))
    }
}

/// That a form did not come back.
fn not_back(kind: &str, form: &[u8], other: &[u8]) -> String {
    let (form, other) = (show::bytes(form), show::bytes(other));
    format!("a {kind} form did not come back: {form} by {other}")
}
