//! Packing: every field of the 44-byte form at and off its edges, every byte of some
//! forms with every value, forms of every other length, and rooms of every length up
//! to the short form's and a little past it. What is told, and what is written, is
//! also known from the papers, without either side.

use super::fields::Form;
use super::forms::samples;
use super::numbers;
use super::records::FILLING;
use super::sides::Told;
use super::steps::noise;
use super::{Comparison, Same};
use crate::random::Random;
use crate::second::record::{stored_bytes, STORED};
use crate::second::short::{LEAST, MOST};
use crate::show;

/// Records of each length of their short form.
const RECORDS: usize = 20;
/// Rooms that do for no record, and such as do for every one.
const TOO_SMALL: [usize; 3] = [0, 1, LEAST - 1];
const ENOUGH: [usize; 2] = [MOST, MOST + 3];

/// The whole part.
pub fn compare(comparison: &mut Comparison) -> Same {
    let mut random = Random::of_page(comparison.seed, 11 << 40);
    for number in 0..Form::ALL {
        let form = Form::of(number);
        let bytes = form.bytes(&mut random);
        any_room(comparison, &bytes, form.stored())
            .map_err(|found| format!("form {}: {found}", show::bytes(&bytes)))?;
    }
    for length in LEAST..=MOST {
        for _ in 0..RECORDS {
            rooms(comparison, &mut random, length)?;
        }
    }
    damaged(comparison)?;
    lengths(comparison, &mut random)
}

/// Bytes in rooms too small and large enough: out of range is told before the room.
fn any_room(comparison: &mut Comparison, bytes: &[u8], papers: Told) -> Same {
    let small = match papers {
        Told::ACCEPTED => Told::plain(10),
        refused => refused,
    };
    for (rooms, papers) in [(&TOO_SMALL[..], small), (&ENOUGH, papers)] {
        for &room in rooms {
            let packed = comparison.pack(bytes, &vec![FILLING; room])?;
            packed.told.held_to(papers, "pack")?;
        }
    }
    Ok(())
}

/// A record whose short form has this length, in rooms of all lengths up to three
/// more.
fn rooms(comparison: &mut Comparison, random: &mut Random, length: usize) -> Same {
    let numbers = numbers::in_range(random, length);
    let (stored, form) = (numbers.stored(), numbers.bytes());
    for room in 0..=length + 3 {
        let before = noise(random, room);
        let packed = comparison.pack(&stored, &before)?;
        let (papers, written) = match before.get(length..) {
            None => (Told::plain(10), before),
            Some(behind) => (Told::ACCEPTED, [&form, behind].concat()),
        };
        packed.told.held_to(papers, "pack")?;
        if packed.room != written {
            let bytes = show::bytes(&stored);
            return Err(format!("both sides write another form of {bytes}"));
        }
    }
    Ok(())
}

/// Every byte of some forms with every value.
fn damaged(comparison: &mut Comparison) -> Same {
    for record in samples() {
        let bytes = stored_bytes(&record);
        for at in 0..STORED {
            for value in 0..=u8::MAX {
                let mut bytes = bytes.clone();
                bytes[at] = value;
                comparison.pack(&bytes, &[FILLING; MOST])?;
            }
        }
    }
    Ok(())
}

/// Bytes of every length up to 80, in range where they are 44, out of range and any:
/// the length is told before the range and the room.
fn lengths(comparison: &mut Comparison, random: &mut Random) -> Same {
    for length in 0..=80 {
        let good = numbers::in_range(random, 30).stored();
        for bytes in [&good, &vec![0xFF; length], &noise(random, length)] {
            let mut bytes = bytes.clone();
            bytes.resize(length, 0);
            for room in TOO_SMALL.into_iter().chain(ENOUGH) {
                let packed = comparison.pack(&bytes, &vec![FILLING; room])?;
                if length != STORED {
                    packed.told.held_to(Told::plain(6), "pack")?;
                }
            }
        }
    }
    Ok(())
}
