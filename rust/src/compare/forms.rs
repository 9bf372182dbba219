//! The stored form: every byte of some records with every value, every length
//! near 44, and round trips.

use super::records::{self, FILLING};
use super::sides::{Handed, Rams};
use super::{Comparison, Same};
use crate::assemble::{self as asm, page_bytes};
use crate::random::Random;
use crate::second::page::Code;
use crate::second::record::{stored_bytes, Base, Record, MOST_EXTERNAL, STORED};
use crate::second::window::Window;

/// How many random records are stored and read back.
const ROUND_TRIPS: usize = 5000;

/// The whole part.
pub fn compare(comparison: &mut Comparison) -> Same {
    let mut rams = Rams::zero();
    for record in samples() {
        let bytes = stored_bytes(&record);
        for at in 0..STORED {
            for value in 0..=u8::MAX {
                let mut bytes = bytes.clone();
                bytes[at] = value;
                one_form(comparison, &bytes, &mut rams)?;
            }
        }
        lengths(comparison, &bytes, &mut rams)?;
    }
    round_trips(comparison)
}

/// Records in range, at and off the edges of their fields.
pub fn samples() -> [Record; 6] {
    let fresh = Record::fresh();
    let record = |sp, flags, place, base| Record {
        registers: [1, 2, 3, 0x8000_0000, u32::MAX, 6, 0x0102_0304, 0xA5A5_5A5A],
        sp,
        flags: records::flags(flags),
        place,
        base,
    };
    [
        fresh,
        record(0x1_0000, 15, 127, Base::External(0x1FF)),
        record(0x1_7FFC, 10, 126, Base::External(0xFF_FFFF)),
        record(0x1_4320, 5, 1, Base::Ram(0xF_FFFF)),
        record(0x1_8000, 1, 64, Base::Ram(0)),
        record(0x1_0100, 8, 33, Base::None),
    ]
}

/// The bytes as a stored form, as a record to store and as a record to step
/// from.
fn one_form(comparison: &mut Comparison, bytes: &[u8], rams: &mut Rams) -> Same {
    comparison.load(bytes, &[FILLING; STORED])?;
    comparison.store(bytes, &[FILLING; STORED])?;
    step(comparison, bytes, rams)
}

/// A step from the bytes; the places up to 125 are fit.
fn step(comparison: &mut Comparison, bytes: &[u8], rams: &mut Rams) -> Same {
    let page = page_bytes(&[[asm::NOP, asm::RETURN]; 63]);
    let handed = Handed {
        code: Code::plain(&page),
        external: &[0; 512],
        window: Window::WHOLE,
        record: bytes,
        budget: 1,
    };
    comparison.step(&handed, rams).map(|_| ())
}

/// Forms, rooms and records of every length up to 100.
fn lengths(comparison: &mut Comparison, good: &[u8], rams: &mut Rams) -> Same {
    let mut out_of_range = good.to_vec();
    out_of_range[41] = 200;
    let mut no_record = good.to_vec();
    no_record[36] = 3;
    for length in 0..=100 {
        let room = vec![FILLING; length];
        comparison.fresh(&room)?;
        for bytes in [good, &out_of_range, &no_record] {
            let mut other = bytes.to_vec();
            other.resize(length, 0);
            comparison.load(bytes, &room)?;
            comparison.load(&other, &room)?;
            comparison.store(bytes, &room)?;
            comparison.store(&other, &room)?;
            one_form(comparison, &other, rams)?;
        }
    }
    Ok(())
}

/// Random records, stored and read back, give the same bytes.
fn round_trips(comparison: &mut Comparison) -> Same {
    let mut random = Random::of_page(comparison.seed, 5 << 40);
    for _ in 0..ROUND_TRIPS {
        let place = random.field(128);
        let record = records::fit(&mut random, MOST_EXTERNAL as usize);
        let bytes = stored_bytes(&Record { place, ..record });
        let (_, stored) = comparison.store(&bytes, &[FILLING; STORED])?;
        let (_, loaded) = comparison.load(&stored, &[FILLING; STORED])?;
        if loaded != bytes {
            let bytes = crate::show::bytes(&bytes);
            return Err(format!("a record did not come back: {bytes}"));
        }
    }
    Ok(())
}
