//! Every field of the 44-byte form at and off its edges, each with all of the
//! others: stored, read back and stepped from. What is told is also known from the
//! papers, without either side: the first failing field decides.

use super::records::{self, FILLING};
use super::sides::{Handed, Rams, Told, NO_RECORD};
use super::{Comparison, Same};
use crate::assemble::{self as asm, page_bytes};
use crate::random::Random;
use crate::second::page::Code;
use crate::second::record::STORED;
use crate::second::window::Window;
use crate::show;

/// How much external data a step has.
const EXTERNAL: usize = 512;
/// What a step tells of a base that no record has.
const NO_KIND: Told = Told::at(NO_RECORD, 36);
const NO_OFFSET: Told = Told::at(NO_RECORD, 37);

/// SPs, and what a step refuses them by; those are out of range in a form too.
const SPS: [(u32, Told); 13] = [
    (0x1_0000, Told::ACCEPTED),
    (0x1_0004, Told::ACCEPTED),
    (0x1_7FFC, Told::ACCEPTED),
    (0x1_8000, Told::ACCEPTED),
    (0xFFFC, Told::plain(41)),
    (0x1_8004, Told::plain(41)),
    (0xFFFE, Told::plain(41)),
    (0x1_8001, Told::plain(41)),
    (u32::MAX, Told::plain(41)),
    (0x1_0001, Told::plain(42)),
    (0x1_0002, Told::plain(42)),
    (0x1_7FFE, Told::plain(42)),
    (0x1_7FFF, Told::plain(42)),
];

/// A base: kind, offset, the position at which it fails in a form (0 for none), and
/// what a step refuses it by.
type BaseRow = (u8, u32, u32, Told);
const BASES: [BaseRow; 20] = [
    (0, 0, 0, Told::ACCEPTED),
    (1, 0, 0, Told::ACCEPTED),
    (1, 0xF_FFFF, 0, Told::ACCEPTED),
    (2, 0, 0, Told::ACCEPTED),
    (2, 511, 0, Told::ACCEPTED),
    (2, 512, 0, Told::plain(44)),
    (2, 0xFF_FFFF, 0, Told::plain(44)),
    (0, 1, 37, NO_OFFSET),
    (0, 1 << 24, 37, NO_OFFSET),
    (0, u32::MAX, 37, NO_OFFSET),
    (1, 0x10_0000, 37, Told::plain(43)),
    (1, 0xFF_FFFF, 37, Told::plain(43)),
    (1, u32::MAX, 37, Told::plain(43)),
    (2, 0x100_0000, 37, Told::plain(44)),
    (2, u32::MAX, 37, Told::plain(44)),
    (3, 0, 36, NO_KIND),
    (255, 0, 36, NO_KIND),
    (3, 1, 36, NO_KIND),
    (255, 0x100_0000, 36, NO_KIND),
    (128, u32::MAX, 36, NO_KIND),
];

/// Places at the edges of 127, and some whose low byte alone would do.
const PLACES: [u16; 6] = [0, 127, 128, 256, 32_768, 65_535];
const FLAGS: [u8; 6] = [0, 15, 16, 31, 128, 255];

/// A choice of each field.
pub struct Form {
    sp: (u32, Told),
    base: BaseRow,
    place: u16,
    flags: u8,
}

impl Form {
    /// How many there are.
    pub const ALL: usize = SPS.len() * BASES.len() * PLACES.len() * FLAGS.len();

    /// The choice of a number.
    pub fn of(number: usize) -> Form {
        let (rest, flags) = (number / FLAGS.len(), number % FLAGS.len());
        let (rest, place) = (rest / PLACES.len(), rest % PLACES.len());
        let (sp, base) = (rest / BASES.len(), rest % BASES.len());
        Form {
            sp: SPS[sp],
            base: BASES[base],
            place: PLACES[place],
            flags: FLAGS[flags],
        }
    }

    /// The 44 bytes, with any registers.
    pub fn bytes(&self, random: &mut Random) -> Vec<u8> {
        let mut bytes = Vec::with_capacity(STORED);
        for _ in 0..8 {
            bytes.extend(records::value(random).to_le_bytes());
        }
        bytes.extend(self.sp.0.to_le_bytes());
        bytes.push(self.base.0);
        bytes.extend(self.base.1.to_le_bytes());
        bytes.extend(self.place.to_le_bytes());
        bytes.push(self.flags);
        bytes
    }

    /// What storing, reading back and packing tell.
    pub fn stored(&self) -> Told {
        if self.sp.1 != Told::ACCEPTED {
            Told::at(7, 32)
        } else if self.base.2 > 0 {
            Told::at(7, self.base.2)
        } else if self.place > 127 {
            Told::at(7, 41)
        } else if self.flags > 15 {
            Told::at(7, 43)
        } else {
            Told::ACCEPTED
        }
    }

    /// What a step tells, on a page whose places up to 127 are fit.
    fn stepped(&self) -> Told {
        let (sp, base) = (self.sp.1, self.base.3);
        if base.code == NO_RECORD {
            base
        } else if self.flags > 15 {
            Told::at(NO_RECORD, 43)
        } else if sp != Told::ACCEPTED {
            sp
        } else if base != Told::ACCEPTED {
            base
        } else if self.place > 127 {
            Told::plain(5)
        } else {
            Told::ACCEPTED
        }
    }
}

/// The whole part.
pub fn compare(comparison: &mut Comparison) -> Same {
    let mut random = Random::of_page(comparison.seed, 9 << 40);
    let page = page_bytes(&[[asm::NOP, asm::RETURN]; 64]);
    let mut rams = Rams::zero();
    for number in 0..Form::ALL {
        let form = Form::of(number);
        let bytes = form.bytes(&mut random);
        let handed = Handed {
            code: Code::plain(&page),
            external: &[0; EXTERNAL],
            window: Window::WHOLE,
            record: &bytes,
            budget: 1,
        };
        one_form(comparison, &form, &handed, &mut rams)
            .map_err(|found| format!("form {}: {found}", show::bytes(&bytes)))?;
    }
    Ok(())
}

/// A form's bytes as a stored form, of their own and of other lengths, and as a
/// record to step from.
fn one_form(comparison: &mut Comparison, form: &Form, handed: &Handed, rams: &mut Rams) -> Same {
    stored_and_loaded(comparison, handed.record, form.stored())?;
    lengths(comparison, handed.record)?;
    let given = comparison.step(handed, rams)?;
    given.told().held_to(form.stepped(), "step")
}

/// Stores and reads back a form; accepted, its bytes come back, and else the room
/// is left.
fn stored_and_loaded(comparison: &mut Comparison, bytes: &[u8], papers: Told) -> Same {
    let room = [FILLING; STORED];
    let (stored, written) = comparison.store(bytes, &room)?;
    stored.held_to(papers, "store")?;
    let (loaded, read) = comparison.load(bytes, &room)?;
    loaded.held_to(papers, "load")?;
    let left = match papers {
        Told::ACCEPTED => bytes,
        _ => &room,
    };
    if [&written[..], &read] != [left; 2] {
        return Err("both sides leave other bytes in the room".to_string());
    }
    Ok(())
}

/// The form or the room, or both, of another length: refused before any field.
fn lengths(comparison: &mut Comparison, bytes: &[u8]) -> Same {
    for length in [0, 43, 45] {
        let mut other = bytes.to_vec();
        other.resize(length, 0);
        let room = [FILLING; 45];
        for (form, room) in [
            (bytes, &room[..length]),
            (&other, &room[..STORED]),
            (&other, &room[..length]),
        ] {
            let (stored, _) = comparison.store(form, room)?;
            stored.held_to(Told::plain(6), "store")?;
            let (loaded, _) = comparison.load(form, room)?;
            loaded.held_to(Told::plain(6), "load")?;
        }
    }
    Ok(())
}
