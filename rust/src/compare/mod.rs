//! The library compared with the second program: every call, handed the same
//! bytes on both sides. No expected answer comes from the library.
//!
//! - [`sides`] and [`image_sides`]: each call on both sides, and [`report`] for a difference.
//! - [`short`]: packing and unpacking on both sides, with the way back.
//! - [`profiles`], [`windows`], [`refusals`], [`fields`], [`packing`], [`unpacking`],
//!   [`syscalls`], [`exits`], [`sharing`], [`slices`], [`forms`], [`reader`], [`steps`],
//!   [`pages`], [`images`], [`image_refusals`], [`fixed`]: the parts. Each stops at its
//!   first difference.
//! - [`records`], [`numbers`], [`cases`], [`image_cases`], [`busy`], [`codes`], [`sets`],
//!   [`ranges`], [`shapes`] and [`lacking`]: what the parts hand over; [`reach`]: what an
//!   instruction accesses; [`calls`]: what several parts call.
//! - [`tally`], [`short_tally`], [`slices_tally`], [`windows_tally`] and [`images_tally`]:
//!   what was met; a class that was not is a failure too, and so is an answer that its call
//!   can't give.

pub mod busy;
pub mod calls;
pub mod cases;
pub mod codes;
pub mod exits;
pub mod fields;
pub mod fixed;
pub mod forms;
pub mod image_cases;
pub mod image_refusals;
pub mod image_sides;
pub mod images;
pub mod images_tally;
pub mod lacking;
pub mod numbers;
pub mod packing;
pub mod pages;
pub mod profiles;
pub mod ranges;
pub mod reach;
pub mod reader;
pub mod records;
pub mod refusals;
pub mod report;
pub mod sets;
pub mod shapes;
pub mod sharing;
pub mod short;
pub mod short_tally;
pub mod sides;
pub mod slices;
pub mod slices_tally;
pub mod steps;
pub mod syscalls;
pub mod tally;
pub mod unpacking;
pub mod windows;
pub mod windows_tally;

use crate::second::rules::Rules;
use tally::Tally;

/// Nothing, or a difference told so that it can be made again.
pub type Same = Result<(), String>;

/// A comparison under way.
pub struct Comparison {
    /// The second program's rules, of which one may be a mistake.
    pub rules: Rules,
    pub seed: u64,
    pub tally: Tally,
}

/// A part: its name and what it does.
type Part = (&'static str, fn(&mut Comparison) -> Same);

/// The parts that meet most kinds soonest come first: a mistake is found there in
/// a moment.
const PARTS: [Part; 17] = [
    ("profiles", profiles::compare),
    ("windows", windows::compare),
    ("refusals", refusals::compare),
    ("fields", fields::compare),
    ("packing", packing::compare),
    ("unpacking", unpacking::compare),
    ("syscalls", syscalls::compare),
    ("exits", exits::compare),
    ("sharing", sharing::compare),
    ("slices", slices::compare),
    ("forms", forms::compare),
    ("reader", reader::compare),
    ("steps", steps::compare),
    ("pages", pages::compare),
    ("images", images::compare),
    ("image-refusals", image_refusals::compare),
    ("fixed", fixed::compare),
];

/// The parts' names.
pub fn names() -> [&'static str; PARTS.len()] {
    PARTS.map(|(name, _)| name)
}

/// Compares all parts, those before the named one last, and tells of each that it was
/// equal.
pub fn compare_all(rules: Rules, seed: u64, from: &str) -> Result<Tally, String> {
    let mut comparison = Comparison {
        rules,
        seed,
        tally: Tally::default(),
    };
    let start = PARTS.iter().position(|(name, _)| *name == from);
    let parts = PARTS.into_iter().cycle().skip(start.unwrap_or(0));
    for (name, part) in parts.take(PARTS.len()) {
        part(&mut comparison).map_err(|found| format!("part {name}, {found}"))?;
        println!("{name} equal");
    }
    Ok(comparison.tally)
}
