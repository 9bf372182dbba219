//! What a comparison met of slices and of larger budgets, and what it had to meet.

use super::codes;
use super::sets;
use super::sides::{record_in, Given};
use super::slices::{sum, Slice};
use super::tally::{Tally, BASES, FAULTS, LARGER, PLACES, SLICED, STOPS};
use crate::second::page::Code;
use crate::second::profile::{FULL, SMALL};
use crate::second::record::Base;

/// How many slices were made.
const MADE: &str = "slices made";
const NUMBERS: [&str; 6] = ["1", "2", "3", "4", "5", "6 or more"];
/// Stops of the last slice made: the first already, though more were asked for, or a
/// later.
const FIRST_STOPS: &str = "slices: stops of a first";
const LATER_STOPS: &str = "slices: stops of a later";
const LATER_FAULTS: &str = "slices: faults of a later";
/// Where a slice of 0 stands.
const EMPTY: &str = "slices of 0";
const STANDS: [&str; 3] = ["first", "between", "last"];
/// What slices have, and what there is between two of them.
const SETS: &str = "slices: sets";
const PROFILES: &str = "slices: profiles";
const CUT_BASES: &str = "slices: bases between";
const CUT_PLACES: &str = "slices: places between";
/// What else was met of slices.
const SLICES: &str = "slices";
const SLICES_MET: [&str; 3] = [
    "a step",
    "a service at the last step of a budget",
    "a sum at the limit",
];
/// Stops that a larger budget leaves as they are.
const LARGER_STOPS: &str = "larger budgets: stops";
const LARGER_FAULTS: &str = "larger budgets: faults";

/// The classes of slices and of larger budgets that must be met.
pub fn required() -> impl Iterator<Item = (&'static str, &'static str)> {
    let [budget, service, literal, fault, _, refused] = STOPS;
    let otherwise = [service, literal, fault, refused];
    let made = NUMBERS.map(|name| (MADE, name)).into_iter();
    made.chain(otherwise.map(|name| (FIRST_STOPS, name)))
        .chain([budget, service, literal, fault].map(|name| (LATER_STOPS, name)))
        .chain(FAULTS.map(|name| (LATER_FAULTS, name)))
        .chain(STANDS.map(|name| (EMPTY, name)))
        .chain(sets::KINDS.map(|name| (SETS, name)))
        .chain([FULL, SMALL].map(|profile| (PROFILES, codes::kind(profile))))
        .chain(BASES.map(|name| (CUT_BASES, name)))
        .chain(PLACES.map(|name| (CUT_PLACES, name)))
        .chain(SLICES_MET.map(|name| (SLICES, name)))
        .chain(otherwise.map(|name| (LARGER_STOPS, name)))
        .chain(FAULTS.map(|name| (LARGER_FAULTS, name)))
}

impl Tally {
    /// Counts the slices of a run: how many there are, and what they are like.
    pub fn sliced(&mut self, code: Code, made: &[Slice]) {
        let Some((last, cut)) = made.split_last() else {
            return;
        };
        let number = made.len().min(NUMBERS.len());
        self.class(MADE, NUMBERS[number - 1]);
        if number >= 3 {
            self.class("amounts", SLICED);
        }
        let numbers = &last.given.numbers;
        if cut.is_empty() {
            return self.class(FIRST_STOPS, STOPS[numbers.kind as usize]);
        }
        self.stopped([LATER_STOPS, LATER_FAULTS], numbers);
        if matches!(numbers.kind, 1 | 2) && numbers.steps == last.budget {
            self.class(SLICES, "a service at the last step of a budget");
        }
        self.class(SETS, sets::kind(code.never_return));
        self.class(PROFILES, codes::kind(code.profile));
        self.budgets(made);
        for slice in cut {
            self.between(&slice.given.record);
        }
    }

    /// Counts budgets of 0 by where they stand, those of 1, and a sum at the limit.
    fn budgets(&mut self, made: &[Slice]) {
        for (at, slice) in made.iter().enumerate() {
            match slice.budget {
                0 if at == 0 => self.class(EMPTY, "first"),
                0 if at + 1 == made.len() => self.class(EMPTY, "last"),
                0 => self.class(EMPTY, "between"),
                1 => self.class(SLICES, "a step"),
                _ => {}
            }
        }
        if sum(made) == u32::MAX {
            self.class(SLICES, "a sum at the limit");
        }
    }

    /// Counts the record between two slices.
    fn between(&mut self, record: &[u8]) {
        let Some(record) = record_in(record) else {
            return;
        };
        let base = match record.base {
            Base::None => 0,
            Base::Ram(_) => 1,
            Base::External(_) => 2,
        };
        self.class(CUT_BASES, BASES[base]);
        self.class(CUT_PLACES, PLACES[usize::from(record.place % 2)]);
    }

    /// Counts a run that was made again with a larger budget.
    pub fn larger(&mut self, given: &Given) {
        self.class("amounts", "larger budgets");
        self.call(LARGER, given.told());
        self.stopped([LARGER_STOPS, LARGER_FAULTS], &given.numbers);
    }
}
