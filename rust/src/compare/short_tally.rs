//! What a comparison met of the short form, and what it had to meet.

use super::short::Packed;
use super::sides::Told;
use super::tally::Tally;
use crate::second::groups;
use crate::second::record::{Fields, AT_FLAGS, AT_KIND, AT_OFFSET, AT_PLACE, STORED};
use crate::second::rules::Rules;
use crate::second::short::{Flaw, Number, Reading, ShortRules, FIELDS, LEAST, MOST};

/// The fields in the short form's order, by name.
const NAMES: [&str; 13] = [
    "r0", "r1", "r2", "r3", "r4", "r5", "r6", "r7", "SP", "kind", "offset", "place", "flags",
];
/// The lengths of accepted forms.
const LENGTHS: [&str; MOST - LEAST + 1] = [
    "12", "13", "14", "15", "16", "17", "18", "19", "20", "21", "22", "23", "24", "25", "26", "27",
    "28", "29", "30", "31", "32", "33", "34", "35", "36", "37", "38", "39", "40", "41", "42", "43",
    "44", "45", "46", "47", "48", "49",
];
/// Any other.
const ANOTHER: &str = "another";
/// Lengths of forms that were accepted, by the call.
const PACKED: &str = "short form: packed lengths";
const UNPACKED: &str = "short form: unpacked lengths";
/// What never may be met.
pub const NEVER: [(&str, &str); 2] = [(PACKED, ANOTHER), (UNPACKED, ANOTHER)];
/// The ways in which a number is not grouped, by its field.
const NOT_SHORTEST: &str = "short form: not shortest";
const TOO_MANY: &str = "short form: more than five groups";
const CUT_OFF: &str = "short form: cut off";
/// Numbers that no field of the 44 bytes holds, by the field that is told.
const PAST_FIELD: &str = "short form: past its field";
const BY_FIELD: [&str; 4] = [NOT_SHORTEST, TOO_MANY, CUT_OFF, PAST_FIELD];

/// What else was met of packing and unpacking.
const PACKING: &str = "short form: packing";
const PACKING_MET: [&str; 6] = [
    "a room one too small",
    "a room of the form's length",
    "a longer room",
    "6 before 7",
    "6 before 10",
    "7 before 10",
];
const UNPACKING: &str = "short form: unpacking";
const UNPACKING_MET: [&str; 15] = [
    "no bytes",
    "followed by bytes",
    "65 bytes well grouped",
    "none without offset",
    "RAM with offset",
    "external with offset",
    "an unknown kind with offset",
    "kind 256 with offset",
    "none with offset",
    "RAM without offset",
    "external without offset",
    "an unknown kind without offset",
    "6 before 9",
    "6 before 7",
    "9 before 7",
];

/// The classes of the short form that must be met.
pub fn required() -> impl Iterator<Item = (&'static str, &'static str)> {
    let fields = BY_FIELD
        .into_iter()
        .flat_map(|group| NAMES.map(|name| (group, name)));
    let lengths = [PACKED, UNPACKED]
        .into_iter()
        .flat_map(|group| LENGTHS.map(|name| (group, name)));
    fields
        .chain(lengths)
        .chain(PACKING_MET.map(|name| (PACKING, name)))
        .chain(UNPACKING_MET.map(|name| (UNPACKING, name)))
}

/// The name of the field at a position.
fn name(position: u8) -> &'static str {
    let named = FIELDS.into_iter().zip(NAMES);
    let mut own = named.filter(|(at, _)| *at == position);
    own.next().map_or("no field", |(_, name)| name)
}

/// The name of an accepted form's length.
fn length_name(length: usize) -> &'static str {
    let at = length.checked_sub(LEAST);
    at.and_then(|at| LENGTHS.get(at)).unwrap_or(&ANOTHER)
}

/// Whether a number is past the bytes of its field.
fn is_past(number: &Number) -> bool {
    let bits = match number.position {
        AT_KIND | AT_FLAGS => 8,
        AT_PLACE => 16,
        _ => 32,
    };
    number.value >> bits > 0
}

/// The length of the short form of 44 bytes in range.
fn form_length(stored: &[u8]) -> usize {
    let rules = Rules::RIGHT;
    (rules.short.pack)(rules, stored, &mut [0; MOST]).unwrap_or(0)
}

impl Tally {
    /// Counts a packing by its answer, its form and its room.
    pub fn packed(&mut self, stored: &[u8], room: usize, packed: &Packed) {
        self.call("pack", packed.told);
        let out_of_range = |bytes| Fields::read(bytes).map(|it| !it.out_of_range().is_empty());
        match packed.told.code {
            0 => {
                self.class(PACKED, length_name(packed.length));
                self.class(PACKING, PACKING_MET[1 + usize::from(room > packed.length)]);
            }
            6 => {
                let first = stored.get(..STORED).and_then(out_of_range);
                if first == Some(true) {
                    self.class(PACKING, "6 before 7");
                }
                if room < LEAST {
                    self.class(PACKING, "6 before 10");
                }
            }
            7 if room < LEAST => self.class(PACKING, "7 before 10"),
            10 if form_length(stored) == room + 1 => self.class(PACKING, PACKING_MET[0]),
            _ => {}
        }
    }

    /// Counts an unpacking by its answer, its numbers and its room.
    pub fn unpacked(&mut self, form: &[u8], room: usize, told: Told) {
        self.call("unpack", told);
        let reading = Reading::of(ShortRules::RIGHT, form);
        let fails = !reading.out_of_range(ShortRules::RIGHT).is_empty();
        match (room, reading.flaw) {
            (STORED, None) => self.well_grouped(form, &reading, told),
            (STORED, Some(flaw)) => {
                self.flaw(form, flaw);
                if fails {
                    self.class(UNPACKING, "9 before 7");
                }
            }
            (_, Some(_)) => self.class(UNPACKING, "6 before 9"),
            (_, None) if fails => self.class(UNPACKING, "6 before 7"),
            _ => {}
        }
    }

    /// Counts a form that is well grouped.
    fn well_grouped(&mut self, form: &[u8], reading: &Reading, told: Told) {
        if told == Told::ACCEPTED {
            self.class(UNPACKED, length_name(form.len()));
        }
        if form.len() == 65 {
            self.class(UNPACKING, "65 bytes well grouped");
        }
        let met = match (reading.value(AT_KIND), reading.value(AT_OFFSET)) {
            (Some(0), None) => "none without offset",
            (Some(1), Some(_)) => "RAM with offset",
            (Some(2), Some(_)) => "external with offset",
            (Some(256), Some(_)) => "kind 256 with offset",
            _ => "an unknown kind with offset",
        };
        self.class(UNPACKING, met);
        let first = reading.numbers.iter().find(|number| {
            let position = u32::from(number.position);
            told == Told::at(7, position) && is_past(number)
        });
        if let Some(number) = first {
            self.class(PAST_FIELD, name(number.position));
        }
    }

    /// Counts a form that would be well grouped if an offset stood with none, or with
    /// no kind at all.
    fn other_offset(&mut self, form: &[u8]) {
        let read_by = |has_offset: fn(u64) -> bool| {
            let rules = ShortRules {
                has_offset,
                ..ShortRules::RIGHT
            };
            let reading = Reading::of(rules, form);
            let kind = reading.value(AT_KIND);
            kind.filter(|_| reading.flaw.is_none())
        };
        if read_by(|_| true) == Some(0) {
            self.class(UNPACKING, "none with offset");
        }
        match read_by(|_| false) {
            None | Some(0) => {}
            Some(1) => self.class(UNPACKING, "RAM without offset"),
            Some(2) => self.class(UNPACKING, "external without offset"),
            Some(_) => self.class(UNPACKING, "an unknown kind without offset"),
        }
    }

    /// Counts why a form is not grouped.
    fn flaw(&mut self, form: &[u8], flaw: Flaw) {
        if form.is_empty() {
            self.class(UNPACKING, "no bytes");
        }
        self.other_offset(form);
        match flaw {
            Flaw::Followed => self.class(UNPACKING, "followed by bytes"),
            Flaw::Number(at, groups::Flaw::NotShortest) => self.class(NOT_SHORTEST, name(at)),
            Flaw::Number(at, groups::Flaw::TooMany) => self.class(TOO_MANY, name(at)),
            Flaw::Number(at, groups::Flaw::CutOff) => self.class(CUT_OFF, name(at)),
        }
    }
}
