//! Mistakes about the short form.

use std::ops::Range;

use crate::second::groups::{self, first, joined, Flaw, Taken, MORE, MOST_GROUPS};
use crate::second::record::{AT_FLAGS, AT_KIND, AT_OFFSET, AT_PLACE, AT_SP, RAM_END, RAM_START};
use crate::second::refusal::Refusal;
use crate::second::rules::Rules;
use crate::second::short::{Number, Reading, ShortRules, FIELDS, LEAST, MOST};

const RIGHT: ShortRules = ShortRules::RIGHT;

/// The rules with another reader of numbers.
const fn read(read: fn(&[u8]) -> Result<Taken<'_>, Flaw>) -> ShortRules {
    ShortRules { read, ..RIGHT }
}

/// The rules with another verdict on what is read.
const fn verdict(verdict: fn(ShortRules, &Reading) -> Option<Refusal>) -> ShortRules {
    ShortRules { verdict, ..RIGHT }
}

/// The rules with another way to put a form into its room.
const fn put(put: fn(&[u8], &mut [u8]) -> Result<usize, Refusal>) -> ShortRules {
    ShortRules { put, ..RIGHT }
}

/// Each mistake's name, and the rules with it.
pub const MISTAKES: [(&str, ShortRules); 23] = [
    (
        "groups-of-eight",
        ShortRules {
            write: write_eights,
            read: read_eights,
            ..RIGHT
        },
    ),
    (
        "highest-group-first",
        ShortRules {
            write: write_highest_first,
            read: read_highest_first,
            ..RIGHT
        },
    ),
    ("padded-group", read(read_padded)),
    ("five-groups-refused", read(read_four)),
    ("six-groups", read(read_six)),
    (
        "offset-with-none",
        ShortRules {
            has_offset: |_| true,
            ..RIGHT
        },
    ),
    (
        "unknown-without-offset",
        ShortRules {
            has_offset: |kind| matches!(kind, 1 | 2),
            ..RIGHT
        },
    ),
    (
        "sp-as-it-stands",
        ShortRules {
            sp_number: |sp| sp.into(),
            sp_of: sp_as_it_stands,
            ..RIGHT
        },
    ),
    (
        "sp-one-below",
        ShortRules {
            sp_of: sp_one_below,
            ..RIGHT
        },
    ),
    ("bytes-behind", verdict(bytes_behind)),
    ("range-before-groups", verdict(range_first)),
    ("last-number", verdict(last_number)),
    ("position-in-numbers", verdict(position_in_numbers)),
    ("register-cut", verdict(register_cut)),
    ("kind-cut", verdict(kind_cut)),
    ("offset-cut", verdict(offset_cut)),
    ("place-cut", verdict(place_cut)),
    ("flags-cut", verdict(flags_cut)),
    ("room-one-less", put(put_but_one)),
    ("room-for-the-longest", put(put_as_the_longest)),
    ("room-cleared", put(put_and_clear)),
    (
        "room-before-range",
        ShortRules {
            pack: room_first,
            ..RIGHT
        },
    ),
    (
        "groups-before-room",
        ShortRules {
            unpack: groups_first,
            ..RIGHT
        },
    ),
];

/// Groups lie eight bits apart.
fn write_eights(number: u64) -> Vec<u8> {
    let bytes = number.to_le_bytes();
    let last = bytes.iter().rposition(|&byte| byte != 0).unwrap_or(0);
    let mut groups = bytes[..=last].to_vec();
    for group in &mut groups[..last] {
        *group |= MORE;
    }
    groups[last] &= !MORE;
    groups
}

/// The same in reading.
fn read_eights(bytes: &[u8]) -> Result<Taken<'_>, Flaw> {
    let (_, behind) = groups::read(bytes)?;
    let (own, _) = first(bytes, MOST_GROUPS)?;
    let join = |number, group: &u8| number << 8 | u64::from(group & !MORE);
    Ok((own.iter().rev().fold(0, join), behind))
}

/// The highest group comes first.
fn write_highest_first(number: u64) -> Vec<u8> {
    let mut groups = groups::write(number);
    let last = groups.len() - 1;
    groups.reverse();
    groups[0] |= MORE;
    groups[last] &= !MORE;
    groups
}

/// The same in reading: a first group of 0 isn't shortest.
fn read_highest_first(bytes: &[u8]) -> Result<Taken<'_>, Flaw> {
    let (own, behind) = first(bytes, MOST_GROUPS)?;
    if own[0] == MORE {
        return Err(Flaw::NotShortest);
    }
    let lowest_first: Vec<u8> = own.iter().rev().copied().collect();
    Ok((joined(&lowest_first), behind))
}

/// A last group of 0 may follow others.
fn read_padded(bytes: &[u8]) -> Result<Taken<'_>, Flaw> {
    let (own, behind) = first(bytes, MOST_GROUPS)?;
    Ok((joined(own), behind))
}

/// Five groups are too many.
fn read_four(bytes: &[u8]) -> Result<Taken<'_>, Flaw> {
    first(bytes, 4)?;
    groups::read(bytes)
}

/// Six groups are not too many.
fn read_six(bytes: &[u8]) -> Result<Taken<'_>, Flaw> {
    match first(bytes, 6)? {
        ([_, .., 0], _) => Err(Flaw::NotShortest),
        (own, behind) => Ok((joined(own), behind)),
    }
}

/// SP is its own number.
fn sp_as_it_stands(number: u64) -> Option<u32> {
    let sp = u32::try_from(number).ok()?;
    let fits = (RAM_START..=RAM_END).contains(&sp) && sp.is_multiple_of(4);
    fits.then_some(sp)
}

/// SP may be one word below RAM.
fn sp_one_below(number: u64) -> Option<u32> {
    match number {
        8193 => Some(RAM_START - 4),
        _ => (RIGHT.sp_of)(number),
    }
}

/// Bytes may follow the last number.
fn bytes_behind(rules: ShortRules, reading: &Reading) -> Option<Refusal> {
    let mut reading = reading.clone();
    if reading.value(AT_FLAGS).is_some() {
        reading.flaw = None;
    }
    (RIGHT.verdict)(rules, &reading)
}

/// Each number is tested when it is read, before those behind it.
fn range_first(rules: ShortRules, reading: &Reading) -> Option<Refusal> {
    match reading.out_of_range(rules).first() {
        Some(&position) => Some(Refusal::at(7, position)),
        None => (RIGHT.verdict)(rules, reading),
    }
}

/// The refusal by 7 with another position.
fn at(rules: ShortRules, reading: &Reading, position: Option<u8>) -> Option<Refusal> {
    match (RIGHT.verdict)(rules, reading)? {
        Refusal { number: 7, .. } => Some(Refusal {
            number: 7,
            position,
        }),
        other => Some(other),
    }
}

/// The last field that fails is told.
fn last_number(rules: ShortRules, reading: &Reading) -> Option<Refusal> {
    let last = reading.out_of_range(rules).last().copied();
    at(rules, reading, last)
}

/// The position is the number of the field.
fn position_in_numbers(rules: ShortRules, reading: &Reading) -> Option<Refusal> {
    let first = reading.out_of_range(rules).first().copied();
    let number = FIELDS.iter().position(|&field| Some(field) == first);
    at(rules, reading, number.map(|number| number as u8))
}

/// The numbers of fields at these positions are cut to so many bits before their test.
fn cut(rules: ShortRules, reading: &Reading, at: Range<u8>, bits: u32) -> Option<Refusal> {
    let own = |number: &Number| match number.value {
        value if at.contains(&number.position) => Number {
            value: value % (1 << bits),
            ..*number
        },
        _ => *number,
    };
    let numbers = reading.numbers.iter().map(own).collect();
    let flaw = reading.flaw;
    (RIGHT.verdict)(rules, &Reading { numbers, flaw })
}

fn register_cut(rules: ShortRules, reading: &Reading) -> Option<Refusal> {
    cut(rules, reading, 0..AT_SP, 32)
}

/// Such a kind was read with its offset, though it may now be none.
fn kind_cut(rules: ShortRules, reading: &Reading) -> Option<Refusal> {
    cut(rules, reading, AT_KIND..AT_OFFSET, 8)
}

fn offset_cut(rules: ShortRules, reading: &Reading) -> Option<Refusal> {
    cut(rules, reading, AT_OFFSET..AT_PLACE, 32)
}

fn place_cut(rules: ShortRules, reading: &Reading) -> Option<Refusal> {
    cut(rules, reading, AT_PLACE..AT_FLAGS, 16)
}

fn flags_cut(rules: ShortRules, reading: &Reading) -> Option<Refusal> {
    cut(rules, reading, AT_FLAGS..AT_FLAGS + 1, 8)
}

/// A room that is one byte too small is accepted, and written full.
fn put_but_one(form: &[u8], room: &mut [u8]) -> Result<usize, Refusal> {
    let (length, fits) = (form.len(), form.len().min(room.len()));
    if room.len() + 1 == length {
        room.copy_from_slice(&form[..fits]);
        return Ok(length);
    }
    (RIGHT.put)(form, room)
}

/// A room must do for every record.
fn put_as_the_longest(form: &[u8], room: &mut [u8]) -> Result<usize, Refusal> {
    match room.len() {
        0..MOST => Err(Refusal::plain(10)),
        _ => (RIGHT.put)(form, room),
    }
}

/// The bytes past the form are cleared.
fn put_and_clear(form: &[u8], room: &mut [u8]) -> Result<usize, Refusal> {
    let length = (RIGHT.put)(form, room)?;
    room[length..].fill(0);
    Ok(length)
}

/// A room that does for no record is told before the record's range.
fn room_first(rules: Rules, stored: &[u8], room: &mut [u8]) -> Result<usize, Refusal> {
    match (RIGHT.pack)(rules, stored, room) {
        Err(Refusal { number: 7, .. }) if room.len() < LEAST => Err(Refusal::plain(10)),
        right => right,
    }
}

/// The groups are looked at before the room's length.
fn groups_first(rules: Rules, form: &[u8], room: &mut [u8]) -> Result<(), Refusal> {
    match Reading::of(rules.short, form).flaw {
        Some(_) => Err(Refusal::plain(9)),
        None => (RIGHT.unpack)(rules, form, room),
    }
}
