//! Unpacking: every number of a short form at and off the edges of its field, with
//! all of the others and past 32 bits; groups spoilt in every way; some forms cut at
//! every byte, with every value of every byte and with bytes behind; bytes of every
//! length up to 80; rooms of other lengths. What is told, and what is written, is also
//! known from the papers, without either side.

use super::numbers::{self, in_groups, least_groups, Numbers, PAST};
use super::records::FILLING;
use super::sides::Told;
use super::steps::noise;
use super::{Comparison, Same};
use crate::random::Random;
use crate::second::record::STORED;
use crate::show;

/// How often each length is met.
const TIMES: usize = 60;
/// Lengths of rooms that are refused.
const ROOMS: [usize; 5] = [0, 12, 43, 45, 88];

const WORDS: u64 = 1 << 32;
/// Registers at the edges of groups, and three past their field.
const REGISTERS: [u64; 11] = [
    0,
    1,
    127,
    128,
    16_383,
    16_384,
    (1 << 21) - 1,
    1 << 21,
    (1 << 28) - 1,
    1 << 28,
    WORDS - 1,
];
const PAST_REGISTERS: [u64; 3] = [WORDS, WORDS + 1, PAST - 1];
/// Numbers of SP. 2^30 words are 2^32 bytes, and 0x18000 would be SP as it stands.
const SPS: [u64; 13] = [
    0,
    1,
    127,
    128,
    8191,
    8192,
    8193,
    16_384,
    0x1_8000,
    1 << 30,
    WORDS,
    WORDS + 8192,
    PAST - 1,
];
/// Kinds without an offset, with one in range, with one out of range, and unknown
/// ones; cut to a byte or a word, some would be known.
const BASES: [(u64, u64); 40] = [
    (0, 0),
    (1, 0),
    (1, 127),
    (1, 128),
    (1, 0xF_FFFF),
    (2, 0),
    (2, 16_384),
    (2, 0xFF_FFFF),
    (1, 0x10_0000),
    (1, 0x100_0000),
    (1, WORDS - 1),
    (1, WORDS),
    (1, PAST - 1),
    (2, 0x100_0000),
    (2, WORDS - 1),
    (2, WORDS),
    (2, WORDS + 5),
    (2, PAST - 1),
    (3, 0),
    (3, 0x10_0000),
    (127, 0),
    (127, WORDS),
    (128, 0),
    (128, 1),
    (255, 0),
    (255, PAST - 1),
    (256, 0),
    (256, 1),
    (257, 0),
    (257, 0x10_0000),
    (258, 5),
    (258, PAST - 1),
    (WORDS, 0),
    (WORDS, 1),
    (WORDS + 1, 0),
    (WORDS + 1, PAST - 1),
    (WORDS + 2, 5),
    (WORDS + 2, WORDS),
    (PAST - 1, 0),
    (PAST - 1, PAST - 1),
];
const PLACES: [u64; 9] = [0, 127, 128, 255, 256, 65_535, 65_536, WORDS, PAST - 1];
const FLAGS: [u64; 8] = [0, 15, 16, 255, 256, 257, WORDS, PAST - 1];

/// How many choices of all but the registers there are.
pub const ALL: usize = SPS.len() * BASES.len() * PLACES.len() * FLAGS.len();

/// The choice of a number; in every fourth a register is past its field.
pub fn choice(random: &mut Random, number: usize) -> Numbers {
    let (rest, flags) = (number / FLAGS.len(), number % FLAGS.len());
    let (rest, place) = (rest / PLACES.len(), rest % PLACES.len());
    let (sp, base) = (rest / BASES.len(), rest % BASES.len());
    let mut registers = [(); 8].map(|()| random.pick(&REGISTERS));
    if random.below(4) == 0 {
        registers[random.below(8)] = random.pick(&PAST_REGISTERS);
    }
    Numbers {
        registers,
        sp: SPS[sp],
        kind: BASES[base].0,
        offset: BASES[base].1,
        place: PLACES[place],
        flags: FLAGS[flags],
    }
}

/// The whole part.
pub fn compare(comparison: &mut Comparison) -> Same {
    let mut random = Random::of_page(comparison.seed, 12 << 40);
    for number in 0..ALL {
        let numbers = choice(&mut random, number);
        one_choice(comparison, &mut random, &numbers)
            .map_err(|found| format!("{numbers:?}: {found}"))?;
    }
    for numbers in samples() {
        let form = numbers.bytes();
        damaged(comparison, &mut random, &form)
            .and_then(|()| regrouped(comparison, &numbers))
            .map_err(|found| format!("from {}: {found}", show::bytes(&form)))?;
    }
    lengths(comparison, &mut random)
}

/// Numbers well grouped, spoilt, and for rooms of other lengths.
fn one_choice(comparison: &mut Comparison, random: &mut Random, numbers: &Numbers) -> Same {
    well_grouped(comparison, numbers)?;
    let spoilt = spoil(random, numbers);
    not_grouped(comparison, &spoilt)?;
    let room = random.pick(&ROOMS);
    other_room(comparison, &numbers.bytes(), room)?;
    other_room(comparison, &spoilt, room)
}

/// Well grouped numbers: the first that fails is told, and else the 44 bytes are
/// written.
fn well_grouped(comparison: &mut Comparison, numbers: &Numbers) -> Same {
    let room = [FILLING; STORED];
    let (told, bytes) = comparison.unpack(&numbers.bytes(), &room)?;
    told.held_to(numbers.told(), "unpack")?;
    if told == Told::ACCEPTED && bytes != numbers.stored() {
        return Err("both sides unpack other bytes".to_string());
    }
    Ok(())
}

/// Bytes that are refused by 9, whatever is out of range in them.
fn not_grouped(comparison: &mut Comparison, form: &[u8]) -> Same {
    let (told, _) = comparison.unpack(form, &[FILLING; STORED])?;
    told.held_to(Told::plain(9), "unpack")
        .map_err(|found| format!("{}: {found}", show::bytes(form)))
}

/// A room of another length is told before all else.
fn other_room(comparison: &mut Comparison, form: &[u8], room: usize) -> Same {
    let (told, _) = comparison.unpack(form, &vec![FILLING; room])?;
    told.held_to(Told::plain(6), "unpack")
}

/// Where the offset stands among the numbers that are written.
const OFFSET: usize = 10;

/// The numbers with their groups spoilt: cut off, followed, padded or too many; or with
/// an offset where the kind has none, and without one where it has.
pub fn spoil(random: &mut Random, numbers: &Numbers) -> Vec<u8> {
    let mut groups = numbers.groups();
    let values = numbers.written();
    let at = random.below(values.len());
    match random.below(5) {
        0 => {
            let mut form = groups.concat();
            form.truncate(random.below(form.len()));
            return form;
        }
        1 => {
            let length = random.between(1, 4);
            groups.push(noise(random, length));
        }
        2 => {
            let more = random.between(least_groups(values[at]) + 1, 6);
            groups[at] = in_groups(values[at], more);
        }
        3 => {
            let higher = random.between(1, 127) as u64 * PAST;
            groups[at] = in_groups(values[at] + higher, 6);
        }
        _ if numbers.kind == 0 => groups.insert(OFFSET, vec![random.field(128) as u8]),
        _ => {
            groups.remove(OFFSET);
        }
    }
    groups.concat()
}

/// Forms of 12, 49 and 65 bytes, with and without an offset, in range and not.
fn samples() -> [Numbers; 9] {
    let zero = Numbers::default();
    let numbers = |sp, kind, offset, place, flags| Numbers {
        registers: [1, 127, 128, 16_384, 1 << 21, 1 << 28, WORDS - 1, 0],
        sp,
        kind,
        offset,
        place,
        flags,
    };
    [
        zero,
        Numbers {
            registers: [WORDS - 1; 8],
            ..numbers(8192, 2, 0xFF_FFFF, 127, 15)
        },
        Numbers {
            registers: [PAST - 1; 8],
            ..numbers(PAST - 1, PAST - 1, PAST - 1, PAST - 1, PAST - 1)
        },
        numbers(8191, 1, 0xF_FFFF, 64, 8),
        numbers(128, 0, 0, 1, 1),
        numbers(0, 3, 0, 0, 0),
        numbers(1, 256, 256, 2, 2),
        numbers(8193, 1, 0, 128, 16),
        Numbers { kind: 1, ..zero },
    ]
}

/// A form cut at every byte.
fn cut(comparison: &mut Comparison, form: &[u8]) -> Same {
    for length in 0..form.len() {
        not_grouped(comparison, &form[..length])?;
    }
    Ok(())
}

/// A form with another value of one byte.
fn changed(comparison: &mut Comparison, form: &[u8], at: usize, value: u8) -> Same {
    let mut form = form.to_vec();
    form[at] = value;
    comparison.unpack(&form, &[FILLING; STORED]).map(|_| ())
}

/// A form cut at every byte, with bytes behind it, with every value of every byte, and
/// for rooms of every other length up to 100.
fn damaged(comparison: &mut Comparison, random: &mut Random, form: &[u8]) -> Same {
    cut(comparison, form)?;
    for length in [1, 2, 3, 5, 16, 100] {
        for behind in [vec![0; length], vec![0xFF; length], noise(random, length)] {
            not_grouped(comparison, &[form, &behind].concat())?;
        }
    }
    for at in 0..form.len() {
        for value in 0..=u8::MAX {
            changed(comparison, form, at, value)?;
        }
    }
    for room in 0..=100 {
        if room != STORED {
            other_room(comparison, form, room)?;
        }
    }
    Ok(())
}

/// Each number in more groups than it needs, and with a sixth that counts.
fn regrouped(comparison: &mut Comparison, numbers: &Numbers) -> Same {
    for (at, value) in numbers.written().into_iter().enumerate() {
        let padded = (least_groups(value) + 1..=9).map(|more| in_groups(value, more));
        for other in padded.chain([in_groups(value + PAST, 6)]) {
            let mut groups = numbers.groups();
            groups[at] = other;
            not_grouped(comparison, &groups.concat())?;
        }
    }
    Ok(())
}

/// Bytes of every length up to 80: any, such as are each a number, and forms. Those in
/// range are also cut at every byte and changed in every byte.
fn lengths(comparison: &mut Comparison, random: &mut Random) -> Same {
    for length in (0..=80).flat_map(|length| [length; TIMES]) {
        let any = noise(random, length);
        let single: Vec<u8> = any.iter().map(|byte| byte & 127).collect();
        let small: Vec<u8> = any.iter().map(|byte| byte & 1).collect();
        for form in [any, single, small] {
            comparison.unpack(&form, &[FILLING; STORED])?;
        }
        if (12..=49).contains(&length) {
            let numbers = numbers::in_range(random, length);
            well_grouped(comparison, &numbers)?;
            let form = numbers.bytes();
            cut(comparison, &form)?;
            for at in 0..length {
                changed(comparison, &form, at, random.field(256) as u8)?;
            }
        }
        match length {
            12..=65 => well_grouped(comparison, &numbers::any(random, length))?,
            66.. => not_grouped(comparison, &too_long(random, length))?,
            _ => {}
        }
    }
    Ok(())
}

/// A form with more numbers behind it, so many bytes in all.
fn too_long(random: &mut Random, length: usize) -> Vec<u8> {
    let first = random.between(12, 60);
    let mut form = numbers::any(random, first).bytes();
    while form.len() < length {
        let most = (length - form.len()).min(5);
        let groups = random.between(1, most);
        form.extend(in_groups(1 << (7 * (groups - 1)), groups));
    }
    form
}
