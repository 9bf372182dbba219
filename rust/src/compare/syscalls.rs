//! Direct syscalls under sets of those that never return: each number in each
//! shape of page with its bit set and clear, and pages crowded with syscalls.
//! Counts and places are also known from 01 and 02, without either side, and are
//! the same under both profiles.

use super::calls::{counted, from_anywhere, places, read_all, series};
use super::codes;
use super::records;
use super::sets;
use super::shapes::{Shape, DIRECT, OTHERS};
use super::sides::{record_in, Given, Handed, Rams};
use super::tally::LAST;
use super::{Comparison, Same};
use crate::assemble::{self as asm, page_bytes, Bundle};
use crate::random::{self, Random};
use crate::second::page::{Code, NeverReturn};
use crate::second::record::{stored_bytes, Record};
use crate::second::window::Window;

/// Crowded pages.
const PAGES: usize = 1500;

/// The whole part.
pub fn compare(comparison: &mut Comparison) -> Same {
    let mut random = Random::of_page(comparison.seed, 9 << 40);
    let mut rams = Rams::zero();
    for number in 0..64 {
        for shape in DIRECT.iter().chain(&OTHERS) {
            one_shape(comparison, &mut random, shape, number, &mut rams)
                .map_err(|found| format!("{}, syscall {number}: {found}", shape.name))?;
        }
    }
    for number in 0..PAGES {
        crowded(comparison, &mut random, &mut rams)
            .map_err(|found| format!("crowded page {number}: {found}"))?;
    }
    Ok(())
}

/// A shape with a syscall's number, under sets with it and without it.
fn one_shape(
    comparison: &mut Comparison,
    random: &mut Random,
    shape: &Shape<u16>,
    number: u16,
    rams: &mut Rams,
) -> Same {
    let page = page_bytes(&(shape.bundles)(number));
    for sets in sets::with_and_without(random, number.into()) {
        let profile = codes::either(random);
        let both = sets.map(|never_return| Code::new(&page, never_return).under(profile));
        for (code, count) in both.into_iter().zip(shape.counts) {
            counted(comparison, code, count)?;
        }
        for place in places(both[0]) {
            let record = records::fit(random, 0);
            both_ways(comparison, both, &Record { place, ..record }, rams)?;
        }
        let [with, without] = both;
        series(comparison, random, with, without, rams)?;
        series(comparison, random, without, with, rams)?;
    }
    Ok(())
}

/// A step from one record with both sets. Where neither is refused, only a
/// direct syscall tells them apart: at it the place stays with the first set and
/// moves on with the second.
fn both_ways(
    comparison: &mut Comparison,
    codes: [Code; 2],
    record: &Record,
    rams: &mut Rams,
) -> Same {
    let bytes = stored_bytes(record);
    let mut step = |code| {
        let handed = Handed {
            code,
            external: &[],
            window: Window::WHOLE,
            record: &bytes,
            budget: 1,
        };
        comparison.step(&handed, rams)
    };
    let [with, without] = [step(codes[0])?, step(codes[1])?];
    if with.numbers.code != 0 || without.numbers.code != 0 {
        return Ok(());
    }
    let direct = with.numbers.kind == 1 && with.numbers.value & 0xC0 == 0x80;
    let mut known = with.clone();
    if direct {
        known.record = at_place(&with, record.place + 1);
        comparison.tally.class(LAST, "both ways from one place");
    }
    if without == known && (!direct || with.record == at_place(&with, record.place)) {
        return Ok(());
    }
    Err(format!(
        "place {}, with the syscall's bit and without it: both sides give {with:?} and {without:?}",
        record.place
    ))
}

/// The bytes of a given record at another place.
fn at_place(given: &Given, place: u16) -> Vec<u8> {
    let moved = record_in(&given.record).map(|record| Record { place, ..record });
    moved.as_ref().map(stored_bytes).unwrap_or_default()
}

/// A page of few syscalls that stand everywhere, under sets with some of them,
/// and the complements.
fn crowded(comparison: &mut Comparison, random: &mut Random, rams: &mut Rams) -> Same {
    let numbers = [(); 3].map(|()| random.field(64));
    let page = page_bytes(&crowded_page(random, numbers));
    let set = sets::any(random);
    let one = sets::only(numbers[0].into());
    let profile = codes::either(random);
    let three = [set, NeverReturn(set.0 ^ one.0), NeverReturn(!set.0)]
        .map(|never_return| Code::new(&page, never_return).under(profile));
    for (at, code) in three.into_iter().enumerate() {
        comparison.count(code)?;
        read_all(comparison, code)?;
        for _ in 0..3 {
            from_anywhere(comparison, random, code, rams)?;
        }
        series(comparison, random, code, three[(at + 1) % 3], rams)?;
    }
    Ok(())
}

/// Code of such syscalls, and two words of syscalls after it.
fn crowded_page(random: &mut Random, numbers: [u16; 3]) -> Vec<Bundle> {
    let code = random.between(1, 8);
    let mut bundles: Vec<Bundle> = (0..code)
        .map(|bundle| [0, 1].map(|half| crowded_half(random, numbers, (bundle, half), code)))
        .collect();
    if random.chance(60) {
        let end = asm::service(0x80 + numbers[0]);
        bundles[code - 1] = [asm::NOP, random.pick(&[asm::RETURN, end])];
    }
    if random.chance(70) {
        bundles.extend([0, 1].map(|tail| [tail, 0x8000 | numbers[1]]));
    }
    bundles
}

/// One of the syscalls, a terminator, another exit or a branch.
fn crowded_half(
    random: &mut Random,
    numbers: [u16; 3],
    (bundle, half): (usize, usize),
    code: usize,
) -> u16 {
    let target = random.below(code);
    match random.below(20) {
        0..=7 => asm::service(0x80 + random.pick(&numbers)),
        8 => asm::RETURN,
        9 => asm::branch(bundle, half, target),
        10 => asm::conditional(random.field(14), bundle, half, target),
        11 => asm::service((code + random.below(2)) as u16),
        12 => asm::service(random.pick(&[0xE8, 0xF0, 0xF7, 0xF8, 0xFF, 0xC1, 0xE1])),
        _ => random::calculation_half(random, 1),
    }
}
