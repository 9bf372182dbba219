//! What the small profile lacks: each such encoding in each shape of page under
//! both profiles, and pages crowded with it. Counts are also known from 01 and 02,
//! without either side; so is that a step which the small profile accepts gives
//! the same under the full one.

use super::calls::{from_anywhere, places, read_all, series};
use super::cases;
use super::codes::{self, UNKNOWN};
use super::lacking::{CompareBranch, BRANCHES, WIDE};
use super::records;
use super::sets;
use super::shapes::Shape;
use super::sides::{Handed, Rams};
use super::tally::SMALL_PROFILE;
use super::{Comparison, Same};
use crate::assemble::{self as asm, page_bytes, Bundle};
use crate::random::{self, Random};
use crate::second::page::Code;
use crate::second::profile::{FULL, SMALL};
use crate::second::record::{stored_bytes, Record};
use crate::second::window::Window;

/// 32-bit instructions in each shape.
const WIDE_BUNDLES: usize = 60;
/// Crowded pages.
const PAGES: usize = 1000;

/// The whole part.
pub fn compare(comparison: &mut Comparison) -> Same {
    let mut random = Random::of_page(comparison.seed, 10 << 40);
    let mut rams = Rams::zero();
    for number in 0..16 {
        let (nonzero, n) = (number / 8, number % 8);
        let branch = CompareBranch { nonzero, n };
        one_encoding(comparison, &mut random, &BRANCHES, branch, &mut rams)?;
    }
    for _ in 0..WIDE_BUNDLES {
        let bundle = cases::wide_bundle(&mut random);
        one_encoding(comparison, &mut random, &WIDE, bundle, &mut rams)?;
    }
    for number in 0..PAGES {
        let page = page_bytes(&crowded_page(&mut random));
        crowded(comparison, &mut random, &page, &mut rams)
            .map_err(|found| format!("crowded page {number}: {found}"))?;
    }
    Ok(())
}

/// An encoding in each of its shapes, whose counts under both profiles are known.
fn one_encoding<T: Copy + std::fmt::Debug>(
    comparison: &mut Comparison,
    random: &mut Random,
    shapes: &[Shape<T>],
    encoding: T,
    rams: &mut Rams,
) -> Same {
    for shape in shapes {
        let page = page_bytes(&(shape.bundles)(encoding));
        one_shape(comparison, random, &page, shape.counts, rams)
            .map_err(|found| format!("{} of {encoding:X?}: {found}", shape.name))?;
    }
    Ok(())
}

/// A page under any set, and under both profiles from each of its places.
fn one_shape(
    comparison: &mut Comparison,
    random: &mut Random,
    page: &[u8],
    known: [usize; 2],
    rams: &mut Rams,
) -> Same {
    let code = Code::new(page, sets::any(random));
    let counts = comparison.counts(code)?;
    if counts.map(|count| count as usize) != known {
        return Err(format!("both sides count {counts:?}, 01 and 02 {known:?}"));
    }
    read_all(comparison, code.under(FULL))?;
    read_all(comparison, code.under(SMALL))?;
    for place in places(code) {
        let record = records::fit(random, 0);
        both_profiles(comparison, code, &Record { place, ..record }, rams)?;
    }
    all_series(comparison, random, code, rams)
}

/// A step from one record under both profiles. The small one refuses more places,
/// and where it does not, nothing tells them apart.
fn both_profiles(
    comparison: &mut Comparison,
    code: Code,
    record: &Record,
    rams: &mut Rams,
) -> Same {
    let bytes = stored_bytes(record);
    let mut step = |profile| {
        let handed = Handed {
            code: code.under(profile),
            external: &[],
            window: Window::WHOLE,
            record: &bytes,
            budget: 1,
        };
        comparison.step(&handed, rams)
    };
    let [full, small] = [step(FULL)?, step(SMALL)?];
    let met = match (full.numbers.code, small.numbers.code) {
        (0, 5) => "made a place unfit",
        _ if full != small => {
            let place = record.place;
            return Err(format!(
                "place {place}, under the full profile and the small one: both sides give {full:?} and {small:?}"
            ));
        }
        (0, _) => "the same from one place",
        _ => return Ok(()),
    };
    comparison.tally.class(SMALL_PROFILE, met);
    Ok(())
}

/// A series under each profile, with refused calls under the other one and under
/// unknown numbers.
fn all_series(
    comparison: &mut Comparison,
    random: &mut Random,
    code: Code,
    rams: &mut Rams,
) -> Same {
    for own in [code.under(FULL), code.under(SMALL)] {
        let unknown = own.under(random.pick(&UNKNOWN));
        series(comparison, random, own, codes::other(own), rams)?;
        series(comparison, random, own, unknown, rams)?;
    }
    Ok(())
}

/// A crowded page, under both profiles and unknown numbers.
fn crowded(comparison: &mut Comparison, random: &mut Random, page: &[u8], rams: &mut Rams) -> Same {
    let code = Code::new(page, sets::any(random));
    let unknown = random.pick(&UNKNOWN);
    comparison.counts(code)?;
    comparison.count(code.under(unknown))?;
    for profile in [FULL, SMALL, unknown] {
        read_all(comparison, code.under(profile))?;
        from_anywhere(comparison, random, code.under(profile), rams)?;
    }
    for _ in 0..3 {
        let place = random.below(page.len() / 2) as u16;
        let record = records::fit(random, 0);
        both_profiles(comparison, code, &Record { place, ..record }, rams)?;
    }
    all_series(comparison, random, code, rams)
}

/// Code in which what the small profile lacks is common, and a word after it.
fn crowded_page(random: &mut Random) -> Vec<Bundle> {
    let code = random.between(1, 8);
    let mut bundles: Vec<Bundle> = (0..code)
        .map(|bundle| crowded_bundle(random, bundle, code))
        .collect();
    if random.chance(80) {
        bundles[code - 1] = [asm::NOP, asm::RETURN];
    }
    if random.chance(30) {
        bundles.push(asm::word(random::service_word(random)));
    }
    bundles
}

/// A bundle of code that ends before `end`: something that the small profile
/// lacks, often behind a terminator or in a second half, or two other halves.
fn crowded_bundle(random: &mut Random, bundle: usize, end: usize) -> Bundle {
    let other = other_half(random);
    match random.below(20) {
        0..=2 => cases::wide_bundle(random),
        3 | 4 => [compare_branch(random, (bundle, 0), end), other],
        5 | 6 => [other, compare_branch(random, (bundle, 1), end)],
        7 | 8 => [
            terminator(random, (bundle, 0)),
            compare_branch(random, (bundle, 1), end),
        ],
        9 => [
            terminator(random, (bundle, 0)),
            cases::wide_bundle(random)[0],
        ],
        10 => [other, cases::wide_bundle(random)[0]],
        11 | 12 => [other, terminator(random, (bundle, 1))],
        _ => [other, other_half(random)],
    }
}

/// cbz or cbnz, to a bundle up to the end if there is one in reach.
fn compare_branch(random: &mut Random, (bundle, half): (usize, usize), end: usize) -> u16 {
    let (nonzero, n) = (random.field(2), random.field(8));
    let target = random.between(bundle + 1, end);
    let branch = asm::compare_branch(nonzero, n, bundle, half, target);
    branch.unwrap_or(0xB100 | nonzero << 11 | n)
}

/// A terminator, or a syscall that is one under some sets.
fn terminator(random: &mut Random, (bundle, half): (usize, usize)) -> u16 {
    let syscall = asm::service(0x80 + random.field(64));
    let back = asm::branch(bundle, half, random.below(bundle + 1));
    random.pick(&[asm::RETURN, asm::service(0xF9), back, syscall])
}

/// A half that both profiles have and that goes on, a syscall only under some
/// sets.
fn other_half(random: &mut Random) -> u16 {
    let d = random.field(8);
    match random.below(6) {
        0 => asm::stack_load(d, 0),
        1 => asm::service(0x80 + random.field(64)),
        _ => random::calculation_half(random, d),
    }
}
