//! Whole pages: the counts, all bundles, runs with several budgets, and series
//! of steps and runs against one run. Many pages for the small profile are
//! rewritten without what it lacks, so that they still do something.

use super::calls::{read_all, same_end};
use super::cases::{self, Scene};
use super::codes::{self, UNKNOWN};
use super::ranges::{self, REFUSED};
use super::records;
use super::sets;
use super::sides::{Given, Handed, Rams};
use super::steps::noise;
use super::tally::{LEAST_PAGES, SMALL_PROFILE};
use super::{Comparison, Same};
use crate::assemble::{self as asm, page_bytes, Bundle};
use crate::names;
use crate::random::{self, Random};
use crate::second::count::count;
use crate::second::memory::RAM_SIZE;
use crate::second::page::{Code, Page};
use crate::second::profile::SMALL;
use crate::second::record::{stored_bytes, Record};

const PAGES: u64 = LEAST_PAGES + 1000;
/// Budgets of runs from the fresh record.
const BUDGETS: [u32; 5] = [0, 1, 2, 7, 1000];
/// Steps of a run that is made again as a series.
const WHOLE: u32 = 300;

/// The whole part.
pub fn compare(comparison: &mut Comparison) -> Same {
    let mut random = Random::of_page(comparison.seed, 3 << 40);
    let external = noise(&mut random, 1024);
    let mut rams = Rams::new(noise(&mut random, RAM_SIZE));
    for number in 0..PAGES {
        let mut random = Random::of_page(comparison.seed, (3 << 41) + number);
        let (page, profile) = any_page(&mut random, comparison.seed, number);
        let code = Code::new(&page, sets::any(&mut random)).under(profile);
        let external = &external[..256 * random.below(5)];
        one_page(comparison, &mut random, code, external, &mut rams)
            .map_err(|found| format!("page {number}: {found}"))?;
        comparison.tally.class("amounts", "pages");
    }
    Ok(())
}

/// A page of a kind that its number tells, and the profile that it is for.
pub(super) fn any_page(random: &mut Random, seed: u64, number: u64) -> (Vec<u8>, u32) {
    let mut page = match number % 4 {
        0 => wild_page(random),
        1 => damaged(random),
        _ => random::page(seed, number),
    };
    let profile = profile_for(random, &mut page);
    (page, profile)
}

/// Either profile, mostly with what the small one lacks written anew for it.
pub(super) fn profile_for(random: &mut Random, page: &mut [u8]) -> u32 {
    let profile = codes::either(random);
    write_for(random, profile, page);
    profile
}

/// Mostly writes what a profile lacks anew for it.
pub(super) fn write_for(random: &mut Random, profile: u32, page: &mut [u8]) {
    if profile == SMALL && random.chance(80) {
        rewrite(random, page);
    }
}

/// A page of listed bundles that branch to and fro.
fn wild_page(random: &mut Random) -> Vec<u8> {
    let total = random.between(2, 64);
    let end = random.between(1, total);
    let mut bundles: Vec<Bundle> = Vec::new();
    for bundle in 0..end - 1 {
        let scene = |half| Scene {
            total,
            bundle,
            half,
            end,
        };
        bundles.push(match random.below(4) {
            0 => cases::wide_bundle(random),
            1 => [cases::narrow_half(random, scene(0)), asm::NOP],
            2 => [asm::NOP, cases::narrow_half(random, scene(1))],
            _ => [random::calculation_half(random, 0), asm::service(0xE1)],
        });
    }
    bundles.push([asm::branch(end - 1, 0, random.below(end)), asm::NOP]);
    bundles.resize_with(total, || asm::word(random::service_word(random)));
    page_bytes(&bundles)
}

/// A page that was good before one damage.
fn damaged(random: &mut Random) -> Vec<u8> {
    let mut page = match random.below(3) {
        0 => wild_page(random),
        1 => page_bytes(&random::work_page(random)),
        _ => cases::any(random, 0).page,
    };
    random::damage(random, &mut page);
    page
}

/// Writes what the small profile lacks anew, in a page's counted bundles: a
/// 32-bit instruction as two others, cbz and cbnz as a branch on a condition to
/// the same place.
fn rewrite(random: &mut Random, bytes: &mut [u8]) {
    let counted = Page::new(Code::plain(bytes)).map_or(0, count);
    for bundle in bytes[..4 * counted].chunks_exact_mut(4) {
        let halves = [0, 2].map(|at| u16::from_le_bytes([bundle[at], bundle[at + 1]]));
        let written = match halves[0] {
            0xE800.. => [(); 2].map(|()| plain_half(random)),
            _ => halves.map(|half| rewritten_half(random, half)),
        };
        bundle.copy_from_slice(&page_bytes(&[written]));
    }
}

/// A half in the place of a 32-bit instruction. It keeps r7, which counts the
/// turns of loops, and now and then is an access that can fault.
fn plain_half(random: &mut Random) -> u16 {
    let (d, words) = (random.field(7), random.field(4));
    match random.below(30) {
        0 => asm::stack_load(d, words),
        1 => asm::stack_store(d, words),
        2 => asm::add_from_sp(d, words),
        _ => random::calculation_half(random, d),
    }
}

/// A halfword, or a branch on a condition for cbz and cbnz.
fn rewritten_half(random: &mut Random, half: u16) -> u16 {
    if !names::is_compare_branch(half) {
        return half;
    }
    let offset = (half >> 9 & 1) << 5 | half >> 3 & 31;
    0xD000 | random.field(14) << 8 | offset
}

/// All that is compared on one page.
fn one_page(
    comparison: &mut Comparison,
    random: &mut Random,
    code: Code,
    external: &[u8],
    rams: &mut Rams,
) -> Same {
    comparison.counts(code)?;
    read_all(comparison, code)?;
    let (fresh, window) = (stored_bytes(&Record::fresh()), ranges::any(random));
    for budget in BUDGETS {
        let handed = Handed {
            code,
            external,
            window,
            record: &fresh,
            budget,
        };
        comparison.run(&handed, rams)?;
    }
    let record = any_record(random, code.page, external.len());
    let handed = Handed {
        code,
        external,
        window: ranges::for_run(random, &record),
        record: &stored_bytes(&record),
        budget: random.below(100) as u32,
    };
    comparison.run(&handed, rams)?;
    comparison.step(&handed.with_budget(1), rams)?;
    series(comparison, random, &handed.with_budget(WHOLE), rams)
}

/// A fit record at a place that may be fit.
pub(super) fn any_record(random: &mut Random, page: &[u8], external: usize) -> Record {
    let record = records::fit(random, external);
    let place = match random.below(8) {
        0 => random.pick(&[0, 127, 128, 255, 256, 0x7FFF, 0xFFFF]),
        1..=3 => 2 * random.below(page.len() / 4 + 1) as u16,
        _ => random.below(page.len() / 2 + 1).min(random.below(128)) as u16,
    };
    Record { place, ..record }
}

/// One run, and the same steps as a series of calls.
fn series(
    comparison: &mut Comparison,
    random: &mut Random,
    handed: &Handed,
    rams: &mut Rams,
) -> Same {
    let mut parts = rams.clone();
    let whole = comparison.run(handed, rams)?;
    let given = as_series(comparison, random, handed, &mut parts)?;
    let ends = [(&given, &parts), (&whole, &*rams)];
    same_end(["a series", "one run"], handed, ends)?;
    if handed.code.profile == SMALL && given.numbers.steps > 1 {
        let met = "a series of several steps equals one run";
        comparison.tally.class(SMALL_PROFILE, met);
    }
    Ok(())
}

/// The steps of a run as a series of calls, and what they give together: all that the
/// last gives, but the steps of all.
pub(super) fn as_series(
    comparison: &mut Comparison,
    random: &mut Random,
    handed: &Handed,
    rams: &mut Rams,
) -> Result<Given, String> {
    let (mut record, mut steps) = (handed.record.to_vec(), 0);
    loop {
        let own = Handed {
            record: &record,
            budget: handed.budget - steps,
            ..*handed
        };
        let mut given = one_call(comparison, random, &own, rams)?;
        steps += given.numbers.steps;
        if given.numbers.kind != 0 || steps == handed.budget {
            given.numbers.steps = steps;
            return Ok(given);
        }
        record = given.record;
    }
}

/// A step or a run with a part of the budget; now and then comes a call before
/// it that is refused and changes nothing.
fn one_call(
    comparison: &mut Comparison,
    random: &mut Random,
    own: &Handed,
    rams: &mut Rams,
) -> Result<Given, String> {
    if random.chance(10) {
        let other = refused(comparison, random, own);
        comparison.run(&other, rams)?;
    }
    match random.pick(&[0, 1, 1, 1, 2, 3, 7, 50, 200]).min(own.budget) {
        1 => comparison.step(&own.with_budget(1), rams),
        budget => comparison.run(&own.with_budget(budget), rams),
    }
}

/// The call with another page, set and profile, an unknown profile, or a window that is
/// refused.
fn refused<'a>(comparison: &mut Comparison, random: &mut Random, own: &Handed<'a>) -> Handed<'a> {
    let code = match random.below(3) {
        0 => codes::any(random, &own.code.page[..own.code.page.len().min(3)]),
        1 => {
            let unknown = own.code.under(random.pick(&UNKNOWN));
            comparison.tally.refused_in_series(own.code, unknown);
            unknown
        }
        _ => {
            comparison.tally.window_refused_in_series(own.window);
            let window = random.pick(&REFUSED);
            return Handed { window, ..*own };
        }
    };
    Handed { code, ..*own }
}
