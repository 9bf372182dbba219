//! Slices of budget: a run cut into several, against one run with the sum of their
//! budgets. Where that stops otherwise than by its budget, larger ones must change
//! nothing, and it is cut again with the largest budget as the sum. Any other run
//! gets only short budgets: it may loop.

use marshbodkin::raw::Answer as Numbers;

use super::calls::same_end;
use super::cases::{self, Case};
use super::pages::{any_page, any_record, profile_for};
use super::ranges;
use super::records::{self, SPOILS};
use super::refusals::{with_wrong, Wrong};
use super::sets;
use super::sides::{Given, Handed, Rams};
use super::steps::noise;
use super::{Comparison, Same};
use crate::random::Random;
use crate::second::memory::RAM_SIZE;
use crate::second::page::Code;
use crate::second::record::{stored_bytes, Record};

/// Random runs.
const RUNS: u64 = 8_000;
/// How often a run is refused by each thing alone; bytes are spoilt in every way, by
/// turns.
const TIMES: usize = 2 * SPOILS.len();
/// Budget of a first run, which tells how long it is.
const WHOLE: u32 = 300;
/// Bytes of external data, as many as a refused run may ask for.
const EXTERNAL: usize = 65_536;

/// A slice that was made: its budget and what it gave.
pub struct Slice {
    pub budget: u32,
    pub given: Given,
}

/// The whole part.
pub fn compare(comparison: &mut Comparison) -> Same {
    let mut random = Random::of_page(comparison.seed, 16 << 40);
    let external = noise(&mut random, EXTERNAL);
    let mut rams = Rams::new(noise(&mut random, RAM_SIZE));
    for number in 0..RUNS {
        random_run(comparison, number, &external, &mut rams)
            .map_err(|found| format!("run {number}: {found}"))?;
    }
    // Time 0 would ask for the longest external data.
    for time in 1..=TIMES {
        for wrong in Wrong::each() {
            refused_run(comparison, &mut random, wrong, time, &external)?;
        }
    }
    Ok(())
}

/// One random run.
fn random_run(comparison: &mut Comparison, number: u64, external: &[u8], rams: &mut Rams) -> Same {
    let mut random = Random::of_page(comparison.seed, (17 << 40) + number);
    let external = &external[..256 * random.below(5)];
    let (case, profile) = any_run(&mut random, comparison.seed, number, external.len());
    let handed = Handed {
        code: Code::new(&case.page, sets::any(&mut random)).under(profile),
        external,
        window: ranges::for_run(&mut random, &case.record),
        record: &stored_bytes(&case.record),
        budget: WHOLE,
    };
    one_run(comparison, &mut random, &handed, rams)
}

/// A page and a record to run it from, and the profile that it is for: any page by
/// turns with one on which calculations lead to an edge.
pub(super) fn any_run(random: &mut Random, seed: u64, number: u64, external: usize) -> (Case, u32) {
    if number.is_multiple_of(2) {
        let (page, profile) = any_page(random, seed, number / 2);
        let record = started(random, &page, external);
        return (Case { page, record }, profile);
    }
    let mut case = cases::led_to(random, external);
    let profile = profile_for(random, &mut case.page);
    (case, profile)
}

/// A fit record at the page's start, or at a place that may be fit.
fn started(random: &mut Random, page: &[u8], external: usize) -> Record {
    match random.below(3) {
        0 => any_record(random, page, external),
        _ => records::fit(random, external),
    }
}

/// A run that one wrong thing refuses.
fn refused_run(
    comparison: &mut Comparison,
    random: &mut Random,
    wrong: Wrong,
    time: usize,
    external: &[u8],
) -> Same {
    with_wrong(random, wrong, time, external, |random, handed, rams| {
        one_run(comparison, random, &handed.with_budget(WHOLE), rams)
    })
}

/// Budgets of three to eight slices, some of them 0, for a run of so many steps: often
/// it stops in one of the last.
fn budgets(random: &mut Random, steps: u32) -> Vec<u32> {
    let number = random.between(3, 8);
    let most = random.pick(&[1, 2, 4]) * steps as usize / number + 1;
    let budget = |_| random.below(most + 1) as u32;
    (0..number).map(budget).collect()
}

/// All that is compared on one run.
fn one_run(
    comparison: &mut Comparison,
    random: &mut Random,
    handed: &Handed,
    rams: &mut Rams,
) -> Same {
    let before = rams.clone();
    let first = comparison.run(handed, &mut before.clone())?;
    let budgets = budgets(random, first.numbers.steps);
    let (made, end) = cut(comparison, handed, &budgets, rams)?;
    if end.numbers.kind == 0 {
        return Ok(());
    }
    for budget in larger_than(random, sum(&made)) {
        let larger = handed.with_budget(budget);
        let mut own = before.clone();
        let given = comparison.run(&larger, &mut own)?;
        let names = ["a run", "one with a larger budget"];
        same_end(names, &larger, [(&end, rams), (&given, &own)])?;
        comparison.tally.larger(&given);
    }
    at_the_limit(comparison, handed, &made, &mut before.clone())
}

/// Slices from a record and RAM, and one run with the sum of their budgets: the
/// slices that were made, and the end of both.
fn cut(
    comparison: &mut Comparison,
    handed: &Handed,
    budgets: &[u32],
    rams: &mut Rams,
) -> Result<(Vec<Slice>, Given), String> {
    let mut own = rams.clone();
    let (made, end) = slices(comparison, handed, budgets, rams)?;
    let whole = handed.with_budget(sum(&made));
    let given = comparison.run(&whole, &mut own)?;
    let ends = [(&end, &*rams), (&given, &own)];
    same_end(["slices", "one run"], &whole, ends)
        .map_err(|found| format!("slices of {budgets:?}: {found}"))?;
    comparison.tally.sliced(handed.code, &made);
    Ok((made, end))
}

/// Makes slices up to the first that stops otherwise than by its budget, and tells
/// what they give together: all that the last gives, but the steps of all.
fn slices(
    comparison: &mut Comparison,
    handed: &Handed,
    budgets: &[u32],
    rams: &mut Rams,
) -> Result<(Vec<Slice>, Given), String> {
    let mut made: Vec<Slice> = Vec::new();
    let mut end = Given {
        numbers: Numbers::default(),
        record: handed.record.to_vec(),
    };
    for &budget in budgets {
        let record = &end.record;
        let own = Handed { record, ..*handed }.with_budget(budget);
        let given = one_slice(comparison, &own, rams)?;
        if given.numbers.code != 0 && !made.is_empty() {
            let refusal = given.numbers.code;
            return Err(format!("both sides refuse a later slice by {refusal}"));
        }
        let steps = end.numbers.steps + given.numbers.steps;
        end = given.clone();
        end.numbers.steps = steps;
        made.push(Slice { budget, given });
        if end.numbers.kind != 0 {
            break;
        }
    }
    Ok((made, end))
}

/// A run, or a step for budget 1.
fn one_slice(comparison: &mut Comparison, own: &Handed, rams: &mut Rams) -> Result<Given, String> {
    match own.budget {
        1 => comparison.step(own, rams),
        _ => comparison.run(own, rams),
    }
}

/// The sum of the slices' budgets.
pub(super) fn sum(made: &[Slice]) -> u32 {
    made.iter().map(|slice| slice.budget).sum()
}

/// Budgets above one: the next, one with low bits of 0, any, and the largest.
fn larger_than(random: &mut Random, budget: u32) -> impl Iterator<Item = u32> {
    let round = 1 << random.between(8, 31);
    let larger = [budget + 1, round, random.bits(), u32::MAX];
    larger.into_iter().filter(move |&larger| larger > budget)
}

/// The same slices, but the last, which is known to end, has all that is left of the
/// largest budget.
fn at_the_limit(
    comparison: &mut Comparison,
    handed: &Handed,
    made: &[Slice],
    rams: &mut Rams,
) -> Same {
    let mut budgets: Vec<u32> = made.iter().map(|slice| slice.budget).collect();
    if let [_, .., last] = &mut budgets[..] {
        *last += u32::MAX - sum(made);
        cut(comparison, handed, &budgets, rams)?;
    }
    Ok(())
}
