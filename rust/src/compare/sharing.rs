//! RAMs that agree inside a window alone: runs on them must be equal but for the bytes
//! outside, which must stay, in one run as in a series of calls with refused ones among
//! them. And two filters whose windows don't overlap, by turns in one RAM: each must end
//! as it does alone.

use super::busy;
use super::calls::{outside_stays, same_inside};
use super::cases::Case;
use super::codes;
use super::pages::as_series;
use super::ranges;
use super::sets;
use super::sides::{Given, Handed, Rams};
use super::slices::any_run;
use super::steps::noise;
use super::{Comparison, Same};
use crate::random::Random;
use crate::second::memory::RAM_SIZE;
use crate::second::page::{Code, NeverReturn};
use crate::second::record::stored_bytes;
use crate::second::window::Window;

/// Pairs of runs.
const PAIRS: u64 = 4_000;
/// Pairs of filters in one RAM.
const SHARED: u64 = 600;
/// Steps of a run.
const BUDGET: u32 = 300;
/// Bytes of external data.
const EXTERNAL: usize = 1024;

/// The whole part.
pub fn compare(comparison: &mut Comparison) -> Same {
    let mut random = Random::of_page(comparison.seed, 19 << 40);
    let external = noise(&mut random, EXTERNAL);
    let ram = noise(&mut random, RAM_SIZE);
    for number in 0..PAIRS {
        let mut random = Random::of_page(comparison.seed, (20 << 40) + number);
        pair(comparison, &mut random, number, &external, &ram)
            .map_err(|found| format!("pair {number}: {found}"))?;
    }
    for number in 0..SHARED {
        let mut random = Random::of_page(comparison.seed, (21 << 40) + number);
        shared(comparison, &mut random, &external, &ram)
            .map_err(|found| format!("filters {number}: {found}"))?;
    }
    Ok(())
}

/// A filter: a page and a record, its set, its profile and its window.
struct Filter {
    page: Vec<u8>,
    record: Vec<u8>,
    never_return: NeverReturn,
    profile: u32,
    window: Window,
}

impl Filter {
    /// The filter of a case.
    fn new(random: &mut Random, case: Case, profile: u32, window: Window) -> Filter {
        Filter {
            page: case.page,
            record: stored_bytes(&case.record),
            never_return: sets::any(random),
            profile,
            window,
        }
    }

    /// One that mostly accesses its window.
    fn busy(random: &mut Random, window: Window) -> Filter {
        let profile = codes::either(random);
        let case = busy::filter(random, window, profile);
        Filter::new(random, case, profile, window)
    }

    /// One of a number: busy by turns with any other.
    fn any(random: &mut Random, seed: u64, number: u64) -> Filter {
        if number.is_multiple_of(2) {
            let window = ranges::part(random);
            return Filter::busy(random, window);
        }
        let (case, profile) = any_run(random, seed, number / 2, EXTERNAL);
        let window = ranges::for_run(random, &case.record);
        Filter::new(random, case, profile, window)
    }

    /// A run of it.
    fn handed<'a>(&'a self, external: &'a [u8]) -> Handed<'a> {
        Handed {
            code: Code::new(&self.page, self.never_return).under(self.profile),
            external,
            window: self.window,
            record: &self.record,
            budget: BUDGET,
        }
    }
}

/// A run on a RAM, and the same run and a series of calls on another that agrees with it
/// inside the window alone.
fn pair(
    comparison: &mut Comparison,
    random: &mut Random,
    number: u64,
    external: &[u8],
    ram: &[u8],
) -> Same {
    let filter = Filter::any(random, comparison.seed, number);
    let (handed, window) = (filter.handed(external), filter.window);
    let other = differing(random, ram, window);
    let mut rams = [ram, &other, &other].map(|bytes| Rams::new(bytes.to_vec()));
    let [one, same, series] = &mut rams;
    let given = comparison.run(&handed, one)?;
    let on_other = comparison.run(&handed, same)?;
    let names = ["a run", "one on a RAM that differs outside"];
    same_inside(names, &handed, [(&given, one), (&on_other, same)])?;
    let in_series = as_series(comparison, random, &handed, series)?;
    let names = ["a run", "a series on a RAM that differs outside"];
    same_inside(names, &handed, [(&given, one), (&in_series, series)])?;
    outside_stays(window, ram, &one.library)?;
    outside_stays(window, &other, &same.library)?;
    outside_stays(window, &other, &series.library)?;
    let befores = [ram, &other[..]];
    comparison.tally.pair(window, &given, befores, &one.library);
    Ok(())
}

/// The bytes of a RAM, others outside the window: all, some, or those beside it alone.
fn differing(random: &mut Random, ram: &[u8], window: Window) -> Vec<u8> {
    let (start, end) = (window.start as usize, window.end as usize);
    let manner = random.below(3);
    let mut other = ram.to_vec();
    for at in (0..start).chain(end..RAM_SIZE) {
        let differs = match manner {
            0 => true,
            1 => random.chance(50),
            _ => at + 1 == start || at == end,
        };
        if differs {
            other[at] ^= random.between(1, 255) as u8;
        }
    }
    other
}

/// Two filters in one RAM, by turns, and each alone.
fn shared(comparison: &mut Comparison, random: &mut Random, external: &[u8], ram: &[u8]) -> Same {
    let filters = ranges::apart(random).map(|window| Filter::busy(random, window));
    let handed = filters.each_ref().map(|filter| filter.handed(external));
    let mut rams = Rams::new(ram.to_vec());
    let given = by_turns(comparison, random, handed, &mut rams)?;
    let mut wrote = [false; 2];
    for own in [0, 1] {
        let mut alone = Rams::new(ram.to_vec());
        let expected = comparison.run(&handed[own], &mut alone)?;
        let names = ["a filter beside another", "the filter alone"];
        same_inside(
            names,
            &handed[own],
            [(&given[own], &rams), (&expected, &alone)],
        )?;
        wrote[own] = alone.library != ram;
    }
    comparison.tally.shared(given.each_ref(), wrote);
    Ok(())
}

/// Runs two filters slice by slice, first one and then the other, until each has spent its
/// budget or stopped otherwise: what the slices of each give together.
fn by_turns(
    comparison: &mut Comparison,
    random: &mut Random,
    handed: [Handed; 2],
    rams: &mut Rams,
) -> Result<[Given; 2], String> {
    let start = |own: &Handed| Given {
        numbers: Default::default(),
        record: own.record.to_vec(),
    };
    let mut given = [start(&handed[0]), start(&handed[1])];
    let goes_on = |given: &Given| given.numbers.kind == 0 && given.numbers.steps < BUDGET;
    while given.iter().any(goes_on) {
        for (own, given) in handed.iter().zip(&mut given) {
            if goes_on(given) {
                let left = BUDGET - given.numbers.steps;
                let budget = random.pick(&[1, 2, 3, 10, 50]).min(left);
                *given = slice(comparison, own, given, budget, rams)?;
            }
        }
    }
    Ok(given)
}

/// A slice from where the ones before it ended, with the steps of all.
fn slice(
    comparison: &mut Comparison,
    own: &Handed,
    before: &Given,
    budget: u32,
    rams: &mut Rams,
) -> Result<Given, String> {
    let record = &before.record;
    let handed = Handed { record, ..*own }.with_budget(budget);
    let mut given = comparison.run(&handed, rams)?;
    given.numbers.steps += before.numbers.steps;
    Ok(given)
}
