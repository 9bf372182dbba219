//! Calls on one page that several parts make: all its bundles, any of its places,
//! and series with refused calls among them; that two ways end alike, whole or inside a
//! window, and that bytes outside one stay.

use super::ranges;
use super::records;
use super::report;
use super::sides::{record_in, Given, Handed, Rams};
use super::{Comparison, Same};
use crate::random::Random;
use crate::second::count::is_fit_place;
use crate::second::page::{Code, Page};
use crate::second::record::{stored_bytes, Record};
use crate::second::rules::Rules;
use crate::second::window::Window;

/// Calls of a series.
const CALLS: usize = 5;

/// Counts a page, whose count is known, and reads it.
pub fn counted(comparison: &mut Comparison, code: Code, known: usize) -> Same {
    let (_, count) = comparison.count(code)?;
    if count as usize != known {
        return Err(format!(
            "set {:016X}, profile {}: both sides count {count}, 01 and 02 {known}",
            code.never_return.0, code.profile
        ));
    }
    read_all(comparison, code)
}

/// Reads every bundle of a page, and one past them.
pub fn read_all(comparison: &mut Comparison, code: Code) -> Same {
    for bundle in 0..=code.page.len() as u32 / 4 {
        comparison.read(code, bundle)?;
    }
    Ok(())
}

/// The places of a page's first and last bundles, and one past them.
pub fn places(code: Code) -> impl Iterator<Item = u16> {
    let halfwords = code.page.len() / 2;
    (0..=halfwords as u16).filter(move |&place| place < 4 || usize::from(place) + 4 >= halfwords)
}

/// Whether a place of the page is fit under its set and profile.
fn is_fit(code: Code, place: u16) -> bool {
    Page::new(code).is_ok_and(|page| is_fit_place(Rules::RIGHT, page, place.into()))
}

/// Steps and runs of one page from its start, if that is fit: none may be refused.
/// Before each comes a call with another set or profile, which is.
pub fn series(
    comparison: &mut Comparison,
    random: &mut Random,
    code: Code,
    other: Code,
    rams: &mut Rams,
) -> Same {
    if !is_fit(code, 0) {
        return Ok(());
    }
    let mut record = stored_bytes(&records::fit(random, 0));
    let window = ranges::any(random);
    for _ in 0..CALLS {
        let own = Handed {
            code,
            external: &[],
            window,
            record: &record,
            budget: random.pick(&[1, 1, 2, 5, 40]),
        };
        foreign(comparison, &own, other, rams)?;
        let given = match own.budget {
            1 => comparison.step(&own, rams)?,
            _ => comparison.run(&own, rams)?,
        };
        if given.numbers.code != 0 {
            let refusal = given.numbers.code;
            return Err(format!("both sides refuse a call of a series by {refusal}"));
        }
        record = given.record;
    }
    Ok(())
}

/// A refused call with another set or profile: on the page itself where that
/// makes it one, else on bytes that are no page.
fn foreign(comparison: &mut Comparison, own: &Handed, other: Code, rams: &mut Rams) -> Same {
    let place = record_in(own.record).map_or(0, |record| record.place);
    let code = if is_fit(other, place) {
        let page = &other.page[..3];
        Code { page, ..other }
    } else {
        comparison.tally.refused_in_series(own.code, other);
        other
    };
    comparison.run(&Handed { code, ..*own }, rams).map(|_| ())
}

/// A step and a run from any place.
pub fn from_anywhere(
    comparison: &mut Comparison,
    random: &mut Random,
    code: Code,
    rams: &mut Rams,
) -> Same {
    let place = random.below(code.page.len() / 2) as u16;
    let record = records::fit(random, 0);
    let handed = Handed {
        code,
        external: &[],
        window: ranges::for_run(random, &record),
        record: &stored_bytes(&Record { place, ..record }),
        budget: 30,
    };
    comparison.run(&handed, rams)?;
    comparison.step(&handed.with_budget(1), rams).map(|_| ())
}

/// That two ways from one record and RAM, each by its name, end alike: stop, steps,
/// record and RAM.
pub fn same_end(names: [&str; 2], handed: &Handed, ends: [(&Given, &Rams); 2]) -> Same {
    let sides = ends.map(|(given, rams)| (given, &rams.library[..]));
    if sides[0] == sides[1] {
        return Ok(());
    }
    let found = report::ends(names, handed, sides);
    let [one, other] = names;
    Err(format!("{one} and {other} end differently\n{found}"))
}

/// The bytes inside a window, and those before it and behind it.
fn parted(window: Window, ram: &[u8]) -> (&[u8], [&[u8]; 2]) {
    let (before, rest) = ram.split_at(window.start as usize);
    let (inside, behind) = rest.split_at((window.end - window.start) as usize);
    (inside, [before, behind])
}

/// That two runs in one window, each by its name, end alike: stop, steps, record and the
/// window's bytes.
pub fn same_inside(names: [&str; 2], handed: &Handed, ends: [(&Given, &Rams); 2]) -> Same {
    let inside = |rams: &Rams| parted(handed.window, &rams.library).0.to_vec();
    let insides = ends.map(|(given, rams)| (given, Rams::new(inside(rams))));
    let [one, other] = &insides;
    same_end(names, handed, [(one.0, &one.1), (other.0, &other.1)])
}

/// That the bytes outside a window are those from before.
pub fn outside_stays(window: Window, before: &[u8], after: &[u8]) -> Same {
    if parted(window, before).1 == parted(window, after).1 {
        return Ok(());
    }
    let Window { start, end } = window;
    Err(format!(
        "both sides change bytes outside the window {start} to {end}"
    ))
}
