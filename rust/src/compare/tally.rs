//! What a comparison met, and what it had to meet.

use std::collections::{BTreeMap, BTreeSet};
use std::fmt;

use marshbodkin::raw::Answer as Numbers;

use super::codes;
use super::image_sides::{BUILD, REPLACE, RUN, STEP};
use super::images_tally;
use super::sets;
use super::short_tally;
use super::sides::{record_in, Given, Handed, Told, NO_RECORD};
use super::slices_tally;
use super::windows_tally;
use crate::assemble as asm;
use crate::names::{self, BAD_WORDS, NARROW, SERVICES, WIDE, WORDS};
use crate::second::count::{is_fit_place, read_bundle, starts_with_terminator, Reading};
use crate::second::page::{Code, NeverReturn, Page};
use crate::second::profile::{Profile, FULL, SMALL};
use crate::second::rules::Rules;

/// Random steps that had to be taken.
pub const LEAST_STEPS: u64 = 200_000;
/// Pages that had to be compared.
pub const LEAST_PAGES: u64 = 20_000;
/// Cuts into three slices or more that had to be made.
const LEAST_SLICED: u64 = 5_000;
/// What they are counted by.
pub const SLICED: &str = "cuts into three slices or more";
/// Pairs of runs on RAMs that differ outside a window that had to be made.
const LEAST_PAIRS: u64 = 2_000;
/// What they are counted by.
pub const PAIRS: &str = "pairs of RAMs that differ outside a window";

/// The call of a run that is made again with a larger budget.
pub const LARGER: &str = "larger budget";
/// The calls, each with what it can answer.
const ANSWERS: [(&str, &[Told]); 15] = [
    ("count", &[Told::ACCEPTED, Told::plain(1), Told::plain(18)]),
    (
        "reader",
        &[
            Told::ACCEPTED,
            Told::plain(1),
            Told::plain(8),
            Told::plain(18),
        ],
    ),
    ("validate", &[Told::ACCEPTED, Told::plain(3)]),
    ("fresh", &[Told::ACCEPTED, Told::plain(6)]),
    ("store", &OF_A_FORM),
    ("load", &OF_A_FORM),
    ("pack", &OF_PACKING),
    ("unpack", &OF_UNPACKING),
    ("step", &OF_A_RUN),
    ("run", &OF_A_RUN),
    (LARGER, &OF_A_RUN),
    (BUILD, &images_tally::OF_A_BUILD),
    (REPLACE, &images_tally::OF_A_REPLACEMENT),
    (STEP, &images_tally::OF_A_RUN),
    (RUN, &images_tally::OF_A_RUN),
];
/// 7 at every field that can fail.
pub const OF_A_FORM: [Told; 7] = [
    Told::ACCEPTED,
    Told::plain(6),
    Told::at(7, 32),
    Told::at(7, 36),
    Told::at(7, 37),
    Told::at(7, 41),
    Told::at(7, 43),
];
/// The same, and 10.
const OF_PACKING: [Told; 8] = [
    Told::ACCEPTED,
    Told::plain(6),
    Told::at(7, 32),
    Told::at(7, 36),
    Told::at(7, 37),
    Told::at(7, 41),
    Told::at(7, 43),
    Told::plain(10),
];
/// 7 at every field.
pub const OF_UNPACKING: [Told; 16] = [
    Told::ACCEPTED,
    Told::plain(6),
    Told::at(7, 0),
    Told::at(7, 4),
    Told::at(7, 8),
    Told::at(7, 12),
    Told::at(7, 16),
    Told::at(7, 20),
    Told::at(7, 24),
    Told::at(7, 28),
    Told::at(7, 32),
    Told::at(7, 36),
    Told::at(7, 37),
    Told::at(7, 41),
    Told::at(7, 43),
    Told::plain(9),
];
/// 255 by a wrong length, and at every field that no record has.
const OF_A_RUN: [Told; 15] = [
    Told::ACCEPTED,
    Told::plain(1),
    Told::plain(2),
    Told::plain(3),
    Told::plain(5),
    Told::plain(18),
    Told::plain(20),
    Told::plain(41),
    Told::plain(42),
    Told::plain(43),
    Told::plain(44),
    Told::at(NO_RECORD, 0),
    Told::at(NO_RECORD, 36),
    Told::at(NO_RECORD, 37),
    Told::at(NO_RECORD, 43),
];
/// The kinds of stop.
pub const STOPS: [&str; 6] = ["budget", "service", "literal", "fault", MARK, "refused"];
/// The kind that is never met.
pub const MARK: &str = "mark";
pub const FAULTS: [&str; 7] = ["1", "2", "3", "4", "5", "6", "7"];
/// Those of loads and stores by r8 and r9, and the rest.
const FAULTS_OF_BASES: [&str; 3] = ["1", "2", "3"];
const OTHER_FAULTS: [&str; 4] = ["4", "5", "6", "7"];
const READINGS: [&str; 3] = ["bad", "none", "largest"];
pub const BASES: [&str; 3] = ["none", "RAM", "external"];
pub const PLACES: [&str; 2] = ["even", "odd"];
/// The kinds of exit, and what is none.
const EXITS: [&str; 11] = [
    "none",
    "return",
    "call",
    "tail call",
    "syscall",
    "tail syscall",
    "long branch",
    "direct syscall",
    "breakpoint",
    "call by register",
    "tail call by register",
];
/// The conditions: their branches by cccc, and cbz and cbnz.
const BRANCHES: [&str; 16] = [
    "beq", "bne", "bcs", "bcc", "bmi", "bpl", "bvs", "bvc", "bhi", "bls", "bge", "blt", "bgt",
    "ble", "cbz", "cbnz",
];

/// Calls by the kinds of their sets.
const SETS: [&str; 3] = ["sets counted", "sets read", "sets run"];
/// Calls that a last syscall, one that never returns, stopped.
const KEPT: &str = "stopped by a last syscall, the place kept";
/// Where last syscalls stand, and what they and the others do.
pub const LAST: &str = "last syscalls";
const LAST_SYSCALLS: [&str; 12] = [
    "in a first half",
    "in a second half",
    "at the end of a page",
    "behind b",
    "behind a return",
    "behind another",
    "behind itself",
    "made an odd place unfit",
    "one goes on beside others",
    "one goes on between two",
    "both ways from one place",
    "refused with another set",
];

/// Calls by the numbers of their profiles.
const PROFILES: [&str; 3] = ["profiles counted", "profiles read", "profiles run"];
/// What was met under the small profile alone.
const SMALL_EXECUTED: &str = "executed under the small profile";
const SMALL_STOPS: &str = "stops under the small profile";
const SMALL_FAULTS: &str = "faults under the small profile";
/// What the small profile lacks, by where it made a bundle bad.
const LACKING: [&str; 3] = [
    "bad in a first half",
    "bad in a second half",
    "bad behind a terminator",
];
const COMPARE_BRANCHES: [&str; 2] = ["cbz", "cbnz"];
/// What else the small profile did.
pub const SMALL_PROFILE: &str = "small profile";
const SMALL_DID: [&str; 7] = [
    "counted less",
    "counted the same, not 0",
    "made a place unfit",
    "the same from one place",
    "refused in a series under the full one",
    "refused an unknown number in its own series",
    "a series of several steps equals one run",
];

/// How often each class was met.
#[derive(Default)]
pub struct Tally {
    calls: BTreeMap<(&'static str, Told), u64>,
    classes: BTreeMap<(&'static str, &'static str), u64>,
    /// Two refusals of a call on an image at once, the one that was told first.
    orders: BTreeMap<(&'static str, u32, u32), u64>,
}

impl Tally {
    /// Counts a call by its answer.
    pub fn call(&mut self, call: &'static str, told: Told) {
        *self.calls.entry((call, told)).or_default() += 1;
    }

    /// Counts one of a class.
    pub fn class(&mut self, group: &'static str, name: &'static str) {
        *self.classes.entry((group, name)).or_default() += 1;
    }

    /// Counts two refusals of a call at once, the one that was told first.
    pub fn order(&mut self, call: &'static str, pair: Option<(u32, u32)>) {
        if let Some((first, second)) = pair {
            *self.orders.entry((call, first, second)).or_default() += 1;
        }
    }

    /// Counts a step or a run by its stop, its set, its profile and its window.
    pub fn stop(&mut self, call: &'static str, handed: &Handed, given: &Given) {
        let (code, numbers) = (handed.code, &given.numbers);
        self.call(call, given.told());
        self.stopped(["stops", "faults"], numbers);
        if code.profile == SMALL {
            self.stopped([SMALL_STOPS, SMALL_FAULTS], numbers);
        }
        self.set("sets run", handed.code);
        self.profile("profiles run", handed.code);
        self.syscall_met(call, handed.code, given);
        self.window(handed.window, given);
    }

    /// Counts a stop, and a fault by its number, in these groups.
    pub fn stopped(&mut self, [stops, faults]: [&'static str; 2], numbers: &Numbers) {
        self.class(stops, STOPS[numbers.kind as usize]);
        if numbers.kind == 3 {
            self.class(faults, FAULTS[numbers.value as usize - 1]);
        }
    }

    /// Counts an executed step by the instruction at its place.
    pub fn instruction(&mut self, handed: &Handed, given: &Given) {
        let (Ok(page), Some(before)) = (Page::new(handed.code), record_in(handed.record)) else {
            return;
        };
        let place = usize::from(before.place);
        let Some(name) = names::at(page, place) else {
            return;
        };
        if given.numbers.steps == 0 {
            return;
        }
        self.class_under(handed.code, ["executed", SMALL_EXECUTED], name);
        self.class("places", PLACES[place % 2]);
        if BRANCHES.contains(&name) {
            let after = record_in(&given.record).map(|record| usize::from(record.place));
            let taken = after != Some(place + 1);
            self.class(if taken { "taken" } else { "not taken" }, name);
        }
    }

    /// Counts a count by its answer, its set and its profile.
    pub fn count(&mut self, code: Code, answer: u32) {
        self.call("count", Told::plain(answer));
        self.set("sets counted", code);
        self.profile("profiles counted", code);
    }

    /// Counts what the reader answered, and what stands in the bundle.
    pub fn reading(&mut self, code: Code, bundle: usize, (answer, kind, _): (u32, u32, u32)) {
        self.call("reader", Told::plain(answer));
        self.class("readings", READINGS[kind as usize]);
        self.profile("profiles read", code);
        self.syscalls_read(code, bundle, kind);
        if answer == 0 && kind == 0 && code.profile == SMALL {
            self.lacking_read(code, bundle);
        }
    }

    /// Counts a base that was validated.
    pub fn base(&mut self, (code, kind, _): (u32, u32, u32)) {
        self.call("validate", Told::plain(code));
        self.class("bases", BASES[kind as usize]);
    }

    /// Counts an exit by its kind.
    pub fn exit(&mut self, kind: u32) {
        self.class("exits", EXITS[kind as usize]);
    }

    /// How often a class was met.
    fn met(&self, group: &'static str, name: &'static str) -> u64 {
        self.classes.get(&(group, name)).copied().unwrap_or(0)
    }

    /// Every answer and class that had to be met and was not, and what was met and
    /// never may be.
    pub fn failures(&self) -> Vec<String> {
        let mut failures = self.wrong_answers();
        let unmet = required()
            .into_iter()
            .filter(|&(group, name)| self.met(group, name) == 0);
        failures.extend(unmet.map(|(group, name)| format!("{group}: {name} was not met")));
        if self.met("stops", MARK) > 0 {
            failures.push("the mark of an unlisted halfword was met".to_string());
        }
        let never = lacking().map(|name| (SMALL_EXECUTED, name));
        let never = never.chain(FAULTS_OF_BASES.map(|name| (SMALL_FAULTS, name)));
        let never = never.chain(short_tally::NEVER);
        let never = never.chain(windows_tally::never());
        let never = never.chain(images_tally::never());
        let met = never.filter(|&(group, name)| self.met(group, name) > 0);
        failures.extend(met.map(|(group, name)| format!("{group}: {name} was met")));
        let orders = images_tally::orders().filter(|order| !self.orders.contains_key(order));
        failures.extend(
            orders.map(|(call, first, second)| {
                format!("{call}: {first} before {second} was not met")
            }),
        );
        let amounts = [
            ("random steps", LEAST_STEPS),
            ("pages", LEAST_PAGES),
            (SLICED, LEAST_SLICED),
            (PAIRS, LEAST_PAIRS),
        ];
        for (name, least) in amounts {
            let met = self.met("amounts", name);
            if met < least {
                failures.push(format!("only {met} {name}"));
            }
        }
        failures
    }

    /// The answers that were not met, and those that the call can't give.
    fn wrong_answers(&self) -> Vec<String> {
        let possible: BTreeSet<(&str, Told)> = ANSWERS
            .iter()
            .flat_map(|&(call, all)| all.iter().map(move |&told| (call, told)))
            .collect();
        let met: BTreeSet<(&str, Told)> = self.calls.keys().copied().collect();
        let line = |answer: &(&str, Told)| {
            let not = if met.contains(answer) { "" } else { "not " };
            format!("{} {} was {not}met", answer.0, shown(answer.1))
        };
        possible.symmetric_difference(&met).map(line).collect()
    }
}

/// A code with its position: 7 and 255 carry one, and no other code should.
pub fn shown(told: Told) -> String {
    let Told { code, position } = told;
    match (code, position) {
        (7 | NO_RECORD, _) | (_, 1..) => format!("{code}-at-{position}"),
        _ => code.to_string(),
    }
}

/// The number of a direct syscall.
fn direct(half: u16) -> Option<u32> {
    matches!(half, 0xDF80..=0xDFBF).then_some(u32::from(half) & 63)
}

/// Syscalls that never return: where they stand and what they do.
impl Tally {
    /// Counts the kind of a set.
    fn set(&mut self, group: &'static str, code: Code) {
        self.class(group, sets::kind(code.never_return));
    }

    /// Counts a bundle with a direct syscall, if it was not read as bad.
    fn syscalls_read(&mut self, code: Code, bundle: usize, kind: u32) {
        let (Ok(page), 1..) = (Page::new(code), kind) else {
            return;
        };
        let (first, second) = page.bundle(bundle);
        if direct(first).or(direct(second)).is_none() {
            return;
        }
        self.set("sets read", code);
        let last = |half| direct(half).is_some_and(|number| code.never_return.holds(number));
        let stands = match (first, last(first), last(second)) {
            (_, true, true) if first != second => "behind another",
            (_, true, true) => "behind itself",
            (_, true, false) => "in a first half",
            (0xE000..=0xE7FF, _, true) => "behind b",
            (asm::RETURN, _, true) => "behind a return",
            (0..=0xCFFF, _, true) => "in a second half",
            _ => return,
        };
        self.class(LAST, stands);
        let ends_the_flow = last(first) || stands == "in a second half";
        if ends_the_flow && kind == 1 && bundle + 1 == page.bundles() {
            self.class(LAST, "at the end of a page");
        }
    }

    /// Counts a stop at a direct syscall, and a place that one makes unfit.
    fn syscall_met(&mut self, call: &'static str, code: Code, given: &Given) {
        let (Ok(page), Some(after)) = (Page::new(code), record_in(&given.record)) else {
            return;
        };
        let place = usize::from(after.place);
        let half = asm::service(given.numbers.value as u16);
        match (given.numbers.kind, direct(half)) {
            (1, Some(number)) if !code.never_return.holds(number) => {
                self.went_on(code.never_return, number);
            }
            (1, Some(_)) if page.halfword(place) == half => self.class(KEPT, call),
            _ if given.numbers.code == 5 && unfit_by_syscall(page, place) => {
                self.class(LAST, "made an odd place unfit");
            }
            _ => {}
        }
    }

    /// Counts a syscall that goes on although others do not.
    fn went_on(&mut self, set: NeverReturn, number: u32) {
        if set != NeverReturn::NONE {
            self.class(LAST, "one goes on beside others");
        }
        if (1..63).contains(&number) && set.holds(number - 1) && set.holds(number + 1) {
            self.class(LAST, "one goes on between two");
        }
    }
}

/// The small profile: what it lacks, and what it does.
impl Tally {
    /// Counts the number of a profile.
    fn profile(&mut self, group: &'static str, code: Code) {
        self.class(group, codes::kind(code.profile));
    }

    /// Counts one of a class, in the second group too if it was met under the
    /// small profile.
    fn class_under(&mut self, code: Code, groups: [&'static str; 2], name: &'static str) {
        self.class(groups[0], name);
        if code.profile == SMALL {
            self.class(groups[1], name);
        }
    }

    /// Counts the counts of a page under the full profile and the small one.
    pub fn counts(&mut self, full: u32, small: u32) {
        match small {
            _ if small < full => self.class(SMALL_PROFILE, "counted less"),
            0 => {}
            _ => self.class(SMALL_PROFILE, "counted the same, not 0"),
        }
    }

    /// Counts a bundle that is bad only by what the small profile lacks.
    fn lacking_read(&mut self, code: Code, bundle: usize) {
        let Ok(small) = Page::new(code) else { return };
        let full = small.under(Profile::FULL);
        let (first, second) = full.bundle(bundle);
        let (half, stands) = match (is_lacking(first), is_lacking(second)) {
            (true, _) => (0, LACKING[0]),
            (_, false) => return,
            _ if starts_with_terminator(small, bundle) == Some(true) => (1, LACKING[2]),
            _ => (1, LACKING[1]),
        };
        if read_bundle(full, bundle) == Reading::Bad {
            return;
        }
        if let Some(name) = names::at(full, 2 * bundle + half) {
            self.class(stands, name);
        }
    }

    /// Counts a call among those of a series that its set or its profile made a
    /// refused one.
    pub fn refused_in_series(&mut self, own: Code, other: Code) {
        match (own.profile, other.profile) {
            (FULL, SMALL) => self.class(SMALL_PROFILE, "refused in a series under the full one"),
            (SMALL, 2..) => {
                self.class(SMALL_PROFILE, "refused an unknown number in its own series");
            }
            (FULL, FULL) | (SMALL, SMALL) => self.class(LAST, "refused with another set"),
            _ => {}
        }
    }
}

/// True if a halfword is cbz or cbnz, or opens a 32-bit instruction.
fn is_lacking(half: u16) -> bool {
    half >= 0xE800 || names::is_compare_branch(half)
}

/// The names of what the small profile lacks.
fn lacking() -> impl Iterator<Item = &'static str> {
    let wide = WIDE.iter().map(|row| row.name);
    COMPARE_BRANCHES.into_iter().chain(wide)
}

/// True if an unfit place is odd and would be fit, did the syscall before it go
/// on.
fn unfit_by_syscall(page: Page, place: usize) -> bool {
    if place.is_multiple_of(2) || place / 2 >= page.bundles() {
        return false;
    }
    direct(page.halfword(place - 1)).is_some_and(|number| {
        let page = page.with(sets::without(page.never_return(), sets::only(number)));
        is_fit_place(Rules::RIGHT, page, place)
    })
}

/// The classes that must be met.
fn required() -> Vec<(&'static str, &'static str)> {
    let stops = STOPS.iter().filter(|&&name| name != MARK);
    let branches = BRANCHES.iter();
    let narrow = NARROW.iter().chain(&SERVICES).map(|row| row.name);
    let wide = WIDE.iter().chain(&WORDS).map(|row| row.name);
    let words = WORDS.iter().chain(&BAD_WORDS).map(|row| row.name);
    stops
        .map(|&name| ("stops", name))
        .chain(FAULTS.map(|name| ("faults", name)))
        .chain(READINGS.map(|name| ("readings", name)))
        .chain(BASES.map(|name| ("bases", name)))
        .chain(PLACES.map(|name| ("places", name)))
        .chain(narrow.chain(wide).map(|name| ("executed", name)))
        .chain(branches.clone().map(|&name| ("taken", name)))
        .chain(branches.map(|&name| ("not taken", name)))
        .chain(words.clone().map(|name| ("words read", name)))
        .chain(words.map(|name| ("exit words", name)))
        .chain(EXITS.map(|name| ("exits", name)))
        .chain(LAST_SYSCALLS.map(|name| (LAST, name)))
        .chain(["step", "run"].map(|call| (KEPT, call)))
        .chain(
            SETS.iter()
                .flat_map(|&group| sets::KINDS.map(|kind| (group, kind))),
        )
        .chain(required_of_profiles())
        .chain(short_tally::required())
        .chain(slices_tally::required())
        .chain(windows_tally::required())
        .chain(images_tally::required())
        .collect()
}

/// The classes of profiles that must be met.
fn required_of_profiles() -> impl Iterator<Item = (&'static str, &'static str)> {
    let narrow = NARROW.iter().chain(&SERVICES).map(|row| row.name);
    let executed = narrow
        .chain(WORDS.iter().map(|row| row.name))
        .filter(|name| !COMPARE_BRANCHES.contains(name));
    let stops = STOPS.into_iter().filter(|&name| name != MARK);
    executed
        .map(|name| (SMALL_EXECUTED, name))
        .chain(stops.map(|name| (SMALL_STOPS, name)))
        .chain(OTHER_FAULTS.map(|name| (SMALL_FAULTS, name)))
        .chain(lacking().map(|name| (LACKING[0], name)))
        .chain(COMPARE_BRANCHES.map(|name| (LACKING[1], name)))
        .chain(COMPARE_BRANCHES.map(|name| (LACKING[2], name)))
        .chain(SMALL_DID.map(|name| (SMALL_PROFILE, name)))
        .chain(
            PROFILES
                .iter()
                .flat_map(|&group| codes::KINDS.map(|kind| (group, kind))),
        )
}

impl Tally {
    /// The answers of one call.
    fn answers(&self, call: &str) -> String {
        let own = self.calls.iter().filter(|((name, _), _)| *name == call);
        let numbers = own.map(|(&(_, told), met)| match told {
            Told::ACCEPTED => format!("accepted {met}"),
            _ => format!("refused-{} {met}", shown(told)),
        });
        numbers.collect::<Vec<_>>().join(", ")
    }

    /// The classes of one group.
    fn group(&self, group: &str) -> String {
        let own = self.classes.iter().filter(|((name, _), _)| *name == group);
        let numbers = own.map(|((_, name), met)| format!("{name} {met}"));
        numbers.collect::<Vec<_>>().join(", ")
    }
}

impl fmt::Display for Tally {
    fn fmt(&self, f: &mut fmt::Formatter) -> fmt::Result {
        for (call, _) in ANSWERS {
            writeln!(f, "{call}: {}", self.answers(call))?;
        }
        let groups: BTreeSet<&str> = self.classes.keys().map(|(group, _)| *group).collect();
        for group in groups {
            writeln!(f, "{group}: {}", self.group(group))?;
        }
        let orders = self.orders.len();
        writeln!(f, "image calls with two refusals at once: {orders} pairs")?;
        Ok(())
    }
}
