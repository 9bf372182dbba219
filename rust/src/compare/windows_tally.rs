//! What a comparison met of windows, and what it had to meet.

use super::ranges::{self, KINDS_ALLOWED, KINDS_REFUSED};
use super::reach::Reach;
use super::sides::{record_in, Given, Handed, NO_RECORD};
use super::tally::{Tally, PAIRS, STOPS};
use crate::names::{self, NARROW, SERVICES, WIDE, WORDS};
use crate::second::page::Page;
use crate::second::window::Window;

/// Windows of accepted calls, of those that took a step, and of refused ones.
const ACCEPTED: &str = "windows accepted";
const STEPPED_IN: &str = "windows stepped in";
const REFUSED: &str = "windows refused";
/// Two refusals at once, of which one is 20, and the one that is told.
const ORDER: &str = "windows: refusals in order";
const ORDERS: [(u32, &str); 10] = [
    (18, "18 before 20"),
    (1, "1 before 20"),
    (2, "2 before 20"),
    (3, "3 before 20"),
    (NO_RECORD, "20 before 255"),
    (41, "20 before 41"),
    (42, "20 before 42"),
    (43, "20 before 43"),
    (44, "20 before 44"),
    (5, "20 before 5"),
];

/// Accesses to RAM, by the instruction: outside the window in any way; with their first
/// byte alone one before its start; with their last byte alone one past its end; and
/// those that fill it.
const OUTSIDE: &str = "windows: fault 7";
const ONE_BEFORE: &str = "windows: one before the start";
const ONE_PAST: &str = "windows: one past the end";
const FILLED: &str = "windows: filled by an access";
/// Faults that come before 7, met in an empty window.
const NO_BASE_FIRST: &str = "windows: fault 1 in an empty one";
const PAST_RAM_FIRST: &str = "windows: fault 2 in an empty one";
const PAST_STACK_FIRST: &str = "windows: fault 4 in an empty one";
/// What was executed in an empty window.
const IN_EMPTY: &str = "windows: executed in an empty one";
/// What else was met.
const WINDOWS: &str = "windows";
const IN_WHOLE: &str = "fault 7 in the whole RAM";
const IN_SERIES: &str = "one that is refused in a series in a part of RAM";

/// Pairs of runs on RAMs that differ outside a window, by their stops, and what else
/// was met of them.
const PAIR_STOPS: &str = "pairs of RAMs: stops";
const PAIR: &str = "pairs of RAMs";
const PAIR_MET: [&str; 5] = [
    "fault 7",
    "bytes of the window written",
    "an empty window",
    "one that differs just before the window",
    "one that differs just behind the window",
];
/// Two filters by turns in one RAM.
const SHARED: &str = "filters in one RAM";
const SHARED_MET: [&str; 3] = [
    "both took several steps",
    "both wrote in their windows",
    "one ended by fault 7",
];

/// The instructions that access memory by a base.
fn by_base() -> impl Iterator<Item = &'static str> {
    let rows = WIDE.iter();
    rows.filter(|row| matches!(row.value >> 24, 0xF8 | 0xF9))
        .map(|row| row.name)
}

/// Those of the stack.
const ON_STACK: [&str; 4] = ["sp store", "sp load", "word: store", "word: load"];

/// All that access RAM; those by r8 may access external data instead.
fn accesses() -> impl Iterator<Item = &'static str> {
    by_base().chain(ON_STACK)
}

/// True if an instruction that is executed has accessed RAM.
fn needs_ram(name: &str) -> bool {
    accesses().any(|access| access == name) && !name.ends_with("by r8")
}

/// True if a call stopped by fault 7.
fn is_outside(given: &Given) -> bool {
    (given.numbers.kind, given.numbers.value) == (3, 7)
}

/// All instructions.
fn instructions() -> impl Iterator<Item = &'static str> {
    let narrow = NARROW.iter().chain(&SERVICES).map(|row| row.name);
    narrow.chain(WIDE.iter().chain(&WORDS).map(|row| row.name))
}

/// The classes of windows that must be met.
pub fn required() -> impl Iterator<Item = (&'static str, &'static str)> {
    let kinds = [ACCEPTED, STEPPED_IN]
        .into_iter()
        .flat_map(|group| KINDS_ALLOWED.map(|kind| (group, kind)));
    let edges = [OUTSIDE, ONE_BEFORE, ONE_PAST, FILLED]
        .into_iter()
        .flat_map(|group| accesses().map(move |name| (group, name)));
    let base_first = [NO_BASE_FIRST, PAST_RAM_FIRST]
        .into_iter()
        .flat_map(|group| by_base().map(move |name| (group, name)));
    let in_empty = instructions().filter(|name| !needs_ram(name));
    let [budget, service, literal, fault, ..] = STOPS;
    kinds
        .chain(KINDS_REFUSED.map(|kind| (REFUSED, kind)))
        .chain(ORDERS.map(|(_, name)| (ORDER, name)))
        .chain(edges)
        .chain(base_first)
        .chain(ON_STACK.map(|name| (PAST_STACK_FIRST, name)))
        .chain(in_empty.map(|name| (IN_EMPTY, name)))
        .chain([(WINDOWS, IN_SERIES)])
        .chain([budget, service, literal, fault].map(|name| (PAIR_STOPS, name)))
        .chain(PAIR_MET.map(|name| (PAIR, name)))
        .chain(SHARED_MET.map(|name| (SHARED, name)))
}

/// What never may be met.
pub fn never() -> impl Iterator<Item = (&'static str, &'static str)> {
    let in_empty = instructions().filter(|name| needs_ram(name));
    let in_empty = in_empty.map(|name| (IN_EMPTY, name));
    in_empty.chain([(WINDOWS, IN_WHOLE)])
}

impl Tally {
    /// Counts the window of a step or a run.
    pub fn window(&mut self, window: Window, given: &Given) {
        let kind = ranges::kind(window);
        match given.numbers.code {
            0 => self.class(ACCEPTED, kind),
            20 => self.class(REFUSED, kind),
            _ => {}
        }
        if given.numbers.steps > 0 {
            self.class(STEPPED_IN, kind);
        }
        if window == Window::WHOLE && is_outside(given) {
            self.class(WINDOWS, IN_WHOLE);
        }
    }

    /// Counts a call among those of a series whose window made it a refused one.
    pub fn window_refused_in_series(&mut self, own: Window) {
        if own != Window::WHOLE {
            self.class(WINDOWS, IN_SERIES);
        }
    }

    /// Counts what is wrong beside a window that is refused.
    pub fn beside_window(&mut self, other: u32) {
        for (_, name) in ORDERS.iter().filter(|(number, _)| *number == other) {
            self.class(ORDER, name);
        }
    }

    /// Counts a step by what its instruction accesses, and by where its window lies.
    pub fn reached(&mut self, handed: &Handed, given: &Given) {
        let (Ok(page), Some(before)) = (Page::new(handed.code), record_in(handed.record)) else {
            return;
        };
        let Some(name) = names::at(page, before.place.into()) else {
            return;
        };
        let reach = Reach::of(handed.code, &before);
        let window = handed.window;
        let empty = window.start == window.end;
        match (given.numbers.kind, given.numbers.value) {
            (3, 7) => self.outside(name, window, reach),
            (3, 1) if empty => self.class(NO_BASE_FIRST, name),
            (3, 2) if empty => self.class(PAST_RAM_FIRST, name),
            (3, 4) if empty => self.class(PAST_STACK_FIRST, name),
            _ if given.numbers.steps == 0 => {}
            _ if empty => self.class(IN_EMPTY, name),
            _ if reach.is_some_and(|reach| reach.window() == window) => self.class(FILLED, name),
            _ => {}
        }
    }

    /// Counts an access outside the window.
    fn outside(&mut self, name: &'static str, window: Window, reach: Option<Reach>) {
        self.class(OUTSIDE, name);
        let Some(reach) = reach.map(Reach::window) else {
            return;
        };
        if reach.start + 1 == window.start && reach.end <= window.end {
            self.class(ONE_BEFORE, name);
        }
        if window.start <= reach.start && reach.end == window.end + 1 {
            self.class(ONE_PAST, name);
        }
    }
}

/// Pairs of RAMs, and filters in one.
impl Tally {
    /// Counts two runs, each with its RAM before and the first with that after it, if
    /// the RAMs differ.
    pub fn pair(&mut self, window: Window, given: &Given, rams: [&[u8]; 2], after: &[u8]) {
        let [one, other] = rams;
        if given.numbers.code != 0 || one == other {
            return;
        }
        self.class("amounts", PAIRS);
        self.class(PAIR_STOPS, STOPS[given.numbers.kind as usize]);
        if is_outside(given) {
            self.class(PAIR, "fault 7");
        }
        if one != after {
            self.class(PAIR, "bytes of the window written");
        }
        if window.start == window.end {
            self.class(PAIR, "an empty window");
        }
        let differs = |at: usize| one.get(at) != other.get(at);
        if differs((window.start as usize).wrapping_sub(1)) {
            self.class(PAIR, "one that differs just before the window");
        }
        if differs(window.end as usize) {
            self.class(PAIR, "one that differs just behind the window");
        }
    }

    /// Counts two filters in one RAM by what each gave, and whether it wrote there.
    pub fn shared(&mut self, given: [&Given; 2], wrote: [bool; 2]) {
        if given.iter().all(|given| given.numbers.steps > 1) {
            self.class(SHARED, "both took several steps");
        }
        if wrote == [true; 2] {
            self.class(SHARED, "both wrote in their windows");
        }
        if given.into_iter().any(is_outside) {
            self.class(SHARED, "one ended by fault 7");
        }
    }
}
