//! What a comparison met of images, and what it had to meet.

use super::codes;
use super::image_refusals::{OF_BUILD, OF_REPLACE, OF_RUN};
use super::image_sides::{Images, InImage, BUILD, REPLACE, RUN, STEP};
use super::images::Spoilt;
use super::ranges::{self, KINDS_ALLOWED};
use super::sets;
use super::sides::{Given, Told, NO_RECORD};
use super::tally::{Tally, FAULTS, MARK, STOPS};
use crate::second::image::MOST_PAGES;
use crate::second::profile::{FULL, SMALL};

/// What a build, a replacement, and a step or a run in an image can answer.
pub const OF_A_BUILD: [Told; 4] = [
    Told::ACCEPTED,
    Told::plain(12),
    Told::plain(14),
    Told::plain(18),
];
pub const OF_A_REPLACEMENT: [Told; 6] = [
    Told::ACCEPTED,
    Told::plain(1),
    Told::plain(12),
    Told::plain(13),
    Told::plain(14),
    Told::plain(18),
];
pub const OF_A_RUN: [Told; 18] = [
    Told::ACCEPTED,
    Told::plain(2),
    Told::plain(3),
    Told::plain(5),
    Told::plain(12),
    Told::plain(13),
    Told::plain(14),
    Told::plain(18),
    Told::plain(20),
    Told::plain(21),
    Told::plain(41),
    Told::plain(42),
    Told::plain(43),
    Told::plain(44),
    Told::at(NO_RECORD, 0),
    Told::at(NO_RECORD, 36),
    Told::at(NO_RECORD, 37),
    Told::at(NO_RECORD, 43),
];

/// Images by their pages.
const PAGES: &str = "images";
const SIZES: [&str; 4] = [
    "of a page",
    "of 2 to 9 pages",
    "of 10 to 40 pages",
    "of 4096 pages",
];

/// Stops and faults in images, of runs and of steps.
const RUN_STOPS: &str = "image runs: stops";
const RUN_FAULTS: &str = "image runs: faults";
const STEP_STOPS: &str = "image steps: stops";
const STEP_FAULTS: &str = "image steps: faults";
/// Where accepted calls that took steps stand.
const STOOD: &str = "image runs: in the";
const STANDS: [&str; 4] = ["only page", "first page", "last page", "a page between"];
/// What they were made under.
const SETS: &str = "image runs: sets";
const PROFILES: &str = "image runs: profiles";
const WINDOWS: &str = "image runs: windows";

/// Runs that gave what one in the page alone gives, by their stops.
const ALONE: &str = "image runs as in a page alone";

/// Replacements.
const REPLACEMENTS: &str = "replacements";
const REPLACED: [&str; 2] = ["accepted", "refused"];

/// Indexes with a wrong byte that a run was refused by.
const WRONG: &str = "wrong index bytes";
const WRONG_BYTES: [&str; 12] = [
    "first, one more, in its page",
    "first, one more, in another",
    "first, one less, in its page",
    "first, one less, in another",
    "middle, one more, in its page",
    "middle, one more, in another",
    "middle, one less, in its page",
    "middle, one less, in another",
    "last, one more, in its page",
    "last, one more, in another",
    "last, one less, in its page",
    "last, one less, in another",
];

/// What else was met.
const MET: &str = "images met";
const ALSO_MET: [&str; 7] = [
    "steps in several pages of one",
    "a series of several calls",
    "a series of several calls that ends at an exit",
    "a refused call in a series",
    "a wrong byte left by a replacement beside it",
    "an index of another set",
    "an index of another profile",
];

/// The calls, each with its refusals in order.
const ORDERS: [(&str, &[u32]); 4] = [
    (BUILD, &OF_BUILD),
    (REPLACE, &OF_REPLACE),
    (RUN, &OF_RUN),
    (STEP, &OF_RUN),
];

/// The classes of images that must be met.
pub fn required() -> impl Iterator<Item = (&'static str, &'static str)> {
    let stops = STOPS.into_iter().filter(|&name| name != MARK);
    let both = |groups: [&'static str; 2], name: &'static str| groups.map(|group| (group, name));
    let [budget, service, literal, fault, ..] = STOPS;
    SIZES
        .map(|name| (PAGES, name))
        .into_iter()
        .chain(stops.flat_map(move |name| both([RUN_STOPS, STEP_STOPS], name)))
        .chain(
            FAULTS
                .into_iter()
                .flat_map(move |name| both([RUN_FAULTS, STEP_FAULTS], name)),
        )
        .chain(STANDS.map(|name| (STOOD, name)))
        .chain(sets::KINDS.map(|name| (SETS, name)))
        .chain([FULL, SMALL].map(|profile| (PROFILES, codes::kind(profile))))
        .chain(KINDS_ALLOWED.map(|name| (WINDOWS, name)))
        .chain([budget, service, literal, fault].map(|name| (ALONE, name)))
        .chain(REPLACED.map(|name| (REPLACEMENTS, name)))
        .chain(WRONG_BYTES.map(|name| (WRONG, name)))
        .chain(ALSO_MET.map(|name| (MET, name)))
}

/// What never may be met: an unlisted halfword.
pub fn never() -> impl Iterator<Item = (&'static str, &'static str)> {
    [(RUN_STOPS, MARK), (STEP_STOPS, MARK)].into_iter()
}

/// Two refusals that can apply at once, of each call, the one that is told first.
pub fn orders() -> impl Iterator<Item = (&'static str, u32, u32)> {
    let pairs = ORDERS.into_iter().flat_map(|(call, order)| {
        let firsts = (0..order.len()).flat_map(|at| (at + 1..order.len()).map(move |to| (at, to)));
        firsts.map(move |(at, to)| (call, order[at], order[to]))
    });
    pairs.filter(|&(_, first, second)| (first, second) != (43, 44))
}

impl Tally {
    /// Counts an image by its pages.
    pub fn image(&mut self, pages: usize) {
        let size = match pages {
            1 => SIZES[0],
            2..=9 => SIZES[1],
            MOST_PAGES => SIZES[3],
            _ => SIZES[2],
        };
        self.class(PAGES, size);
    }

    /// Counts a step or a run in an image by its stop, its page, its set, its profile and
    /// its window.
    pub fn image_stop(
        &mut self,
        call: &'static str,
        handed: &InImage,
        images: &Images,
        given: &Given,
    ) {
        self.call(call, given.told());
        let groups = match call {
            STEP => [STEP_STOPS, STEP_FAULTS],
            _ => [RUN_STOPS, RUN_FAULTS],
        };
        self.stopped(groups, &given.numbers);
        if given.numbers.steps == 0 {
            return;
        }
        self.class(STOOD, stands(handed.number as usize, images.pages()));
        self.class(SETS, sets::kind(handed.platform.never_return));
        self.class(PROFILES, codes::kind(handed.platform.profile));
        self.class(WINDOWS, ranges::kind(handed.window));
    }

    /// Counts a run that gave what one in the page alone gave.
    pub fn alone(&mut self, given: &Given) {
        self.class(ALONE, STOPS[given.numbers.kind as usize]);
    }

    /// Counts a replacement by its answer.
    pub fn replaced(&mut self, answer: u32) {
        self.class(REPLACEMENTS, REPLACED[usize::from(answer != 0)]);
    }

    /// Counts a call that a wrong byte refused, in so many pages.
    pub fn wrong_byte(&mut self, spoilt: Spoilt, pages: usize, number: usize) {
        let place = match spoilt.at {
            0 => 0,
            at if at + 1 == pages => 2,
            _ => 1,
        };
        let beside = usize::from(number != spoilt.at);
        let name = WRONG_BYTES[4 * place + 2 * usize::from(!spoilt.one_more) + beside];
        self.class(WRONG, name);
    }

    /// Counts an image by how many of its pages took several steps.
    pub fn pages_stepped(&mut self, pages: usize) {
        if pages > 1 {
            self.class(MET, ALSO_MET[0]);
        }
    }

    /// Counts a series of so many calls by what the last gave.
    pub fn image_series(&mut self, calls: usize, given: &Given) {
        if calls > 1 {
            self.class(MET, ALSO_MET[1]);
        }
        if calls > 1 && matches!(given.numbers.kind, 1 | 2) {
            self.class(MET, ALSO_MET[2]);
        }
    }

    /// Counts a refused call in a series.
    pub fn refused_between(&mut self) {
        self.class(MET, ALSO_MET[3]);
    }

    /// Counts a wrong byte that a replacement of another page left.
    pub fn left_wrong(&mut self) {
        self.class(MET, ALSO_MET[4]);
    }

    /// Counts an index that is wrong under another set or profile.
    pub fn another_platform(&mut self, is_profile: bool) {
        self.class(MET, ALSO_MET[5 + usize::from(is_profile)]);
    }
}

/// Where a page stands among so many.
fn stands(number: usize, pages: usize) -> &'static str {
    match number {
        0 if pages == 1 => STANDS[0],
        0 => STANDS[1],
        _ if number + 1 == pages => STANDS[2],
        _ => STANDS[3],
    }
}
