//! The rules that can be exchanged, so that a comparison can be shown to find
//! a wrong one.

use super::arith::{condition_passed, Flags};
use super::count::{count, read_bundle, Reading};
use super::exits::{exit_of, Exit};
use super::image::ImageRules;
use super::machine::{accept, Call};
use super::memory::{validate, MemoryRules};
use super::page::{Code, NeverReturn, Page};
use super::record::{unfit, Base, Fields, Record};
use super::refusal::Refusal;
use super::short::ShortRules;

/// One rule of each kind.
#[derive(Clone, Copy)]
pub struct Rules {
    /// Whether a condition (0 to 13) holds.
    pub condition: fn(u8, Flags) -> bool,
    /// The reader's answer for a bundle of the page.
    pub reading: fn(Page, usize) -> Reading,
    /// The count of a page.
    pub count: fn(Page) -> usize,
    /// The page, under its set and profile, that the count and the reader make
    /// of what they are given, or their refusal.
    pub counted: fn(Code) -> Result<Page, u8>,
    /// The same for a step or a run.
    pub run: fn(Code) -> Result<Page, u8>,
    /// The page of a step or a run, or why it is refused.
    pub accept: fn(Call) -> Result<Page, Refusal>,
    /// How many steps a budget allows.
    pub allowed: fn(u32) -> u32,
    /// Whether the place stays at an exit.
    pub stays: fn(Exit, NeverReturn) -> bool,
    /// validate(v), with so many bytes of external data.
    pub validate: fn(u32, usize) -> Base,
    /// What a step or a run refuses a record by: so much external data, and
    /// whether its place is fit.
    pub unfit: fn(&Record, usize, bool) -> Option<u8>,
    /// The position that 7 carries, if a field of the stored form fails.
    pub out_of_range: fn(&Fields) -> Option<u8>,
    /// The position that 255 carries, if the fields are no record's.
    pub no_record: fn(&Fields) -> Option<u8>,
    /// The exit of a low byte and its literal, if it is one.
    pub exit: fn(u32, u32) -> Option<Exit>,
    /// Those of loads, stores and SP moves.
    pub memory: MemoryRules,
    /// Those of the short stored form.
    pub short: ShortRules,
    /// Those of images.
    pub images: ImageRules,
}

impl Rules {
    /// The right ones: the papers', the manual's and, for 255, the library's.
    pub const RIGHT: Rules = Rules {
        condition: condition_passed,
        reading: read_bundle,
        count,
        counted: |code| Page::new(code),
        run: |code| Page::new(code),
        accept,
        allowed: |budget| budget,
        stays: Exit::is_terminator,
        validate,
        unfit,
        out_of_range: |fields| fields.out_of_range().first().copied(),
        no_record: |fields| fields.of_no_record().first().copied(),
        exit: exit_of,
        memory: MemoryRules::RIGHT,
        short: ShortRules::RIGHT,
        images: ImageRules::RIGHT,
    };
}
