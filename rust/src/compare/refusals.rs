//! Refusals of steps and runs, alone and together, and base validation. The
//! number and its position are also known from the papers' order, without either
//! side, and so is that nothing lent changes.

use super::codes::{self, UNKNOWN};
use super::ranges::{self, ALLOWED, REFUSED};
use super::records::{self, SPOILS};
use super::sides::{Given, Handed, Rams, Told, NO_RECORD};
use super::steps::noise;
use super::{Comparison, Same};
use crate::assemble::{self as asm, page_bytes};
use crate::random::Random;
use crate::second::memory::RAM_SIZE;
use crate::second::page::Code;
use crate::second::record::{stored_bytes, Base, Record, MOST_EXTERNAL, STORED};
use crate::second::window::Window;

/// How often each choice of wrong things is made; bytes are spoilt in every way,
/// by turns.
const TIMES: usize = 2 * SPOILS.len();
/// Most bytes of external data.
const MOST: usize = MOST_EXTERNAL as usize;

/// 02's refusal of a window.
const WINDOW: u32 = 20;
/// The refusals of a step and a run, in the papers' order, with the library's own.
const ORDER: [u32; 11] = [18, 1, 2, 3, WINDOW, NO_RECORD, 41, 42, 43, 44, 5];

/// A choice of wrong things: bit n stands for the n-th refusal of the order.
#[derive(Clone, Copy)]
pub(super) struct Wrong(u32);

impl Wrong {
    /// Each thing alone.
    pub(super) fn each() -> impl Iterator<Item = Wrong> {
        (0..ORDER.len()).map(|bit| Wrong(1 << bit))
    }

    /// All choices that can be: one base is not of both kinds.
    fn all() -> impl Iterator<Item = Wrong> {
        let choices = (0..1 << ORDER.len()).map(Wrong);
        choices.filter(|wrong| !(wrong.has(43) && wrong.has(44)))
    }

    /// Whether what this refusal is about is wrong.
    fn has(self, number: u32) -> bool {
        let mut chosen = (0..).zip(ORDER).filter(|(bit, _)| self.0 >> bit & 1 == 1);
        chosen.any(|(_, chosen)| chosen == number)
    }

    /// What is wrong beside the window, if that is, and one thing alone.
    fn beside_window(self) -> Option<u32> {
        let pair = self.has(WINDOW) && self.0.count_ones() == 2;
        let mut others = ORDER.into_iter().filter(|&number| number != WINDOW);
        others.find(|&number| pair && self.has(number))
    }

    /// What is told of the first wrong thing, with bytes spoilt at these positions.
    fn told(self, spoilt: &[u8]) -> Told {
        match ORDER.get(self.0.trailing_zeros() as usize) {
            None => Told::ACCEPTED,
            Some(&NO_RECORD) => {
                let first = spoilt.first().copied().unwrap_or(0);
                Told::at(NO_RECORD, first.into())
            }
            Some(&number) => Told::plain(number),
        }
    }
}

/// The whole part.
pub fn compare(comparison: &mut Comparison) -> Same {
    let mut random = Random::of_page(comparison.seed, 4 << 40);
    let mut external = vec![0; MOST + 256];
    let last = noise(&mut random, 512);
    external[..512].copy_from_slice(&last);
    external[MOST - 512..MOST].copy_from_slice(&last);
    for wrong in Wrong::all() {
        for time in 0..TIMES {
            together(comparison, &mut random, wrong, time, &external)?;
        }
    }
    for length in [0, 256, 512, MOST] {
        ends_of_external(comparison, &mut random, &external[..length])?;
    }
    validations(comparison, &mut random, &external)?;
    most_external(comparison, &mut random, &external[..MOST])
}

/// A page of 63 bundles, of which 60 are counted; bundle 3 has no second place.
pub(super) fn good_page() -> Vec<u8> {
    let mut bundles = vec![[asm::NOP, asm::RETURN]; 63];
    bundles[3] = [asm::RETURN, asm::NOP];
    bundles[60] = [0xDE00, 0xDE00];
    page_bytes(&bundles)
}

/// A page, of a wrong length if asked for.
fn page(random: &mut Random, wrong: bool) -> Vec<u8> {
    let mut page = good_page();
    if wrong {
        let lengths = [1, 2, 3, 5, 7, 251, 254, 255, 257, 258, 260, 264, 512, 1024];
        page.resize(random.pick(&lengths), 0);
    }
    page
}

/// The length of RAM.
pub(super) fn ram_length(random: &mut Random, wrong: bool) -> usize {
    match wrong {
        true => random.pick(&[0, 1, 4, 256, 32_764, 32_767, 32_769, 32_772, 65_536]),
        false => RAM_SIZE,
    }
}

/// The length of external data; the longest ones the first time only.
pub(super) fn external_length(random: &mut Random, wrong: bool, time: usize) -> usize {
    match (wrong, time) {
        (true, 0) => MOST + 256,
        (true, _) => random.pick(&[1, 3, 255, 257, 300, 511, 513, 65_535]),
        (false, 0) => MOST,
        (false, _) => random.pick(&[0, 256, 512, 65_536]),
    }
}

/// A record for [`good_page`] and so much external data; what is wrong of it is told by
/// the refusals' numbers.
pub(super) fn record(random: &mut Random, wrong: impl Fn(u32) -> bool, external: usize) -> Record {
    let mut record = records::fit(random, external - external % 256);
    match (wrong(41), wrong(42)) {
        (false, false) => {}
        (true, false) => record.sp = random.pick(&records::SP_OUT),
        (false, true) => record.sp = random.pick(&records::SP_UNALIGNED),
        (true, true) => record.sp = random.pick(&records::SP_OUT_UNALIGNED),
    }
    if wrong(43) {
        record.base = Base::Ram(random.pick(&records::RAM_OUT));
    }
    if wrong(44) {
        record.base = Base::External(records::past_external(random, external));
    }
    record.place = match wrong(5) {
        true => random.pick(&[7, 120, 121, 124, 126, 127, 128, 250, 32_768, 65_535]),
        false => random.pick(&[0, 1, 2, 6, 8, 9, 118, 119]),
    };
    record
}

/// The number of a profile; each unknown one by turns.
pub(super) fn profile(random: &mut Random, wrong: bool, time: usize) -> u32 {
    match wrong {
        true => UNKNOWN[time % UNKNOWN.len()],
        false => codes::either(random),
    }
}

/// A window; each that is refused, and each at an edge of what is allowed, by turns.
pub(super) fn window(random: &mut Random, wrong: bool, time: usize) -> Window {
    match (wrong, time % 2) {
        (true, _) => REFUSED[time % REFUSED.len()],
        (false, 0) => ALLOWED[time / 2 % ALLOWED.len()],
        (false, _) => ranges::any(random),
    }
}

/// A step and a run with some things wrong.
fn together(
    comparison: &mut Comparison,
    random: &mut Random,
    wrong: Wrong,
    time: usize,
    external: &[u8],
) -> Same {
    let papers = wrong.told(spoilt(time));
    with_wrong(random, wrong, time, external, |_, handed, rams| {
        run_and_step(comparison, handed, rams, papers)
    })?;
    if let Some(other) = wrong.beside_window() {
        comparison.tally.beside_window(other);
    }
    Ok(())
}

/// Where bytes are spoilt, by turns.
pub(super) fn spoilt(time: usize) -> &'static [u8] {
    SPOILS[time % SPOILS.len()]
}

/// Makes calls with some things wrong.
pub(super) fn with_wrong(
    random: &mut Random,
    wrong: Wrong,
    time: usize,
    external: &[u8],
    calls: impl FnOnce(&mut Random, &Handed, &mut Rams) -> Same,
) -> Same {
    let page = page(random, wrong.has(1));
    let length = external_length(random, wrong.has(3), time);
    let mut record = stored_bytes(&record(random, |number| wrong.has(number), length));
    if wrong.has(NO_RECORD) {
        records::spoil(random, &mut record, spoilt(time));
    }
    let mut rams = Rams::new(vec![0x5A; ram_length(random, wrong.has(2))]);
    let profile = profile(random, wrong.has(18), time);
    let handed = Handed {
        code: codes::any(random, &page).under(profile),
        external: &external[..length],
        window: window(random, wrong.has(WINDOW), time),
        record: &record,
        budget: random.pick(&[0, 1, 5, u32::MAX]),
    };
    calls(random, &handed, &mut rams)
        .map_err(|found| format!("wrong things {:011b}: {found}", wrong.0))
}

/// A run and a step whose answer is known from the papers. Refused, they change
/// nothing.
fn run_and_step(
    comparison: &mut Comparison,
    handed: &Handed,
    rams: &mut Rams,
    papers: Told,
) -> Same {
    let ram = rams.library.clone();
    let ran = comparison.run(handed, rams)?;
    let stepped = comparison.step(&handed.with_budget(1), rams)?;
    told_as_papers([ran, stepped], papers, handed.record, rams.library == ram)
}

/// What a run and a step gave is what the papers say. Refused, they leave the record as
/// it was handed, and RAM.
pub fn told_as_papers(
    ran_and_stepped: [Given; 2],
    papers: Told,
    record: &[u8],
    same_ram: bool,
) -> Same {
    for (call, given) in ["run", "step"].into_iter().zip(ran_and_stepped) {
        given.told().held_to(papers, call)?;
        let untouched = given.record == record && same_ram;
        if papers != Told::ACCEPTED && !untouched {
            return Err(format!(
                "{call}: both sides refuse, but change record or RAM"
            ));
        }
    }
    Ok(())
}

/// External offsets at the end of the data and at 2^24: a step and a run hold
/// them to the data's length, storing and reading back to 2^24.
fn ends_of_external(comparison: &mut Comparison, random: &mut Random, external: &[u8]) -> Same {
    let (page, length) = (good_page(), external.len());
    let mut rams = Rams::zero();
    for offset in [length.saturating_sub(1), length, MOST - 1, MOST] {
        let base = Base::External(offset as u32);
        let record = stored_bytes(&Record {
            base,
            ..records::fit(random, length)
        });
        let handed = Handed {
            code: codes::any(random, &page),
            external,
            window: ranges::any(random),
            record: &record,
            budget: 5,
        };
        end_of_external(comparison, &handed, &mut rams, offset)
            .map_err(|found| format!("offset {offset} of {length} bytes: {found}"))?;
    }
    Ok(())
}

/// One such offset, of a record that is fit but for it.
fn end_of_external(
    comparison: &mut Comparison,
    handed: &Handed,
    rams: &mut Rams,
    offset: usize,
) -> Same {
    let (run, form) = match offset {
        MOST => (Told::plain(44), Told::at(7, 37)),
        _ if offset >= handed.external.len() => (Told::plain(44), Told::ACCEPTED),
        _ => (Told::ACCEPTED, Told::ACCEPTED),
    };
    run_and_step(comparison, handed, rams, run)?;
    let (stored, _) = comparison.store(handed.record, &[0; STORED])?;
    stored.held_to(form, "store")?;
    let (loaded, _) = comparison.load(handed.record, &[0; STORED])?;
    loaded.held_to(form, "load")
}

/// Addresses at the edges and others, with external data of right and wrong
/// lengths.
fn validations(comparison: &mut Comparison, random: &mut Random, external: &[u8]) -> Same {
    let lengths = [0, 256, 512, 65_536, MOST, 1, 255, 257, 65_535, MOST + 256];
    for length in lengths {
        for _ in 0..2000 {
            let v = records::address(random, length);
            comparison.validate(v, &external[..length])?;
        }
    }
    Ok(())
}

/// Loads from both ends of the longest external data, by a base that a service
/// sets.
fn most_external(comparison: &mut Comparison, random: &mut Random, external: &[u8]) -> Same {
    let mut rams = Rams::zero();
    for _ in 0..200 {
        let first = random.pick(&asm::LOADS) + random.field(2);
        let imm12 = random.field(8);
        let bundles = [
            [asm::service(0xE1), asm::NOP],
            asm::memory(first, 2, imm12),
            [asm::RETURN, asm::RETURN],
        ];
        let mut record = records::fit(random, MOST);
        record.registers[1] = match random.below(3) {
            0 => 0x80FF_FF00 + random.below(260) as u32,
            1 => 0x8000_0000 + random.below(260) as u32,
            _ => records::address(random, MOST),
        };
        let page = page_bytes(&bundles);
        let handed = Handed {
            code: Code::plain(&page),
            external,
            window: ranges::any(random),
            record: &stored_bytes(&record),
            budget: 4,
        };
        comparison.run(&handed, &mut rams)?;
    }
    Ok(())
}
