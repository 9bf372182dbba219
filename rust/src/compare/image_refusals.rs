//! Refusals of the calls on images: each alone, every two together, and more at once; and
//! the lengths, numbers and pages at the edges of what is allowed. The number is also known
//! from the papers' order, without either side, and so is that nothing lent changes.

use super::image_cases::{any_case, any_platform, fresh_index};
use super::image_sides::{Images, InImage, BUILD, REPLACE, RUN, STEP};
use super::ranges;
use super::records::{self, SPOILS};
use super::refusals::{self, spoilt};
use super::sides::{Rams, Told, NO_RECORD};
use super::steps::noise;
use super::{Comparison, Same};
use crate::random::Random;
use crate::second::image::{Platform, MOST_PAGES, PAGE};
use crate::second::record::{stored_bytes, Record};

/// How often each choice of wrong things is made; bytes are spoilt in every way, by turns.
const TIMES: usize = 2 * SPOILS.len();
/// Choices of more wrong things, at random.
const RANDOM: usize = 1500;
/// Bytes of external data, as many as a run may ask for.
const EXTERNAL: usize = 65_536;

/// The refusals of each call, in the papers' order, with the library's own.
pub const OF_BUILD: [u32; 3] = [18, 12, 14];
pub const OF_REPLACE: [u32; 5] = [18, 12, 13, 14, 1];
pub const OF_RUN: [u32; 14] = [18, 12, 13, 14, 21, 2, 3, 20, NO_RECORD, 41, 42, 43, 44, 5];

/// A choice of wrong things, by the numbers of a call's refusals: bit n stands for the n-th.
#[derive(Clone, Copy)]
struct Wrong {
    order: &'static [u32],
    bits: u32,
}

impl Wrong {
    /// Nothing, each thing alone, and every two that can be together.
    fn up_to_two(order: &'static [u32]) -> impl Iterator<Item = Wrong> {
        let choices = 0..1u32 << order.len();
        let choices = choices.filter(|bits| bits.count_ones() <= 2);
        choices
            .map(move |bits| Wrong { order, bits })
            .filter(|wrong| wrong.can_be())
    }

    /// Any choice that can be.
    fn any(random: &mut Random, order: &'static [u32]) -> Wrong {
        loop {
            let bits = random.bits() & random.bits() & ((1 << order.len()) - 1);
            let wrong = Wrong { order, bits };
            if wrong.can_be() {
                return wrong;
            }
        }
    }

    /// One base is not of both kinds.
    fn can_be(self) -> bool {
        !(self.has(43) && self.has(44))
    }

    /// Whether what this refusal is about is wrong.
    fn has(self, number: u32) -> bool {
        self.chosen().any(|chosen| chosen == number)
    }

    /// What is wrong, in order.
    fn chosen(self) -> impl Iterator<Item = u32> {
        let order = self.order.iter().enumerate();
        order
            .filter(move |(bit, _)| self.bits >> bit & 1 == 1)
            .map(|(_, &number)| number)
    }

    /// The first of two wrong things, and the other, if there are two.
    fn pair(self) -> Option<(u32, u32)> {
        let mut chosen = self.chosen();
        match (chosen.next(), chosen.next(), chosen.next()) {
            (Some(first), Some(second), None) => Some((first, second)),
            _ => None,
        }
    }

    /// What is told of the first, with bytes spoilt at these positions.
    fn told(self, spoilt: &[u8]) -> Told {
        match self.chosen().next() {
            None => Told::ACCEPTED,
            Some(NO_RECORD) => {
                let first = spoilt.first().copied().unwrap_or(0);
                Told::at(NO_RECORD, first.into())
            }
            Some(number) => Told::plain(number),
        }
    }
}

/// The whole part.
pub fn compare(comparison: &mut Comparison) -> Same {
    let mut random = Random::of_page(comparison.seed, 23 << 40);
    let external = noise(&mut random, EXTERNAL);
    let mut refused = Refused {
        comparison,
        random,
        external: &external,
    };
    for time in 1..=TIMES {
        for wrong in Wrong::up_to_two(&OF_BUILD) {
            refused.build(wrong, time)?;
        }
        for wrong in Wrong::up_to_two(&OF_REPLACE) {
            refused.replace(wrong, time)?;
        }
        for wrong in Wrong::up_to_two(&OF_RUN) {
            refused.run(wrong, time)?;
        }
    }
    for time in 1..=RANDOM {
        refused.any(time)?;
    }
    refused.lengths()?;
    refused.numbers()?;
    refused.page_lengths()
}

/// An image with some things wrong, and the number of a page.
struct Lent {
    images: Images,
    platform: Platform,
    number: u32,
    /// Whether a byte of the index is wrong.
    wrong_byte: bool,
}

/// What the part's calls are made with.
struct Refused<'a> {
    comparison: &'a mut Comparison,
    random: Random,
    external: &'a [u8],
}

impl Refused<'_> {
    /// Any choice of wrong things, in any call.
    fn any(&mut self, time: usize) -> Same {
        let build = Wrong::any(&mut self.random, &OF_BUILD);
        self.build(build, time)?;
        let replace = Wrong::any(&mut self.random, &OF_REPLACE);
        self.replace(replace, time)?;
        let run = Wrong::any(&mut self.random, &OF_RUN);
        self.run(run, time)
    }

    /// An image with these things wrong: of 1 to 4 pages, of which that of the number is
    /// the page that records are made for.
    fn lent(&mut self, wrong: Wrong, time: usize) -> Lent {
        let mut platform = any_platform(&mut self.random);
        let (mut bytes, mut number) = self.pages(platform.profile);
        let random = &mut self.random;
        if wrong.has(12) {
            bytes = wrong_length(random, bytes, time);
        }
        let fresh = fresh_index(&bytes, platform);
        if wrong.has(13) {
            number = past(random, fresh.len());
        }
        let mut index = fresh.clone();
        if wrong.has(21) {
            spoil(random, &mut index);
        }
        if wrong.has(14) {
            index.resize(another_length(random, fresh.len()), 0);
        }
        if wrong.has(18) {
            platform.profile = refusals::profile(random, true, time);
        }
        let wrong_byte = index.iter().zip(&fresh).any(|(byte, count)| byte != count);
        Lent {
            images: Images::new(bytes, index),
            platform,
            number: number as u32,
            wrong_byte,
        }
    }

    /// 1 to 4 pages, mostly for a profile, and the number of that which records are made for.
    fn pages(&mut self, profile: u32) -> (Vec<u8>, usize) {
        let random = &mut self.random;
        let pages = random.between(1, 4);
        let number = random.below(pages);
        let mut bytes = Vec::new();
        for at in 0..pages {
            let page = match at == number {
                true => refusals::good_page(),
                false => any_case(random, self.comparison.seed, profile, 0).page,
            };
            bytes.extend(page);
            bytes.resize(PAGE * (at + 1), 0xDE);
        }
        (bytes, number)
    }

    /// A build, over an index without a right byte: a right one that it writes shows.
    fn build(&mut self, wrong: Wrong, time: usize) -> Same {
        let mut lent = self.lent(wrong, time);
        lent.images.set_all_wrong();
        let papers = wrong.told(&[]).code;
        let (platform, images) = (lent.platform, &mut lent.images);
        self.comparison
            .built(platform, images, papers)
            .map_err(|found| said(wrong, &found))?;
        self.comparison.tally.order(BUILD, wrong.pair());
        Ok(())
    }

    /// A replacement, over such an index too.
    fn replace(&mut self, wrong: Wrong, time: usize) -> Same {
        let mut lent = self.lent(wrong, time);
        lent.images.set_all_wrong();
        let papers = wrong.told(&[]).code;
        let mut page = any_case(&mut self.random, self.comparison.seed, 0, 0).page;
        if wrong.has(1) {
            let lengths = [0, 1, 4, 128, 252, 255, 257, 260, 512];
            page.resize(self.random.pick(&lengths), 0);
        }
        let (platform, images) = (lent.platform, &mut lent.images);
        self.comparison
            .replaced(platform, lent.number, &page, images, papers)
            .map_err(|found| said(wrong, &found))?;
        self.comparison.tally.order(REPLACE, wrong.pair());
        Ok(())
    }

    /// A step and a run.
    fn run(&mut self, wrong: Wrong, time: usize) -> Same {
        let lent = self.lent(wrong, time);
        let random = &mut self.random;
        // Time 0 would ask for the longest external data.
        let length = refusals::external_length(random, wrong.has(3), time.max(1));
        let record = refusals::record(random, |number| wrong.has(number), length);
        let mut record = stored_bytes(&record);
        if wrong.has(NO_RECORD) {
            records::spoil(random, &mut record, spoilt(time));
        }
        let rams = vec![0x5A; refusals::ram_length(random, wrong.has(2))];
        let handed = InImage {
            platform: lent.platform,
            number: lent.number,
            external: &self.external[..length],
            window: refusals::window(random, wrong.has(20), time),
            record: &record,
            budget: random.pick(&[0, 1, 5, u32::MAX]),
        };
        let papers = wrong.told(spoilt(time));
        self.run_and_step(&handed, &lent.images, Rams::new(rams), papers)
            .map_err(|found| said(wrong, &found))?;
        // What is cut off or overwritten is not wrong any more.
        let base_stays = !spoilt(time).iter().any(|&at| at < 43) && !spoilt(time).is_empty();
        let pair = wrong.pair().filter(|&pair| match pair {
            (21, _) | (_, 21) => lent.wrong_byte,
            (NO_RECORD, 43 | 44) => base_stays,
            _ => true,
        });
        for call in [RUN, STEP] {
            self.comparison.tally.order(call, pair);
        }
        Ok(())
    }

    /// A run and a step whose answer is known from the papers. Refused, they change
    /// nothing.
    fn run_and_step(
        &mut self,
        handed: &InImage,
        images: &Images,
        mut rams: Rams,
        papers: Told,
    ) -> Same {
        let ram = rams.library.clone();
        let ran = self.comparison.image_run(handed, images, &mut rams)?;
        let step = handed.with_budget(1);
        let stepped = self.comparison.image_step(&step, images, &mut rams)?;
        refusals::told_as_papers([ran, stepped], papers, handed.record, rams.library == ram)
    }

    /// Lengths of an image around what is allowed, with an index of as many bytes as it has
    /// pages: in a build, a replacement, a step and a run.
    fn lengths(&mut self) -> Same {
        let most = PAGE * MOST_PAGES;
        let page = refusals::good_page();
        let edges = [
            0,
            1,
            255,
            256,
            257,
            511,
            512,
            most - 1,
            most,
            most + 1,
            most + PAGE,
        ];
        for length in edges {
            let allowed = (PAGE..=most).contains(&length) && length % PAGE == 0;
            let papers = if allowed { 0 } else { 12 };
            let bytes: Vec<u8> = page.iter().copied().cycle().take(length).collect();
            let mut images = Images::new(bytes, vec![9; length / PAGE]);
            self.one_length(&mut images, papers)
                .map_err(|found| format!("image of {length} bytes: {found}"))?;
        }
        Ok(())
    }

    /// All four calls on an image.
    fn one_length(&mut self, images: &mut Images, papers: u32) -> Same {
        let platform = any_platform(&mut self.random);
        self.comparison.built(platform, images, papers)?;
        let mut page = refusals::good_page();
        page.resize(PAGE, 0);
        let number = images.pages().saturating_sub(1) as u32;
        self.comparison
            .replaced(platform, number, &page, images, papers)?;
        self.fresh_run(platform, number, images, papers)
    }

    /// A run and a step from the fresh record.
    fn fresh_run(&mut self, platform: Platform, number: u32, images: &Images, papers: u32) -> Same {
        let handed = InImage {
            platform,
            number,
            external: &[],
            window: ranges::any(&mut self.random),
            record: &stored_bytes(&Record::fresh()),
            budget: 9,
        };
        self.run_and_step(&handed, images, Rams::zero(), Told::plain(papers))
    }

    /// Numbers of pages around what is in the image.
    fn numbers(&mut self) -> Same {
        let mut page = refusals::good_page();
        page.resize(PAGE, 0);
        for pages in [1, 2, 7, 40, 256, 257] {
            let platform = any_platform(&mut self.random);
            let mut images = Images::new(page.repeat(pages), vec![0; pages]);
            self.comparison.built(platform, &mut images, 0)?;
            let pages = pages as u32;
            let near = [0, pages - 1, pages, pages + 1];
            let far = [256, 4095, 4096, 65_536, 1 << 24, 1 << 31, u32::MAX];
            for number in near.into_iter().chain(far) {
                let papers = if number < pages { 0 } else { 13 };
                self.one_number(platform, number, &mut images, papers)
                    .map_err(|found| format!("page {number} of {pages}: {found}"))?;
            }
        }
        Ok(())
    }

    /// A replacement, a step and a run in a page.
    fn one_number(
        &mut self,
        platform: Platform,
        number: u32,
        images: &mut Images,
        papers: u32,
    ) -> Same {
        let mut page = refusals::good_page();
        page.resize(PAGE, 0);
        self.comparison
            .replaced(platform, number, &page, images, papers)?;
        self.fresh_run(platform, number, images, papers)
    }

    /// Lengths of a page that takes another's place.
    fn page_lengths(&mut self) -> Same {
        let platform = any_platform(&mut self.random);
        let mut images = Images::new(vec![0; 3 * PAGE], vec![0; 3]);
        let near = 240..=270;
        for length in [0, 1, 4, 128, 252, 512, 65_536].into_iter().chain(near) {
            let page = noise(&mut self.random, length);
            let papers = if length == PAGE { 0 } else { 1 };
            self.comparison
                .replaced(platform, 1, &page, &mut images, papers)
                .map_err(|found| format!("page of {length} bytes: {found}"))?;
        }
        Ok(())
    }
}

/// An image of a wrong length; the longest once only.
fn wrong_length(random: &mut Random, mut bytes: Vec<u8>, time: usize) -> Vec<u8> {
    let length = match time {
        TIMES => PAGE * (MOST_PAGES + 1),
        _ => random.pick(&[0, 1, 255, 257, 300, 511, 513, 1023, 1025]),
    };
    bytes.resize(length, 0);
    bytes
}

/// The number of a page that an image of so many has not.
fn past(random: &mut Random, pages: usize) -> usize {
    let most = u32::MAX as usize;
    let numbers = [pages, pages + 1, MOST_PAGES, 1 << 16, 1 << 24, most];
    random.pick(&numbers).max(pages)
}

/// Another byte somewhere in the index, if it has any.
fn spoil(random: &mut Random, index: &mut [u8]) {
    if !index.is_empty() {
        let at = random.below(index.len());
        index[at] ^= random.between(1, 255) as u8;
    }
}

/// A length that the index of so many pages has not.
fn another_length(random: &mut Random, pages: usize) -> usize {
    let less = pages.wrapping_sub(1);
    let lengths = [0, less, pages + 1, pages + 256, PAGE * pages];
    let others = lengths.into_iter().filter(|&length| length < 1 << 22);
    let others: Vec<usize> = others.filter(|&length| length != pages).collect();
    random.pick(&others)
}

/// What was found with these things wrong.
fn said(wrong: Wrong, found: &str) -> String {
    let chosen: Vec<u32> = wrong.chosen().collect();
    format!("wrong by {chosen:?}: {found}")
}
