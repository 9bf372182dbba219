//! Images of 1 to 40 pages and one of 4,096: built, replaced page by page with refused
//! replacements among them, and run in any page, alone and in slices; indexes with wrong
//! bytes; and single steps at the edges of instructions, in small images. That the index is
//! the counts worked out afresh, that a run is that of its page alone, and that it goes by
//! nothing outside its window and changes nothing there, is also known without either side.

use super::calls::{outside_stays, same_end, same_inside};
use super::cases::{self, Case};
use super::codes::UNKNOWN;
use super::image_cases::{any_case, any_platform, image_of, is_fresh};
use super::image_sides::{Images, InImage};
use super::ranges::{self, REFUSED};
use super::records;
use super::sets;
use super::sides::{Given, Rams};
use super::steps::noise;
use super::{Comparison, Same};
use crate::random::Random;
use crate::second::image::{Platform, MOST_PAGES, PAGE};
use crate::second::memory::RAM_SIZE;
use crate::second::profile::{FULL, SMALL};
use crate::second::record::{stored_bytes, Record};
use crate::second::window::Window;

/// Most pages of an image, but for the largest.
const MOST: usize = 40;
/// Images of each number of pages.
const TIMES: usize = 2;
/// Replacements in each image.
const REPLACEMENTS: usize = 8;
/// Pages of each image that are run, as long as there are so many.
const RUNS: usize = 4;
/// Steps of a run that is made again as a series.
const WHOLE: u32 = 100;
/// Single steps at edges.
const EDGES: usize = 2500;
/// Different pages of the largest image.
const DIFFERENT: usize = 61;

/// The whole part.
pub fn compare(comparison: &mut Comparison) -> Same {
    let mut random = Random::of_page(comparison.seed, 22 << 40);
    let external = noise(&mut random, 1024);
    let mut rams = Rams::new(noise(&mut random, RAM_SIZE));
    for pages in (0..TIMES).flat_map(|_| 1..=MOST) {
        let external = &external[..256 * random.below(5)];
        let mut tried = Tried::new(comparison, &mut random, external, &mut rams, pages);
        tried
            .all()
            .map_err(|found| format!("image of {pages} pages: {found}"))?;
    }
    for number in 0..EDGES {
        let pages = random.between(1, 3);
        let mut tried = Tried::new(comparison, &mut random, &external, &mut rams, pages);
        tried
            .at_edge()
            .map_err(|found| format!("edge {number}: {found}"))?;
    }
    largest(comparison, &mut random, &external[..256], &mut rams)
        .map_err(|found| format!("largest image: {found}"))
}

/// Where an index is spoilt.
#[derive(Clone, Copy)]
pub struct Spoilt {
    pub at: usize,
    pub one_more: bool,
}

impl Spoilt {
    /// One more and one less at the first place, a middle one and the last.
    fn all(pages: usize) -> impl Iterator<Item = Spoilt> {
        let places = [0, pages / 2, pages - 1];
        let spoilt = |at| [true, false].map(|one_more| Spoilt { at, one_more });
        places.into_iter().flat_map(spoilt)
    }
}

/// An image under test, with a record for each page.
struct Tried<'a> {
    comparison: &'a mut Comparison,
    random: &'a mut Random,
    external: &'a [u8],
    rams: &'a mut Rams,
    platform: Platform,
    cases: Vec<Case>,
    images: Images,
}

impl<'a> Tried<'a> {
    /// An image of any pages, not built yet.
    fn new(
        comparison: &'a mut Comparison,
        random: &'a mut Random,
        external: &'a [u8],
        rams: &'a mut Rams,
        pages: usize,
    ) -> Tried<'a> {
        let (seed, platform) = (comparison.seed, any_platform(random));
        let case = |_| any_case(random, seed, platform.profile, external.len());
        let cases: Vec<Case> = (0..pages).map(case).collect();
        let images = image_of(random, &cases);
        Tried {
            comparison,
            random,
            external,
            rams,
            platform,
            cases,
            images,
        }
    }

    /// All that is compared on one image.
    fn all(&mut self) -> Same {
        self.comparison.tally.image(self.cases.len());
        self.comparison.built(self.platform, &mut self.images, 0)?;
        self.runs()?;
        for _ in 0..REPLACEMENTS {
            self.replacement()?;
            is_fresh(&self.images, self.platform)?;
        }
        self.runs()?;
        self.wrong_bytes()?;
        self.another_platform()
    }

    /// A page put into an image, and a step and a run from its record, which stands at the
    /// edge of what an instruction does.
    fn at_edge(&mut self) -> Same {
        self.comparison.built(self.platform, &mut self.images, 0)?;
        let number = self.any_number() as u32;
        let mut case = cases::any(self.random, self.external.len());
        case.page.resize(PAGE, 0);
        self.comparison
            .replaced(self.platform, number, &case.page, &mut self.images, 0)?;
        let handed = InImage {
            platform: self.platform,
            number,
            external: self.external,
            window: ranges::any(self.random),
            record: &stored_bytes(&case.record),
            budget: 5,
        };
        let step = handed.with_budget(1);
        self.comparison.image_step(&step, &self.images, self.rams)?;
        self.alone(&handed)
    }

    /// Any page of the image.
    fn any_number(&mut self) -> usize {
        self.random.below(self.cases.len())
    }

    /// The first page, the last, and others: runs in several of them.
    fn runs(&mut self) -> Same {
        let last = self.cases.len() - 1;
        let mut numbers = vec![0, last];
        numbers.extend((0..RUNS).map(|_| self.any_number()));
        numbers.sort_unstable();
        numbers.dedup();
        let mut stepped = 0;
        for number in numbers {
            stepped += usize::from(self.run_in(number)?);
        }
        self.comparison.tally.pages_stepped(stepped);
        Ok(())
    }

    /// Steps and runs in a page; tells whether one took several steps.
    fn run_in(&mut self, number: usize) -> Result<bool, String> {
        let record = &self.cases[number].record;
        let handed = InImage {
            platform: self.platform,
            number: number as u32,
            external: self.external,
            window: ranges::for_run(self.random, record),
            record: &stored_bytes(record),
            budget: self.random.pick(&[0, 1, 2, 7, 40, 300]),
        };
        self.alone(&handed)?;
        let before = self.rams.library.clone();
        self.comparison
            .image_step(&handed.with_budget(1), &self.images, self.rams)?;
        outside_stays(handed.window, &before, &self.rams.library)?;
        let given = self.series(&handed.with_budget(WHOLE))?;
        Ok(given.numbers.steps > 1)
    }

    /// A run in an image gives what one in its page alone gives; and with other bytes
    /// outside its window the same inside.
    fn alone(&mut self, handed: &InImage) -> Same {
        let (before, mut own) = (self.rams.library.clone(), self.rams.clone());
        let mut other = self.rams.clone();
        change_outside(&mut other, handed.window);
        let given = self.comparison.image_run(handed, &self.images, self.rams)?;
        outside_stays(handed.window, &before, &self.rams.library)?;
        let alone = handed.alone(&self.images);
        let by_itself = self.comparison.run(&alone, &mut own)?;
        let names = ["a run in an image", "one in its page alone"];
        let ends = [(&given, &*self.rams), (&by_itself, &own)];
        same_end(names, &alone, ends)?;
        let again = self
            .comparison
            .image_run(handed, &self.images, &mut other)?;
        let names = ["a run in an image", "one in another RAM"];
        let ends = [(&given, &*self.rams), (&again, &other)];
        same_inside(names, &alone, ends)?;
        self.comparison.tally.alone(&given);
        Ok(())
    }

    /// One run, and the same steps as a series of calls in the same page.
    fn series(&mut self, handed: &InImage) -> Result<Given, String> {
        let mut parts = self.rams.clone();
        let whole = self.comparison.image_run(handed, &self.images, self.rams)?;
        let given = self.as_series(handed, &mut parts)?;
        let alone = handed.alone(&self.images);
        let ends = [(&given, &parts), (&whole, &*self.rams)];
        same_end(["a series in an image", "one run"], &alone, ends)?;
        Ok(given)
    }

    /// The steps of a run as a series of calls, and what they give together: all that the
    /// last gives, but the steps of all.
    fn as_series(&mut self, handed: &InImage, rams: &mut Rams) -> Result<Given, String> {
        let (mut record, mut steps, mut calls) = (handed.record.to_vec(), 0, 0);
        loop {
            let own = InImage {
                record: &record,
                budget: handed.budget - steps,
                ..*handed
            };
            let mut given = self.one_call(&own, rams)?;
            steps += given.numbers.steps;
            calls += 1;
            if given.numbers.kind != 0 || steps == handed.budget {
                self.comparison.tally.image_series(calls, &given);
                given.numbers.steps = steps;
                return Ok(given);
            }
            record = given.record;
        }
    }

    /// A step or a run with a part of the budget; now and then comes a call before it that
    /// is refused.
    fn one_call(&mut self, own: &InImage, rams: &mut Rams) -> Result<Given, String> {
        if self.random.chance(15) {
            self.refused_call(own, rams)?;
        }
        let budget = self.random.pick(&[0, 1, 1, 3, 20, 50]).min(own.budget);
        let handed = own.with_budget(budget);
        match budget {
            1 => self.comparison.image_step(&handed, &self.images, rams),
            _ => self.comparison.image_run(&handed, &self.images, rams),
        }
    }

    /// The call with a page that isn't there, an unknown profile, a window that is refused
    /// or an index with a wrong byte.
    fn refused_call(&mut self, own: &InImage, rams: &mut Rams) -> Same {
        let mut other = *own;
        let mut images = self.images.clone();
        let papers = match self.random.below(4) {
            0 => {
                other.number = (images.pages() + self.random.below(3)) as u32;
                13
            }
            1 => {
                other.platform.profile = self.random.pick(&UNKNOWN);
                18
            }
            2 => {
                other.window = self.random.pick(&REFUSED);
                20
            }
            _ => {
                let at = self.any_number();
                images.set_byte(at, images.library.index[at] ^ 1);
                21
            }
        };
        let before = rams.library.clone();
        let given = self.comparison.image_run(&other, &images, rams)?;
        refused(&given, papers, &other, (&before, &rams.library))?;
        self.comparison.tally.refused_between();
        Ok(())
    }

    /// A replacement, or one that is refused.
    fn replacement(&mut self) -> Same {
        let (seed, external) = (self.comparison.seed, self.external.len());
        let case = any_case(self.random, seed, self.platform.profile, external);
        if self.random.chance(35) {
            return self.refused_replacement(&case.page);
        }
        let number = self.any_number();
        self.comparison.replaced(
            self.platform,
            number as u32,
            &case.page,
            &mut self.images,
            0,
        )?;
        self.cases[number] = case;
        // What was replaced is run next.
        self.run_in(number).map(|_| ())
    }

    /// A replacement with one wrong thing.
    fn refused_replacement(&mut self, page: &[u8]) -> Same {
        let number = self.any_number() as u32;
        let pages = self.images.pages() as u32;
        let mut platform = self.platform;
        match self.random.below(5) {
            0 => {
                platform.profile = self.random.pick(&UNKNOWN);
                self.refuses(platform, number, page, 18)
            }
            1 => {
                let past = [pages, pages + 1, pages + 255, 1 << 16, 1 << 24, u32::MAX];
                let number = self.random.pick(&past);
                self.refuses(platform, number, page, 13)
            }
            2 => {
                let length = self.random.pick(&[0, 4, 252, 255, 257, 260, 512]);
                let mut page = page.to_vec();
                page.resize(length, 0xBF);
                self.refuses(platform, number, &page, 1)
            }
            3 => {
                let lengths = [0, pages - 1, pages + 1, pages + 256];
                let length = self.random.pick(&lengths) as usize;
                let mut other = self.images.clone();
                other.library.index.resize(length, 7);
                other.second.index.resize(length, 7);
                self.comparison
                    .replaced(platform, number, page, &mut other, 14)
            }
            _ => {
                let mut other = self.images.clone();
                let length = other.library.bytes.len() - 1 + 2 * self.random.below(2);
                other.library.bytes.resize(length, 7);
                other.second.bytes.resize(length, 7);
                self.comparison
                    .replaced(platform, number, page, &mut other, 12)
            }
        }
    }

    /// A replacement in the image itself that is refused by a number.
    fn refuses(&mut self, platform: Platform, number: u32, page: &[u8], papers: u32) -> Same {
        self.comparison
            .replaced(platform, number, page, &mut self.images, papers)
    }

    /// Indexes with one wrong byte: a run in its page and one in another are refused, and
    /// a replacement elsewhere leaves the byte.
    fn wrong_bytes(&mut self) -> Same {
        let pages = self.cases.len();
        for spoilt in Spoilt::all(pages) {
            let mut images = self.images.clone();
            spoil(&mut images, spoilt);
            let other = (spoilt.at + 1 + self.random.below(pages)) % pages;
            for number in [spoilt.at, other] {
                let record = self.cases[number].record.clone();
                self.refused_by_index(&images, spoilt, (number, &record))?;
            }
            if other != spoilt.at {
                self.replaced_beside(images, spoilt.at, other)?;
            }
        }
        Ok(())
    }

    /// A step and a run in a page of an image whose index is spoilt.
    fn refused_by_index(
        &mut self,
        images: &Images,
        spoilt: Spoilt,
        (number, record): (usize, &Record),
    ) -> Same {
        let handed = InImage {
            platform: self.platform,
            number: number as u32,
            external: self.external,
            window: ranges::any(self.random),
            record: &stored_bytes(record),
            budget: 5,
        };
        let before = self.rams.library.clone();
        let ran = self.comparison.image_run(&handed, images, self.rams)?;
        let step = handed.with_budget(1);
        let stepped = self.comparison.image_step(&step, images, self.rams)?;
        for given in [ran, stepped] {
            refused(&given, 21, &handed, (&before, &self.rams.library))?;
        }
        self.comparison
            .tally
            .wrong_byte(spoilt, images.pages(), number);
        Ok(())
    }

    /// A replacement in an image whose index has a wrong byte for another page.
    fn replaced_beside(&mut self, mut images: Images, wrong: usize, number: usize) -> Same {
        let page = self.cases[wrong].page.clone();
        self.comparison
            .replaced(self.platform, number as u32, &page, &mut images, 0)?;
        if is_fresh(&images, self.platform).is_ok() {
            return Err(format!("both sides mend the byte of page {wrong}"));
        }
        self.comparison.tally.left_wrong();
        Ok(())
    }

    /// What is compared on an image of which every count takes long: it is built, replaced
    /// and run at both ends and between, and refused by a wrong byte there.
    fn few_calls(&mut self) -> Same {
        let pages = self.images.pages();
        self.comparison.tally.image(pages);
        self.comparison.built(self.platform, &mut self.images, 0)?;
        for number in [0, pages / 2, pages - 1] {
            self.replaced_and_run(number as u32)?;
        }
        is_fresh(&self.images, self.platform)?;
        for spoilt in Spoilt::all(pages) {
            let mut images = self.images.clone();
            spoil(&mut images, spoilt);
            self.refused_by_index(&images, spoilt, (1, &Record::fresh()))?;
        }
        Ok(())
    }

    /// A page that is put into the image and run there.
    fn replaced_and_run(&mut self, number: u32) -> Same {
        let (seed, external) = (self.comparison.seed, self.external.len());
        let case = any_case(self.random, seed, self.platform.profile, external);
        self.comparison
            .replaced(self.platform, number, &case.page, &mut self.images, 0)?;
        let handed = InImage {
            platform: self.platform,
            number,
            external: self.external,
            window: ranges::any(self.random),
            record: &stored_bytes(&case.record),
            budget: 50,
        };
        self.alone(&handed)
    }

    /// The index under another set or profile is wrong, if a count differs there.
    fn another_platform(&mut self) -> Same {
        let own = self.platform;
        let profile = match own.profile {
            FULL => SMALL,
            _ => FULL,
        };
        let never_return = sets::any(self.random);
        self.run_under(Platform { profile, ..own })?;
        self.run_under(Platform {
            never_return,
            ..own
        })
    }

    /// A run under a platform, refused by 21 just if the index is wrong there.
    fn run_under(&mut self, platform: Platform) -> Same {
        let handed = InImage {
            platform,
            number: self.any_number() as u32,
            external: self.external,
            record: &stored_bytes(&records::fit(self.random, 0)),
            window: ranges::any(self.random),
            budget: 3,
        };
        let right = is_fresh(&self.images, platform).is_ok();
        let given = self
            .comparison
            .image_run(&handed, &self.images, self.rams)?;
        let code = given.numbers.code;
        if right == (code == 21) {
            return Err(format!("both sides answer {code} under another platform"));
        }
        if !right {
            let is_profile = platform.profile != self.platform.profile;
            self.comparison.tally.another_platform(is_profile);
        }
        Ok(())
    }
}

/// One more or one less in both indexes.
fn spoil(images: &mut Images, Spoilt { at, one_more }: Spoilt) {
    let byte = images.library.index[at];
    let wrong = match one_more {
        true => byte.wrapping_add(1),
        false => byte.wrapping_sub(1),
    };
    images.set_byte(at, wrong);
}

/// Other bytes outside a window, on both sides.
fn change_outside(rams: &mut Rams, window: Window) {
    let (start, end) = (window.start as usize, window.end as usize);
    for ram in [&mut rams.library, &mut rams.second] {
        let (before, rest) = ram.split_at_mut(start);
        let behind = &mut rest[end - start..];
        for byte in before.iter_mut().chain(behind) {
            *byte = !*byte;
        }
    }
}

/// That a call was refused by a number, and changed neither record nor RAM.
fn refused(given: &Given, papers: u32, handed: &InImage, (before, after): (&[u8], &[u8])) -> Same {
    let numbers = given.numbers;
    if (numbers.code, numbers.kind, numbers.steps) != (papers, 5, 0) {
        return Err(format!(
            "both sides give {numbers:?}, the papers refuse by {papers}"
        ));
    }
    match given.record == handed.record && before == after {
        true => Ok(()),
        false => Err("both sides refuse, but change record or RAM".to_string()),
    }
}

/// The largest image, of a few pages over and over.
fn largest(
    comparison: &mut Comparison,
    random: &mut Random,
    external: &[u8],
    rams: &mut Rams,
) -> Same {
    let mut tried = Tried::new(comparison, random, external, rams, DIFFERENT);
    let pages = tried.images.library.bytes.iter().copied().cycle();
    let bytes: Vec<u8> = pages.take(PAGE * MOST_PAGES).collect();
    tried.images = Images::new(bytes, noise(tried.random, MOST_PAGES));
    tried.few_calls()
}
