//! Each call on an image on both sides.

use marshbodkin::raw;

use super::report;
use super::sides::{library_window, numbers, Given, Handed, Rams, Told};
use super::Comparison;
use crate::second::image::{build, replace, run_in, Image, ImageSetting, Lent, Platform, PAGE};
use crate::second::page::Code;
use crate::second::rules::Rules;
use crate::second::window::Window;

/// The calls, as they are counted by.
pub const BUILD: &str = "image build";
pub const REPLACE: &str = "image replace";
pub const RUN: &str = "image run";
pub const STEP: &str = "image step";

/// An image and its index.
#[derive(Clone, PartialEq, Eq)]
pub struct Stored {
    pub bytes: Vec<u8>,
    pub index: Vec<u8>,
}

impl Stored {
    /// Under a platform, to be read.
    pub fn image(&self, platform: Platform) -> Image<'_> {
        Image {
            bytes: &self.bytes,
            index: &self.index,
            platform,
        }
    }

    /// Under a platform, to be written.
    fn lent(&mut self, platform: Platform) -> Lent<'_> {
        Lent {
            bytes: &mut self.bytes,
            index: &mut self.index,
            platform,
        }
    }
}

/// An image and its index for each side, equal before and after each call.
#[derive(Clone)]
pub struct Images {
    pub library: Stored,
    pub second: Stored,
}

impl Images {
    /// Two images of these bytes, with these indexes.
    pub fn new(bytes: Vec<u8>, index: Vec<u8>) -> Images {
        let library = Stored { bytes, index };
        Images {
            second: library.clone(),
            library,
        }
    }

    /// How many whole pages there are.
    pub fn pages(&self) -> usize {
        self.second.bytes.len() / PAGE
    }

    /// Another byte in both indexes.
    pub fn set_byte(&mut self, number: usize, byte: u8) {
        self.library.index[number] = byte;
        self.second.index[number] = byte;
    }

    /// Other bytes in both indexes: no count, where a count was.
    pub fn set_all_wrong(&mut self) {
        for index in [&mut self.library.index, &mut self.second.index] {
            index.iter_mut().for_each(|byte| *byte = !*byte);
        }
    }

    /// The code of a page under a platform.
    pub fn code(&self, platform: Platform, number: usize) -> Code<'_> {
        self.second.image(platform).code(number)
    }
}

/// What a step or a run in an image is handed beside image, index and RAM. A step has
/// budget 1.
#[derive(Clone, Copy)]
pub struct InImage<'a> {
    pub platform: Platform,
    pub number: u32,
    pub external: &'a [u8],
    pub window: Window,
    pub record: &'a [u8],
    pub budget: u32,
}

impl<'a> InImage<'a> {
    /// The same with another budget.
    pub fn with_budget(self, budget: u32) -> InImage<'a> {
        InImage { budget, ..self }
    }

    /// What a run on its page alone is handed; the page must be in the image.
    pub fn alone(&self, images: &'a Images) -> Handed<'a> {
        self.on(images.code(self.platform, self.number as usize))
    }

    /// What a run on a page is handed.
    pub fn on(&self, code: Code<'a>) -> Handed<'a> {
        Handed {
            code,
            external: self.external,
            window: self.window,
            record: self.record,
            budget: self.budget,
        }
    }
}

/// A refusal's number, or 0.
fn code(answer: Result<(), u8>) -> u32 {
    answer.err().map_or(0, u32::from)
}

/// A run of the library.
fn library_run(handed: &InImage, stored: &Stored, ram: &mut [u8]) -> Given {
    let mut record = handed.record.to_vec();
    let numbers = raw::image_run(
        &stored.bytes,
        &stored.index,
        handed.platform.never_return.0,
        handed.platform.profile,
        handed.number,
        ram,
        handed.external,
        library_window(handed.window),
        &mut record,
        handed.budget,
    );
    Given { numbers, record }
}

/// A step of the library.
fn library_step(handed: &InImage, stored: &Stored, ram: &mut [u8]) -> Given {
    let mut record = handed.record.to_vec();
    let numbers = raw::image_step(
        &stored.bytes,
        &stored.index,
        handed.platform.never_return.0,
        handed.platform.profile,
        handed.number,
        ram,
        handed.external,
        library_window(handed.window),
        &mut record,
    );
    Given { numbers, record }
}

/// A run of the second program.
fn second_run(rules: Rules, handed: &InImage, stored: &Stored, ram: &mut [u8]) -> Given {
    let mut record = handed.record.to_vec();
    let setting = ImageSetting {
        image: stored.image(handed.platform),
        external: handed.external,
        window: handed.window,
    };
    let (number, budget) = (handed.number, handed.budget);
    let (stop, steps) = run_in(rules, setting, number, ram, &mut record, budget);
    let numbers = numbers(stop, steps);
    Given { numbers, record }
}

impl Comparison {
    /// A build; the answer is the number of its refusal.
    pub fn image_build(&mut self, platform: Platform, images: &mut Images) -> Result<u32, String> {
        let Platform {
            never_return: set,
            profile,
        } = platform;
        let Stored { bytes, index } = &mut images.library;
        let library = raw::image_build(bytes, index, set.0, profile);
        let second = code(build(self.rules, &mut images.second.lent(platform)));
        if library != second || images.library != images.second {
            let call = format!("{BUILD} {}", report::platform(platform));
            return Err(report::images(&call, [library, second], images));
        }
        self.tally.call(BUILD, Told::plain(second));
        Ok(second)
    }

    /// A replacement; the answer is the number of its refusal.
    pub fn image_replace(
        &mut self,
        platform: Platform,
        number: u32,
        page: &[u8],
        images: &mut Images,
    ) -> Result<u32, String> {
        let Platform {
            never_return: set,
            profile,
        } = platform;
        let Stored { bytes, index } = &mut images.library;
        let library = raw::image_replace(bytes, index, set.0, profile, number, page);
        let second = replace(self.rules, &mut images.second.lent(platform), number, page);
        let second = code(second);
        if library != second || images.library != images.second {
            let call = report::replacement(platform, number, page);
            return Err(report::images(&call, [library, second], images));
        }
        self.tally.call(REPLACE, Told::plain(second));
        Ok(second)
    }

    /// A run in an image.
    pub fn image_run(
        &mut self,
        handed: &InImage,
        images: &Images,
        rams: &mut Rams,
    ) -> Result<Given, String> {
        rams.spare.clear();
        let library = library_run(handed, &images.library, &mut rams.library);
        let second = second_run(self.rules, handed, &images.second, &mut rams.second);
        self.image_ends(
            RUN,
            handed,
            images,
            [(&library, &rams.library[..]), (&second, &rams.second)],
        )?;
        self.tally.image_stop(RUN, handed, images, &second);
        Ok(second)
    }

    /// A step in an image; the library's run with budget 1 must give the same.
    pub fn image_step(
        &mut self,
        handed: &InImage,
        images: &Images,
        rams: &mut Rams,
    ) -> Result<Given, String> {
        rams.spare.clone_from(&rams.library);
        let stepped = library_step(handed, &images.library, &mut rams.library);
        let ran = library_run(handed, &images.library, &mut rams.spare);
        let second = second_run(self.rules, handed, &images.second, &mut rams.second);
        let expected = (&second, &rams.second[..]);
        for (call, side) in [
            (STEP, (&stepped, &rams.library[..])),
            ("image run with budget 1", (&ran, &rams.spare[..])),
        ] {
            self.image_ends(call, handed, images, [side, expected])?;
        }
        self.tally.image_stop(STEP, handed, images, &second);
        Ok(second)
    }

    /// That both sides of a step or a run are equal, and so are their images still: that
    /// shows a change of one, not the same change of both.
    fn image_ends(
        &self,
        call: &str,
        handed: &InImage,
        images: &Images,
        sides: [(&Given, &[u8]); 2],
    ) -> Result<(), String> {
        if sides[0] == sides[1] && images.library == images.second {
            return Ok(());
        }
        Err(report::image_runs(call, handed, images, sides))
    }
}
