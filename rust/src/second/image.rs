//! 02's images: 1 to 4,096 pages of 256 bytes, and beside them an index of one byte a page,
//! its count. Build, replacement, and steps and runs in a page, with their refusals.

use super::count::count_of;
use super::machine::{accept_beside, run_given, Call, Stop};
use super::memory::Memory;
use super::page::{Code, NeverReturn, Page};
use super::profile::Profile;
use super::record::{given, Record};
use super::refusal::Refusal;
use super::rules::Rules;
use super::setting::Setting;
use super::window::Window;

/// Exact size of an image's page.
pub const PAGE: usize = 256;
/// Most pages of an image.
pub const MOST_PAGES: usize = 4096;

/// What counts are taken under: the syscalls that never return, and the number of a
/// profile.
#[derive(Clone, Copy, Debug, PartialEq, Eq)]
pub struct Platform {
    pub never_return: NeverReturn,
    pub profile: u32,
}

/// An image and its index: any bytes, under any platform.
#[derive(Clone, Copy, Debug)]
pub struct Image<'a> {
    pub bytes: &'a [u8],
    pub index: &'a [u8],
    pub platform: Platform,
}

impl<'a> Image<'a> {
    /// How many whole pages there are.
    pub fn pages(self) -> usize {
        self.bytes.len() / PAGE
    }

    /// True if an image may have that many bytes.
    pub fn has_length(self) -> bool {
        (1..=MOST_PAGES).contains(&self.pages()) && self.bytes.len().is_multiple_of(PAGE)
    }

    /// The page of a number, which must be in the image.
    pub fn code(self, number: usize) -> Code<'a> {
        let page = &self.bytes[PAGE * number..][..PAGE];
        Code::new(page, self.platform.never_return).under(self.platform.profile)
    }
}

/// An image and its index, to be written.
pub struct Lent<'a> {
    pub bytes: &'a mut [u8],
    pub index: &'a mut [u8],
    pub platform: Platform,
}

impl Lent<'_> {
    /// The same, to be read.
    pub fn image(&self) -> Image<'_> {
        Image {
            bytes: self.bytes,
            index: self.index,
            platform: self.platform,
        }
    }
}

/// What a call on an image is asked. A build has no number, and only a replacement has a
/// page.
#[derive(Clone, Copy)]
pub struct Asked<'a> {
    pub rules: Rules,
    pub image: Image<'a>,
    pub number: u32,
    pub page: &'a [u8],
    /// How many bytes of RAM there are, in a run.
    pub ram: usize,
}

/// A refusal's number, and whether it applies.
pub type Test = (u8, fn(&Asked) -> bool);

/// 18: the number is no profile's.
pub const PROFILE: Test = (18, |asked| {
    Profile::of(asked.image.platform.profile).is_none()
});
/// 12: the image's length.
pub const IMAGE: Test = (12, |asked| !asked.image.has_length());
/// 13: the page's number.
pub const NUMBER: Test = (13, |asked| asked.number as usize >= asked.image.pages());
/// 14: the index's length.
pub const INDEX: Test = (14, |asked| asked.image.index.len() != asked.image.pages());
/// 21: some byte of the index.
pub const BYTES: Test = (21, has_wrong_byte);
/// 1, here of a page that is not of 256 bytes.
pub const LENGTH: Test = (1, |asked| asked.page.len() != PAGE);

/// True if a byte of the index is not its page's count.
fn has_wrong_byte(asked: &Asked) -> bool {
    let Asked { rules, image, .. } = *asked;
    let mut known = image.index.iter().enumerate().take(image.pages());
    known.any(|(number, &byte)| byte != count_byte(rules, image.code(number)))
}

/// The count of a page, as the index has it.
pub fn count_byte(rules: Rules, code: Code) -> u8 {
    count_of(rules, code).0 as u8
}

/// The rules of images, each of which can be exchanged.
#[derive(Clone, Copy)]
pub struct ImageRules {
    /// What refuses a build, in order.
    pub build: &'static [Test],
    /// What refuses a replacement, in order.
    pub replace: &'static [Test],
    /// What refuses a step or a run, in order, before 2.
    pub run: &'static [Test],
    /// The byte that the index gets for a page.
    pub byte: fn(Rules, Code) -> u8,
    /// Fills the index of an image.
    pub fill: fn(Rules, &mut Lent),
    /// Puts a page at a number of an image.
    pub put: fn(Rules, &mut Lent, usize, &[u8]),
    /// What a build that is refused by a number does.
    pub refused_build: fn(Rules, u8, &mut Lent),
    /// What a replacement that is refused by a number does.
    pub refused_replace: fn(u8, &mut Lent, u32, &[u8]),
    /// The page whose bytes a run in a page has.
    pub run_page: fn(usize) -> usize,
    /// How many bundles of a page are code, as the fit place takes it.
    pub counted: fn(Image, usize) -> u8,
}

impl ImageRules {
    /// The papers'.
    pub const RIGHT: ImageRules = ImageRules {
        build: &[PROFILE, IMAGE, INDEX],
        replace: &[PROFILE, IMAGE, NUMBER, INDEX, LENGTH],
        run: &[PROFILE, IMAGE, NUMBER, INDEX, BYTES],
        byte: count_byte,
        fill,
        put,
        refused_build: |_, _, _| {},
        refused_replace: |_, _, _, _| {},
        run_page: |number| number,
        counted: |image, number| image.index[number],
    };
}

/// The first refusal that applies.
fn first(tests: &[Test], asked: &Asked) -> Result<(), u8> {
    match tests.iter().find(|(_, applies)| applies(asked)) {
        Some(&(number, _)) => Err(number),
        None => Ok(()),
    }
}

/// Every byte of the index is its page's.
pub fn fill(rules: Rules, lent: &mut Lent) {
    for number in 0..lent.image().pages() {
        lent.index[number] = (rules.images.byte)(rules, lent.image().code(number));
    }
}

/// The page and its byte.
pub fn put(rules: Rules, lent: &mut Lent, number: usize, page: &[u8]) {
    lent.bytes[PAGE * number..][..page.len()].copy_from_slice(page);
    lent.index[number] = (rules.images.byte)(rules, lent.image().code(number));
}

/// Builds the index, or tells why not.
pub fn build(rules: Rules, lent: &mut Lent) -> Result<(), u8> {
    let asked = Asked {
        rules,
        image: lent.image(),
        number: 0,
        page: &[],
        ram: 0,
    };
    let answer = first(rules.images.build, &asked);
    match answer {
        Ok(()) => (rules.images.fill)(rules, lent),
        Err(refusal) => (rules.images.refused_build)(rules, refusal, lent),
    }
    answer
}

/// Replaces a page, or tells why not.
pub fn replace(rules: Rules, lent: &mut Lent, number: u32, page: &[u8]) -> Result<(), u8> {
    let asked = Asked {
        rules,
        image: lent.image(),
        number,
        page,
        ram: 0,
    };
    let answer = first(rules.images.replace, &asked);
    match answer {
        Ok(()) => (rules.images.put)(rules, lent, number as usize, page),
        Err(refusal) => (rules.images.refused_replace)(refusal, lent, number, page),
    }
    answer
}

/// What a step or a run in an image is given beside the page's number, RAM, record and
/// budget: any of each.
#[derive(Clone, Copy, Debug)]
pub struct ImageSetting<'a> {
    pub image: Image<'a>,
    pub external: &'a [u8],
    pub window: Window,
}

impl<'a> ImageSetting<'a> {
    /// The setting of a page alone, which must be in the image.
    pub fn alone(self, number: usize) -> Setting<'a> {
        Setting {
            code: self.image.code(number),
            external: self.external,
            window: self.window,
        }
    }
}

/// A run in the page of a number, on the bytes of a record: the stop and the steps.
pub fn run_in(
    rules: Rules,
    setting: ImageSetting,
    number: u32,
    ram: &mut [u8],
    bytes: &mut [u8],
    budget: u32,
) -> (Stop, u32) {
    let record = given(rules, bytes);
    let asked = Asked {
        rules,
        image: setting.image,
        number,
        page: &[],
        ram: ram.len(),
    };
    let known = record.as_ref().map_err(|&no_record| no_record);
    let accepted = accept(&asked, setting, known);
    let memory = Memory::of(rules, setting.external, setting.window, ram);
    run_given(rules, accepted, memory, (&record, bytes), budget)
}

/// All refusals of a step or a run in an image, in order.
fn accept<'a>(
    asked: &Asked,
    setting: ImageSetting<'a>,
    record: Result<&Record, Refusal>,
) -> Result<Page<'a>, Refusal> {
    let rules = asked.rules;
    first(rules.images.run, asked).map_err(Refusal::plain)?;
    let number = asked.number as usize;
    let alone = setting.alone((rules.images.run_page)(number));
    let page = (rules.run)(alone.code).map_err(Refusal::plain)?;
    let call = Call {
        rules,
        setting: alone,
        ram: asked.ram,
        record,
    };
    let counted = (rules.images.counted)(setting.image, number);
    accept_beside(call, page, |_| counted.into())?;
    Ok(page)
}
