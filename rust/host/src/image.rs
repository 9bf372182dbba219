//! Filters of many pages, and what they are run with.

use crate::program::crossing;
use crate::raw;
use crate::record::Record;
use crate::refusal::{verdict, Refusal};
use crate::stop::Stopped;
use crate::window::Window;
use crate::PROFILE_FULL;

/// Bytes of each page of an image.
pub const IMAGE_PAGE_LENGTH: usize = 256;
/// Most pages of an image, which has at least one.
pub const IMAGE_PAGES_MOST: usize = 4096;

/// An image: 1 to [`IMAGE_PAGES_MOST`] pages of [`IMAGE_PAGE_LENGTH`] bytes, one after the
/// other; beside it an index of one byte a page, its count; and what the counts are taken
/// under, the syscalls that never return and the profile.
///
/// ```
/// use marshbodkin::{Image, ImageSetting, Record, Refusal, IMAGE_PAGE_LENGTH, RAM_LENGTH};
///
/// let mut page = [0; IMAGE_PAGE_LENGTH];
/// page[..4].copy_from_slice(&[0x01, 0x20, 0x00, 0xDF]); // 2001 DF00
/// let (mut bytes, mut index) = ([0; 3 * IMAGE_PAGE_LENGTH], [0; 3]);
/// let mut image = Image::new(&mut bytes, &mut index);
/// image.build()?;
/// image.replace(2, &page)?;
/// assert_eq!(image.index(), [0, 0, 1]);
///
/// let (mut ram, mut record) = (vec![0; RAM_LENGTH], Record::default());
/// let setting = ImageSetting::new(&image);
/// let stopped = setting.run(2, &mut ram, &mut record, 100)?;
/// assert_eq!(stopped.stop.to_string(), "service exit 00");
/// assert_eq!(setting.run(0, &mut ram, &mut record, 100), Err(Refusal::UnfitPlace));
/// assert_eq!(setting.run(3, &mut ram, &mut record, 100), Err(Refusal::NoSuchPage));
/// # Ok::<(), marshbodkin::Refusal>(())
/// ```
#[derive(Debug)]
pub struct Image<'a> {
    image: &'a mut [u8],
    index: &'a mut [u8],
    never_return: u64,
    profile: u32,
}

impl<'a> Image<'a> {
    /// The image of these bytes, and the room for its index or one that was built before.
    /// Every direct syscall returns, in the full profile. Any bytes will do here; calls
    /// refuse those that won't do.
    pub fn new(image: &'a mut [u8], index: &'a mut [u8]) -> Image<'a> {
        Image {
            image,
            index,
            never_return: 0,
            profile: PROFILE_FULL,
        }
    }

    /// The same where the direct syscalls of a set never return, as
    /// [`Program::never_return`](crate::Program::never_return) has them. The index is right
    /// only under the set that it was built with.
    ///
    /// ```
    /// use marshbodkin::{syscall_bit, Image, IMAGE_PAGE_LENGTH};
    ///
    /// let mut page = [0; IMAGE_PAGE_LENGTH];
    /// page[..4].copy_from_slice(&[0x00, 0xBF, 0x80, 0xDF]); // BF00 DF80
    /// let mut index = [0];
    /// let mut image = Image::new(&mut page, &mut index).never_return(syscall_bit(0));
    /// image.build()?;
    /// assert_eq!(image.index(), [1]);
    /// # Ok::<(), marshbodkin::Refusal>(())
    /// ```
    #[must_use]
    pub fn never_return(self, set: u64) -> Image<'a> {
        let never_return = set;
        Image {
            never_return,
            ..self
        }
    }

    /// The same in a profile, as [`Program::profile`](crate::Program::profile) has it. The
    /// index is right only under the profile that it was built with.
    #[must_use]
    pub fn profile(self, number: u32) -> Image<'a> {
        let profile = number;
        Image { profile, ..self }
    }

    /// The pages, one after the other.
    pub fn bytes(&self) -> &[u8] {
        self.image
    }

    /// The index: after [`build`](Image::build), each byte is the count of its page.
    pub fn index(&self) -> &[u8] {
        self.index
    }

    /// Fills the index: each byte with the count of its page. Refusals: 18, 12, 14; the
    /// index then stays as it was.
    pub fn build(&mut self) -> Result<(), Refusal> {
        verdict(raw::image_build(
            self.image,
            self.index,
            self.never_return,
            self.profile,
        ))
    }

    /// Puts a page of [`IMAGE_PAGE_LENGTH`] bytes in the place of the page with that number,
    /// from 0, and its count into the byte of that page; nothing else changes. So an index
    /// that is right stays right, without being built anew; the other bytes of one that
    /// isn't stay wrong. Refusals: 18, 12, 13, 14, and 1 where the page isn't
    /// [`IMAGE_PAGE_LENGTH`] bytes; image and index then stay as they were.
    pub fn replace(&mut self, number: u32, page: &[u8]) -> Result<(), Refusal> {
        verdict(raw::image_replace(
            self.image,
            self.index,
            self.never_return,
            self.profile,
            number,
            page,
        ))
    }
}

/// What a step or a run in a page of an image is given beside the page's number, RAM, record
/// and budget.
///
/// In a series of them all get the same setting and the same page. While there is one, the
/// image can't be changed.
#[derive(Clone, Copy, Debug)]
pub struct ImageSetting<'a> {
    image: &'a [u8],
    index: &'a [u8],
    never_return: u64,
    profile: u32,
    external: &'a [u8],
    window: Window,
}

impl<'a> ImageSetting<'a> {
    /// The image without external data, with all of RAM.
    pub fn new(image: &'a Image<'_>) -> ImageSetting<'a> {
        ImageSetting {
            image: image.image,
            index: image.index,
            never_return: image.never_return,
            profile: image.profile,
            external: &[],
            window: Window::WHOLE,
        }
    }

    /// The same with external data, which the filter can only read.
    #[must_use]
    pub fn external(self, external: &'a [u8]) -> ImageSetting<'a> {
        ImageSetting { external, ..self }
    }

    /// The same in a window of RAM, as [`Setting::window`](crate::Setting::window) has it.
    #[must_use]
    pub fn window(self, window: Window) -> ImageSetting<'a> {
        ImageSetting { window, ..self }
    }

    /// Runs from a record in the page with that number, from 0: as
    /// [`Setting::run`](crate::Setting::run) does in that page alone, literals, branches and
    /// exits included. Refusals: 18, 12, 13, 14, 21, 2, 3, 20, 255, 41, 42, 43, 44, 5; RAM
    /// and record then stay as they were.
    ///
    /// 21 says that some byte of the index isn't its page's count, be it of this page or
    /// another. So every run counts every page of the image: a long slice costs that once,
    /// many short ones each time.
    pub fn run(
        &self,
        number: u32,
        ram: &mut [u8],
        record: &mut Record,
        budget: u32,
    ) -> Result<Stopped, Refusal> {
        crossing(record, |bytes| {
            raw::image_run(
                self.image,
                self.index,
                self.never_return,
                self.profile,
                number,
                ram,
                self.external,
                self.window,
                bytes,
                budget,
            )
        })
    }

    /// One step: a run with budget 1. It too counts every page.
    pub fn step(
        &self,
        number: u32,
        ram: &mut [u8],
        record: &mut Record,
    ) -> Result<Stopped, Refusal> {
        crossing(record, |bytes| {
            raw::image_step(
                self.image,
                self.index,
                self.never_return,
                self.profile,
                number,
                ram,
                self.external,
                self.window,
                bytes,
            )
        })
    }
}
