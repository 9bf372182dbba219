//! Images to hand over: pages of 256 bytes with a record for each, the counts that belong
//! beside them, and calls that several parts make.

use super::cases::{self, Case};
use super::image_sides::Images;
use super::pages::write_for;
use super::slices::any_run;
use super::steps::noise;
use super::{codes, sets, Comparison, Same};
use crate::assemble as asm;
use crate::random::Random;
use crate::second::image::{count_byte, Image, Platform, PAGE};
use crate::second::rules::Rules;

/// Any set and either profile.
pub fn any_platform(random: &mut Random) -> Platform {
    Platform {
        never_return: sets::any(random),
        profile: codes::either(random),
    }
}

/// A page of 256 bytes, mostly for a profile, and a record to run it from: any page, one on
/// which calculations lead to an edge, or one at an edge.
pub fn any_case(random: &mut Random, seed: u64, profile: u32, external: usize) -> Case {
    let number = random.below(1 << 20) as u64;
    let mut case = match random.below(3) {
        0 => cases::any(random, external),
        _ => any_run(random, seed, number, external).0,
    };
    case.page.resize(PAGE, 0);
    write_for(random, profile, &mut case.page);
    if random.chance(40) {
        put_syscalls(random, &mut case.page);
    }
    case
}

/// Direct syscalls in the place of some returns, so that the count goes by the set.
fn put_syscalls(random: &mut Random, page: &mut [u8]) {
    for half in page.chunks_exact_mut(2) {
        if half == asm::RETURN.to_le_bytes() && random.chance(70) {
            let syscall = asm::service(0x80 + random.field(64));
            half.copy_from_slice(&syscall.to_le_bytes());
        }
    }
}

/// The pages of these cases one after the other, with an index of any bytes.
pub fn image_of(random: &mut Random, cases: &[Case]) -> Images {
    let pages: Vec<&[u8]> = cases.iter().map(|case| &case.page[..]).collect();
    let index = noise(random, cases.len());
    Images::new(pages.concat(), index)
}

/// The counts of an image's pages, worked out afresh.
pub fn fresh_index(bytes: &[u8], platform: Platform) -> Vec<u8> {
    let index = &[];
    let image = Image {
        bytes,
        index,
        platform,
    };
    let count = |number| count_byte(Rules::RIGHT, image.code(number));
    (0..image.pages()).map(count).collect()
}

/// That the index is the counts worked out afresh.
pub fn is_fresh(images: &Images, platform: Platform) -> Same {
    let fresh = fresh_index(&images.second.bytes, platform);
    let index = &images.library.index;
    match (0..)
        .zip(index.iter().zip(&fresh))
        .find(|(_, (byte, count))| byte != count)
    {
        _ if index.len() != fresh.len() => Err(format!(
            "the index has {} bytes for {} pages",
            index.len(),
            fresh.len()
        )),
        Some((number, (byte, count))) => Err(format!(
            "both sides have {byte} for page {number}, whose count is {count}"
        )),
        None => Ok(()),
    }
}

/// That what both sides answer is what the papers do, and that a refused call left image
/// and index as they were.
pub fn held_to(call: &str, answered: u32, papers: u32, before: &Images, after: &Images) -> Same {
    if answered != papers {
        return Err(format!(
            "{call}: both sides answer {answered}, the papers {papers}"
        ));
    }
    if answered != 0 && before.library != after.library {
        return Err(format!(
            "{call}: both sides refuse, but change what is lent"
        ));
    }
    Ok(())
}

impl Comparison {
    /// A build, whose answer is known from the papers; it is right.
    pub fn built(&mut self, platform: Platform, images: &mut Images, papers: u32) -> Same {
        let before = images.clone();
        let answered = self.image_build(platform, images)?;
        held_to("build", answered, papers, &before, images)?;
        if answered != 0 {
            return Ok(());
        }
        if before.library.bytes != images.library.bytes {
            return Err("both sides change the image in a build".to_string());
        }
        is_fresh(images, platform)
    }

    /// A replacement, whose answer is known from the papers. Accepted, it changes its page
    /// and the page's byte, and nothing else.
    pub fn replaced(
        &mut self,
        platform: Platform,
        number: u32,
        page: &[u8],
        images: &mut Images,
        papers: u32,
    ) -> Same {
        let before = images.clone();
        let answered = self.image_replace(platform, number, page, images)?;
        held_to("replace", answered, papers, &before, images)?;
        self.tally.replaced(answered);
        if answered != 0 {
            return Ok(());
        }
        let mut expected = before.library;
        let at = number as usize;
        expected.bytes[PAGE * at..][..PAGE].copy_from_slice(page);
        expected.index[at] = count_byte(Rules::RIGHT, images.code(platform, at));
        match images.library == expected {
            true => Ok(()),
            false => Err("both sides replace more than a page and its byte, or less".to_string()),
        }
    }
}
