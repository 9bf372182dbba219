//! The bundle reader: every halfword in both halves, a dense sample of 32-bit
//! pairs, literal words of every row, and its refusals, all under any sets and
//! both profiles.

use super::codes::{self, UNKNOWN};
use super::sets;
use super::{Comparison, Same};
use crate::assemble::{self as asm, page_bytes, Bundle};
use crate::names::{self, BAD_WORDS, WORDS};
use crate::random::{self, Random};
use crate::second::page::{Code, NeverReturn};
use crate::second::profile::{FULL, SMALL};

/// Pages to read in, by how many bundles they have, and the bundle's number.
const POSITIONS: [(usize, usize); 6] = [(64, 32), (64, 0), (64, 63), (64, 1), (64, 62), (8, 5)];

/// What stands after a halfword.
const AFTER: [u16; 4] = [asm::NOP, asm::RETURN, asm::HALT, 0xDE00];
/// What stands before a halfword: the last two are terminators, and the second
/// is one by the set.
const BEFORE: [u16; 4] = [asm::NOP, 0xDF80, asm::HALT, asm::RETURN];

/// Second halfwords at the edges of the 32-bit rows.
const SECONDS: [u16; 48] = [
    0x0000, 0x0001, 0x00FF, 0x0100, 0x0700, 0x07FF, 0x0800, 0x0F00, 0x0FFF, 0x1000, 0x2034, 0x3000,
    0x7000, 0x77FF, 0x7800, 0x7FFF, 0x8000, 0x87FF, 0x8800, 0x8FFF, 0xFFFF, 0xF000, 0x00F0, 0xF0F0,
    0xF7F7, 0xF0F7, 0xF7F0, 0xF8F0, 0xF0F8, 0xF8F8, 0xFFF0, 0xF0FF, 0xFFF7, 0xF7FF, 0xE0F0, 0xD0F0,
    0xB0F0, 0x70F0, 0xF0E0, 0xF0D0, 0xF0B0, 0xF070, 0xF1F1, 0xF3F2, 0xBF00, 0xDF00, 0xE7FE, 0xF8C9,
];
/// How many second halfwords are taken at random for each other opener.
const RANDOM_SECONDS: usize = 32;

/// The whole part.
pub fn compare(comparison: &mut Comparison) -> Same {
    let mut random = Random::of_page(comparison.seed, 2 << 40);
    for (position, (total, bundle)) in (0..).zip(POSITIONS) {
        let mut sheet = Sheet::of_words(&mut random, total);
        for half in 0..=u16::MAX {
            sheet.never_return = sets::any(&mut random);
            // By turns, so that every halfword is read under both.
            sheet.profile = [FULL, SMALL][usize::from((half ^ position) & 1)];
            halfword(comparison, &mut sheet, bundle, half)?;
        }
    }
    pairs(comparison, &mut random)?;
    words(comparison, &mut random)?;
    refusals(comparison, &mut random)
}

/// A page to put bundles in, and the set and the profile that it is read under.
struct Sheet {
    page: Vec<u8>,
    never_return: NeverReturn,
    profile: u32,
}

impl Sheet {
    /// A page of literal words, good and bad.
    fn of_words(random: &mut Random, total: usize) -> Sheet {
        let bundles: Vec<Bundle> = (0..total)
            .map(|_| match random.chance(60) {
                true => asm::word(random::edge_word(random)),
                false => asm::word(random::service_word(random)),
            })
            .collect();
        Sheet {
            page: page_bytes(&bundles),
            never_return: sets::any(random),
            profile: FULL,
        }
    }

    /// Puts a bundle at its place.
    fn put(&mut self, bundle: usize, halves: Bundle) {
        self.page[4 * bundle..4 * bundle + 4].copy_from_slice(&page_bytes(&[halves]));
    }

    /// The page's first bundles, to be read.
    fn first(&self, bundles: usize) -> Code<'_> {
        Code::new(&self.page[..4 * bundles], self.never_return).under(self.profile)
    }

    /// The whole page, to be read.
    fn code(&self) -> Code<'_> {
        self.first(self.page.len() / 4)
    }
}

/// Puts a bundle and reads it.
fn read(comparison: &mut Comparison, sheet: &mut Sheet, bundle: usize, halves: Bundle) -> Same {
    sheet.put(bundle, halves);
    comparison.read(sheet.code(), bundle as u32).map(|_| ())
}

/// A halfword in both halves of a bundle.
fn halfword(comparison: &mut Comparison, sheet: &mut Sheet, bundle: usize, half: u16) -> Same {
    for other in AFTER {
        read(comparison, sheet, bundle, [half, other])?;
    }
    for other in BEFORE {
        read(comparison, sheet, bundle, [other, half])?;
    }
    Ok(())
}

/// Every opener of a 32-bit instruction with many second halfwords, in one
/// bundle and across two; those of a row with all of them.
fn pairs(comparison: &mut Comparison, random: &mut Random) -> Same {
    let mut sheet = Sheet::of_words(random, 64);
    for opener in 0xE800..=u16::MAX {
        if names::opens_a_row(opener) {
            sheet.profile = FULL;
            for second in 0..=u16::MAX {
                read(comparison, &mut sheet, 31, [opener, second])?;
            }
        }
        let some: Vec<u16> = (0..RANDOM_SECONDS).map(|_| random.halfword()).collect();
        for second in SECONDS.into_iter().chain(some) {
            let bundle = random.pick(&[0, 31, 62]);
            sheet.profile = codes::either(random);
            read(comparison, &mut sheet, bundle, [opener, second])?;
            sheet.put(bundle + 1, [second, asm::NOP]);
            read(comparison, &mut sheet, bundle, [asm::NOP, opener])?;
            comparison.read(sheet.code(), bundle as u32 + 1)?;
        }
    }
    Ok(())
}

/// Literal words of every row, named from either half.
fn words(comparison: &mut Comparison, random: &mut Random) -> Same {
    let mut sheet = Sheet::of_words(random, 64);
    for row in WORDS.iter().chain(&BAD_WORDS) {
        for number in 0..200 {
            let free = match number {
                0 => 0,
                1 => u32::MAX,
                _ => random.bits(),
            };
            let word = row.value | free & !row.mask;
            let at = random.between(1, 63);
            sheet.put(at, asm::word(word));
            sheet.never_return = sets::any(random);
            sheet.profile = codes::either(random);
            comparison.tally.class("words read", names::word(word));
            word_at(comparison, &mut sheet, at)?;
        }
    }
    Ok(())
}

/// Reads bundles that name the word at a bundle, in a whole page and in one
/// that ends before the word or just after it.
fn word_at(comparison: &mut Comparison, sheet: &mut Sheet, at: usize) -> Same {
    let service = asm::service(at as u16);
    let bundle = at - 1;
    for halves in [
        [asm::NOP, service],
        [service, asm::NOP],
        [service, 0xDE00],
        [service, asm::HALT],
        [asm::RETURN, service],
    ] {
        read(comparison, sheet, bundle, halves)?;
        comparison.read(sheet.first(at), bundle as u32)?;
        comparison.read(sheet.first(at + 1), bundle as u32)?;
    }
    Ok(())
}

/// Unknown profiles, wrong lengths, bundles past the page, and all at once. The
/// number is also known from the papers' order, without either side.
fn refusals(comparison: &mut Comparison, random: &mut Random) -> Same {
    let lengths = (0..=300).chain([511, 512, 1023, 1024, 65_536]);
    for length in lengths {
        let page: Vec<u8> = [0xFE, 0xE7, 0x00, 0xBF]
            .into_iter()
            .cycle()
            .take(length)
            .collect();
        let code = Code::new(&page, sets::any(random));
        for profile in UNKNOWN.into_iter().chain([FULL, SMALL]) {
            refused(comparison, code.under(profile))?;
        }
    }
    Ok(())
}

/// Bundles in a page and past it, and its count.
fn refused(comparison: &mut Comparison, code: Code) -> Same {
    let length = code.page.len();
    let known = match () {
        _ if code.profile > SMALL => 18,
        _ if length > 256 || !length.is_multiple_of(4) => 1,
        _ => 0,
    };
    let bundles = (length / 4) as u32;
    let far = [63, 64, 65, 1000, 1 << 30, (1 << 30) + 1, 1 << 31, u32::MAX];
    let near = [0, bundles.saturating_sub(1), bundles, bundles + 1];
    for bundle in near.into_iter().chain(far) {
        let past = known == 0 && bundle >= bundles;
        let answered = comparison.read(code, bundle)?;
        same_number(code, answered, if past { 8 } else { known })?;
    }
    same_number(code, comparison.count(code)?.0, known)
}

/// An error if the number that both sides answer is not the papers'.
fn same_number(code: Code, answered: u32, known: u32) -> Same {
    if answered == known {
        return Ok(());
    }
    let (length, profile) = (code.page.len(), code.profile);
    Err(format!(
        "page of {length} bytes, profile {profile}: both sides answer {answered}, 01 and 02 {known}"
    ))
}
