//! Mistakes about images and their indexes.

use crate::second::image::{
    count_byte, fill, put, Asked, ImageRules, Lent, Test, BYTES, IMAGE, INDEX, LENGTH, MOST_PAGES,
    NUMBER, PAGE, PROFILE,
};
use crate::second::memory::RAM_SIZE;
use crate::second::page::{Code, NeverReturn};
use crate::second::profile::FULL;
use crate::second::rules::Rules;

const RIGHT: ImageRules = ImageRules::RIGHT;

/// The rules with other tests of a build.
const fn build(build: &'static [Test]) -> ImageRules {
    ImageRules { build, ..RIGHT }
}

/// The rules with other tests of a replacement.
const fn replace(replace: &'static [Test]) -> ImageRules {
    ImageRules { replace, ..RIGHT }
}

/// The rules with other tests of a run.
const fn run(run: &'static [Test]) -> ImageRules {
    ImageRules { run, ..RIGHT }
}

/// The rules with another test of the image's length.
macro_rules! with_image {
    ($test:expr) => {
        ImageRules {
            build: &[PROFILE, $test, INDEX],
            replace: &[PROFILE, $test, NUMBER, INDEX, LENGTH],
            run: &[PROFILE, $test, NUMBER, INDEX, BYTES],
            ..RIGHT
        }
    };
}

/// The rules with another test of the index's length.
macro_rules! with_index {
    ($test:expr) => {
        ImageRules {
            build: &[PROFILE, IMAGE, $test],
            replace: &[PROFILE, IMAGE, NUMBER, $test, LENGTH],
            run: &[PROFILE, IMAGE, NUMBER, $test, BYTES],
            ..RIGHT
        }
    };
}

/// Each mistake's name, and the rules with it.
pub const MISTAKES: [(&str, ImageRules); 33] = [
    ("build-12-before-18", build(&[IMAGE, PROFILE, INDEX])),
    ("build-14-before-12", build(&[PROFILE, INDEX, IMAGE])),
    (
        "replace-12-before-18",
        replace(&[IMAGE, PROFILE, NUMBER, INDEX, LENGTH]),
    ),
    (
        "replace-13-before-12",
        replace(&[PROFILE, NUMBER, IMAGE, INDEX, LENGTH]),
    ),
    (
        "replace-14-before-13",
        replace(&[PROFILE, IMAGE, INDEX, NUMBER, LENGTH]),
    ),
    (
        "replace-1-before-14",
        replace(&[PROFILE, IMAGE, NUMBER, LENGTH, INDEX]),
    ),
    (
        "replace-1-first",
        replace(&[LENGTH, PROFILE, IMAGE, NUMBER, INDEX]),
    ),
    (
        "run-12-before-18",
        run(&[IMAGE, PROFILE, NUMBER, INDEX, BYTES]),
    ),
    (
        "run-13-before-12",
        run(&[PROFILE, NUMBER, IMAGE, INDEX, BYTES]),
    ),
    (
        "run-14-before-13",
        run(&[PROFILE, IMAGE, INDEX, NUMBER, BYTES]),
    ),
    (
        "run-21-before-14",
        run(&[PROFILE, IMAGE, NUMBER, BYTES, INDEX]),
    ),
    (
        "run-2-before-21",
        run(&[PROFILE, IMAGE, NUMBER, INDEX, RAM, BYTES]),
    ),
    (
        "own-byte-unchecked",
        run(&[PROFILE, IMAGE, NUMBER, INDEX, OTHER_BYTES]),
    ),
    (
        "own-byte-alone",
        run(&[PROFILE, IMAGE, NUMBER, INDEX, OWN_BYTE]),
    ),
    (
        "last-byte-unchecked",
        run(&[PROFILE, IMAGE, NUMBER, INDEX, ALL_BUT_LAST]),
    ),
    (
        "first-byte-unchecked",
        run(&[PROFILE, IMAGE, NUMBER, INDEX, ALL_BUT_FIRST]),
    ),
    (
        "byte-above-accepted",
        run(&[PROFILE, IMAGE, NUMBER, INDEX, BYTE_BELOW]),
    ),
    (
        "byte-of-page-before",
        ImageRules {
            counted: |image, number| image.index[number.saturating_sub(1)],
            ..RIGHT
        },
    ),
    (
        "run-of-page-before",
        ImageRules {
            run_page: |number| number.saturating_sub(1),
            ..RIGHT
        },
    ),
    (
        "page-of-252",
        replace(&[PROFILE, IMAGE, NUMBER, INDEX, LENGTH_BUT_252]),
    ),
    ("pages-4097", with_image!((12, has_more_than_one_too_many))),
    ("no-page", with_image!((12, is_not_empty_or_right))),
    ("image-cut", with_image!((12, has_no_pages))),
    ("longer-index", with_index!((14, is_shorter))),
    (
        "number-cut",
        ImageRules {
            replace: &[PROFILE, IMAGE, NUMBER_CUT, INDEX, LENGTH],
            put: |rules, lent, number, page| put(rules, lent, number % (1 << 16), page),
            ..RIGHT
        },
    ),
    (
        "refused-page-written",
        ImageRules {
            refused_replace: page_written,
            ..RIGHT
        },
    ),
    (
        "refused-byte-written",
        ImageRules {
            refused_replace: byte_written,
            ..RIGHT
        },
    ),
    (
        "refused-index-written",
        ImageRules {
            refused_build: index_written,
            ..RIGHT
        },
    ),
    (
        "count-under-empty-set",
        ImageRules {
            byte: |rules, code| {
                count_byte(
                    rules,
                    Code {
                        never_return: NeverReturn::NONE,
                        ..code
                    },
                )
            },
            ..RIGHT
        },
    ),
    (
        "count-under-profile-0",
        ImageRules {
            byte: |rules, code| count_byte(rules, code.under(FULL)),
            ..RIGHT
        },
    ),
    (
        "index-from-the-end",
        ImageRules {
            fill: |rules, lent| {
                fill(rules, lent);
                lent.index.reverse();
            },
            ..RIGHT
        },
    ),
    (
        "replaced-one-behind",
        ImageRules {
            put: one_behind,
            ..RIGHT
        },
    ),
    (
        "replaced-and-built",
        ImageRules {
            put: |rules, lent, number, page| {
                put(rules, lent, number, page);
                fill(rules, lent);
            },
            ..RIGHT
        },
    ),
];

/// RAM's length, which a lone page's tests have too.
const RAM: Test = (2, |asked| asked.ram != RAM_SIZE);

/// The byte of the page that is run is tested by itself.
const OWN_BYTE: Test = (21, |asked| is_wrong(asked, asked.number as usize));

/// That one is not tested.
const OTHER_BYTES: Test = (21, |asked| {
    let mut others = (0..asked.image.pages()).filter(|&number| number != asked.number as usize);
    others.any(|number| is_wrong(asked, number))
});

/// The test ends before the last byte.
const ALL_BUT_LAST: Test = (21, |asked| {
    (0..asked.image.pages() - 1).any(|number| is_wrong(asked, number))
});

/// It begins behind the first.
const ALL_BUT_FIRST: Test = (21, |asked| {
    (1..asked.image.pages()).any(|number| is_wrong(asked, number))
});

/// Only a byte below the count is wrong.
const BYTE_BELOW: Test = (21, |asked| {
    let below = |number| asked.image.index[number] < right_byte(asked, number);
    (0..asked.image.pages()).any(below)
});

/// The count of a page.
fn right_byte(asked: &Asked, number: usize) -> u8 {
    count_byte(asked.rules, asked.image.code(number))
}

/// True if the byte of a page is not its count.
fn is_wrong(asked: &Asked, number: usize) -> bool {
    asked.image.index[number] != right_byte(asked, number)
}

/// A page of 252 bytes is taken too.
const LENGTH_BUT_252: Test = (1, |asked| !matches!(asked.page.len(), PAGE | 252));

/// A page's number is cut to 16 bits.
const NUMBER_CUT: Test = (13, |asked| {
    usize::from(asked.number as u16) >= asked.image.pages()
});

/// One page more is allowed.
fn has_more_than_one_too_many(asked: &Asked) -> bool {
    !asked.image.has_length() && asked.image.bytes.len() != PAGE * (MOST_PAGES + 1)
}

/// An image of no page is allowed.
fn is_not_empty_or_right(asked: &Asked) -> bool {
    !asked.image.has_length() && !asked.image.bytes.is_empty()
}

/// Bytes behind the last whole page are left out.
fn has_no_pages(asked: &Asked) -> bool {
    !(1..=MOST_PAGES).contains(&asked.image.pages())
}

/// An index may be longer than the image has pages.
fn is_shorter(asked: &Asked) -> bool {
    asked.image.index.len() < asked.image.pages()
}

/// A replacement that the index's length refuses puts the page.
fn page_written(refusal: u8, lent: &mut Lent, number: u32, page: &[u8]) {
    if refusal == 14 && page.len() == PAGE {
        lent.bytes[PAGE * number as usize..][..PAGE].copy_from_slice(page);
    }
}

/// One that the page's length refuses clears the byte.
fn byte_written(refusal: u8, lent: &mut Lent, number: u32, _: &[u8]) {
    if refusal == 1 {
        lent.index[number as usize] = 0;
    }
}

/// A build that the index's length refuses writes what fits of it.
fn index_written(rules: Rules, refusal: u8, lent: &mut Lent) {
    if refusal == 14 {
        for number in 0..lent.image().pages().min(lent.index.len()) {
            lent.index[number] = count_byte(rules, lent.image().code(number));
        }
    }
}

/// A page goes into the place behind the one asked for, if there is one.
fn one_behind(rules: Rules, lent: &mut Lent, number: usize, page: &[u8]) {
    let last = lent.image().pages() - 1;
    put(rules, lent, (number + 1).min(last), page);
}
