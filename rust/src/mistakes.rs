//! Deliberate mistakes: a comparison that does not find them is worth nothing.

mod images;
mod short;
mod windows;

use crate::second::arith::{condition_passed, Flags};
use crate::second::count::{
    count, greatest_closed, largest, starts_with_terminator, successors, Reading,
};
use crate::second::exits::{exit_of, Exit};
use crate::second::memory::validate;
use crate::second::page::{Code, NeverReturn, Page};
use crate::second::profile::{Profile, SMALL};
use crate::second::record::{
    unfit, Base, Fields, Record, AT_FLAGS, AT_KIND, AT_OFFSET, AT_PLACE, AT_SP, LAST_PLACE,
    MOST_EXTERNAL,
};
use crate::second::rules::Rules;

/// Each mistake's name, and the rules with it.
const MISTAKES: [(&str, Rules); 28] = [
    (
        "lt-from-n",
        Rules {
            condition: lt_from_n,
            ..Rules::RIGHT
        },
    ),
    (
        "first-successor",
        Rules {
            reading: first_successor,
            ..Rules::RIGHT
        },
    ),
    (
        "count-one-less",
        Rules {
            count: count_one_less,
            ..Rules::RIGHT
        },
    ),
    (
        "set-one-off",
        Rules {
            counted: one_off,
            run: one_off,
            ..Rules::RIGHT
        },
    ),
    (
        "set-complement",
        Rules {
            counted: complement,
            run: complement,
            ..Rules::RIGHT
        },
    ),
    (
        "count-without-set",
        Rules {
            counted: without_set,
            ..Rules::RIGHT
        },
    ),
    (
        "run-without-set",
        Rules {
            run: without_set,
            ..Rules::RIGHT
        },
    ),
    (
        "last-moves-on",
        Rules {
            stays: last_moves_on,
            ..Rules::RIGHT
        },
    ),
    (
        "budget-after",
        Rules {
            allowed: budget_after,
            ..Rules::RIGHT
        },
    ),
    (
        "budget-cut",
        Rules {
            allowed: budget_cut,
            ..Rules::RIGHT
        },
    ),
    (
        "small-with-cbnz",
        Rules {
            counted: with_cbnz,
            run: with_cbnz,
            ..Rules::RIGHT
        },
    ),
    (
        "small-with-movw",
        Rules {
            counted: with_movw,
            run: with_movw,
            ..Rules::RIGHT
        },
    ),
    (
        "profile-after-length",
        Rules {
            counted: length_first,
            run: length_first,
            ..Rules::RIGHT
        },
    ),
    (
        "profile-2-small",
        Rules {
            counted: two_as_small,
            run: two_as_small,
            ..Rules::RIGHT
        },
    ),
    (
        "count-without-profile",
        Rules {
            counted: small_as_full,
            ..Rules::RIGHT
        },
    ),
    (
        "run-without-profile",
        Rules {
            run: small_as_full,
            ..Rules::RIGHT
        },
    ),
    (
        "full-behind-terminator",
        Rules {
            reading: |page, bundle| largest(full_behind_terminator(page, bundle)),
            count: |page| {
                greatest_closed(page.bundles(), |bundle| {
                    full_behind_terminator(page, bundle)
                })
            },
            ..Rules::RIGHT
        },
    ),
    (
        "base-one-off",
        Rules {
            validate: base_one_off,
            ..Rules::RIGHT
        },
    ),
    (
        "place-128",
        Rules {
            out_of_range: place_128,
            ..Rules::RIGHT
        },
    ),
    (
        "alignment-before-bounds",
        Rules {
            unfit: alignment_first,
            ..Rules::RIGHT
        },
    ),
    (
        "external-by-most",
        Rules {
            unfit: |record, _, place_is_fit| unfit(record, MOST_EXTERNAL as usize, place_is_fit),
            ..Rules::RIGHT
        },
    ),
    (
        "place-before-external",
        Rules {
            unfit: place_before_external,
            ..Rules::RIGHT
        },
    ),
    (
        "last-failing-field",
        Rules {
            out_of_range: |fields| fields.out_of_range().last().copied(),
            ..Rules::RIGHT
        },
    ),
    (
        "position-in-fields",
        Rules {
            out_of_range: position_in_fields,
            ..Rules::RIGHT
        },
    ),
    (
        "none-offset-at-kind",
        Rules {
            out_of_range: none_offset_at_kind,
            ..Rules::RIGHT
        },
    ),
    (
        "no-record-at-sp",
        Rules {
            no_record: no_record_at_sp,
            ..Rules::RIGHT
        },
    ),
    (
        "no-record-at-last",
        Rules {
            no_record: |fields| fields.of_no_record().last().copied(),
            ..Rules::RIGHT
        },
    ),
    (
        "imm15-unshifted",
        Rules {
            exit: imm15_unshifted,
            ..Rules::RIGHT
        },
    ),
];

/// All mistakes, those of windows, of images and of the short form last.
fn all() -> impl Iterator<Item = (&'static str, Rules)> {
    let of_images = images::MISTAKES.into_iter().map(|(name, images)| {
        let rules = Rules {
            images,
            ..Rules::RIGHT
        };
        (name, rules)
    });
    let of_the_short_form = short::MISTAKES.into_iter().map(|(name, short)| {
        let rules = Rules {
            short,
            ..Rules::RIGHT
        };
        (name, rules)
    });
    let others = MISTAKES.into_iter().chain(windows::MISTAKES);
    others.chain(of_images).chain(of_the_short_form)
}

/// The names of all mistakes.
pub fn names() -> Vec<&'static str> {
    all().map(|(name, _)| name).collect()
}

/// The rules with the mistake of that name.
pub fn rules(name: &str) -> Option<Rules> {
    let mut found = all().filter(|(known, _)| *known == name);
    found.next().map(|(_, rules)| rules)
}

/// LT (11) taken from N alone.
fn lt_from_n(condition: u8, flags: Flags) -> bool {
    match condition {
        11 => flags.n,
        _ => condition_passed(condition, flags),
    }
}

/// The reader tells the first successor, not the largest.
fn first_successor(page: Page, bundle: usize) -> Reading {
    match successors(page, bundle).as_deref() {
        None => Reading::Bad,
        Some([]) => Reading::NoSuccessor,
        Some([first, ..]) => Reading::Largest(*first),
    }
}

/// The last bundle of a full page is left out.
fn count_one_less(page: Page) -> usize {
    match count(page) {
        64 => 63,
        right => right,
    }
}

/// The page with a set that is not the given one.
fn with_set(code: Code, set: NeverReturn) -> Result<Page, u8> {
    Page::new(code).map(|page| page.with(set))
}

/// Bit n + 1 stands for syscall n.
fn one_off(code: Code) -> Result<Page, u8> {
    with_set(code, NeverReturn(code.never_return.0 >> 1))
}

/// The set holds those that return.
fn complement(code: Code) -> Result<Page, u8> {
    with_set(code, NeverReturn(!code.never_return.0))
}

/// The set is not looked at.
fn without_set(code: Code) -> Result<Page, u8> {
    with_set(code, NeverReturn::NONE)
}

/// The place moves on at every direct syscall, though the count ends there.
fn last_moves_on(exit: Exit, _: NeverReturn) -> bool {
    exit.is_terminator(NeverReturn::NONE)
}

/// The budget is tested after an instruction, so that 0 allows one.
fn budget_after(budget: u32) -> u32 {
    budget.max(1)
}

/// The budget is cut to 24 bits.
fn budget_cut(budget: u32) -> u32 {
    budget % (1 << 24)
}

/// The page with another profile in the small one's place.
fn with_small(code: Code, small: Profile) -> Result<Page, u8> {
    let page = Page::new(code)?;
    Ok(match code.profile {
        SMALL => page.under(small),
        _ => page,
    })
}

/// The small profile has cbnz.
fn with_cbnz(code: Code) -> Result<Page, u8> {
    let small = Profile {
        has_narrow: |half| half & 0xFD00 != 0xB100,
        ..Profile::SMALL
    };
    with_small(code, small)
}

/// The small profile has movw.
fn with_movw(code: Code) -> Result<Page, u8> {
    let small = Profile {
        has_wide: |first, _| first & 0xFBF0 == 0xF240,
        ..Profile::SMALL
    };
    with_small(code, small)
}

/// The page's length is tested before the profile.
fn length_first(code: Code) -> Result<Page, u8> {
    match code.has_page_length() {
        true => Page::new(code),
        false => Err(1),
    }
}

/// Number 2 stands for the small profile too.
fn two_as_small(code: Code) -> Result<Page, u8> {
    Page::new(match code.profile {
        2 => code.under(SMALL),
        _ => code,
    })
}

/// The profile is not looked at, but for its number.
fn small_as_full(code: Code) -> Result<Page, u8> {
    with_small(code, Profile::FULL)
}

/// Behind a terminator any encoding of 01 will do.
fn full_behind_terminator(page: Page, bundle: usize) -> Option<Vec<usize>> {
    match starts_with_terminator(page, bundle) {
        Some(true) => successors(page.under(Profile::FULL), bundle),
        _ => successors(page, bundle),
    }
}

/// A RAM base lies one byte further.
fn base_one_off(v: u32, external: usize) -> Base {
    match validate(v, external) {
        Base::Ram(offset) => Base::Ram(offset + 1),
        other => other,
    }
}

/// A stored place may be one larger.
fn place_128(fields: &Fields) -> Option<u8> {
    let place = match fields.place {
        128 => LAST_PLACE,
        other => other,
    };
    (Rules::RIGHT.out_of_range)(&Fields { place, ..*fields })
}

/// SP is tested to be a multiple of 4 before its bounds.
fn alignment_first(record: &Record, external: usize, place_is_fit: bool) -> Option<u8> {
    match record.sp % 4 {
        0 => unfit(record, external, place_is_fit),
        _ => Some(42),
    }
}

/// The place is tested before an external offset.
fn place_before_external(record: &Record, external: usize, place_is_fit: bool) -> Option<u8> {
    match unfit(record, external, place_is_fit) {
        Some(44) if !place_is_fit => Some(5),
        right => right,
    }
}

/// The position is the number of the field, not of its first byte.
fn position_in_fields(fields: &Fields) -> Option<u8> {
    let number = match (Rules::RIGHT.out_of_range)(fields)? {
        AT_SP => 8,
        AT_KIND => 9,
        AT_OFFSET => 10,
        AT_PLACE => 11,
        AT_FLAGS => 12,
        other => other,
    };
    Some(number)
}

/// An offset with none is told at the kind.
fn none_offset_at_kind(fields: &Fields) -> Option<u8> {
    match (Rules::RIGHT.out_of_range)(fields)? {
        AT_OFFSET if fields.kind == 0 => Some(AT_KIND),
        right => Some(right),
    }
}

/// Bytes that hold no record are told at SP, where that is out of range too.
fn no_record_at_sp(fields: &Fields) -> Option<u8> {
    let right = (Rules::RIGHT.no_record)(fields)?;
    match fields.out_of_range().first() {
        Some(&AT_SP) => Some(AT_SP),
        _ => Some(right),
    }
}

/// The constant of a syscall is taken with the tail bit below it.
fn imm15_unshifted(low: u32, literal: u32) -> Option<Exit> {
    match exit_of(low, literal)? {
        Exit::Syscall { number, tail, .. } => Some(Exit::Syscall {
            number,
            immediate: literal & 0xFFFF,
            tail,
        }),
        other => Some(other),
    }
}
