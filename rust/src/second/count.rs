//! 01's "Successors and the count", by the definition, with 02's syscalls that
//! never return among the terminators, and over the encodings of a profile.

use super::decode::{opens_wide, Instruction};
use super::page::{Code, Page};
use super::rules::Rules;
use super::services::{literal_service, Service};

/// The bundle reader's answer.
#[derive(Clone, Copy, Debug, PartialEq, Eq)]
pub enum Reading {
    Bad,
    NoSuccessor,
    Largest(usize),
}

/// What one instruction of a bundle brings.
struct Flow {
    target: Option<usize>,
    terminator: bool,
}

/// The successors of a bundle, or nothing if the bundle is bad.
pub fn successors(page: Page, bundle: usize) -> Option<Vec<usize>> {
    let (first, second) = page.bundle(bundle);
    let next = bundle + 1;
    if opens_wide(first) {
        return page.wide(first, second).map(|_| vec![next]);
    }
    if opens_wide(second) {
        return None;
    }
    let (first, second) = (page.narrow(first)?, page.narrow(second)?);
    let start = flow(page, first, 4 * bundle)?;
    let mut all: Vec<usize> = start.target.into_iter().collect();
    if start.terminator {
        return Some(all);
    }
    let rest = flow(page, second, 4 * bundle + 2)?;
    all.extend(rest.target);
    if !rest.terminator {
        all.push(next);
    }
    Some(all)
}

/// The flow of a 16-bit instruction at an address, or nothing if bad.
#[inline] // A count takes nearly twice as long without.
fn flow(page: Page, instruction: Instruction, address: usize) -> Option<Flow> {
    match instruction {
        Instruction::Branch { offset } => Some(Flow {
            target: Some(target_bundle(address, offset)?),
            terminator: true,
        }),
        Instruction::ConditionalBranch { offset, .. }
        | Instruction::CompareBranch { offset, .. } => Some(Flow {
            target: Some(target_bundle(address, offset)?),
            terminator: false,
        }),
        Instruction::Service { service, .. } => Some(Flow {
            target: None,
            terminator: is_terminator(page, service)?,
        }),
        _ => Some(Flow {
            target: None,
            terminator: false,
        }),
    }
}

/// Whether a service ends the flow, or nothing if its literal is bad.
fn is_terminator(page: Page, service: Service) -> Option<bool> {
    let action = match service {
        Service::Direct(action) => action,
        Service::ByLiteral(number) => literal_service(page.word(number)?)?,
    };
    Some(action.is_terminator(page.never_return()))
}

/// The byte address that a branch at `address` goes to; PC is `address` + 4.
pub fn branch_target(address: usize, offset: i32) -> i64 {
    address as i64 + 4 + i64::from(offset)
}

/// The bundle a branch goes to, or nothing where that makes the bundle bad.
fn target_bundle(address: usize, offset: i32) -> Option<usize> {
    let target = usize::try_from(branch_target(address, offset)).ok()?;
    target.is_multiple_of(4).then_some(target / 4)
}

/// The reader's answer for a bundle of the page.
pub fn read_bundle(page: Page, bundle: usize) -> Reading {
    largest(successors(page, bundle))
}

/// The reader's answer for a bundle with such successors.
pub fn largest(successors: Option<Vec<usize>>) -> Reading {
    match successors {
        None => Reading::Bad,
        Some(all) => match all.into_iter().max() {
            None => Reading::NoSuccessor,
            Some(largest) => Reading::Largest(largest),
        },
    }
}

/// The bundle reader with its refusals, 18, 1 and 8; refused, the bundle is bad.
pub fn read_bundle_of(rules: Rules, code: Code, bundle: usize) -> (Reading, Option<u8>) {
    match (rules.counted)(code) {
        Err(number) => (Reading::Bad, Some(number)),
        Ok(page) if bundle >= page.bundles() => (Reading::Bad, Some(8)),
        Ok(page) => ((rules.reading)(page, bundle), None),
    }
}

/// The greatest closed prefix: every prefix is tried, the largest first.
pub fn count(page: Page) -> usize {
    greatest_closed(page.bundles(), |bundle| successors(page, bundle))
}

/// The same of so many bundles with such successors.
pub fn greatest_closed(bundles: usize, successors: impl Fn(usize) -> Option<Vec<usize>>) -> usize {
    let all: Vec<_> = (0..bundles).map(successors).collect();
    (0..=bundles)
        .rev()
        .find(|&m| is_closed(&all[..m]))
        .unwrap_or(0)
}

/// True if bundles with these successors are not bad and all lead below their number.
fn is_closed(prefix: &[Option<Vec<usize>>]) -> bool {
    let below = |all: &Vec<usize>| all.iter().all(|&successor| successor < prefix.len());
    prefix.iter().all(|all| all.as_ref().is_some_and(below))
}

/// The count with its refusals, 18 and 1; refused, it is 0.
pub fn count_of(rules: Rules, code: Code) -> (usize, Option<u8>) {
    match (rules.counted)(code) {
        Err(number) => (0, Some(number)),
        Ok(page) => ((rules.count)(page), None),
    }
}

/// Whether a terminator stands first in a bundle; nothing where that is bad or
/// a 32-bit instruction.
pub fn starts_with_terminator(page: Page, bundle: usize) -> Option<bool> {
    let (first, _) = page.bundle(bundle);
    let start = flow(page, page.narrow(first)?, 4 * bundle)?;
    Some(start.terminator)
}

/// 01's "Fit place", by the page's count.
pub fn is_fit_place(rules: Rules, page: Page, place: usize) -> bool {
    is_fit_below((rules.count)(page), page, place)
}

/// The same by a count that is told: below it, and an odd place needs a bundle of two
/// 16-bit instructions whose first is no terminator.
pub fn is_fit_below(count: usize, page: Page, place: usize) -> bool {
    let bundle = place / 2;
    bundle < count
        && (place.is_multiple_of(2) || starts_with_terminator(page, bundle) == Some(false))
}
