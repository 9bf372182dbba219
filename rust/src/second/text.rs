//! What the lister and the runner print for a page, and what the programs that pack
//! and unpack print for a stored record, to the byte. The first two give the empty
//! set of syscalls that never return and the full profile, the runner all of RAM as
//! its window.

use super::arith::Flags;
use super::count::Reading;
use super::machine::{run_by, Answer, Stop};
use super::memory::RAM_SIZE;
use super::page::{Code, Page};
use super::record::{Record, STORED};
use super::refusal::Refusal;
use super::rules::Rules;
use super::setting::Setting;
use super::short::MOST;

/// The runner's budget.
pub const BUDGET: u32 = 100_000;

/// The whole output of the lister.
pub fn lister(rules: Rules, bytes: &[u8]) -> String {
    let page = match (rules.counted)(Code::plain(bytes)) {
        Ok(page) => page,
        Err(number) => return refused(Refusal::plain(number)),
    };
    let count = (rules.count)(page);
    let mut text = format!("bundles {} count {count}\n", page.bundles());
    for bundle in 0..page.bundles() {
        text += &listed_bundle(rules, page, bundle, count);
    }
    text
}

/// One line of the listing.
fn listed_bundle(rules: Rules, page: Page, bundle: usize, count: usize) -> String {
    let (first, second) = page.bundle(bundle);
    let side = if bundle < count { "ok" } else { "out" };
    let successor = match (rules.reading)(page, bundle) {
        Reading::Bad => "bad".to_string(),
        Reading::NoSuccessor => "-".to_string(),
        Reading::Largest(largest) => largest.to_string(),
    };
    format!("{bundle} {first:04X} {second:04X} {side} {successor}\n")
}

/// The run that the runner makes: fresh record, RAM of zero bytes, no external
/// data.
pub fn runner_answer(rules: Rules, bytes: &[u8]) -> Answer {
    let mut ram = vec![0; RAM_SIZE];
    let setting = Setting::new(Code::plain(bytes));
    run_by(rules, setting, &mut ram, &Record::fresh(), BUDGET)
}

/// The whole output of the runner.
pub fn runner(bytes: &[u8]) -> String {
    answer(&runner_answer(Rules::RIGHT, bytes))
}

/// The five lines of an answer, or the one of a refusal.
pub fn answer(answer: &Answer) -> String {
    let first = match answer.stop {
        Stop::Refused(refusal) => return refused(refusal),
        Stop::Service { low, literal: None } => format!("service {low:02X}"),
        Stop::Service {
            low,
            literal: Some(word),
        } => format!("service {low:02X} {word:08X}"),
        Stop::Fault(fault) => format!("fault {}", fault.number()),
        Stop::Budget => "budget".to_string(),
        Stop::Unlisted => "unlisted".to_string(),
    };
    let registers = answer.record.registers.map(|value| format!("{value:08X}"));
    format!(
        "stop {first}\nsteps {}\nplace {}\nregs {}\nflags {}\n",
        answer.steps,
        answer.record.place,
        registers.join(" "),
        flags(answer.record.flags),
    )
}

/// The flags N, Z, C, V as digits.
fn flags(flags: Flags) -> String {
    [flags.n, flags.z, flags.c, flags.v]
        .map(|flag| if flag { '1' } else { '0' })
        .iter()
        .collect()
}

/// What packing the stored form on standard input prints: the short form as it is,
/// or the line of a refusal.
pub fn packed(rules: Rules, stored: &[u8]) -> Vec<u8> {
    let mut room = [0; MOST];
    match (rules.short.pack)(rules, stored, &mut room) {
        Ok(length) => room[..length].to_vec(),
        Err(refusal) => refused(refusal).into_bytes(),
    }
}

/// What unpacking the short form on standard input prints: the 44 bytes, or the line
/// of a refusal.
pub fn unpacked(rules: Rules, packed: &[u8]) -> Vec<u8> {
    let mut room = [0; STORED];
    match (rules.short.unpack)(rules, packed, &mut room) {
        Ok(()) => room.to_vec(),
        Err(refusal) => refused(refusal).into_bytes(),
    }
}

/// The line of a refusal: its number, then a space and what it carries.
pub fn refused(refusal: Refusal) -> String {
    let carried = match refusal.position {
        None => String::new(),
        Some(position) => format!(" {position}"),
    };
    format!("refused {}{carried}\n", refusal.number)
}
