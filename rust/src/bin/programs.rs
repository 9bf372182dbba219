//! Compares what the four programs print with the second program, to the byte: a
//! lister and a runner on 01's own pages and on pages made from a seed, and those that
//! pack and unpack on stored records.

#![forbid(unsafe_code)]

use std::collections::BTreeMap;
use std::fmt;
use std::io;
use std::process::ExitCode;

use marshbodkin_check::converters::{PACK, UNPACK};
use marshbodkin_check::outputs::output;
use marshbodkin_check::random::{self, DEFAULT_SEED};
use marshbodkin_check::second::machine::Stop;
use marshbodkin_check::second::rules::Rules;
use marshbodkin_check::second::text;
use marshbodkin_check::{mistakes, paper, show};

const USAGE: &str = "programs [--break NAME] LISTER RUNNER PACK UNPACK [SEED [PAGES]]";
const DEFAULT_PAGES: u64 = 400;
/// What the runner, whose record is fit, refuses a page by. Both must be met.
const REFUSALS: [u8; 2] = [1, 5];

/// What the command line asks for.
struct Request {
    lister: String,
    runner: String,
    pack: String,
    unpack: String,
    seed: u64,
    pages: u64,
    rules: Rules,
}

/// Reads the command line.
fn request(arguments: impl Iterator<Item = String>) -> Option<Request> {
    let mut arguments = arguments.peekable();
    let mut rules = Rules::RIGHT;
    if arguments.peek().is_some_and(|first| first == "--break") {
        arguments.next();
        rules = mistakes::rules(&arguments.next()?)?;
    }
    let (lister, runner) = (arguments.next()?, arguments.next()?);
    let (pack, unpack) = (arguments.next()?, arguments.next()?);
    let mut number = |default| match arguments.next() {
        None => Some(default),
        Some(text) => text.parse().ok(),
    };
    let (seed, pages) = (number(DEFAULT_SEED)?, number(DEFAULT_PAGES)?);
    arguments.next().is_none().then_some(Request {
        lister,
        runner,
        pack,
        unpack,
        seed,
        pages,
        rules,
    })
}

/// How many stops of each kind were seen.
#[derive(Default)]
struct Tally {
    pages: u64,
    service: u64,
    literal: u64,
    faults: [u64; 7],
    budget: u64,
    refused: BTreeMap<u8, u64>,
}

impl Tally {
    /// Nothing seen yet.
    fn new() -> Tally {
        Tally {
            refused: REFUSALS.map(|number| (number, 0)).into(),
            ..Tally::default()
        }
    }

    /// Counts a page by the stop of its run.
    fn add(&mut self, stop: Stop) {
        self.pages += 1;
        match stop {
            Stop::Service { literal: None, .. } => self.service += 1,
            Stop::Service { .. } => self.literal += 1,
            Stop::Fault(fault) => self.faults[usize::from(fault.number()) - 1] += 1,
            Stop::Budget => self.budget += 1,
            Stop::Refused(refusal) => *self.refused.entry(refusal.number).or_default() += 1,
            Stop::Unlisted => {}
        }
    }

    /// The refusals that were not met.
    fn unmet(&self) -> Vec<u8> {
        let unmet = self.refused.iter().filter(|(_, &seen)| seen == 0);
        unmet.map(|(&number, _)| number).collect()
    }
}

impl fmt::Display for Tally {
    fn fmt(&self, f: &mut fmt::Formatter) -> fmt::Result {
        write!(
            f,
            "pages {} refused {} stops: service {} service-with-literal {}",
            self.pages,
            self.refused.values().sum::<u64>(),
            self.service,
            self.literal
        )?;
        for (fault, seen) in (1..).zip(self.faults) {
            write!(f, " fault-{fault} {seen}")?;
        }
        write!(f, " budget {}", self.budget)?;
        for (number, seen) in &self.refused {
            write!(f, " refused-{number} {seen}")?;
        }
        Ok(())
    }
}

/// A difference between a program and the second program.
fn difference(program: &str, page: &[u8], expected: &str) -> io::Result<Option<String>> {
    let printed = output(program, page)?;
    Ok((printed != expected.as_bytes()).then(|| {
        format!(
            "page ({} bytes): {}\n{program} printed:\n{}second program:\n{expected}",
            page.len(),
            show::page(page),
            String::from_utf8_lossy(&printed),
        )
    }))
}

/// Compares lister and runner on one page, and counts it.
fn compare(request: &Request, page: &[u8], tally: &mut Tally) -> io::Result<Option<String>> {
    let answer = text::runner_answer(request.rules, page);
    let listing = text::lister(request.rules, page);
    if let Some(found) = difference(&request.lister, page, &listing)? {
        return Ok(Some(found));
    }
    if let Some(found) = difference(&request.runner, page, &text::answer(&answer))? {
        return Ok(Some(found));
    }
    tally.add(answer.stop);
    Ok(None)
}

/// Compares lister and runner on all pages; the answer tells whether all were equal,
/// and each refusal was met.
fn compare_pages(request: &Request) -> io::Result<bool> {
    let mut tally = Tally::new();
    let own = paper::PAGES
        .iter()
        .map(|page| (format!("fixed: {}", page.name), page.bytes()));
    let made =
        (0..request.pages).map(|number| (number.to_string(), random::page(request.seed, number)));
    for (name, page) in own.chain(made) {
        if let Some(found) = compare(request, &page, &mut tally)? {
            println!("difference: seed {}, page {name}\n{found}", request.seed);
            return Ok(false);
        }
    }
    println!("{tally}");
    let unmet = tally.unmet();
    for number in &unmet {
        println!("failed: refused-{number} was not met");
    }
    Ok(unmet.is_empty())
}

/// Compares those that pack and unpack; the answer tells whether all were equal, and
/// each answer was met.
fn compare_converters(request: &Request) -> io::Result<bool> {
    let mut equal = true;
    for (converter, program) in [(PACK, &request.pack), (UNPACK, &request.unpack)] {
        match converter.compare(program, request.rules, request.seed)? {
            Ok(met) => {
                println!("{met}");
                for failure in met.failures() {
                    println!("failed: {failure}");
                    equal = false;
                }
            }
            Err(found) => {
                println!("difference: seed {}, {found}", request.seed);
                return Ok(false);
            }
        }
    }
    Ok(equal)
}

/// Compares all four.
fn compare_all(request: &Request) -> io::Result<bool> {
    println!("seed {}", request.seed);
    Ok(compare_pages(request)? && compare_converters(request)?)
}

fn main() -> ExitCode {
    let Some(request) = request(std::env::args().skip(1)) else {
        eprintln!("usage: {USAGE}");
        return ExitCode::from(2);
    };
    match compare_all(&request) {
        Ok(true) => ExitCode::SUCCESS,
        Ok(false) => ExitCode::from(1),
        Err(error) => {
            eprintln!("cannot compare: {error}");
            ExitCode::from(2)
        }
    }
}

#[cfg(test)]
mod tests {
    use super::*;
    use marshbodkin_check::second::refusal::Refusal;

    #[test]
    fn each_refusal_must_be_met() {
        let mut tally = Tally::new();
        assert_eq!(tally.unmet(), [1, 5]);
        let shown = tally.to_string();
        assert!(shown.ends_with(" refused-1 0 refused-5 0"), "{shown}");
        tally.add(Stop::Refused(Refusal::plain(5)));
        assert_eq!(tally.unmet(), [1]);
        tally.add(Stop::Refused(Refusal::plain(1)));
        assert_eq!(tally.unmet(), []);
    }
}
