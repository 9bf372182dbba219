//! Compares the library's calls with the second program, on equal bytes made
//! from a seed and on 01's own pages.

#![forbid(unsafe_code)]

use std::process::ExitCode;

use marshbodkin_check::compare;
use marshbodkin_check::mistakes;
use marshbodkin_check::random::DEFAULT_SEED;
use marshbodkin_check::second::rules::Rules;

const USAGE: &str = "library [--break NAME] [--from PART] [SEED]";

/// What the command line asks for.
struct Request {
    rules: Rules,
    /// The part that is compared first.
    from: &'static str,
    seed: u64,
}

/// Reads the command line.
fn request(arguments: impl Iterator<Item = String>) -> Option<Request> {
    let mut arguments = arguments.peekable();
    let parts = compare::names();
    let (mut rules, mut from) = (Rules::RIGHT, parts[0]);
    if arguments.next_if(|word| word == "--break").is_some() {
        rules = mistakes::rules(&arguments.next()?)?;
    }
    if arguments.next_if(|word| word == "--from").is_some() {
        let asked = arguments.next()?;
        from = parts.into_iter().find(|name| *name == asked)?;
    }
    let seed = match arguments.next() {
        None => DEFAULT_SEED,
        Some(text) => text.parse().ok()?,
    };
    let request = Request { rules, from, seed };
    arguments.next().is_none().then_some(request)
}

fn main() -> ExitCode {
    let Some(Request { rules, from, seed }) = request(std::env::args().skip(1)) else {
        let (names, parts) = (mistakes::names().join(", "), compare::names().join(", "));
        eprintln!("usage: {USAGE}\nnames: {names}\nparts: {parts}");
        return ExitCode::from(2);
    };
    println!("seed {seed}");
    let tally = match compare::compare_all(rules, seed, from) {
        Ok(tally) => tally,
        Err(found) => {
            println!("difference: seed {seed}, {found}");
            return ExitCode::from(1);
        }
    };
    print!("{tally}");
    let failures = tally.failures();
    for failure in &failures {
        println!("failed: {failure}");
    }
    ExitCode::from(u8::from(!failures.is_empty()))
}
