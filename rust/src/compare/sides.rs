//! Each call on both sides: the library's, and the second program's with its
//! answer in the library's numbers.

use marshbodkin::raw::{self, Answer as Numbers, ExitNumbers};

use super::report;
use super::{Comparison, Same};
use crate::second::count::{count_of, read_bundle_of, Reading};
use crate::second::exits::Exit;
use crate::second::machine::{run_bytes, Stop};
use crate::second::memory::{validate_with, RAM_SIZE};
use crate::second::page::Code;
use crate::second::profile::{FULL, SMALL};
use crate::second::record::{given, read_back, store_bytes, stored_bytes, Base, Record, STORED};
use crate::second::refusal::Refusal;
use crate::second::rules::Rules;
use crate::second::setting::Setting;
use crate::second::window::Window;

/// The library's own number: the bytes hold no record.
pub const NO_RECORD: u32 = 255;
/// 01's refusal of a form or a room that is not of 44 bytes.
const FORM_LENGTH: Told = Told::plain(6);

/// A code, and the position that comes back beside it: 0 where none is carried.
#[derive(Clone, Copy, Debug, PartialEq, Eq, PartialOrd, Ord)]
pub struct Told {
    pub code: u32,
    pub position: u32,
}

impl Told {
    /// The call is not refused.
    pub const ACCEPTED: Told = Told::plain(0);

    /// A code that carries nothing.
    pub const fn plain(code: u32) -> Told {
        Told { code, position: 0 }
    }

    /// A code with a position.
    pub const fn at(code: u32, position: u32) -> Told {
        Told { code, position }
    }

    /// What the second program's refusal is told by.
    pub fn of(refusal: Option<Refusal>) -> Told {
        refusal.map_or(Told::ACCEPTED, |refusal| Told {
            code: refusal.number.into(),
            position: refusal.position.map_or(0, u32::from),
        })
    }

    /// That a call on which both sides are equal also answers as the papers say.
    pub fn held_to(self, papers: Told, call: &str) -> Same {
        if self == papers {
            return Ok(());
        }
        Err(format!(
            "{call}: both sides answer {self:?}, the papers {papers:?}"
        ))
    }
}

/// What a step or a run is handed beside RAM. A step has budget 1.
#[derive(Clone, Copy)]
pub struct Handed<'a> {
    pub code: Code<'a>,
    pub external: &'a [u8],
    pub window: Window,
    pub record: &'a [u8],
    pub budget: u32,
}

impl<'a> Handed<'a> {
    /// The same with another budget.
    pub fn with_budget(self, budget: u32) -> Handed<'a> {
        Handed { budget, ..self }
    }

    /// The part of it that is a setting.
    fn setting(&self) -> Setting<'a> {
        Setting {
            code: self.code,
            external: self.external,
            window: self.window,
        }
    }
}

/// What a step or a run gives beside RAM.
#[derive(Clone, Debug, PartialEq, Eq)]
pub struct Given {
    pub numbers: Numbers,
    pub record: Vec<u8>,
}

impl Given {
    /// The code and its position.
    pub fn told(&self) -> Told {
        Told::at(self.numbers.code, self.numbers.position)
    }
}

/// A RAM for each side, equal before and after each call.
#[derive(Clone)]
pub struct Rams {
    pub library: Vec<u8>,
    pub second: Vec<u8>,
    /// What the library's run with budget 1 has in a step; after a run it is
    /// empty, and the next step copies it anew.
    pub(super) spare: Vec<u8>,
}

impl Rams {
    /// Two RAMs of these bytes.
    pub fn new(bytes: Vec<u8>) -> Rams {
        Rams {
            library: bytes.clone(),
            second: bytes,
            spare: Vec::new(),
        }
    }

    /// Two RAMs of zero bytes.
    pub fn zero() -> Rams {
        Rams::new(vec![0; RAM_SIZE])
    }
}

/// A refusal's number, or 0.
fn code(refusal: Option<u8>) -> u32 {
    refusal.map_or(0, u32::from)
}

/// The record that bytes hold, if they hold one.
pub fn record_in(bytes: &[u8]) -> Option<Record> {
    given(Rules::RIGHT, bytes).ok()
}

/// The second program's stop and steps in the library's numbers.
pub(super) fn numbers(stop: Stop, steps: u32) -> Numbers {
    let (kind, value, literal) = match stop {
        Stop::Budget => (0, 0, 0),
        Stop::Service { low, literal: None } => (1, low, 0),
        Stop::Service {
            low,
            literal: Some(word),
        } => (2, low, word),
        Stop::Fault(fault) => (3, fault.number(), 0),
        Stop::Unlisted => (4, 0, 0),
        Stop::Refused(refusal) => (5, refusal.number, 0),
    };
    let Told { code, position } = Told::of(stop.refusal());
    Numbers {
        code,
        kind,
        value: u32::from(value),
        literal,
        position,
        steps,
    }
}

/// A run of the second program.
fn second_run(rules: Rules, handed: &Handed, ram: &mut [u8]) -> Given {
    let mut record = handed.record.to_vec();
    let (stop, steps) = run_bytes(rules, handed.setting(), ram, &mut record, handed.budget);
    let numbers = numbers(stop, steps);
    Given { numbers, record }
}

/// A page, its set and its profile as the library takes them.
fn library_code(code: Code<'_>) -> (&[u8], u64, u32) {
    (code.page, code.never_return.0, code.profile)
}

/// A window as the library takes it.
pub(super) fn library_window(window: Window) -> marshbodkin::Window {
    marshbodkin::Window {
        start: window.start,
        end: window.end,
    }
}

/// A run of the library.
fn library_run(handed: &Handed, ram: &mut [u8]) -> Given {
    let mut record = handed.record.to_vec();
    let (page, set, profile) = library_code(handed.code);
    let window = library_window(handed.window);
    let numbers = raw::run(
        page,
        set,
        profile,
        ram,
        handed.external,
        window,
        &mut record,
        handed.budget,
    );
    Given { numbers, record }
}

/// A step of the library.
fn library_step(handed: &Handed, ram: &mut [u8]) -> Given {
    let mut record = handed.record.to_vec();
    let (page, set, profile) = library_code(handed.code);
    let window = library_window(handed.window);
    let external = handed.external;
    let numbers = raw::step(page, set, profile, ram, external, window, &mut record);
    Given { numbers, record }
}

/// The reader's answer in numbers.
fn reading_numbers((reading, refusal): (Reading, Option<u8>)) -> (u32, u32, u32) {
    let (kind, largest) = match reading {
        Reading::Bad => (0, 0),
        Reading::NoSuccessor => (1, 0),
        Reading::Largest(largest) => (2, largest as u32),
    };
    (code(refusal), kind, largest)
}

/// A base in numbers.
fn base_numbers((base, refusal): (Base, Option<u8>)) -> (u32, u32, u32) {
    let (kind, offset) = match base {
        Base::None => (0, 0),
        Base::Ram(offset) => (1, offset),
        Base::External(offset) => (2, offset),
    };
    (code(refusal), kind, offset)
}

/// An exit in numbers.
fn exit_numbers(exit: Option<Exit>) -> ExitNumbers {
    let tailed = |kind: u32, tail: bool| kind + u32::from(tail);
    let (kind, number, immediate, address, words) = match exit {
        None => (0, 0, 0, 0, 0),
        Some(Exit::Return) => (1, 0, 0, 0, 0),
        Some(Exit::Call {
            address,
            words,
            tail,
        }) => (tailed(2, tail), 0, 0, address, words),
        Some(Exit::Syscall {
            number,
            immediate,
            tail,
        }) => (tailed(4, tail), number, immediate, 0, 0),
        Some(Exit::LongBranch { address }) => (6, 0, 0, address, 0),
        Some(Exit::DirectSyscall { number }) => (7, number, 0, 0, 0),
        Some(Exit::Breakpoint) => (8, 0, 0, 0, 0),
        Some(Exit::CallRegister { register, tail }) => (tailed(9, tail), register as u32, 0, 0, 0),
    };
    ExitNumbers {
        kind,
        number,
        immediate,
        address,
        words,
    }
}

impl Comparison {
    /// A run.
    pub fn run(&mut self, handed: &Handed, rams: &mut Rams) -> Result<Given, String> {
        rams.spare.clear();
        let library = library_run(handed, &mut rams.library);
        let second = second_run(self.rules, handed, &mut rams.second);
        if library != second || rams.library != rams.second {
            let sides = [(&library, &rams.library[..]), (&second, &rams.second)];
            return Err(report::runs("run", handed, sides));
        }
        self.tally.stop("run", handed, &second);
        Ok(second)
    }

    /// A step; the library's run with budget 1 must give the same.
    pub fn step(&mut self, handed: &Handed, rams: &mut Rams) -> Result<Given, String> {
        if rams.spare.is_empty() {
            rams.spare.clone_from(&rams.library);
        }
        let stepped = library_step(handed, &mut rams.library);
        let ran = library_run(handed, &mut rams.spare);
        let second = second_run(self.rules, handed, &mut rams.second);
        let expected = (&second, &rams.second[..]);
        if stepped != second || rams.library != rams.second {
            let sides = [(&stepped, &rams.library[..]), expected];
            return Err(report::runs("step", handed, sides));
        }
        if ran != second || rams.spare != rams.second {
            let sides = [(&ran, &rams.spare[..]), expected];
            return Err(report::runs("run with budget 1", handed, sides));
        }
        self.tally.stop("step", handed, &second);
        self.tally.instruction(handed, &second);
        self.tally.reached(handed, &second);
        Ok(second)
    }

    /// The count, and the number of its refusal.
    pub fn count(&mut self, counted: Code) -> Result<(u32, u32), String> {
        let (page, set, profile) = library_code(counted);
        let library = raw::count(page, set, profile);
        let (count, refusal) = count_of(self.rules, counted);
        let second = (code(refusal), count as u32);
        if library != second {
            return Err(report::page_call("count", counted, library, second));
        }
        self.tally.count(counted, second.0);
        Ok(second)
    }

    /// The counts under the full profile and the small one, which is never the
    /// larger.
    pub fn counts(&mut self, counted: Code) -> Result<[u32; 2], String> {
        let (_, full) = self.count(counted.under(FULL))?;
        let (_, small) = self.count(counted.under(SMALL))?;
        if small > full {
            let page = report::code(counted);
            return Err(format!(
                "both sides count {full} under the full profile, {small} under the small one\n{page}"
            ));
        }
        self.tally.counts(full, small);
        Ok([full, small])
    }

    /// The reader; the answer is the number of its refusal.
    pub fn read(&mut self, code: Code, bundle: u32) -> Result<u32, String> {
        let (page, set, profile) = library_code(code);
        let library = raw::read_bundle(page, set, profile, bundle);
        let second = reading_numbers(read_bundle_of(self.rules, code, bundle as usize));
        if library != second {
            let call = format!("read_bundle {bundle}");
            return Err(report::page_call(&call, code, library, second));
        }
        self.tally.reading(code, bundle as usize, second);
        Ok(second.0)
    }

    /// Base validation.
    pub fn validate(&mut self, v: u32, external: &[u8]) -> Same {
        let library = raw::validate(v, external);
        let second = base_numbers(validate_with(self.rules, v, external));
        if library != second {
            return Err(report::validation(v, external, library, second));
        }
        self.tally.base(second);
        Ok(())
    }

    /// Storing a record in room of these bytes.
    pub fn store(&mut self, record: &[u8], room: &[u8]) -> Result<(Told, Vec<u8>), String> {
        let (mut library, mut second) = (room.to_vec(), room.to_vec());
        let (code, position) = raw::store(record, &mut library);
        let answered = Told { code, position };
        let expected = Told::of(store_bytes(self.rules, record, &mut second));
        if (answered, &library) != (expected, &second) {
            let sides = [(answered, &library), (expected, &second)];
            return Err(report::form("store", record, room, sides));
        }
        self.tally.call("store", expected);
        Ok((expected, second))
    }

    /// Reading a stored form back to room of these bytes.
    pub fn load(&mut self, stored: &[u8], room: &[u8]) -> Result<(Told, Vec<u8>), String> {
        let (mut library, mut second) = (room.to_vec(), room.to_vec());
        let (code, position) = raw::load(stored, &mut library);
        let answered = Told { code, position };
        let expected = if room.len() == STORED {
            let (record, refusal) = read_back(self.rules, stored);
            if refusal.is_none() {
                second = stored_bytes(&record);
            }
            Told::of(refusal)
        } else {
            FORM_LENGTH
        };
        if (answered, &library) != (expected, &second) {
            let sides = [(answered, &library), (expected, &second)];
            return Err(report::form("load", stored, room, sides));
        }
        self.tally.call("load", expected);
        Ok((expected, second))
    }

    /// The fresh record in room of these bytes.
    pub fn fresh(&mut self, room: &[u8]) -> Same {
        let (mut library, mut second) = (room.to_vec(), room.to_vec());
        let answered = Told::plain(raw::fresh(&mut library));
        let expected = if room.len() == STORED {
            second = stored_bytes(&Record::fresh());
            Told::ACCEPTED
        } else {
            FORM_LENGTH
        };
        if (answered, &library) != (expected, &second) {
            let sides = [(answered, &library), (expected, &second)];
            return Err(report::form("fresh", &[], room, sides));
        }
        self.tally.call("fresh", expected);
        Ok(())
    }

    /// What an exit asks of the host.
    pub fn exit(&mut self, low: u32, literal: u32) -> Same {
        let library = raw::exit(low, literal);
        let second = exit_numbers((self.rules.exit)(low, literal));
        if library != second {
            return Err(report::exit(low, literal, library, second));
        }
        self.tally.exit(second.kind);
        Ok(())
    }
}
