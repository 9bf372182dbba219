//! A program and what it is run with.

use crate::raw;
use crate::record::{Base, Record};
use crate::refusal::{verdict, Refusal};
use crate::stop::Stopped;
use crate::window::Window;
use crate::PROFILE_FULL;

/// What the reader says of a bundle.
#[derive(Clone, Copy, Debug, PartialEq, Eq)]
#[non_exhaustive]
pub enum Reading {
    /// The bundle is bad.
    Bad,
    /// It has no successor.
    Nothing,
    /// Its largest successor.
    Largest(u32),
    /// Numbers that this version doesn't know.
    Unknown {
        /// What is said.
        kind: u32,
        /// The largest successor.
        largest: u32,
    },
}

impl Reading {
    /// What the reader's two numbers say.
    fn of(kind: u32, largest: u32) -> Reading {
        match kind {
            0 => Reading::Bad,
            1 => Reading::Nothing,
            2 => Reading::Largest(largest),
            kind => Reading::Unknown { kind, largest },
        }
    }
}

/// A page, which is code up to its count, the syscalls that never return, and the
/// profile of the processor that it is for.
#[derive(Clone, Copy, Debug)]
pub struct Program<'a> {
    page: &'a [u8],
    never_return: u64,
    profile: u32,
}

impl<'a> Program<'a> {
    /// The program of a page, where every direct syscall returns, in the full
    /// profile. Any bytes will do here; calls refuse them.
    pub fn new(page: &'a [u8]) -> Program<'a> {
        Program {
            page,
            never_return: 0,
            profile: PROFILE_FULL,
        }
    }

    /// The same where the direct syscalls of a set never return, each by its
    /// [`syscall_bit`](crate::syscall_bit), several joined by `|`; the set takes
    /// the place of one given before. Each of them ends the flow, as a return
    /// does, and a run that stops at one keeps its place there.
    ///
    /// ```
    /// use marshbodkin::{syscall_bit, Program};
    ///
    /// let program = Program::new(&[0x00, 0xBF, 0x80, 0xDF]); // BF00 DF80
    /// assert_eq!(program.count(), Ok(0));
    /// assert_eq!(program.never_return(syscall_bit(0)).count(), Ok(1));
    /// ```
    #[must_use]
    pub fn never_return(self, set: u64) -> Program<'a> {
        let never_return = set;
        Program {
            never_return,
            ..self
        }
    }

    /// The same in a profile: [`PROFILE_FULL`] or
    /// [`PROFILE_SMALL`](crate::PROFILE_SMALL). A bundle with an encoding that the
    /// profile lacks is bad. Any number will do here; calls refuse an unknown one.
    ///
    /// ```
    /// use marshbodkin::{Program, Refusal, PROFILE_SMALL};
    ///
    /// let program = Program::new(&[0x41, 0xF2, 0x34, 0x20, 0x00, 0xBF, 0x00, 0xDF]); // movw
    /// assert_eq!(program.count(), Ok(2));
    /// assert_eq!(program.profile(PROFILE_SMALL).count(), Ok(0));
    /// assert_eq!(program.profile(2).count(), Err(Refusal::UnknownProfile));
    /// ```
    #[must_use]
    pub fn profile(self, number: u32) -> Program<'a> {
        let profile = number;
        Program { profile, ..self }
    }

    /// How many bundles are code. Refusals: 18, 1.
    pub fn count(&self) -> Result<u32, Refusal> {
        let (code, count) = raw::count(self.page, self.never_return, self.profile);
        verdict(code)?;
        Ok(count)
    }

    /// Reads a bundle. Refusals: 18, 1, 8.
    pub fn read_bundle(&self, bundle: u32) -> Result<Reading, Refusal> {
        let (code, kind, largest) =
            raw::read_bundle(self.page, self.never_return, self.profile, bundle);
        verdict(code)?;
        Ok(Reading::of(kind, largest))
    }
}

/// What a step or a run is given beside RAM, record and budget.
///
/// In a series of them all get the same setting.
#[derive(Clone, Copy, Debug)]
pub struct Setting<'a> {
    program: Program<'a>,
    external: &'a [u8],
    window: Window,
}

impl<'a> Setting<'a> {
    /// The program without external data, with all of RAM.
    pub fn new(program: Program<'a>) -> Setting<'a> {
        Setting {
            program,
            external: &[],
            window: Window::WHOLE,
        }
    }

    /// The same with external data, which the program can only read.
    pub fn external(self, external: &'a [u8]) -> Setting<'a> {
        Setting { external, ..self }
    }

    /// The same in a window of RAM, empty too: an access that isn't wholly inside is
    /// [`Fault::OutsideWindow`](crate::Fault::OutsideWindow). Any numbers will do here;
    /// calls refuse a start above the end and an end above
    /// [`RAM_LENGTH`](crate::RAM_LENGTH).
    ///
    /// The program neither reads nor writes RAM outside: those bytes stay, and runs whose
    /// RAMs agree inside are equal in stop, steps, record and the window's bytes. So
    /// programs whose windows don't overlap may share one RAM, one after the other.
    ///
    /// ```
    /// use marshbodkin::{Fault, Program, Record, Refusal, Setting, Stop, Window, RAM_LENGTH};
    ///
    /// let page = [0xC1, 0xDF, 0x00, 0x90, 0x00, 0xBF, 0x00, 0xDF]; // SP down a word; a store there
    /// let (mut ram, mut record) = (vec![0; RAM_LENGTH], Record::default());
    /// let setting = Setting::new(Program::new(&page));
    /// let lower_half = setting.window(Window { start: 0, end: 16_384 });
    /// let stopped = lower_half.run(&mut ram, &mut record, 100)?;
    /// assert_eq!(stopped.stop, Stop::Fault(Fault::OutsideWindow));
    ///
    /// let upper_half = setting.window(Window { start: 16_384, end: 32_768 });
    /// let stopped = upper_half.run(&mut ram, &mut record, 100)?;
    /// assert_eq!(stopped.stop.to_string(), "service exit 00");
    ///
    /// let backwards = setting.window(Window { start: 1, end: 0 });
    /// let refused = backwards.run(&mut ram, &mut record, 100);
    /// assert_eq!(refused, Err(Refusal::WindowBounds));
    /// # Ok::<(), marshbodkin::Refusal>(())
    /// ```
    #[must_use]
    pub fn window(self, window: Window) -> Setting<'a> {
        Setting { window, ..self }
    }

    /// The base of an address: 01's validate, which the program has no part
    /// in. Refusal: 3.
    pub fn validate(&self, address: u32) -> Result<Base, Refusal> {
        let (code, kind, offset) = raw::validate(address, self.external);
        verdict(code)?;
        Ok(Base::of(kind, offset))
    }

    /// Runs from a record until the budget of steps is spent, a service is
    /// for the host, or a fault. Refusals: 18, 1, 2, 3, 20, 255, 41, 42, 43, 44, 5;
    /// RAM and record then stay as they were.
    ///
    /// To cut a run into slices, run on with the same record and RAM while it stops as
    /// [`Stop::Budget`](crate::Stop::Budget): the slices end as one run with the sum of
    /// their budgets, at most [`u32::MAX`], would, with the steps added up. After another
    /// stop a larger budget would have changed nothing.
    pub fn run(
        &self,
        ram: &mut [u8],
        record: &mut Record,
        budget: u32,
    ) -> Result<Stopped, Refusal> {
        let Program {
            page,
            never_return,
            profile,
        } = self.program;
        crossing(record, |bytes| {
            raw::run(
                page,
                never_return,
                profile,
                ram,
                self.external,
                self.window,
                bytes,
                budget,
            )
        })
    }

    /// One step: a run with budget 1.
    pub fn step(&self, ram: &mut [u8], record: &mut Record) -> Result<Stopped, Refusal> {
        let Program {
            page,
            never_return,
            profile,
        } = self.program;
        crossing(record, |bytes| {
            raw::step(
                page,
                never_return,
                profile,
                ram,
                self.external,
                self.window,
                bytes,
            )
        })
    }
}

/// A step or a run on a record's bytes, which come back if it isn't refused.
pub(crate) fn crossing(
    record: &mut Record,
    call: impl FnOnce(&mut [u8]) -> raw::Answer,
) -> Result<Stopped, Refusal> {
    let mut bytes = record.to_bytes();
    let stopped = Stopped::of(call(&mut bytes))?;
    *record = Record::from_bytes(&bytes)?;
    Ok(stopped)
}

#[cfg(test)]
mod tests {
    use super::*;

    #[test]
    fn unknown_numbers_are_values() {
        let unknown = |kind| Reading::Unknown { kind, largest: 7 };
        for kind in [3, 255, u32::MAX] {
            assert_eq!(Reading::of(kind, 7), unknown(kind));
        }
    }
}
