//! A second program of the sandbox machine, written from the manual's
//! pseudocode and the build paper ("01"), and what it is compared on.
//!
//! - [`second`]: the machine itself, and what the programs print.
//! - [`mistakes`]: the same with a deliberate mistake in it.
//! - [`assemble`]: encodings by name, to write pages with.
//! - [`names`]: 01's rows, to make cases from and to count by.
//! - [`paper`]: the pages of 01 itself, and fixed pages for its rules.
//! - [`random`]: a seeded generator of pages.
//! - [`compare`]: the library against the second program, call by call.
//! - [`converters`]: the programs that pack and unpack against it.
//! - [`outputs`]: what a program prints.
//! - [`show`]: bytes in hex, for reports.

#![forbid(unsafe_code)]

pub mod assemble;
pub mod compare;
pub mod converters;
pub mod mistakes;
pub mod names;
pub mod outputs;
pub mod paper;
pub mod random;
pub mod second;
pub mod show;
