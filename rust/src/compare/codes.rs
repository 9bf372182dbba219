//! Numbers of profiles, known and unknown, and pages under them.

use super::sets;
use crate::random::Random;
use crate::second::page::Code;
use crate::second::profile::{FULL, SMALL};

/// Numbers that are no profile's; cut to a byte, some would be.
pub const UNKNOWN: [u32; 7] = [2, 3, 255, 256, 257, 1 << 31, u32::MAX];

/// The full profile's number or the small one's.
pub fn either(random: &mut Random) -> u32 {
    random.pick(&[FULL, SMALL])
}

/// The page under any set and either profile.
pub fn any<'a>(random: &mut Random, page: &'a [u8]) -> Code<'a> {
    Code::new(page, sets::any(random)).under(either(random))
}

/// The same page and set under the other profile.
pub fn other(code: Code<'_>) -> Code<'_> {
    code.under(match code.profile {
        FULL => SMALL,
        _ => FULL,
    })
}

/// The kind of a number, by name.
pub fn kind(profile: u32) -> &'static str {
    match profile {
        FULL => "full",
        SMALL => "small",
        2 => "2",
        255 => "255",
        u32::MAX => "4294967295",
        _ => "another number",
    }
}

/// The kinds of numbers.
pub const KINDS: [&str; 6] = ["full", "small", "2", "255", "4294967295", "another number"];
