//! The page of 01's "Sizes and the record", 0 to 256 bytes in bundles of 4, and
//! what the host says beside it: 02's syscalls that never return and profile.

use super::decode::{narrow, wide, Instruction};
use super::profile::{Profile, FULL};

/// Most bytes a page may have.
pub const LONGEST: usize = 256;

/// The direct syscalls that never return: bit n stands for DF80 + n.
#[derive(Clone, Copy, Debug, PartialEq, Eq)]
pub struct NeverReturn(pub u64);

impl NeverReturn {
    /// Every direct syscall goes on, as in 01.
    pub const NONE: NeverReturn = NeverReturn(0);
    /// None of them goes on.
    pub const ALL: NeverReturn = NeverReturn(u64::MAX);

    /// True if the direct syscall of that number, 0 to 63, is in the set.
    pub fn holds(self, number: u32) -> bool {
        (self.0 >> number) & 1 == 1
    }
}

/// What a host hands over to be counted, read or run: any bytes, and any number
/// of a profile.
#[derive(Clone, Copy, Debug)]
pub struct Code<'a> {
    pub page: &'a [u8],
    pub never_return: NeverReturn,
    pub profile: u32,
}

impl<'a> Code<'a> {
    /// The page with a set, under the full profile.
    pub fn new(page: &'a [u8], never_return: NeverReturn) -> Self {
        Code {
            page,
            never_return,
            profile: FULL,
        }
    }

    /// The page with the empty set, under the full profile.
    pub fn plain(page: &'a [u8]) -> Self {
        Code::new(page, NeverReturn::NONE)
    }

    /// The same under the profile of a number.
    pub fn under(self, profile: u32) -> Self {
        Code { profile, ..self }
    }

    /// True if a page may have that many bytes.
    pub fn has_page_length(self) -> bool {
        self.page.len() <= LONGEST && self.page.len().is_multiple_of(4)
    }
}

/// A page whose length has been found right, under a known profile.
#[derive(Clone, Copy, Debug)]
pub struct Page<'a> {
    bytes: &'a [u8],
    never_return: NeverReturn,
    profile: Profile,
}

impl<'a> Page<'a> {
    /// The page of the code, or its refusal: 18, then 1.
    pub fn new(code: Code<'a>) -> Result<Self, u8> {
        let profile = Profile::of(code.profile).ok_or(18)?;
        if !code.has_page_length() {
            return Err(1);
        }
        Ok(Page {
            bytes: code.page,
            never_return: code.never_return,
            profile,
        })
    }

    /// The direct syscalls that never return.
    pub fn never_return(self) -> NeverReturn {
        self.never_return
    }

    /// The same page with another set.
    pub fn with(self, never_return: NeverReturn) -> Self {
        Page {
            never_return,
            ..self
        }
    }

    /// The same page under another profile.
    pub fn under(self, profile: Profile) -> Self {
        Page { profile, ..self }
    }

    /// A 16-bit instruction, or nothing if no encoding of the profile matches.
    pub fn narrow(self, half: u16) -> Option<Instruction> {
        narrow(half).filter(|_| (self.profile.has_narrow)(half))
    }

    /// The same for a 32-bit one.
    pub fn wide(self, first: u16, second: u16) -> Option<Instruction> {
        wide(first, second).filter(|_| (self.profile.has_wide)(first, second))
    }

    /// How many bundles the page holds.
    pub fn bundles(self) -> usize {
        self.bytes.len() / 4
    }

    /// The halfword of that number, low byte first. It must lie in the page.
    pub fn halfword(self, number: usize) -> u16 {
        u16::from_le_bytes([self.bytes[2 * number], self.bytes[2 * number + 1]])
    }

    /// Both halfwords of a bundle. It must lie in the page.
    pub fn bundle(self, number: usize) -> (u16, u16) {
        (self.halfword(2 * number), self.halfword(2 * number + 1))
    }

    /// The 32-bit word at a bundle number, if it lies in the page.
    pub fn word(self, number: usize) -> Option<u32> {
        let bytes = self.bytes.get(4 * number..4 * number + 4)?;
        Some(u32::from_le_bytes([bytes[0], bytes[1], bytes[2], bytes[3]]))
    }
}
