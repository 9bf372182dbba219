//! 02's profiles: which of 01's listed encodings a host's processor has.

/// The number of the full profile, which has them all.
pub const FULL: u32 = 0;
/// The number of the small one.
pub const SMALL: u32 = 1;

/// A profile by what it has of 01's list. What it lacks is unlisted under it.
#[derive(Clone, Copy, Debug)]
pub struct Profile {
    /// Whether it has a 16-bit encoding.
    pub has_narrow: fn(u16) -> bool,
    /// Whether it has a 32-bit encoding, of both halfwords.
    pub has_wide: fn(u16, u16) -> bool,
}

impl Profile {
    /// The whole list.
    pub const FULL: Profile = Profile {
        has_narrow: |_| true,
        has_wide: |_, _| true,
    };
    /// An ARMv6-M core: no 32-bit instruction, no cbz or cbnz.
    pub const SMALL: Profile = Profile {
        has_narrow: |half| !is_compare_branch(half),
        has_wide: |_, _| false,
    };

    /// The profile of a number, or nothing where refusal 18 applies.
    pub fn of(number: u32) -> Option<Profile> {
        match number {
            FULL => Some(Profile::FULL),
            SMALL => Some(Profile::SMALL),
            _ => None,
        }
    }
}

/// 1011x0x1: cbz, cbnz.
fn is_compare_branch(half: u16) -> bool {
    half & 0xF500 == 0xB100
}
