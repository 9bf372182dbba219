//! 02's numbers in groups of seven bits: lowest group first, the top bit set while
//! more follow, always the shortest.

/// Most groups of a number.
pub const MOST_GROUPS: usize = 5;
/// The bit of a byte that says that more groups follow.
pub const MORE: u8 = 0x80;

/// Why bytes don't begin with a number.
#[derive(Clone, Copy, Debug, PartialEq, Eq)]
pub enum Flaw {
    NotShortest,
    TooMany,
    CutOff,
}

/// A number, and the bytes behind it.
pub type Taken<'a> = (u64, &'a [u8]);

/// The groups of a number: as many as its bits need, and one for 0.
pub fn write(number: u64) -> Vec<u8> {
    let bits = 64 - number.leading_zeros();
    let last = bits.saturating_sub(1) / 7;
    let group = |at: u32| match (number >> (7 * at)) as u8 & !MORE {
        group if at < last => group | MORE,
        group => group,
    };
    (0..=last).map(group).collect()
}

/// The number that bytes begin with.
pub fn read(bytes: &[u8]) -> Result<Taken<'_>, Flaw> {
    match first(bytes, MOST_GROUPS)? {
        ([_, .., 0], _) => Err(Flaw::NotShortest),
        (groups, behind) => Ok((joined(groups), behind)),
    }
}

/// The groups that bytes begin with, at most so many, and the bytes behind them.
pub fn first(bytes: &[u8], most: usize) -> Result<(&[u8], &[u8]), Flaw> {
    let followed = bytes.iter().take_while(|&byte| byte & MORE != 0).count();
    if followed >= most {
        return Err(Flaw::TooMany);
    }
    bytes.split_at_checked(followed + 1).ok_or(Flaw::CutOff)
}

/// The number of these groups.
pub fn joined(groups: &[u8]) -> u64 {
    let join = |number, group: &u8| number << 7 | u64::from(group & !MORE);
    groups.iter().rev().fold(0, join)
}
