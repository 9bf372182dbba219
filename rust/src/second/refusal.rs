//! A refusal with what it carries.

/// A refusal: its number and, with 7 and 255, the position in the 44-byte form of
/// the first failing field.
#[derive(Clone, Copy, Debug, PartialEq, Eq)]
pub struct Refusal {
    pub number: u8,
    pub position: Option<u8>,
}

impl Refusal {
    /// A refusal that carries nothing.
    pub const fn plain(number: u8) -> Refusal {
        Refusal {
            number,
            position: None,
        }
    }

    /// One that carries a position.
    pub const fn at(number: u8, position: u8) -> Refusal {
        Refusal {
            number,
            position: Some(position),
        }
    }
}
