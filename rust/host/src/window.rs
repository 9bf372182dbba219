//! The part of RAM that a filter may use.

use crate::RAM_LENGTH;

/// RAM offsets, from a start to below an end.
#[derive(Clone, Copy, Debug, PartialEq, Eq)]
pub struct Window {
    /// The first offset inside.
    pub start: u32,
    /// The first offset past it.
    pub end: u32,
}

impl Window {
    /// All of RAM, which every setting begins with.
    pub const WHOLE: Window = Window {
        start: 0,
        end: RAM_LENGTH as u32,
    };
}
