//! 02's window: the part of RAM that a run may read and write.

use super::memory::RAM_SIZE;

/// RAM offsets from a start to below an end, as a host gives them.
#[derive(Clone, Copy, Debug, PartialEq, Eq)]
pub struct Window {
    pub start: u32,
    pub end: u32,
}

impl Window {
    /// All of RAM, as the runner gives it.
    pub const WHOLE: Window = Window {
        start: 0,
        end: RAM_SIZE as u32,
    };

    /// True unless refusal 20 applies.
    pub fn is_allowed(self) -> bool {
        self.start <= self.end && self.end <= Window::WHOLE.end
    }

    /// True if all of so many bytes at a RAM offset lie inside.
    pub fn holds(self, at: usize, size: usize) -> bool {
        self.start as usize <= at && at + size <= self.end as usize
    }
}
