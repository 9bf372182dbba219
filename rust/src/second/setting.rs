//! What a step or a run is given beside RAM, record and budget.

use super::page::Code;
use super::window::Window;

/// The code, the external data and the window of RAM: any of each.
#[derive(Clone, Copy, Debug)]
pub struct Setting<'a> {
    pub code: Code<'a>,
    pub external: &'a [u8],
    pub window: Window,
}

impl<'a> Setting<'a> {
    /// The code without external data, with the whole RAM as its window.
    pub fn new(code: Code<'a>) -> Self {
        Setting {
            code,
            external: &[],
            window: Window::WHOLE,
        }
    }

    /// The same with external data.
    pub fn with_external(self, external: &'a [u8]) -> Self {
        Setting { external, ..self }
    }

    /// The same within another window.
    pub fn within(self, window: Window) -> Self {
        Setting { window, ..self }
    }
}
