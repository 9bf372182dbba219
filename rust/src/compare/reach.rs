//! What the instruction at a record's place is about to access in RAM.

use crate::second::decode::{opens_wide, Instruction};
use crate::second::page::{Code, Page};
use crate::second::record::{Base, Record, RAM_START};
use crate::second::services::{literal_service, Action, Service};
use crate::second::window::Window;

/// So many bytes from a RAM offset, in RAM or past its end.
#[derive(Clone, Copy, Debug, PartialEq, Eq)]
pub struct Reach {
    pub at: usize,
    pub size: usize,
}

impl Reach {
    /// That of a record's instruction; nothing if it accesses no RAM.
    pub fn of(code: Code, record: &Record) -> Option<Reach> {
        let page = Page::new(code).ok()?;
        match instruction(page, usize::from(record.place))? {
            Instruction::StackStore { offset, .. } | Instruction::StackLoad { offset, .. } => {
                Some(on_stack(record, offset))
            }
            Instruction::Store { size, offset, .. } | Instruction::Load { size, offset, .. } => {
                let Base::Ram(start) = record.base else {
                    return None;
                };
                Some(Reach {
                    at: start as usize + offset,
                    size: size.bytes(),
                })
            }
            Instruction::Service {
                service: Service::ByLiteral(word),
                ..
            } => match literal_service(page.word(word)?)? {
                Action::StackStore { offset, .. } | Action::StackLoad { offset, .. } => {
                    Some(on_stack(record, offset))
                }
                _ => None,
            },
            _ => None,
        }
    }

    /// The offset behind its last byte.
    pub fn end(self) -> usize {
        self.at + self.size
    }

    /// The window of its bytes alone.
    pub fn window(self) -> Window {
        Window {
            start: self.at as u32,
            end: self.end() as u32,
        }
    }
}

/// A word at SP plus an offset.
fn on_stack(record: &Record, offset: u32) -> Reach {
    let sp = record.sp.wrapping_sub(RAM_START);
    Reach {
        at: sp as usize + offset as usize,
        size: 4,
    }
}

/// The instruction at a place, if a listed one stands there.
fn instruction(page: Page, place: usize) -> Option<Instruction> {
    if place / 2 >= page.bundles() {
        return None;
    }
    let half = page.halfword(place);
    match opens_wide(half) {
        false => page.narrow(half),
        true if place.is_multiple_of(2) => page.wide(half, page.halfword(place + 1)),
        true => None,
    }
}
