//! Mistakes about windows of RAM.

use crate::second::machine::{accept, Call};
use crate::second::memory::{
    self, lower_stack, ram_fault, Access, ByBase, Fault, Memory, MemoryRules, Way, RAM_SIZE,
};
use crate::second::page::Page;
use crate::second::record::{Base, RAM_START};
use crate::second::refusal::Refusal;
use crate::second::rules::Rules;
use crate::second::window::Window;

const RIGHT: Rules = Rules::RIGHT;

/// The rules with others for memory.
const fn memory(memory: MemoryRules) -> Rules {
    Rules { memory, ..RIGHT }
}

/// The rules with another test of an access to RAM.
const fn fault(ram_fault: fn(Access, Window) -> Option<Fault>) -> Rules {
    memory(MemoryRules {
        ram_fault,
        ..MemoryRules::RIGHT
    })
}

/// The rules with other refusals.
const fn refusals(accept: fn(Call) -> Result<Page, Refusal>) -> Rules {
    Rules { accept, ..RIGHT }
}

/// Each mistake's name, and the rules with it.
pub const MISTAKES: [(&str, Rules); 19] = [
    ("window-end-inside", fault(end_inside)),
    ("window-start-late", fault(start_late)),
    (
        "window-by-length",
        Rules {
            accept: |call| accept(call.within(by_length(call.setting.window))),
            ..fault(|access, window| ram_fault(access, by_length(window)))
        },
    ),
    ("window-first-byte", fault(first_byte)),
    ("window-last-byte", fault(last_byte)),
    ("window-before-ram", fault(before_ram)),
    ("window-before-stack", fault(before_stack)),
    (
        "window-before-base",
        memory(MemoryRules {
            load: load_window_first,
            store: store_window_first,
            ..MemoryRules::RIGHT
        }),
    ),
    ("load-outside-window", fault(load_untested)),
    ("store-outside-window", fault(store_untested)),
    ("stack-outside-window", fault(stack_untested)),
    (
        "store-byte-by-byte",
        memory(MemoryRules {
            store: store_byte_by_byte,
            ..MemoryRules::RIGHT
        }),
    ),
    (
        "external-in-window",
        memory(MemoryRules {
            load: external_tested,
            ..MemoryRules::RIGHT
        }),
    ),
    (
        "sp-in-window",
        memory(MemoryRules {
            lower_stack: sp_tested,
            ..MemoryRules::RIGHT
        }),
    ),
    ("window-before-external", refusals(window_before_external)),
    (
        "window-after-no-record",
        refusals(|call| window_after(255, call)),
    ),
    ("window-after-sp", refusals(|call| window_after(41, call))),
    ("empty-window-refused", refusals(empty_refused)),
    ("window-end-cut", refusals(end_cut)),
];

/// The end is taken as inside.
fn end_inside(access: Access, window: Window) -> Option<Fault> {
    let end = window.end + 1;
    ram_fault(access, Window { end, ..window })
}

/// The start is taken as outside.
fn start_late(access: Access, window: Window) -> Option<Fault> {
    let start = window.start + 1;
    ram_fault(access, Window { start, ..window })
}

/// The end is taken as a length.
fn by_length(window: Window) -> Window {
    let end = window.start.saturating_add(window.end);
    Window { end, ..window }
}

/// An access in RAM is tested by the window at one byte alone.
fn one_byte(access: Access, at: usize, window: Window) -> Option<Fault> {
    match ram_fault(access, window) {
        Some(Fault::OutsideWindow) => ram_fault(
            Access {
                at,
                size: 1,
                ..access
            },
            window,
        ),
        right => right,
    }
}

fn first_byte(access: Access, window: Window) -> Option<Fault> {
    one_byte(access, access.at, window)
}

fn last_byte(access: Access, window: Window) -> Option<Fault> {
    one_byte(access, access.at + access.size - 1, window)
}

/// The window is tested before a fault.
fn window_before(before: Fault, access: Access, window: Window) -> Option<Fault> {
    match ram_fault(access, window) {
        Some(fault) if fault == before && !window.holds(access.at, access.size) => {
            Some(Fault::OutsideWindow)
        }
        right => right,
    }
}

fn before_ram(access: Access, window: Window) -> Option<Fault> {
    window_before(Fault::PastRam, access, window)
}

fn before_stack(access: Access, window: Window) -> Option<Fault> {
    window_before(Fault::PastStack, access, window)
}

/// Whether an access by a base of any kind would be inside the window, its offset taken
/// as one of RAM; that of none is 0.
fn is_inside(given: ByBase, window: Window) -> bool {
    let start = match given.base {
        Base::None => 0,
        Base::Ram(offset) | Base::External(offset) => offset,
    };
    window.holds(start as usize + given.offset, given.size.bytes())
}

/// The window is tested before the base.
fn load_window_first(memory: &Memory, given: ByBase) -> Result<u32, Fault> {
    match memory::load(memory, given) {
        Err(Fault::NoBase) if !is_inside(given, memory.window) => Err(Fault::OutsideWindow),
        right => right,
    }
}

fn store_window_first(memory: &mut Memory, given: ByBase, value: u32) -> Result<(), Fault> {
    match memory::store(memory, given, value) {
        Err(Fault::NoBase) if !is_inside(given, memory.window) => Err(Fault::OutsideWindow),
        right => right,
    }
}

/// Some accesses are not tested by the window.
fn untested(ways: [Way; 2], access: Access, window: Window) -> Option<Fault> {
    match ways.contains(&access.way) {
        true => ram_fault(access, Window::WHOLE),
        false => ram_fault(access, window),
    }
}

fn load_untested(access: Access, window: Window) -> Option<Fault> {
    untested([Way::Load, Way::StackLoad], access, window)
}

fn store_untested(access: Access, window: Window) -> Option<Fault> {
    untested([Way::Store, Way::StackStore], access, window)
}

fn stack_untested(access: Access, window: Window) -> Option<Fault> {
    untested([Way::StackLoad, Way::StackStore], access, window)
}

/// A store writes up to its first byte outside the window.
fn store_byte_by_byte(memory: &mut Memory, given: ByBase, value: u32) -> Result<(), Fault> {
    let stored = memory::store(memory, given, value);
    if let (Err(Fault::OutsideWindow), Base::Ram(start)) = (stored, given.base) {
        let at = start as usize + given.offset;
        let bytes = (at..).zip(value.to_le_bytes());
        for (at, byte) in bytes.take_while(|(at, _)| memory.window.holds(*at, 1)) {
            memory.ram[at] = byte;
        }
    }
    stored
}

/// External offsets are held to the window too.
fn external_tested(memory: &Memory, given: ByBase) -> Result<u32, Fault> {
    match (memory::load(memory, given), given.base) {
        (Ok(_), Base::External(_)) if !is_inside(given, memory.window) => Err(Fault::OutsideWindow),
        (right, _) => right,
    }
}

/// A lowered SP must be inside the window, or at its end.
fn sp_tested(sp: u32, bytes: u32, window: Window) -> Result<u32, Fault> {
    match lower_stack(sp, bytes) {
        Ok(lower) if !window.holds((lower - RAM_START) as usize, 0) => Err(Fault::OutsideWindow),
        right => right,
    }
}

/// The window is tested before the external data.
fn window_before_external(call: Call) -> Result<Page, Refusal> {
    match accept(call) {
        Err(Refusal { number: 3, .. }) if !call.setting.window.is_allowed() => {
            Err(Refusal::plain(20))
        }
        right => right,
    }
}

/// The window is tested after another refusal.
fn window_after(number: u8, call: Call) -> Result<Page, Refusal> {
    match (accept(call), accept(call.within(Window::WHOLE))) {
        (Err(Refusal { number: 20, .. }), Err(other)) if other.number == number => Err(other),
        (right, _) => right,
    }
}

/// An empty window is refused, as if its start were above its end.
fn empty_refused(call: Call) -> Result<Page, Refusal> {
    let Window { start, end } = call.setting.window;
    match start == end {
        true => accept(call.within(Window { start: 1, end: 0 })),
        false => accept(call),
    }
}

/// An end past RAM is taken as RAM's.
fn end_cut(call: Call) -> Result<Page, Refusal> {
    let Window { start, end } = call.setting.window;
    let end = end.min(RAM_SIZE as u32);
    accept(call.within(Window { start, end }))
}
