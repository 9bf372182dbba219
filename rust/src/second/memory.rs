//! 01's "Memory": validate, and loads and stores by r8, r9 and SP, which 02's window
//! holds to a part of RAM.

use super::decode::{BaseRegister, Size};
use super::record::{Base, MOST_EXTERNAL, RAM_OFFSETS, RAM_START};
use super::rules::Rules;
use super::window::Window;

/// Exact size of user RAM.
pub const RAM_SIZE: usize = 32_768;
/// Where external data starts.
pub const EXTERNAL_START: u32 = 0x8000_0000;
/// External data is handed on in pages of this size.
const EXTERNAL_PAGE: usize = 256;

/// 01's faults and 02's, by number.
#[derive(Clone, Copy, Debug, PartialEq, Eq)]
pub enum Fault {
    NoBase = 1,
    PastRam = 2,
    OffExternalPage = 3,
    PastStack = 4,
    StackTooLow = 5,
    PastPage = 6,
    OutsideWindow = 7,
}

impl Fault {
    /// The fault's number.
    pub fn number(self) -> u8 {
        self as u8
    }
}

/// True if external data may have this length.
pub fn is_external_length(length: usize) -> bool {
    length <= MOST_EXTERNAL as usize && length.is_multiple_of(EXTERNAL_PAGE)
}

/// validate(v), with so many bytes of external data.
pub fn validate(v: u32, external: usize) -> Base {
    if v < EXTERNAL_START {
        return Base::Ram(v.wrapping_sub(RAM_START) % RAM_OFFSETS);
    }
    let offset = v - EXTERNAL_START;
    if (offset as usize) < external {
        Base::External(offset)
    } else {
        Base::None
    }
}

/// Base validation with its refusal 3; refused, the base is none.
pub fn validate_with(rules: Rules, v: u32, external: &[u8]) -> (Base, Option<u8>) {
    if is_external_length(external.len()) {
        ((rules.validate)(v, external.len()), None)
    } else {
        (Base::None, Some(3))
    }
}

/// A little-endian number of up to four bytes.
fn number(bytes: &[u8]) -> u32 {
    bytes
        .iter()
        .rev()
        .fold(0, |sum, &byte| sum << 8 | u32::from(byte))
}

/// How an instruction comes to access RAM.
#[derive(Clone, Copy, Debug, PartialEq, Eq)]
pub enum Way {
    Load,
    Store,
    StackLoad,
    StackStore,
}

impl Way {
    /// The fault of an access past the end of RAM.
    pub fn past(self) -> Fault {
        match self {
            Way::Load | Way::Store => Fault::PastRam,
            Way::StackLoad | Way::StackStore => Fault::PastStack,
        }
    }
}

/// An access to RAM: so many bytes at an offset.
#[derive(Clone, Copy, Debug)]
pub struct Access {
    pub way: Way,
    pub at: usize,
    pub size: usize,
}

impl Access {
    /// The access of a word at SP plus an offset.
    fn on_stack(way: Way, sp: u32, offset: u32) -> Access {
        Access {
            way,
            at: (sp - RAM_START) as usize + offset as usize,
            size: 4,
        }
    }

    /// True if it ends in RAM.
    pub fn is_in_ram(self) -> bool {
        self.at + self.size <= RAM_SIZE
    }
}

/// A load or store by a base.
#[derive(Clone, Copy, Debug)]
pub struct ByBase {
    pub base: Base,
    pub by: BaseRegister,
    pub offset: usize,
    pub size: Size,
}

impl ByBase {
    /// Its access to RAM from where a RAM base lies.
    fn access(self, way: Way, start: u32) -> Access {
        Access {
            way,
            at: start as usize + self.offset,
            size: self.size.bytes(),
        }
    }
}

/// The rules of memory that can be exchanged.
#[derive(Clone, Copy)]
pub struct MemoryRules {
    /// The fault of an access to RAM.
    pub ram_fault: fn(Access, Window) -> Option<Fault>,
    /// A load by r8 or r9, zero-extended.
    pub load: fn(&Memory, ByBase) -> Result<u32, Fault>,
    /// A value stored by r9.
    pub store: fn(&mut Memory, ByBase, u32) -> Result<(), Fault>,
    /// SP less so many bytes; the window is not looked at.
    pub lower_stack: fn(u32, u32, Window) -> Result<u32, Fault>,
}

impl MemoryRules {
    /// The papers'.
    pub const RIGHT: MemoryRules = MemoryRules {
        ram_fault,
        load,
        store,
        lower_stack: |sp, bytes, _| lower_stack(sp, bytes),
    };
}

/// What an access to RAM faults by: past the end of RAM, then not wholly inside the
/// window.
pub fn ram_fault(access: Access, window: Window) -> Option<Fault> {
    if !access.is_in_ram() {
        return Some(access.way.past());
    }
    (!window.holds(access.at, access.size)).then_some(Fault::OutsideWindow)
}

/// What a run can load from and store to.
pub struct Memory<'a> {
    pub ram: &'a mut [u8],
    pub external: &'a [u8],
    pub window: Window,
    pub rules: MemoryRules,
}

impl<'a> Memory<'a> {
    /// What a run by some rules may access.
    pub fn of(rules: Rules, external: &'a [u8], window: Window, ram: &'a mut [u8]) -> Self {
        Memory {
            ram,
            external,
            window,
            rules: rules.memory,
        }
    }
}

impl Memory<'_> {
    /// Reads RAM. Nothing else does.
    fn read(&self, access: Access) -> Result<u32, Fault> {
        match (self.rules.ram_fault)(access, self.window) {
            Some(fault) => Err(fault),
            None => Ok(number(&self.ram[access.at..][..access.size])),
        }
    }

    /// Writes the low bytes of a value to RAM. Nothing else does.
    fn write(&mut self, access: Access, value: u32) -> Result<(), Fault> {
        if let Some(fault) = (self.rules.ram_fault)(access, self.window) {
            return Err(fault);
        }
        let bytes = &value.to_le_bytes()[..access.size];
        self.ram[access.at..][..access.size].copy_from_slice(bytes);
        Ok(())
    }

    /// A load by r8 or r9, zero-extended.
    pub fn load(&self, given: ByBase) -> Result<u32, Fault> {
        (self.rules.load)(self, given)
    }

    /// A value stored by r9.
    pub fn store(&mut self, given: ByBase, value: u32) -> Result<(), Fault> {
        (self.rules.store)(self, given, value)
    }

    /// A word loaded at SP plus an offset.
    pub fn stack_load(&self, sp: u32, offset: u32) -> Result<u32, Fault> {
        self.read(Access::on_stack(Way::StackLoad, sp, offset))
    }

    /// A word stored at SP plus an offset.
    pub fn stack_store(&mut self, sp: u32, offset: u32, value: u32) -> Result<(), Fault> {
        self.write(Access::on_stack(Way::StackStore, sp, offset), value)
    }

    /// SP less so many bytes.
    pub fn lower_stack(&self, sp: u32, bytes: u32) -> Result<u32, Fault> {
        (self.rules.lower_stack)(sp, bytes, self.window)
    }
}

/// A load by r8 or r9: by r9 it needs a RAM base.
pub fn load(memory: &Memory, given: ByBase) -> Result<u32, Fault> {
    match (given.base, given.by) {
        (Base::Ram(start), _) => memory.read(given.access(Way::Load, start)),
        (Base::External(start), BaseRegister::R8) => {
            let page = external_page(memory.external, start as usize);
            let at = start as usize % EXTERNAL_PAGE + given.offset;
            let bytes = page.get(at..at + given.size.bytes());
            bytes.map(number).ok_or(Fault::OffExternalPage)
        }
        (Base::External(_), BaseRegister::R9) | (Base::None, _) => Err(Fault::NoBase),
    }
}

/// The 256-byte page of external data that holds an offset.
fn external_page(external: &[u8], offset: usize) -> &[u8] {
    let start = offset - offset % EXTERNAL_PAGE;
    &external[start..start + EXTERNAL_PAGE]
}

/// A store by r9: it needs a RAM base.
pub fn store(memory: &mut Memory, given: ByBase, value: u32) -> Result<(), Fault> {
    match given.base {
        Base::Ram(start) => memory.write(given.access(Way::Store, start), value),
        Base::None | Base::External(_) => Err(Fault::NoBase),
    }
}

/// SP less so many bytes.
pub fn lower_stack(sp: u32, bytes: u32) -> Result<u32, Fault> {
    match sp.checked_sub(bytes) {
        Some(lower) if lower >= RAM_START => Ok(lower),
        _ => Err(Fault::StackTooLow),
    }
}
