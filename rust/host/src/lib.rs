//! The proved sandbox machine, for a host in Rust: the static library's calls
//! behind types with the words of the build paper ("01"). `docs/MACHINE.md` says
//! what the machine does.
//!
//! Page, image, RAM, external data and record are the host's own; the library keeps
//! nothing between calls. What is lent can be anything: a refused call gives
//! the [`Refusal`], and leaves RAM, record, image and index as they were.
//!
//! 01's example page has four bundles, of which three are counted. It returns
//! to the host from the third:
//!
//! ```
//! use marshbodkin::{Exit, Program, Record, Setting};
//!
//! let halfwords = [0x2800u16, 0xD001, 0x2001, 0xDF00, 0x2000, 0xDF00, 0x2000, 0xBF00];
//! let page: Vec<u8> = halfwords.iter().flat_map(|half| half.to_le_bytes()).collect();
//! let program = Program::new(&page);
//! assert_eq!(program.count(), Ok(3));
//!
//! let mut record = Record::default();
//! let mut ram = vec![0; marshbodkin::RAM_LENGTH];
//! let stopped = Setting::new(program).run(&mut ram, &mut record, 100_000)?;
//! assert_eq!(stopped.stop.to_string(), "service exit 00");
//! assert_eq!(stopped.stop.exit(), Some(Exit::Return));
//! assert_eq!((stopped.steps, record.place), (4, 5));
//! # Ok::<(), marshbodkin::Refusal>(())
//! ```
//!
//! A place in the bundle past the count is refused:
//!
//! ```
//! use marshbodkin::{Program, Record, Refusal, Setting};
//!
//! let page = [0x01, 0x20, 0x00, 0xDF, 0x01, 0x20, 0x00, 0xBF]; // 2001 DF00, 2001 BF00
//! let given = Record { place: 2, ..Record::default() };
//! let mut record = given;
//! let mut ram = vec![0; marshbodkin::RAM_LENGTH];
//! let setting = Setting::new(Program::new(&page));
//! let refused = setting.run(&mut ram, &mut record, 1).unwrap_err();
//! assert_eq!(refused, Refusal::UnfitPlace);
//! assert_eq!(refused.to_string(), "refused 5: place is not fit");
//! assert_eq!(record, given);
//! ```
//!
//! Where a record can't be stored or read back (7), and where a step or a run is
//! handed none (255), the refusal says which field is wrong, by
//! [`Refusal::position`]: [`AT_SP`] and its like name the positions.
//!
//! For slow links a stored record has a short form, of [`SHORT_LEAST`] to
//! [`SHORT_MOST`] bytes: [`Record::pack`] and [`Record::unpack`], or [`pack()`] and
//! [`unpack()`] for a record that is stored already.
//!
//! A host that changes the record between calls, say to hand in the results of a
//! syscall, or the setting, starts a new series of calls with it: what is proved of a series
//! holds from any fit record and place. `examples/host.rs` is such a host.
//!
//! Every direct syscall returns unless the host says otherwise, by
//! [`Program::never_return`]; and a filter may use every listed encoding unless
//! the host says, by [`Program::profile`], that it is for a smaller processor. All of
//! RAM is the filter's unless the host gives it a part, by [`Setting::window`].
//!
//! Filters of many pages are an [`Image`], with the count of each page beside it, and
//! run by an [`ImageSetting`].
//!
//! Programs, settings, images, records and enums will gain parts; hosts that make the
//! first four as shown here, and match enums with `_` last, stay right.

#![deny(unsafe_code)]
#![deny(missing_docs)]

mod exit;
mod image;
mod program;
#[allow(unsafe_code)]
pub mod raw;
mod record;
mod refusal;
mod short;
mod stop;
mod window;
pub mod words;

pub use exit::Exit;
pub use image::{Image, ImageSetting, IMAGE_PAGES_MOST, IMAGE_PAGE_LENGTH};
pub use program::{Program, Reading, Setting};
pub use record::{Base, Flags, Record, RECORD_LENGTH};
pub use record::{AT_BASE_KIND, AT_BASE_OFFSET, AT_FLAGS, AT_PLACE, AT_R0, AT_SP};
pub use refusal::Refusal;
pub use short::{pack, unpack, SHORT_LEAST, SHORT_MOST};
pub use stop::{Fault, Stop, Stopped};
pub use window::Window;

/// Most bytes of a page, which are a multiple of [`BUNDLE_LENGTH`].
pub const PAGE_MOST: usize = 256;
/// Bytes of a bundle.
pub const BUNDLE_LENGTH: usize = 4;
/// Bytes of user RAM: no other length is accepted.
pub const RAM_LENGTH: usize = 32_768;
/// The address of the first byte of user RAM.
pub const RAM_START: u32 = 0x1_0000;
/// Most bytes of external data, which are a multiple of [`EXTERNAL_PAGE_LENGTH`].
pub const EXTERNAL_MOST: usize = 16_777_216;
/// Bytes of the pages of external data, which no load leaves.
pub const EXTERNAL_PAGE_LENGTH: usize = 256;
/// The address of the first byte of external data.
pub const EXTERNAL_START: u32 = 0x8000_0000;

/// The set of direct syscall n alone, 0 to 63, for [`Program::never_return`]; of
/// any other n the empty set.
pub const fn syscall_bit(n: u32) -> u64 {
    if n < 64 {
        1 << n
    } else {
        0
    }
}

/// The profile that every program begins with: all listed encodings.
pub const PROFILE_FULL: u32 = 0;
/// The profile of an ARMv6-M core: no encoding of 32 bits, no cbz and no cbnz.
pub const PROFILE_SMALL: u32 = 1;

/// The version of these calls: 65536 * major + 256 * minor + patch.
pub const VERSION: u32 = 0x00_08_00;

/// The version of the archive that is linked, to be held against [`VERSION`]
/// before any other call.
pub fn version() -> u32 {
    raw::version()
}
