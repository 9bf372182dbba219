//! Why a call is refused.

use std::error::Error;
use std::fmt;

use crate::words;

/// Why a call is refused: 01's refusals, those of an unknown profile, of a window, of a
/// record's fields, of the short form and of images, and the library's own.
///
/// Two say where in the record's 44 bytes the first field begins that fails, by
/// its position, as [`AT_SP`](crate::AT_SP): [`words::field`] names it.
#[derive(Clone, Copy, Debug, PartialEq, Eq)]
#[non_exhaustive]
pub enum Refusal {
    /// 1: the page is above 256 bytes or no multiple of 4; from
    /// [`Image::replace`](crate::Image::replace), it isn't 256 bytes.
    PageLength,
    /// 2: RAM isn't 32,768 bytes.
    RamLength,
    /// 3: the external data is above 16,777,216 bytes or no multiple of 256.
    ExternalLength,
    /// 5: the place isn't fit.
    UnfitPlace,
    /// 6: the stored form, or the room lent for it, isn't 44 bytes.
    FormLength,
    /// 7: the stored or given record is out of range.
    #[non_exhaustive]
    FormRange {
        /// 32 SP, 36 base kind, 37 base offset, 41 place, 43 flags. In a short
        /// form also 0 r0, 4 r1 and so on up to 28 r7, of 2^32 or more.
        position: u32,
    },
    /// 8: the asked bundle isn't in the page.
    NoSuchBundle,
    /// 9: in the short form a number isn't in its shortest groups, has more than five
    /// of them or is cut off, or bytes follow the last.
    NotGrouped,
    /// 10: the room for the written form is too small.
    RoomTooSmall,
    /// 12: the image isn't 1 to 4,096 pages of 256 bytes.
    ImageLength,
    /// 13: the page isn't in the image.
    NoSuchPage,
    /// 14: the index isn't one byte a page.
    IndexLength,
    /// 18, before all others: the number given to
    /// [`Program::profile`](crate::Program::profile) or
    /// [`Image::profile`](crate::Image::profile) is no profile's.
    UnknownProfile,
    /// 20: the window given to [`Setting::window`](crate::Setting::window) or
    /// [`ImageSetting::window`](crate::ImageSetting::window) starts above its end or ends
    /// above 32,768.
    WindowBounds,
    /// 21: a byte of the index isn't its page's count.
    WrongIndex,
    /// 41: SP is below 0x10000 or above 0x18000.
    SpBounds,
    /// 42: SP is no multiple of 4.
    SpAlignment,
    /// 43: the RAM offset isn't below 2^20.
    RamOffset,
    /// 44: the external offset isn't below the external data's length.
    ExternalOffset,
    /// 255, the library's own: the bytes hold no record. Of what a host can
    /// write, only [`Base::Unknown`](crate::Base::Unknown) brings it.
    #[non_exhaustive]
    NoRecord {
        /// 36 base kind, 37 offset with none, 43 flags; 0 for the length of raw
        /// bytes.
        position: u32,
    },
    /// A number that this version doesn't know.
    Unknown(u32),
}

impl Refusal {
    /// The refusal of what a call answers, a number and the position beside it;
    /// 0 is none.
    pub fn of(number: u32, position: u32) -> Option<Refusal> {
        Some(match number {
            0 => return None,
            1 => Refusal::PageLength,
            2 => Refusal::RamLength,
            3 => Refusal::ExternalLength,
            5 => Refusal::UnfitPlace,
            6 => Refusal::FormLength,
            7 => Refusal::FormRange { position },
            8 => Refusal::NoSuchBundle,
            9 => Refusal::NotGrouped,
            10 => Refusal::RoomTooSmall,
            12 => Refusal::ImageLength,
            13 => Refusal::NoSuchPage,
            14 => Refusal::IndexLength,
            18 => Refusal::UnknownProfile,
            20 => Refusal::WindowBounds,
            21 => Refusal::WrongIndex,
            41 => Refusal::SpBounds,
            42 => Refusal::SpAlignment,
            43 => Refusal::RamOffset,
            44 => Refusal::ExternalOffset,
            255 => Refusal::NoRecord { position },
            unknown => Refusal::Unknown(unknown),
        })
    }

    /// Its number.
    pub fn number(self) -> u32 {
        match self {
            Refusal::PageLength => 1,
            Refusal::RamLength => 2,
            Refusal::ExternalLength => 3,
            Refusal::UnfitPlace => 5,
            Refusal::FormLength => 6,
            Refusal::FormRange { .. } => 7,
            Refusal::NoSuchBundle => 8,
            Refusal::NotGrouped => 9,
            Refusal::RoomTooSmall => 10,
            Refusal::ImageLength => 12,
            Refusal::NoSuchPage => 13,
            Refusal::IndexLength => 14,
            Refusal::UnknownProfile => 18,
            Refusal::WindowBounds => 20,
            Refusal::WrongIndex => 21,
            Refusal::SpBounds => 41,
            Refusal::SpAlignment => 42,
            Refusal::RamOffset => 43,
            Refusal::ExternalOffset => 44,
            Refusal::NoRecord { .. } => 255,
            Refusal::Unknown(number) => number,
        }
    }

    /// The position that it carries.
    ///
    /// ```
    /// use marshbodkin::{words, Record, AT_SP};
    ///
    /// let record = Record { sp: 0x17FFE, ..Record::default() };
    /// let refused = record.store().unwrap_err();
    /// assert_eq!((refused.number(), refused.position()), (7, Some(AT_SP)));
    /// assert_eq!(words::field(AT_SP), "SP");
    /// ```
    pub fn position(self) -> Option<u32> {
        match self {
            Refusal::FormRange { position } | Refusal::NoRecord { position } => Some(position),
            _ => None,
        }
    }
}

impl fmt::Display for Refusal {
    fn fmt(&self, f: &mut fmt::Formatter<'_>) -> fmt::Result {
        let number = self.number();
        let said = words::refusal(number);
        match (self, self.position()) {
            (_, None) => write!(f, "refused {number}: {said}"),
            // No field's: it is the length of the bytes.
            (Refusal::NoRecord { position: 0 }, _) => write!(f, "refused {number} 0: {said}"),
            (_, Some(position)) => {
                let field = words::field(position);
                write!(f, "refused {number} {position}: {said} at {field}")
            }
        }
    }
}

impl Error for Refusal {}

/// What the number says of a call that tells no position.
pub(crate) fn verdict(code: u32) -> Result<(), Refusal> {
    verdict_at(code, 0)
}

/// What a call's number says, with the position beside it.
pub(crate) fn verdict_at(code: u32, position: u32) -> Result<(), Refusal> {
    match Refusal::of(code, position) {
        None => Ok(()),
        Some(refusal) => Err(refusal),
    }
}
