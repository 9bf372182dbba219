//! The short form of a stored record, for slow links.

use crate::raw;
use crate::record::{Record, RECORD_LENGTH};
use crate::refusal::{verdict_at, Refusal};

/// Least bytes of a record's short form.
pub const SHORT_LEAST: usize = 12;
/// Most bytes of a record's short form: room of so many does for every record.
pub const SHORT_MOST: usize = 49;

/// Packs a stored form: writes its short form to the start of the room, of which the
/// other bytes stay, and answers its length.
///
/// Refusals: 6; 7, with the position of the first field that is out of range; 10, if
/// the room is too small for this record. Refused, the room stays as it is.
///
/// ```
/// use marshbodkin::{pack, unpack, Record, RECORD_LENGTH, SHORT_MOST};
///
/// let stored = Record::default().store()?;
/// let mut room = [0; SHORT_MOST];
/// let length = pack(&stored, &mut room)?;
/// assert_eq!(room[..length], [0; 12]);
///
/// let mut back = [0; RECORD_LENGTH];
/// unpack(&room[..length], &mut back)?;
/// assert_eq!(back, stored);
/// # Ok::<(), marshbodkin::Refusal>(())
/// ```
pub fn pack(stored: &[u8], room: &mut [u8]) -> Result<usize, Refusal> {
    let (code, length, position) = raw::pack(stored, room);
    verdict_at(code, position)?;
    Ok(length)
}

/// Unpacks a short form: writes the stored form to the room, which has
/// [`RECORD_LENGTH`] bytes.
///
/// Refusals: 6, of the room; 9; 7, with the position, in the stored form, of the
/// first field that is out of range or whose number is past it. Refused, the room
/// stays as it is.
pub fn unpack(packed: &[u8], room: &mut [u8]) -> Result<(), Refusal> {
    let (code, position) = raw::unpack(packed, room);
    verdict_at(code, position)
}

impl Record {
    /// Writes the short form, to be sent over a slow link, to the start of the room,
    /// of which the other bytes stay, and answers its length. Refusals: 7, with the
    /// position of the first field that is out of range; 10, if the room is too small
    /// for this record.
    ///
    /// ```
    /// use marshbodkin::{Record, SHORT_LEAST, SHORT_MOST};
    ///
    /// let record = Record { place: 2, ..Record::default() };
    /// let mut room = [0; SHORT_MOST];
    /// let length = record.pack(&mut room)?;
    /// assert_eq!(length, SHORT_LEAST);
    /// assert_eq!(Record::unpack(&room[..length]), Ok(record));
    /// # Ok::<(), marshbodkin::Refusal>(())
    /// ```
    pub fn pack(&self, room: &mut [u8]) -> Result<usize, Refusal> {
        pack(&self.to_bytes(), room)
    }

    /// The record of a short form. Refusals: 9; 7, with the position, in the stored
    /// form, of the first field that is out of range or whose number is past it.
    ///
    /// ```
    /// use marshbodkin::Record;
    ///
    /// let sent = [0xFF, 0xFF, 0xFF, 0xFF, 0x10, 0, 0, 0, 0, 0, 0, 0, 0, 0, 0, 0];
    /// let refused = Record::unpack(&sent).unwrap_err();
    /// let said = "refused 7 0: stored or given record is out of range at r0";
    /// assert_eq!(refused.to_string(), said);
    /// ```
    pub fn unpack(packed: &[u8]) -> Result<Record, Refusal> {
        let mut stored = [0; RECORD_LENGTH];
        unpack(packed, &mut stored)?;
        Record::from_bytes(&stored)
    }
}
