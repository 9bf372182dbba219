//! The library's calls as they are: over any bytes, answering in numbers.
//!
//! A record crosses as 44 bytes. Each call but [`exit`] and [`version`] answers
//! 0 (accepted) or the number of a refusal; a step and a run also 255, where bytes
//! hold no record. Beside 7 and 255 stands the position, in the 44 bytes, of the
//! first field that fails; beside any other number it is 0, and beside 255 too where
//! the bytes aren't 44. Beside 7, 0 is r0's position, which only [`unpack`] tells.
//!
//! Bit n of `never_return` says that direct syscall n never returns; `profile` is
//! [`PROFILE_FULL`](crate::PROFILE_FULL) or [`PROFILE_SMALL`](crate::PROFILE_SMALL),
//! and any other number is refused; so is a `window` that starts above its end or ends
//! past RAM. This is the one module with `unsafe`.

use marshbodkin_sys::{
    mb_raw_count, mb_raw_exit, mb_raw_fresh, mb_raw_image_build, mb_raw_image_replace,
    mb_raw_image_run, mb_raw_image_step, mb_raw_load, mb_raw_pack, mb_raw_read_bundle, mb_raw_run,
    mb_raw_step, mb_raw_store, mb_raw_unpack, mb_raw_validate, mb_raw_version,
};

use crate::window::Window;

/// What a step or a run answers, and the numbers it was lent.
///
/// The kind is 0 budget, 1 service exit, 2 service exit with its literal,
/// 3 fault, 4 an unlisted halfword, 5 refused. The value is the low byte, or
/// the number of the fault or of the answer.
#[derive(Clone, Copy, Debug, Default, PartialEq, Eq)]
pub struct Answer {
    /// 0, or the number of the refusal.
    pub code: u32,
    /// Why it stopped.
    pub kind: u32,
    /// What the kind carries, or 0.
    pub value: u32,
    /// The literal of kind 2, or 0.
    pub literal: u32,
    /// With 255 the position of the field that fails, or 0 where the bytes aren't 44;
    /// else 0.
    pub position: u32,
    /// The counted steps.
    pub steps: u32,
}

/// What an exit asks of the host, in numbers. One that the kind doesn't name is 0.
///
/// The kind is 0 no exit, 1 return, 2 call, 3 tail call, 4 syscall, 5 tail
/// syscall, 6 long branch, 7 direct syscall, 8 breakpoint, 9 call by register,
/// 10 tail call by register.
#[derive(Clone, Copy, Debug, Default, PartialEq, Eq)]
pub struct ExitNumbers {
    /// Which exit it is.
    pub kind: u32,
    /// The number of a syscall, or of a register.
    pub number: u32,
    /// The constant of a syscall by a literal.
    pub immediate: u32,
    /// Where a call or a long branch goes.
    pub address: u32,
    /// By how many words a call lowers SP.
    pub words: u32,
}

// Why every call below is sound: a slice's pointer is never null and is valid
// for its length; what is lent to be written is a `&mut` slice or a local, so
// nothing else overlaps it or touches it during the call; and the declarations
// are the functions' own, as `tests/header.sh` sees to.

/// The answer and the count.
pub fn count(page: &[u8], never_return: u64, profile: u32) -> (u32, u32) {
    let mut count = 0;
    // SAFETY: a slice and a local, as above.
    let code =
        unsafe { mb_raw_count(page.as_ptr(), page.len(), never_return, profile, &mut count) };
    (code, count)
}

/// The answer, the kind (0 bad, 1 no successor, 2 the largest), the largest.
pub fn read_bundle(page: &[u8], never_return: u64, profile: u32, k: u32) -> (u32, u32, u32) {
    let (mut kind, mut largest) = (0, 0);
    // SAFETY: a slice and two locals, as above.
    let code = unsafe {
        mb_raw_read_bundle(
            page.as_ptr(),
            page.len(),
            never_return,
            profile,
            k,
            &mut kind,
            &mut largest,
        )
    };
    (code, kind, largest)
}

/// The answer, the kind (0 none, 1 RAM, 2 external), the offset.
pub fn validate(v: u32, external: &[u8]) -> (u32, u32, u32) {
    let (mut kind, mut offset) = (0, 0);
    // SAFETY: a slice and two locals, as above.
    let code =
        unsafe { mb_raw_validate(v, external.as_ptr(), external.len(), &mut kind, &mut offset) };
    (code, kind, offset)
}

/// Writes the fresh record.
pub fn fresh(record: &mut [u8]) -> u32 {
    // SAFETY: one `&mut` slice, as above.
    unsafe { mb_raw_fresh(record.as_mut_ptr(), record.len()) }
}

/// Stores a record in the room: the answer and the position.
pub fn store(record: &[u8], room: &mut [u8]) -> (u32, u32) {
    let mut position = 0;
    // SAFETY: a slice, a `&mut` slice and a local, as above.
    let code = unsafe {
        mb_raw_store(
            record.as_ptr(),
            record.len(),
            room.as_mut_ptr(),
            room.len(),
            &mut position,
        )
    };
    (code, position)
}

/// Reads a stored form back: the answer and the position.
pub fn load(stored: &[u8], record: &mut [u8]) -> (u32, u32) {
    let mut position = 0;
    // SAFETY: a slice, a `&mut` slice and a local, as above.
    let code = unsafe {
        mb_raw_load(
            stored.as_ptr(),
            stored.len(),
            record.as_mut_ptr(),
            record.len(),
            &mut position,
        )
    };
    (code, position)
}

/// Packs a stored form into the room: the answer, the length of the short form at the
/// room's start (0 where it is refused), and the position.
pub fn pack(stored: &[u8], room: &mut [u8]) -> (u32, usize, u32) {
    // The call overwrites both, whatever it answers; if it did not, that would show.
    let (mut length, mut position) = (usize::MAX, u32::MAX);
    // SAFETY: a slice, a `&mut` slice and two locals, as above.
    let code = unsafe {
        mb_raw_pack(
            stored.as_ptr(),
            stored.len(),
            room.as_mut_ptr(),
            room.len(),
            &mut length,
            &mut position,
        )
    };
    (code, length, position)
}

/// Unpacks a short form into the room: the answer and the position.
pub fn unpack(packed: &[u8], room: &mut [u8]) -> (u32, u32) {
    let mut position = u32::MAX;
    // SAFETY: a slice, a `&mut` slice and a local, as above.
    let code = unsafe {
        mb_raw_unpack(
            packed.as_ptr(),
            packed.len(),
            room.as_mut_ptr(),
            room.len(),
            &mut position,
        )
    };
    (code, position)
}

/// A run with a budget.
#[allow(clippy::too_many_arguments)] // as many as the library's call has
pub fn run(
    page: &[u8],
    never_return: u64,
    profile: u32,
    ram: &mut [u8],
    external: &[u8],
    window: Window,
    record: &mut [u8],
    budget: u32,
) -> Answer {
    let mut answer = Answer::default();
    // SAFETY: slices, `&mut` slices and five parts of a local, as above.
    answer.code = unsafe {
        mb_raw_run(
            page.as_ptr(),
            page.len(),
            never_return,
            profile,
            ram.as_mut_ptr(),
            ram.len(),
            external.as_ptr(),
            external.len(),
            window.start,
            window.end,
            record.as_mut_ptr(),
            record.len(),
            budget,
            &mut answer.kind,
            &mut answer.value,
            &mut answer.literal,
            &mut answer.position,
            &mut answer.steps,
        )
    };
    answer
}

/// One step.
pub fn step(
    page: &[u8],
    never_return: u64,
    profile: u32,
    ram: &mut [u8],
    external: &[u8],
    window: Window,
    record: &mut [u8],
) -> Answer {
    let mut answer = Answer::default();
    // SAFETY: slices, `&mut` slices and five parts of a local, as above.
    answer.code = unsafe {
        mb_raw_step(
            page.as_ptr(),
            page.len(),
            never_return,
            profile,
            ram.as_mut_ptr(),
            ram.len(),
            external.as_ptr(),
            external.len(),
            window.start,
            window.end,
            record.as_mut_ptr(),
            record.len(),
            &mut answer.kind,
            &mut answer.value,
            &mut answer.literal,
            &mut answer.position,
            &mut answer.steps,
        )
    };
    answer
}

/// Fills the index with the counts of the image's pages.
pub fn image_build(image: &[u8], index: &mut [u8], never_return: u64, profile: u32) -> u32 {
    // SAFETY: a slice and a `&mut` slice, as above.
    unsafe {
        mb_raw_image_build(
            image.as_ptr(),
            image.len(),
            index.as_mut_ptr(),
            index.len(),
            never_return,
            profile,
        )
    }
}

/// Puts a page at a number of the image, and its count into its byte of the index.
pub fn image_replace(
    image: &mut [u8],
    index: &mut [u8],
    never_return: u64,
    profile: u32,
    number: u32,
    page: &[u8],
) -> u32 {
    // SAFETY: two `&mut` slices and a slice, as above.
    unsafe {
        mb_raw_image_replace(
            image.as_mut_ptr(),
            image.len(),
            index.as_mut_ptr(),
            index.len(),
            never_return,
            profile,
            number,
            page.as_ptr(),
            page.len(),
        )
    }
}

/// A run with a budget in the page of a number.
#[allow(clippy::too_many_arguments)] // as many as the library's call has
pub fn image_run(
    image: &[u8],
    index: &[u8],
    never_return: u64,
    profile: u32,
    number: u32,
    ram: &mut [u8],
    external: &[u8],
    window: Window,
    record: &mut [u8],
    budget: u32,
) -> Answer {
    let mut answer = Answer::default();
    // SAFETY: slices, `&mut` slices and five parts of a local, as above.
    answer.code = unsafe {
        mb_raw_image_run(
            image.as_ptr(),
            image.len(),
            index.as_ptr(),
            index.len(),
            never_return,
            profile,
            number,
            ram.as_mut_ptr(),
            ram.len(),
            external.as_ptr(),
            external.len(),
            window.start,
            window.end,
            record.as_mut_ptr(),
            record.len(),
            budget,
            &mut answer.kind,
            &mut answer.value,
            &mut answer.literal,
            &mut answer.position,
            &mut answer.steps,
        )
    };
    answer
}

/// One step in the page of a number.
#[allow(clippy::too_many_arguments)] // as many as the library's call has
pub fn image_step(
    image: &[u8],
    index: &[u8],
    never_return: u64,
    profile: u32,
    number: u32,
    ram: &mut [u8],
    external: &[u8],
    window: Window,
    record: &mut [u8],
) -> Answer {
    let mut answer = Answer::default();
    // SAFETY: slices, `&mut` slices and five parts of a local, as above.
    answer.code = unsafe {
        mb_raw_image_step(
            image.as_ptr(),
            image.len(),
            index.as_ptr(),
            index.len(),
            never_return,
            profile,
            number,
            ram.as_mut_ptr(),
            ram.len(),
            external.as_ptr(),
            external.len(),
            window.start,
            window.end,
            record.as_mut_ptr(),
            record.len(),
            &mut answer.kind,
            &mut answer.value,
            &mut answer.literal,
            &mut answer.position,
            &mut answer.steps,
        )
    };
    answer
}

/// What an exit asks of the host, by the low byte and the literal of a stop.
pub fn exit(low: u32, literal: u32) -> ExitNumbers {
    let mut exit = ExitNumbers::default();
    // SAFETY: five parts of a local, as above.
    unsafe {
        mb_raw_exit(
            low,
            literal,
            &mut exit.kind,
            &mut exit.number,
            &mut exit.immediate,
            &mut exit.address,
            &mut exit.words,
        )
    };
    exit
}

/// The archive's version: 65536 * major + 256 * minor + patch.
pub fn version() -> u32 {
    // SAFETY: nothing is lent.
    unsafe { mb_raw_version() }
}
