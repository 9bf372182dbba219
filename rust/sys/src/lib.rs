//! The raw calls of the proved library, as its archive exports them.
//!
//! A host uses the package `marshbodkin`, which has safe calls over these. Each
//! call but the last two answers 0 (accepted), the number of a refusal or, for a
//! step and a run, 255 where bytes hold no record; the rest comes back in the
//! numbers and bytes that are lent. `docs/MACHINE.md` has all numbers.
//!
//! What a caller owes, in every call:
//! - no pointer is null, not even where the length is 0;
//! - each area is as long as its length says, and stays valid during the call;
//! - what the call may write overlaps nothing else that it is lent;
//! - nothing else writes a lent area during the call, or reads one that the call
//!   may write.

#![no_std]
#![deny(missing_docs)]

// Nothing checks these against the archive when it is linked: `tests/header.sh`
// compares them with the source.
extern "C" {
    /// The count of a page. Here and below, bit n of `never_return` says that
    /// direct syscall n never returns, and `profile` is 0 full or 1 small.
    pub fn mb_raw_count(
        page: *const u8,
        page_length: usize,
        never_return: u64,
        profile: u32,
        count: *mut u32,
    ) -> u32;

    /// Bundle k of a page: kind 0 bad, 1 no successor, 2 the largest successor.
    pub fn mb_raw_read_bundle(
        page: *const u8,
        page_length: usize,
        never_return: u64,
        profile: u32,
        k: u32,
        kind: *mut u32,
        largest: *mut u32,
    ) -> u32;

    /// The base of address v: kind 0 none, 1 RAM, 2 external, and the offset.
    pub fn mb_raw_validate(
        v: u32,
        external: *const u8,
        external_length: usize,
        kind: *mut u32,
        offset: *mut u32,
    ) -> u32;

    /// Writes the fresh record.
    pub fn mb_raw_fresh(record: *mut u8, record_length: usize) -> u32;

    /// Stores a record in the room. Here and below, `position` says with 7 and
    /// 255 where the first failing field begins in the 44 bytes; else, and with 255
    /// where the bytes aren't 44, it is 0.
    pub fn mb_raw_store(
        record: *const u8,
        record_length: usize,
        room: *mut u8,
        room_length: usize,
        position: *mut u32,
    ) -> u32;

    /// Reads a stored form back.
    pub fn mb_raw_load(
        stored: *const u8,
        stored_length: usize,
        record: *mut u8,
        record_length: usize,
        position: *mut u32,
    ) -> u32;

    /// Packs a stored form into the room: the short form at its start, and the
    /// length of that, 0 where it is refused. The room's other bytes stay.
    pub fn mb_raw_pack(
        stored: *const u8,
        stored_length: usize,
        room: *mut u8,
        room_length: usize,
        length: *mut usize,
        position: *mut u32,
    ) -> u32;

    /// Unpacks a short form into the room. Its `position` with 7 may be 0 too, which
    /// is r0's.
    pub fn mb_raw_unpack(
        packed: *const u8,
        packed_length: usize,
        room: *mut u8,
        room_length: usize,
        position: *mut u32,
    ) -> u32;

    /// Runs the record with a budget of steps; the five numbers say why and
    /// when it stopped. Of RAM only the offsets from `window_start` to below
    /// `window_end` are read and written.
    pub fn mb_raw_run(
        page: *const u8,
        page_length: usize,
        never_return: u64,
        profile: u32,
        ram: *mut u8,
        ram_length: usize,
        external: *const u8,
        external_length: usize,
        window_start: u32,
        window_end: u32,
        record: *mut u8,
        record_length: usize,
        budget: u32,
        kind: *mut u32,
        value: *mut u32,
        literal: *mut u32,
        position: *mut u32,
        steps: *mut u32,
    ) -> u32;

    /// One step: a run with budget 1.
    pub fn mb_raw_step(
        page: *const u8,
        page_length: usize,
        never_return: u64,
        profile: u32,
        ram: *mut u8,
        ram_length: usize,
        external: *const u8,
        external_length: usize,
        window_start: u32,
        window_end: u32,
        record: *mut u8,
        record_length: usize,
        kind: *mut u32,
        value: *mut u32,
        literal: *mut u32,
        position: *mut u32,
        steps: *mut u32,
    ) -> u32;

    /// Fills the index of an image, one byte a page, with the pages' counts.
    pub fn mb_raw_image_build(
        image: *const u8,
        image_length: usize,
        index: *mut u8,
        index_length: usize,
        never_return: u64,
        profile: u32,
    ) -> u32;

    /// Puts a page of 256 bytes at a number, and its count into its byte of the index.
    pub fn mb_raw_image_replace(
        image: *mut u8,
        image_length: usize,
        index: *mut u8,
        index_length: usize,
        never_return: u64,
        profile: u32,
        number: u32,
        page: *const u8,
        page_length: usize,
    ) -> u32;

    /// Runs the record in the page of a number, as [`mb_raw_run`] does in a page alone,
    /// where every byte of the index is its page's count.
    pub fn mb_raw_image_run(
        image: *const u8,
        image_length: usize,
        index: *const u8,
        index_length: usize,
        never_return: u64,
        profile: u32,
        number: u32,
        ram: *mut u8,
        ram_length: usize,
        external: *const u8,
        external_length: usize,
        window_start: u32,
        window_end: u32,
        record: *mut u8,
        record_length: usize,
        budget: u32,
        kind: *mut u32,
        value: *mut u32,
        literal: *mut u32,
        position: *mut u32,
        steps: *mut u32,
    ) -> u32;

    /// One step in the page of a number: a run with budget 1.
    pub fn mb_raw_image_step(
        image: *const u8,
        image_length: usize,
        index: *const u8,
        index_length: usize,
        never_return: u64,
        profile: u32,
        number: u32,
        ram: *mut u8,
        ram_length: usize,
        external: *const u8,
        external_length: usize,
        window_start: u32,
        window_end: u32,
        record: *mut u8,
        record_length: usize,
        kind: *mut u32,
        value: *mut u32,
        literal: *mut u32,
        position: *mut u32,
        steps: *mut u32,
    ) -> u32;

    /// What an exit asks of the host, by the low byte and the literal of a stop.
    pub fn mb_raw_exit(
        low: u32,
        literal: u32,
        kind: *mut u32,
        number: *mut u32,
        immediate: *mut u32,
        address: *mut u32,
        words: *mut u32,
    );

    /// The archive's version: 65536 * major + 256 * minor + patch.
    pub fn mb_raw_version() -> u32;
}
