//! A difference in words: what was handed over, and both answers.

use std::fmt::Debug;

use super::image_sides::{Images, InImage};
use super::short::Packed;
use super::sides::{record_in, Given, Handed, Told};
use crate::second::image::Platform;
use crate::second::page::Code;
use crate::second::record::Base;
use crate::show;

/// How many unequal bytes of RAM are shown.
const SHOWN: usize = 16;
/// Most external data that is shown whole.
const SHORT: usize = 1024;

/// A difference of a step or a run; the library's side comes first.
pub fn runs(call: &str, handed: &Handed, sides: [(&Given, &[u8]); 2]) -> String {
    let names = ["library", "second program"];
    format!("{call}\n{}", ends(names, handed, sides))
}

/// Two ends from one record and RAM that differ, by the names of what led to them.
pub fn ends(names: [&str; 2], handed: &Handed, sides: [(&Given, &[u8]); 2]) -> String {
    let [(ours, our_ram), (theirs, their_ram)] = sides;
    format!(
        "{}{}: {}\n{}: {}\nRAM {}\n",
        handed_over(handed, their_ram.len()),
        names[0],
        given(ours),
        names[1],
        given(theirs),
        unequal(our_ram, their_ram),
    )
}

/// The bytes in which two areas differ, the first of them shown.
fn unequal(ours: &[u8], theirs: &[u8]) -> String {
    let unequal: Vec<String> = (0..)
        .zip(ours.iter().zip(theirs))
        .filter(|(_, (ours, theirs))| ours != theirs)
        .map(|(at, (ours, theirs))| format!("{at}: {ours:02X} {theirs:02X}"))
        .collect();
    format!(
        "bytes that differ: {}\n{}",
        unequal.len(),
        unequal[..unequal.len().min(SHOWN)].join(", "),
    )
}

/// A platform.
pub fn platform(platform: Platform) -> String {
    let Platform {
        never_return: set,
        profile,
    } = platform;
    format!("under the set {:016X} and profile {profile}", set.0)
}

/// A replacement.
pub fn replacement(given: Platform, number: u32, page: &[u8]) -> String {
    format!(
        "image replace of page {number} {}\nby ({} bytes): {}",
        platform(given),
        page.len(),
        show::page(page),
    )
}

/// A difference of a call on an image and its index; the library's side comes first.
pub fn images(call: &str, codes: [u32; 2], images: &Images) -> String {
    let (library, second) = (&images.library, &images.second);
    format!(
        "{call}\nimage of {} bytes, index of {}\nlibrary: {}\nsecond program: {}\nimage {}\nindex {}\n",
        second.bytes.len(),
        second.index.len(),
        codes[0],
        codes[1],
        unequal(&library.bytes, &second.bytes),
        unequal(&library.index, &second.index),
    )
}

/// A difference of a step or a run in an image; the library's side comes first.
pub fn image_runs(
    call: &str,
    handed: &InImage,
    images: &Images,
    sides: [(&Given, &[u8]); 2],
) -> String {
    let stored = &images.second;
    let page = stored.bytes.chunks(256).nth(handed.number as usize);
    let alone = Code {
        page: page.unwrap_or_default(),
        never_return: handed.platform.never_return,
        profile: handed.platform.profile,
    };
    let index = &stored.index[..stored.index.len().min(SHORT)];
    format!(
        "page {} of an image of {} bytes, index ({} bytes): {}\n{}",
        handed.number,
        stored.bytes.len(),
        stored.index.len(),
        show::bytes(index),
        runs(call, &handed.on(alone), sides),
    )
}

/// What a step or a run was handed.
fn handed_over(handed: &Handed, ram: usize) -> String {
    format!(
        "{}record ({} bytes): {}\n{}budget {}, RAM of {ram} bytes, window {} to {}\nexternal ({} bytes): {}\n",
        code(handed.code),
        handed.record.len(),
        show::bytes(handed.record),
        fields(handed.record),
        handed.budget,
        handed.window.start,
        handed.window.end,
        handed.external.len(),
        external(handed),
    )
}

/// A page, the syscalls that never return and the profile.
pub fn code(code: Code) -> String {
    format!(
        "page ({} bytes): {}\nnever return: {:016X}\nprofile: {}\n",
        code.page.len(),
        show::page(code.page),
        code.never_return.0,
        code.profile,
    )
}

/// The external data, or only the page of it that holds the base.
fn external(handed: &Handed) -> String {
    let base = record_in(handed.record).map(|record| record.base);
    match (handed.external, base) {
        (all, _) if all.len() <= SHORT => show::bytes(all),
        (all, Some(Base::External(offset))) if (offset as usize) < all.len() => {
            let start = offset as usize / 256 * 256;
            let page = &all[start..all.len().min(start + 256)];
            format!("from {start}: {}", show::bytes(page))
        }
        _ => "too long to show".to_string(),
    }
}

/// The fields of a record, if the bytes hold one.
fn fields(bytes: &[u8]) -> String {
    match record_in(bytes) {
        None => String::new(),
        Some(record) => format!("{record:X?}\n"),
    }
}

/// What a side gave.
fn given(given: &Given) -> String {
    format!("{:?}\n  {}", given.numbers, show::bytes(&given.record))
}

/// A difference of a call on a page.
pub fn page_call<T: Debug>(call: &str, handed: Code, library: T, second: T) -> String {
    format!(
        "{call}\n{}library: {library:?}\nsecond program: {second:?}\n",
        code(handed),
    )
}

/// A difference of base validation.
pub fn validation<T: Debug>(v: u32, external: &[u8], library: T, second: T) -> String {
    format!(
        "validate {v:08X} with {} external bytes\nlibrary: {library:?}\nsecond program: {second:?}\n",
        external.len(),
    )
}

/// A difference of an exit.
pub fn exit<T: Debug>(low: u32, literal: u32, library: T, second: T) -> String {
    format!(
        "exit of {low:02X} with literal {literal:08X}\nlibrary: {library:X?}\nsecond program: {second:X?}\n",
    )
}

/// A difference of packing; the library's side comes first.
pub fn packing(stored: &[u8], room: &[u8], sides: [&Packed; 2]) -> String {
    let side = |Packed { told, length, room }: &Packed| {
        let Told { code, position } = told;
        let room = show::bytes(room);
        format!("{code} at {position}, length {length}, {room}")
    };
    let [library, second] = sides.map(side);
    format!(
        "pack\nstored ({} bytes): {}\nroom ({} bytes): {}\nlibrary: {library}\nsecond program: {second}\n",
        stored.len(),
        show::bytes(stored),
        room.len(),
        show::bytes(room),
    )
}

/// A difference of storing, reading back or unpacking; the library's side comes first.
pub fn form(call: &str, from: &[u8], room: &[u8], sides: [(Told, &Vec<u8>); 2]) -> String {
    let side = |(told, bytes): (Told, &Vec<u8>)| {
        let Told { code, position } = told;
        format!("{code} at {position}, {}", show::bytes(bytes))
    };
    let [library, second] = sides.map(side);
    format!(
        "{call}\nfrom ({} bytes): {}\nroom ({} bytes): {}\nlibrary: {library}\nsecond program: {second}\n",
        from.len(),
        show::bytes(from),
        room.len(),
        show::bytes(room),
    )
}
