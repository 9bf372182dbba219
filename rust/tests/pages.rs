//! The decoder against the paper's rows, the count against document 000's
//! single pass, and what the pages of the default seed reach.

use std::collections::BTreeMap;

use marshbodkin_check::compare::codes;
use marshbodkin_check::mistakes;
use marshbodkin_check::random::{self, Random, DEFAULT_SEED};
use marshbodkin_check::second::arith::{condition_passed, Flags};
use marshbodkin_check::second::count::{count, read_bundle, Reading};
use marshbodkin_check::second::decode::{narrow, opens_wide, wide, DataOp, Instruction};
use marshbodkin_check::second::machine::{step, Stop};
use marshbodkin_check::second::memory::RAM_SIZE;
use marshbodkin_check::second::page::{Code, Page};
use marshbodkin_check::second::profile::{FULL, SMALL};
use marshbodkin_check::second::record::Record;
use marshbodkin_check::second::rules::Rules;
use marshbodkin_check::second::setting::Setting;
use marshbodkin_check::second::text;

const PAGES: u64 = 400;

/// True if the bits match a row such as `1011x0x1xxxxxxxx`.
fn matches(row: &str, bits: u32) -> bool {
    let width = row.len();
    row.bytes().enumerate().all(|(at, wanted)| {
        let bit = (bits >> (width - 1 - at)) & 1;
        wanted == b'x' || u32::from(wanted - b'0') == bit
    })
}

/// The empty page under a profile, to read halfwords by.
fn empty(profile: u32) -> Page<'static> {
    Page::new(Code::plain(&[]).under(profile)).expect("a page")
}

#[test]
fn narrow_decoder_matches_the_rows() {
    let rows = [
        "00xxxxxxxxxxxxxx",
        "010000xxxxxxxxxx",
        "0100011000xxxxxx",
        "01001xxxxxxxxxxx",
        "1001xxxxxxxxxxxx",
        "10101xxxxxxxxxxx",
        "10110010xxxxxxxx",
        "1011111100000000",
        "1101xxxxxxxxxxxx",
        "11100xxxxxxxxxxx",
    ];
    for half in 0..=u16::MAX {
        let bits = u32::from(half);
        let bad = matches!(half, 0xDE00..=0xDEFF | 0xDFE9..=0xDFEF);
        let small = !bad && rows.iter().any(|row| matches(row, bits));
        let full = small || matches("1011x0x1xxxxxxxx", bits);
        assert_eq!(narrow(half).is_some(), full, "{half:04X}");
        assert_eq!(empty(FULL).narrow(half), narrow(half), "{half:04X}");
        let read = empty(SMALL).narrow(half);
        assert_eq!(read, narrow(half).filter(|_| small), "{half:04X}");
    }
}

#[test]
fn wide_decoder_matches_the_rows() {
    let rows = [
        "11111000110010010xxxxxxxxxxxxxxx",
        "1111100010x010010xxxxxxxxxxxxxxx",
        "1111100x10x1100x0xxxxxxxxxxxxxxx",
        "111110001101100x0xxxxxxxxxxxxxxx",
        "11110x10x100xxxx0xxx0xxxxxxxxxxx",
        "1111101110x10xxx11110xxx11110xxx",
    ];
    let seconds = [
        0x0000, 0x7000, 0x7FFF, 0x8000, 0x77FF, 0x0800, 0xF0F0, 0xF7F7, 0xF8F0, 0xF0F8,
    ];
    for first in 0..=u16::MAX {
        for second in seconds.into_iter().chain([0xF0E0, 0xE0F0, 0xFFFF]) {
            let bits = u32::from(first) << 16 | u32::from(second);
            let listed = rows.iter().any(|row| matches(row, bits));
            let read = wide(first, second);
            assert_eq!(read.is_some(), listed, "{bits:08X}");
            assert!(!listed || opens_wide(first));
            assert_eq!(empty(FULL).wide(first, second), read, "{bits:08X}");
            assert_eq!(empty(SMALL).wide(first, second), None, "{bits:08X}");
        }
    }
}

/// Document 000's single pass from the last bundle back.
fn single_pass(page: Page) -> usize {
    (0..page.bundles())
        .rev()
        .fold(page.bundles(), |upper, k| match read_bundle(page, k) {
            Reading::Bad => k,
            Reading::Largest(largest) if largest >= upper => k,
            _ => upper,
        })
}

#[test]
fn count_equals_the_single_pass() {
    let mut random = Random::new(DEFAULT_SEED);
    for number in 0..3000 {
        let bytes = random::page(DEFAULT_SEED, number);
        if let Ok(page) = Page::new(codes::any(&mut random, &bytes)) {
            assert_eq!(count(page), single_pass(page), "page {number}");
        }
    }
}

/// A name for each listed instruction, and for a condition's two ways.
fn name(instruction: Instruction, flags: Flags) -> String {
    match instruction {
        Instruction::ShiftConstant { kind, .. } => format!("{kind:?} constant"),
        Instruction::Data { op, .. } => format!("{op:?}"),
        Instruction::Extend { width, signed, .. } => format!("Extend {width} {signed}"),
        Instruction::CompareBranch { nonzero, .. } => format!("CompareBranch {nonzero}"),
        Instruction::ConditionalBranch { condition, .. } => {
            let taken = condition_passed(condition, flags);
            format!("Condition {condition} {taken}")
        }
        Instruction::Store { size, .. } => format!("Store {size:?}"),
        Instruction::Load {
            size, signed, base, ..
        } => format!("Load {size:?} {signed} {base:?}"),
        Instruction::Divide { signed, .. } => format!("Divide {signed}"),
        Instruction::Service { low, .. } => match low {
            0 => "Return".to_string(),
            1..=0x7F => "Service by literal".to_string(),
            0xE8 => "Breakpoint".to_string(),
            0x80..=0xBF => "Service 80-BF".to_string(),
            _ => format!("Service {:X}x", low >> if low < 0xE0 { 5 } else { 3 }),
        },
        other => {
            let text = format!("{other:?}");
            text.split(' ').next().unwrap_or_default().to_string()
        }
    }
}

/// The instruction at the record's place.
fn at_place(page: Page, record: &Record) -> Option<Instruction> {
    let place = usize::from(record.place);
    let first = page.halfword(place);
    if opens_wide(first) {
        wide(first, page.halfword(place + 1))
    } else {
        narrow(first)
    }
}

/// Counts what the first steps of a page execute.
fn trace(bytes: &[u8], seen: &mut BTreeMap<String, u32>) {
    let code = Code::plain(bytes);
    let Ok(page) = Page::new(code) else { return };
    let (mut ram, mut record) = (vec![0; RAM_SIZE], Record::fresh());
    for _ in 0..300 {
        let answer = step(Setting::new(code), &mut ram, &record);
        if answer.steps == 1 {
            let instruction = at_place(page, &record).expect("a listed instruction");
            *seen.entry(name(instruction, record.flags)).or_default() += 1;
        }
        record = answer.record;
        if answer.stop != Stop::Budget {
            return;
        }
    }
}

#[test]
fn default_seed_executes_every_instruction_often() {
    let mut seen = BTreeMap::new();
    for number in 0..PAGES {
        trace(&random::page(DEFAULT_SEED, number), &mut seen);
    }
    for (name, times) in &seen {
        println!("{times:6} {name}");
    }
    // 3 shifts, add, sub, mov, cmp; 16 operations; mov; literal; 3 by SP;
    // 4 extensions; nop; 2 + 28 + 1 branches; 8 services; 3 stores, 10 loads;
    // movw, movt, 2 divisions.
    assert_eq!(seen.len(), 7 + 16 + 1 + 1 + 3 + 4 + 1 + 31 + 8 + 13 + 4);
    for (name, times) in seen {
        let least = match name.split(' ').next() {
            Some("Service" | "Breakpoint") => 3,
            Some("Condition") => 10,
            _ => 20,
        };
        assert!(times >= least, "{name} executed {times} times");
    }
}

#[test]
fn default_seed_finds_lt_from_n_alone() {
    let broken = mistakes::rules("lt-from-n").expect("a known mistake");
    let found = (0..PAGES)
        .map(|number| random::page(DEFAULT_SEED, number))
        .filter(|page| text::runner_answer(broken, page) != text::runner_answer(Rules::RIGHT, page))
        .count();
    println!("{found} pages differ");
    assert!(found >= 10, "only {found} pages differ");
}

#[test]
fn register_operations_are_distinct() {
    let ops: Vec<DataOp> = (0..16)
        .filter_map(|op: u16| match narrow(0x4000 | op << 6) {
            Some(Instruction::Data { op, .. }) => Some(op),
            _ => None,
        })
        .collect();
    assert_eq!(ops.len(), 16);
    assert!((1..16).all(|i| !ops[..i].contains(&ops[i])));
}
