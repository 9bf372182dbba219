//! 02's windows of RAM, by hand; and that the comparison finds mistakes about them, and
//! misses what it did not meet.

mod parts;

use marshbodkin_check::assemble::{self as asm, page_bytes, Bundle, NOP, RETURN};
use marshbodkin_check::compare::calls::{outside_stays, same_inside};
use marshbodkin_check::compare::ranges::{self, ALLOWED, KINDS_ALLOWED, KINDS_REFUSED, REFUSED};
use marshbodkin_check::compare::reach::Reach;
use marshbodkin_check::compare::sides::{Given, Handed, Rams};
use marshbodkin_check::compare::tally::Tally;
use marshbodkin_check::compare::{refusals, sharing, windows};
use marshbodkin_check::random::{self, DEFAULT_SEED};
use marshbodkin_check::second::machine::{run, run_bytes, Answer, Stop};
use marshbodkin_check::second::memory::{Fault, RAM_SIZE};
use marshbodkin_check::second::page::Code;
use marshbodkin_check::second::record::{stored_bytes, Base, Record, RAM_END, RAM_START};
use marshbodkin_check::second::refusal::Refusal;
use marshbodkin_check::second::rules::Rules;
use marshbodkin_check::second::setting::Setting;
use marshbodkin_check::second::window::Window;

const RETURNED: Stop = Stop::Service {
    low: 0,
    literal: None,
};
const OUTSIDE: Stop = Stop::Fault(Fault::OutsideWindow);
const EMPTY: Window = window(0, 0);
const END: u32 = RAM_SIZE as u32;

const fn window(start: u32, end: u32) -> Window {
    Window { start, end }
}

/// A RAM in which every change shows.
fn filled() -> Vec<u8> {
    (0..RAM_SIZE).map(|at| (7 * at + 3) as u8).collect()
}

/// A bundle, a return and a literal word, run in a window with 512 bytes of external
/// data; and RAM afterwards.
fn run_in(within: Window, bundle: Bundle, word: u32, record: &Record) -> (Answer, Vec<u8>) {
    let page = page_bytes(&[bundle, [RETURN, NOP], asm::word(word)]);
    let setting = Setting::new(Code::plain(&page)).with_external(&[0xA5; 512]);
    let mut ram = filled();
    let answer = run(setting.within(within), &mut ram, record, 10);
    (answer, ram)
}

/// How a load or store of this first halfword stops, at a RAM offset.
fn by_base(first: u16, at: u32, within: Window) -> Stop {
    let record = with_base(Base::Ram(at - 1));
    run_in(within, asm::memory(first, 1, 1), 0, &record).0.stop
}

/// How an instruction stops from an SP so far above the start of RAM.
fn from_sp(half: u16, word: u32, sp: u32, within: Window) -> Stop {
    let record = Record {
        sp: RAM_START + sp,
        ..Record::fresh()
    };
    run_in(within, [half, RETURN], word, &record).0.stop
}

fn with_base(base: Base) -> Record {
    Record {
        base,
        ..Record::fresh()
    }
}

/// A word, a halfword and a byte at 101, by r9 and by r8.
#[test]
fn an_access_by_a_base_is_wholly_inside() {
    let words = [0xF8C9, 0xF8D8, 0xF8D9];
    let halfwords = [0xF8A9, 0xF8B8, 0xF8B9, 0xF9B8, 0xF9B9];
    let bytes = [0xF889, 0xF898, 0xF899, 0xF998, 0xF999];
    for (firsts, end) in [(&words[..], 105), (&halfwords, 103), (&bytes, 102)] {
        for &first in firsts {
            for within in [window(101, end), window(0, end), window(101, END)] {
                assert_eq!(by_base(first, 101, within), RETURNED);
            }
            for (start, end) in [(102, end + 1), (101, end - 1), (102, END), (0, end - 1)] {
                assert_eq!(by_base(first, 101, window(start, end)), OUTSIDE);
            }
        }
    }
}

#[test]
fn an_access_on_the_stack_is_wholly_inside() {
    let words = [
        (asm::stack_store(1, 2), 0),
        (asm::stack_load(1, 2), 0),
        (asm::service(2), 0xC420_0008),
        (asm::service(2), 0xC540_0008),
    ];
    for (half, word) in words {
        for within in [window(108, 112), window(0, 112), window(108, END)] {
            assert_eq!(from_sp(half, word, 100, within), RETURNED);
        }
        for within in [window(109, 112), window(108, 111), window(107, 111), EMPTY] {
            assert_eq!(from_sp(half, word, 100, within), OUTSIDE);
        }
    }
}

/// No byte of it is written, not even those inside.
#[test]
fn a_store_outside_writes_nothing() {
    let record = with_base(Base::Ram(100));
    for within in [window(100, 103), window(101, 105), window(100, 101)] {
        let (answer, ram) = run_in(within, asm::memory(0xF8C9, 1, 0), 0, &record);
        assert_eq!((answer.stop, answer.steps), (OUTSIDE, 0));
        assert_eq!(answer.record, record);
        assert!(ram == filled());
    }
}

#[test]
fn other_faults_come_first() {
    let no_base = Stop::Fault(Fault::NoBase);
    for base in [Base::None, Base::External(0)] {
        for first in [0xF8C9, 0xF889, 0xF8A9, 0xF8D9, 0xF9B9] {
            let (answer, _) = run_in(EMPTY, asm::memory(first, 1, 0), 0, &with_base(base));
            assert_eq!(answer.stop, no_base);
        }
    }
    for at in [END - 3, END, END + 1000, 0xF_FFFF] {
        for within in [EMPTY, window(END, END), Window::WHOLE] {
            let past = Stop::Fault(Fault::PastRam);
            assert_eq!(by_base(0xF8C9, at, within), past);
            assert_eq!(by_base(0xF8D8, at, within), past);
        }
    }
    for within in [EMPTY, window(END, END), Window::WHOLE] {
        let past = Stop::Fault(Fault::PastStack);
        let sp = RAM_END - RAM_START;
        assert_eq!(from_sp(asm::stack_load(0, 0), 0, sp, within), past);
        assert_eq!(from_sp(asm::stack_store(0, 1), 0, sp - 4, within), past);
        let word = 0xC400_0001;
        assert_eq!(from_sp(asm::service(2), word, sp - 4, within), past);
    }
}

#[test]
fn nothing_else_is_tested() {
    let external = with_base(Base::External(252));
    let (answer, _) = run_in(EMPTY, asm::memory(0xF8D8, 1, 0), 0, &external);
    assert_eq!(answer.stop, RETURNED);
    assert_eq!(answer.record.registers[1], 0xA5A5_A5A5);
    let (answer, _) = run_in(EMPTY, asm::memory(0xF8D8, 1, 1), 0, &external);
    assert_eq!(answer.stop, Stop::Fault(Fault::OffExternalPage));
    for (half, word) in [
        (asm::service(0xC1), 0),
        (asm::service(2), 0xC300_0001),
        (asm::add_from_sp(1, 255), 0),
        (asm::load_literal(1, 1), 0),
    ] {
        assert_eq!(from_sp(half, word, 4, EMPTY), RETURNED);
    }
    let low = Stop::Fault(Fault::StackTooLow);
    assert_eq!(from_sp(asm::service(0xC2), 0, 4, window(0, 8)), low);
}

/// What a run refuses: a page, the lengths of RAM and external data, and the bytes of a
/// record, in a window.
fn refusal(
    (page, profile): (&[u8], u32),
    (ram, external): (usize, usize),
    within: Window,
    record: &[u8],
) -> Option<u8> {
    let (mut ram, external) = (vec![7; ram], vec![0; external]);
    let code = Code::plain(page).under(profile);
    let setting = Setting::new(code).with_external(&external).within(within);
    let mut bytes = record.to_vec();
    let (stop, steps) = run_bytes(Rules::RIGHT, setting, &mut ram, &mut bytes, 5);
    if let Some(Refusal { number, .. }) = stop.refusal() {
        assert_eq!((steps, &bytes[..]), (0, record));
        assert!(ram.iter().all(|&byte| byte == 7));
        return Some(number);
    }
    None
}

#[test]
fn windows_that_are_refused() {
    let page = page_bytes(&[[0x2001, RETURN]]);
    let fresh = stored_bytes(&Record::fresh());
    let refused = |within| refusal((&page, 0), (RAM_SIZE, 0), within, &fresh);
    for within in REFUSED {
        assert_eq!(refused(within), Some(20), "{within:?}");
        assert!(KINDS_REFUSED.contains(&ranges::kind(within)));
    }
    for within in ALLOWED {
        assert_eq!(refused(within), None, "{within:?}");
        assert!(KINDS_ALLOWED.contains(&ranges::kind(within)));
    }
    for at in [0, 1, 16_384, END] {
        assert_eq!(refused(window(at, at)), None);
        assert_eq!(refused(window(at + 1, at)), Some(20));
    }
    assert_eq!(refused(window(0, END + 1)), Some(20));
}

#[test]
fn the_window_stands_behind_3_and_before_the_record() {
    let page = page_bytes(&[[0x2001, RETURN]]);
    let good = (&page[..], 0);
    let fresh = stored_bytes(&Record::fresh());
    for within in [window(1, 0), window(0, END + 1)] {
        let before = [
            (18, (&page[..], 2), (RAM_SIZE, 0)),
            (1, (&page[..3], 0), (RAM_SIZE, 0)),
            (2, good, (RAM_SIZE - 1, 0)),
            (3, good, (RAM_SIZE, 255)),
        ];
        for (number, code, lengths) in before {
            assert_eq!(refusal(code, lengths, within, &fresh), Some(number));
        }
        let record = |sp, base, place| Record {
            sp,
            base,
            place,
            ..Record::fresh()
        };
        let behind = [
            (41, record(RAM_START - 4, Base::None, 0)),
            (42, record(RAM_START + 2, Base::None, 0)),
            (43, record(RAM_START, Base::Ram(1 << 20), 0)),
            (44, record(RAM_START, Base::External(256), 0)),
            (5, record(RAM_START, Base::None, 2)),
        ]
        .map(|(number, record)| (number, stored_bytes(&record)));
        let no_record = (255, vec![0xFF; 44]);
        for (number, bytes) in behind.into_iter().chain([no_record]) {
            let lengths = (RAM_SIZE, 256);
            assert_eq!(refusal(good, lengths, within, &bytes), Some(20));
            let whole = refusal(good, lengths, Window::WHOLE, &bytes);
            assert_eq!(whole, Some(number));
        }
    }
}

#[test]
fn in_the_whole_ram_nothing_is_outside() {
    for number in 0..500 {
        let page = random::page(DEFAULT_SEED, number);
        let setting = Setting::new(Code::plain(&page));
        let answer = run(setting, &mut filled(), &Record::fresh(), 1000);
        assert_ne!(answer.stop, OUTSIDE, "page {number}");
    }
}

/// r1 is stored at r0 for ever, which each turn moves on by a word.
const MARCH: &[Bundle] = &[
    [asm::NOP, 0xDFE0],
    [0xF8C9, 0x1000],
    [0x3004, 0xE7F9], // add r0, #4; b to bundle 0
];

/// Two such filters in one RAM, each up to the end of its window.
#[test]
fn two_filters_in_one_ram() {
    let page = page_bytes(MARCH);
    let mut ram = filled();
    let mut expected = filled();
    for (within, word) in [(window(102, 203), 1), (window(203, 300), 2u32)] {
        let mut record = Record::fresh();
        record.registers[..2].copy_from_slice(&[RAM_START + within.start, word]);
        let setting = Setting::new(Code::plain(&page)).within(within);
        let answer = run(setting, &mut ram, &record, 10_000);
        let words = (within.end - within.start) / 4;
        assert_eq!((answer.stop, answer.steps), (OUTSIDE, 5 * words + 2));
        let start = within.start as usize;
        for room in expected[start..][..4 * words as usize].chunks_mut(4) {
            room.copy_from_slice(&word.to_le_bytes());
        }
        assert!(ram == expected);
    }
}

/// What an instruction is about to access.
fn reach(bundle: Bundle, word: u32, record: &Record) -> Option<Reach> {
    let page = page_bytes(&[bundle, [RETURN, NOP], asm::word(word)]);
    Reach::of(Code::plain(&page), record)
}

#[test]
fn what_instructions_reach() {
    let some = |at, size| Some(Reach { at, size });
    let on_stack = Record {
        sp: RAM_START + 8,
        ..Record::fresh()
    };
    assert_eq!(reach([0x9102, RETURN], 0, &on_stack), some(16, 4));
    assert_eq!(reach([0x9900, RETURN], 0, &on_stack), some(8, 4));
    let by_word = [asm::service(2), RETURN];
    assert_eq!(reach(by_word, 0xC420_0003, &on_stack), some(11, 4));
    assert_eq!(reach(by_word, 0xC300_0003, &on_stack), None);
    let in_ram = with_base(Base::Ram(5));
    assert_eq!(reach([0xF8A9, 0x0004], 0, &in_ram), some(9, 2));
    assert_eq!(reach([0xF898, 0x0FFF], 0, &in_ram), some(4100, 1));
    let external = with_base(Base::External(5));
    assert_eq!(reach([0xF898, 0x0FFF], 0, &external), None);
    assert_eq!(reach([0xDFC1, RETURN], 0, &in_ram), None);
}

#[test]
fn a_difference_inside_is_found_and_one_outside_is_not() {
    let page = page_bytes(MARCH);
    let record = stored_bytes(&Record::fresh());
    let handed = Handed {
        code: Code::plain(&page),
        external: &[],
        window: window(10, 20),
        record: &record,
        budget: 3,
    };
    let given = Given {
        numbers: Default::default(),
        record: record.clone(),
    };
    let changed = |at: usize| {
        let mut ram = filled();
        ram[at] ^= 1;
        ram
    };
    let compared = |other: &Given, ram: Vec<u8>| {
        let rams = [filled(), ram].map(Rams::new);
        let ends = [(&given, &rams[0]), (other, &rams[1])];
        same_inside(["one", "other"], &handed, ends).is_ok()
    };
    for (at, is_inside) in [(0, false), (9, false), (10, true), (19, true), (20, false)] {
        assert_eq!(compared(&given, changed(at)), !is_inside);
        let stays = outside_stays(handed.window, &filled(), &changed(at));
        assert_eq!(stays.is_ok(), is_inside);
    }
    let changes: [fn(&mut Given); 4] = [
        |other| other.numbers.kind = 1,
        |other| other.numbers.value = 1,
        |other| other.numbers.steps = 1,
        |other| other.record[43] = 1,
    ];
    for change in changes {
        let mut other = given.clone();
        change(&mut other);
        assert!(!compared(&other, filled()), "{other:?}");
    }
}

#[test]
fn the_parts_find_mistakes_by_themselves() {
    let of_accesses = [
        "window-end-inside",
        "window-start-late",
        "window-by-length",
        "window-first-byte",
        "window-last-byte",
        "window-before-ram",
        "window-before-stack",
        "window-before-base",
        "load-outside-window",
        "store-outside-window",
        "stack-outside-window",
        "store-byte-by-byte",
        "external-in-window",
        "sp-in-window",
    ];
    parts::check_finds(windows::compare, &of_accesses);
    let of_refusals = [
        "window-before-external",
        "window-after-no-record",
        "window-after-sp",
        "empty-window-refused",
        "window-end-cut",
    ];
    parts::check_finds(refusals::compare, &of_refusals);
    let of_contents = [
        "load-outside-window",
        "store-outside-window",
        "store-byte-by-byte",
    ];
    parts::check_finds(sharing::compare, &of_contents);
}

#[test]
fn a_tally_misses_what_was_not_met() {
    let failures = Tally::default().failures();
    for class in [
        "step 20",
        "run 20",
        "faults: 7",
        "faults under the small profile: 7",
        "windows accepted: whole",
        "windows stepped in: empty",
        "windows stepped in: of 1 to 3 bytes",
        "windows refused: start above its end",
        "windows refused: end past RAM",
        "windows: refusals in order: 3 before 20",
        "windows: refusals in order: 20 before 255",
        "windows: refusals in order: 20 before 5",
        "windows: fault 7: str by r9",
        "windows: fault 7: ldrsb by r8",
        "windows: fault 7: sp load",
        "windows: fault 7: sp store",
        "windows: fault 7: word: load",
        "windows: fault 7: word: store",
        "windows: one before the start: strh by r9",
        "windows: one past the end: word: store",
        "windows: filled by an access: sp load",
        "windows: fault 1 in an empty one: ldr by r8",
        "windows: fault 2 in an empty one: strb by r9",
        "windows: fault 4 in an empty one: word: load",
        "windows: executed in an empty one: ldr by r8",
        "windows: executed in an empty one: sp less",
        "windows: executed in an empty one: literal load",
        "windows: one that is refused in a series in a part of RAM",
        "pairs of RAMs: fault 7",
        "pairs of RAMs: bytes of the window written",
        "pairs of RAMs: stops: budget",
        "filters in one RAM: both wrote in their windows",
    ] {
        let line = format!("{class} was not met");
        assert!(failures.contains(&line), "{class}");
    }
    let pairs = "only 0 pairs of RAMs that differ outside a window";
    assert!(failures.iter().any(|failure| failure == pairs));
    let never = "windows: executed in an empty one: ldr by r9 was not met";
    assert!(!failures.iter().any(|failure| failure == never));
}
