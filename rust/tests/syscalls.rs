//! 02's syscalls that never return, by hand; and that the comparison finds
//! mistakes about them, and misses them where it did not meet them.

mod parts;

use marshbodkin_check::assemble::{self as asm, page_bytes, Bundle};
use marshbodkin_check::compare::shapes::{DIRECT, OTHERS};
use marshbodkin_check::compare::tally::Tally;
use marshbodkin_check::compare::{sets, syscalls};
use marshbodkin_check::second::count::{count_of, read_bundle_of, Reading};
use marshbodkin_check::second::machine::{run, Answer, Stop};
use marshbodkin_check::second::memory::RAM_SIZE;
use marshbodkin_check::second::page::{Code, NeverReturn};
use marshbodkin_check::second::record::{Base, Record};
use marshbodkin_check::second::refusal::Refusal;
use marshbodkin_check::second::rules::Rules;
use marshbodkin_check::second::setting::Setting;

const RIGHT: Rules = Rules::RIGHT;
const NONE: NeverReturn = NeverReturn::NONE;
const ALL: NeverReturn = NeverReturn::ALL;

fn count(bundles: &[Bundle], set: NeverReturn) -> usize {
    let page = page_bytes(bundles);
    let (count, refusal) = count_of(RIGHT, Code::new(&page, set));
    assert_eq!(refusal, None);
    count
}

fn reading(bundles: &[Bundle], set: NeverReturn) -> Reading {
    let page = page_bytes(bundles);
    read_bundle_of(RIGHT, Code::new(&page, set), 0).0
}

/// A run with budget 10 from a place, with a base.
fn run_from(bundles: &[Bundle], set: NeverReturn, place: u16) -> Answer {
    let page = page_bytes(bundles);
    let record = Record {
        place,
        base: Base::Ram(5),
        ..Record::fresh()
    };
    let setting = Setting::new(Code::new(&page, set));
    run(setting, &mut vec![0; RAM_SIZE], &record, 10)
}

/// The stop of a direct syscall.
fn stopped(low: u8) -> Stop {
    Stop::Service { low, literal: None }
}

#[test]
fn the_papers_page() {
    let page = [[0xBF00, 0xDF80]];
    assert_eq!(count(&page, sets::only(0)), 1);
    assert_eq!(count(&page, NONE), 0);
    assert_eq!(count(&page, sets::only(1)), 0);
    assert_eq!(count(&page, sets::without(ALL, sets::only(0))), 0);
    assert_eq!(reading(&page, sets::only(0)), Reading::NoSuccessor);
    assert_eq!(reading(&page, NONE), Reading::Largest(1));
}

#[test]
fn the_last_number_has_the_last_bit() {
    let page = [[0xBF00, 0xDFBF]];
    assert_eq!(count(&page, NeverReturn(1 << 63)), 1);
    assert_eq!(count(&page, NeverReturn(1 << 62)), 0);
    assert_eq!(count(&page, NeverReturn(u64::MAX >> 1)), 0);
}

#[test]
fn the_place_stays_at_a_last_syscall() {
    let page = [[0xBF00, 0xDF85], [0x2001, 0xDF00]];
    let last = run_from(&page, sets::only(5), 0);
    assert_eq!((last.stop, last.steps), (stopped(0x85), 2));
    assert_eq!((last.record.place, last.record.base), (1, Base::None));
    let again = run_from(&page, sets::only(5), 1);
    assert_eq!((again.stop, again.steps), (stopped(0x85), 1));
    assert_eq!((again.record.place, again.record.base), (1, Base::None));
    for set in [
        NONE,
        NeverReturn(0b101_0000),
        sets::without(ALL, sets::only(5)),
    ] {
        let goes_on = run_from(&page, set, 0);
        assert_eq!((goes_on.stop, goes_on.steps), (stopped(0x85), 2));
        assert_eq!((goes_on.record.place, goes_on.record.base), (2, Base::None));
    }
}

#[test]
fn behind_a_last_syscall_is_no_place() {
    let page = [[0xDF80, 0xDF00]];
    let refused = Stop::Refused(Refusal::plain(5));
    assert_eq!(run_from(&page, sets::only(0), 1).stop, refused);
    assert_eq!(run_from(&page, sets::only(1), 1).stop, stopped(0x00));
}

#[test]
fn nothing_else_takes_the_set() {
    let syscall_by_word = [[0xDF01, 0xDF00], asm::word(0x8000_0000)];
    let breakpoint = [[0xDFE8, 0xDF00]];
    let call = [[0xDFF0, 0xDF00]];
    for page in [&syscall_by_word[..], &breakpoint, &call] {
        assert_eq!(run_from(page, ALL, 0), run_from(page, NONE, 0));
        assert_eq!(run_from(page, ALL, 0).record.place, 1);
    }
}

#[test]
fn counts_of_the_shapes() {
    for shape in DIRECT.iter().chain(&OTHERS) {
        for number in 0..64 {
            let bundles = (shape.bundles)(number);
            let only = sets::only(number.into());
            let counts = [count(&bundles, only), count(&bundles, NONE)];
            assert_eq!(counts, shape.counts, "{}", shape.name);
        }
    }
}

#[test]
fn the_part_of_syscalls_finds_mistakes_by_itself() {
    let in_syscalls = [
        "set-one-off",
        "set-complement",
        "count-without-set",
        "run-without-set",
        "last-moves-on",
    ];
    parts::check_finds(syscalls::compare, &in_syscalls);
}

#[test]
fn a_tally_misses_what_was_not_met() {
    let failures = Tally::default().failures();
    for class in [
        "last syscalls: in a first half",
        "last syscalls: in a second half",
        "last syscalls: at the end of a page",
        "last syscalls: behind b",
        "last syscalls: behind a return",
        "last syscalls: behind another",
        "last syscalls: made an odd place unfit",
        "last syscalls: both ways from one place",
        "stopped by a last syscall, the place kept: run",
        "sets run: empty",
        "sets run: full",
    ] {
        let line = format!("{class} was not met");
        assert!(failures.contains(&line), "{class}");
    }
}
