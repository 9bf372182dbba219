//! 01's own pages, texts and examples.

use marshbodkin_check::assemble::page_bytes;
use marshbodkin_check::paper;
use marshbodkin_check::second::arith::Flags;
use marshbodkin_check::second::count::{count_of, read_bundle_of, Reading};
use marshbodkin_check::second::machine::{Answer, Stop};
use marshbodkin_check::second::memory::{validate, validate_with, Fault};
use marshbodkin_check::second::page::Code;
use marshbodkin_check::second::record::Base;
use marshbodkin_check::second::rules::Rules;
use marshbodkin_check::second::text;

const RIGHT: Rules = Rules::RIGHT;

fn run(bundles: &[[u16; 2]]) -> Answer {
    text::runner_answer(RIGHT, &page_bytes(bundles))
}

fn flags(digits: &str) -> Flags {
    let bit = |at: usize| digits.as_bytes()[at] == b'1';
    Flags {
        n: bit(0),
        z: bit(1),
        c: bit(2),
        v: bit(3),
    }
}

const RETURNED: Stop = Stop::Service {
    low: 0,
    literal: None,
};

#[test]
fn counts_of_the_papers_pages() {
    for page in paper::PAGES {
        assert_eq!(
            count_of(RIGHT, Code::plain(&page.bytes())),
            (page.count, None),
            "{}",
            page.name
        );
    }
}

#[test]
fn printed_texts() {
    let page = page_bytes(paper::PRINTED);
    assert_eq!(text::lister(RIGHT, &page), paper::PRINTED_LISTING);
    assert_eq!(text::runner(&page), paper::PRINTED_RUN);
}

#[test]
fn other_first_lines() {
    let first = |bundles: &[[u16; 2]]| {
        let text = text::runner(&page_bytes(bundles));
        text.lines().next().map(str::to_string)
    };
    let line = |text: &str| Some(text.to_string());
    let tail_call = &[[0xBF00, 0xDF01], [0x0001, 0x0000]];
    assert_eq!(first(tail_call), line("stop service 01 00000001"));
    assert_eq!(first(paper::STORE_PAST), line("stop fault 2"));
    assert_eq!(first(&[[0xE7FE, 0xBF00]]), line("stop budget"));
}

#[test]
fn refusals_are_one_line() {
    assert_eq!(text::runner(&[]), "refused 5\n");
    assert_eq!(text::runner(&[0; 5]), "refused 1\n");
    assert_eq!(text::lister(RIGHT, &[0; 260]), "refused 1\n");
    assert_eq!(text::lister(RIGHT, &[]), "bundles 0 count 0\n");
}

#[test]
fn reader_refusals() {
    let read = |page, bundle| read_bundle_of(RIGHT, Code::plain(page), bundle);
    assert_eq!(read(&[0; 3], 0), (Reading::Bad, Some(1)));
    assert_eq!(read(&[0; 4], 1), (Reading::Bad, Some(8)));
    assert_eq!(read(&[0; 4], 0), (Reading::Largest(1), None));
    assert_eq!(count_of(RIGHT, Code::plain(&[0; 257])), (0, Some(1)));
}

#[test]
fn compare_with_overflow_takes_blt() {
    let answer = run(paper::COMPARE_OVERFLOW);
    assert_eq!(answer.record.flags, flags("0011"));
    assert_eq!((answer.stop, answer.record.place), (RETURNED, 9));
}

#[test]
fn movw_joins_four_fields() {
    let answer = run(&[[0xF241, 0x2034], [0xDF00, 0xBF00]]);
    assert_eq!(answer.record.registers[0], 0x1234);
}

#[test]
fn word_store_edges() {
    assert_eq!(run(paper::STORE_LAST).stop, RETURNED);
    let past = run(paper::STORE_PAST);
    assert_eq!(past.stop, Stop::Fault(Fault::PastRam));
    assert_eq!((past.steps, past.record.place), (4, 6));
}

#[test]
fn shifts_by_constant_zero_mean_32() {
    let answer = run(paper::SHIFT_CONSTANT_ZERO);
    assert_eq!(answer.record.registers[1], 0);
    assert_eq!(answer.record.registers[2], 0xFFFF_FFFF);
    assert_eq!(answer.record.flags, flags("1010"));
}

#[test]
fn register_shifts() {
    let answer = run(paper::SHIFT_REGISTER);
    assert_eq!(answer.record.registers[1..4], [3, 0, 0]);
    assert_eq!(answer.record.flags, flags("0100"));
    let until_32 = &paper::SHIFT_REGISTER[..4];
    let mut page = until_32.to_vec();
    page.push([0xDF00, 0xBF00]);
    assert_eq!(run(&page).record.flags, flags("0110"));
    page[3] = [0x2900, 0x40A1];
    assert_eq!(run(&page).record.flags, flags("0010"));
}

#[test]
fn register_shifts_right() {
    let after = |shift, amount| {
        let record = run(&paper::shift_by(shift, amount)).record;
        (record.registers[0], record.flags)
    };
    assert_eq!(after(paper::ROR, 4), (0x0800_0000, flags("0000")));
    assert_eq!(after(paper::ROR, 32), (0x8000_0000, flags("1010")));
    assert_eq!(after(paper::LSR, 32), (0, flags("0110")));
    assert_eq!(after(paper::LSR, 33), (0, flags("0100")));
    assert_eq!(after(paper::ASR, 32), (0xFFFF_FFFF, flags("1010")));
    assert_eq!(after(paper::ASR, 255), (0xFFFF_FFFF, flags("1010")));
}

#[test]
fn multiplication_keeps_c_and_v() {
    let answer = run(paper::MULTIPLY);
    assert_eq!(answer.record.registers[1], 0x8000_0000);
    assert_eq!(answer.record.flags, flags("1011"));
}

#[test]
fn divisions() {
    let answer = run(paper::DIVISIONS);
    assert_eq!(answer.record.registers[3..6], [0, 0x8000_0000, 0]);
    let toward_zero = run(paper::TOWARD_ZERO);
    assert_eq!(toward_zero.record.registers[3..5], [0xFFFF_FFFD, 3]);
}

#[test]
fn branch_from_the_second_half() {
    let answer = run(paper::SECOND_HALF_BRANCH);
    assert_eq!((answer.record.registers[0], answer.record.place), (2, 5));
}

#[test]
fn literal_loads_align_pc() {
    let answer = run(paper::LITERALS);
    assert_eq!(answer.record.registers[..2], [0x1234_5678, 0x1234_5678]);
    let past = run(&[[0x4801, 0xDF00]]);
    assert_eq!((past.stop, past.steps), (Stop::Fault(Fault::PastPage), 0));
}

#[test]
fn stack_and_base_faults() {
    let stop = |bundles: &[[u16; 2]]| run(bundles).stop;
    let load = &[[0xF8D8, 0x0000], [0xDF00, 0xBF00]];
    assert_eq!(stop(load), Stop::Fault(Fault::NoBase));
    assert_eq!(stop(&[[0x9000, 0xDF00]]), Stop::Fault(Fault::PastStack));
    assert_eq!(stop(paper::SP_TOO_LOW), Stop::Fault(Fault::StackTooLow));
    let alias = run(paper::ALIAS);
    assert_eq!((alias.stop, alias.record.registers[3]), (RETURNED, 0x5A));
}

#[test]
fn loads_extend_by_their_sign() {
    let answer = run(paper::SIGNED_LOADS);
    let loaded = [0xFFFF_FF81, 0xFFFF_8281, 0x82, 0x8281];
    assert_eq!(answer.record.registers[2..6], loaded);
}

#[test]
fn sp_goes_down_to_the_start_of_ram() {
    let down = run(&paper::lower_stack(0x2000));
    assert_eq!((down.stop, down.record.registers[0]), (RETURNED, 0x10000));
    let further = run(&paper::lower_stack(0x2001));
    assert_eq!(further.stop, Stop::Fault(Fault::StackTooLow));
}

#[test]
fn only_setting_the_base_leaves_one() {
    let after = |word| {
        let answer = run(&paper::base_after(word));
        (answer.stop, answer.record.place)
    };
    let none = (Stop::Fault(Fault::NoBase), 6);
    for word in [
        0xC300_0000,
        0xC100_0000,
        0xE100_0000,
        0xC420_000C,
        0xC520_0000,
    ] {
        assert_eq!(after(word), none, "{word:08X}");
    }
    assert_eq!(after(0xE201_0000), none);
    assert_eq!(after(0xC201_7FFC), (RETURNED, 8));
    assert_eq!(after(0xC201_7FFD), (Stop::Fault(Fault::PastRam), 6));
    assert_eq!(after(0xC420_000D), (Stop::Fault(Fault::PastStack), 5));
    assert_eq!(after(0xC530_0000), (Stop::Fault(Fault::PastStack), 5));
}

#[test]
fn formula_offsets() {
    let rows = [
        (0, 0xF_0000),
        (0xFFFF, 0xF_FFFF),
        (0x1_0000, 0),
        (0x1_7FFF, 0x7FFF),
        (0x1_8000, 0x8000),
        (0xF_FFFF, 0xE_FFFF),
        (0x11_0000, 0),
    ];
    for (address, offset) in rows {
        assert_eq!(validate(address, 0), Base::Ram(offset));
    }
    assert_eq!(validate(0xFFFF_FFFF, 256), Base::None);
    assert_eq!(validate(0x8000_00FF, 256), Base::External(255));
    assert_eq!(validate(0x8000_0100, 256), Base::None);
    assert_eq!(
        validate_with(RIGHT, 0x1_0000, &[0; 255]),
        (Base::None, Some(3))
    );
}
