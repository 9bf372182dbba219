//! Slices of budget, and larger budgets.

mod parts;

use marshbodkin_check::assemble::{self as asm, page_bytes};
use marshbodkin_check::compare::calls::same_end;
use marshbodkin_check::compare::sides::{Given, Handed, Rams};
use marshbodkin_check::compare::slices;
use marshbodkin_check::compare::tally::Tally;
use marshbodkin_check::second::machine::{run, Stop};
use marshbodkin_check::second::memory::RAM_SIZE;
use marshbodkin_check::second::page::Code;
use marshbodkin_check::second::record::{stored_bytes, Record};
use marshbodkin_check::second::setting::Setting;
use marshbodkin_check::second::window::Window;

/// Three steps: r0 = 1, r0 = r0 + 1, and a return.
fn three_steps() -> Vec<u8> {
    page_bytes(&[[0x2001, 0x3001], [asm::RETURN, asm::NOP]])
}

#[test]
fn slices_by_hand() {
    let page = three_steps();
    let (setting, mut ram) = (Setting::new(Code::plain(&page)), vec![0; RAM_SIZE]);
    let returned = Stop::Service {
        low: 0,
        literal: None,
    };
    let mut record = Record::fresh();
    for (budget, stop, steps, r0, place) in [
        (1, Stop::Budget, 1, 1, 1),
        (0, Stop::Budget, 0, 1, 1),
        (1, Stop::Budget, 1, 2, 2),
        (5, returned, 1, 2, 2),
    ] {
        let slice = run(setting, &mut ram, &record, budget);
        record = slice.record;
        assert_eq!((slice.stop, slice.steps), (stop, steps));
        assert_eq!((record.registers[0], record.place), (r0, place));
    }
    for budget in [3, 4, 7, u32::MAX] {
        let whole = run(setting, &mut ram, &Record::fresh(), budget);
        assert_eq!((whole.stop, whole.steps), (returned, 3));
        assert_eq!(whole.record, record);
    }
}

#[test]
fn a_difference_in_any_part_is_found() {
    let page = three_steps();
    let record = stored_bytes(&Record::fresh());
    let handed = Handed {
        code: Code::plain(&page),
        external: &[],
        window: Window::WHOLE,
        record: &record,
        budget: 3,
    };
    let given = Given {
        numbers: Default::default(),
        record: record.clone(),
    };
    let zero = Rams::zero();
    let compared = |other: &Given, rams: &Rams| {
        let ends = [(&given, &zero), (other, rams)];
        same_end(["slices", "one run"], &handed, ends)
    };
    assert_eq!(compared(&given, &zero), Ok(()));
    let changes: [fn(&mut Given); 7] = [
        |other| other.numbers.code = 1,
        |other| other.numbers.kind = 1,
        |other| other.numbers.value = 1,
        |other| other.numbers.literal = 1,
        |other| other.numbers.position = 1,
        |other| other.numbers.steps = 1,
        |other| other.record[43] = 1,
    ];
    for change in changes {
        let mut other = given.clone();
        change(&mut other);
        assert!(compared(&other, &zero).is_err(), "{other:?}");
    }
    let mut ram = vec![0; RAM_SIZE];
    ram[RAM_SIZE - 1] = 1;
    assert!(compared(&given, &Rams::new(ram)).is_err());
}

#[test]
fn the_part_finds_mistakes_by_itself() {
    parts::check_finds(slices::compare, &["budget-after", "budget-cut"]);
}

#[test]
fn a_tally_misses_what_was_not_met() {
    let failures = Tally::default().failures();
    for line in [
        "only 0 cuts into three slices or more",
        "larger budget 0 was not met",
        "larger budget 5 was not met",
        "larger budget 18 was not met",
        "larger budget 20 was not met",
        "larger budget 255-at-0 was not met",
        "larger budgets: stops: literal was not met",
        "larger budgets: faults: 6 was not met",
        "larger budgets: faults: 7 was not met",
        "slices made: 3 was not met",
        "slices made: 6 or more was not met",
        "slices of 0: between was not met",
        "slices: a step was not met",
        "slices: a sum at the limit was not met",
        "slices: bases between: external was not met",
        "slices: faults of a later: 3 was not met",
        "slices: places between: odd was not met",
        "slices: profiles: small was not met",
        "slices: stops of a first: service was not met",
        "slices: stops of a later: budget was not met",
    ] {
        assert!(failures.iter().any(|failure| failure == line), "{line}");
    }
}
