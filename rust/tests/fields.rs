//! 02's request to say which field of a record is wrong, by hand; and that the
//! comparison finds mistakes about it, and misses what it did not meet.

mod parts;

use marshbodkin_check::assemble::page_bytes;
use marshbodkin_check::compare::sides::Told;
use marshbodkin_check::compare::tally::Tally;
use marshbodkin_check::compare::{fields, refusals};
use marshbodkin_check::second::machine::run_bytes;
use marshbodkin_check::second::memory::RAM_SIZE;
use marshbodkin_check::second::page::Code;
use marshbodkin_check::second::record::{
    read_back, store_bytes, stored_bytes, Base, Record, STORED,
};
use marshbodkin_check::second::refusal::Refusal;
use marshbodkin_check::second::rules::Rules;
use marshbodkin_check::second::setting::Setting;
use marshbodkin_check::second::text;

const RIGHT: Rules = Rules::RIGHT;
/// Values that fail, each by where it stands in the form and its field's position.
const FAILING: [(usize, &[u8], u8); 6] = [
    (32, &[0xFC, 0xFF, 0, 0], 32),
    (32, &[2, 0, 1, 0], 32),
    (36, &[3], 36),
    (36, &[0, 1, 0, 0, 0], 37),
    (41, &[128, 0], 41),
    (43, &[16], 43),
];

/// Where bytes are overwritten, and by what.
type Change<'a> = (usize, &'a [u8]);

/// The fresh record's bytes with some overwritten.
fn changed(changes: &[Change]) -> Vec<u8> {
    let mut bytes = stored_bytes(&Record::fresh());
    for (at, value) in changes {
        bytes[*at..at + value.len()].copy_from_slice(value);
    }
    bytes
}

/// What storing and reading back refuse bytes by: the same.
fn form_refusal(bytes: &[u8]) -> Option<Refusal> {
    let mut room = [0xAA; STORED];
    let stored = store_bytes(RIGHT, bytes, &mut room);
    let (record, loaded) = read_back(RIGHT, bytes);
    assert_eq!(stored, loaded);
    match stored {
        None => assert_eq!(room[..], *bytes),
        Some(_) => assert_eq!((room, record), ([0xAA; STORED], Record::fresh())),
    }
    stored
}

/// What a run refuses bytes by, with so much external data and a page of one
/// bundle.
fn run_refusal(bytes: &[u8], external: usize) -> Option<Refusal> {
    let page = page_bytes(&[[0x2001, 0xDF00]]);
    let (mut ram, external) = (vec![7; RAM_SIZE], vec![0; external]);
    let setting = Setting::new(Code::plain(&page)).with_external(&external);
    let mut record = bytes.to_vec();
    let (stop, _) = run_bytes(RIGHT, setting, &mut ram, &mut record, 5);
    assert!(ram.iter().all(|&byte| byte == 7));
    // Every run of this page changes the record.
    assert_eq!(record == bytes, stop.refusal().is_some());
    stop.refusal()
}

fn refused(number: u8) -> Option<Refusal> {
    Some(Refusal::plain(number))
}

/// A record at a place, with SP and base.
fn record(sp: u32, base: Base, place: u16) -> Vec<u8> {
    stored_bytes(&Record {
        sp,
        base,
        place,
        ..Record::fresh()
    })
}

#[test]
fn a_refusal_prints_what_it_carries() {
    assert_eq!(text::refused(Refusal::at(7, 32)), "refused 7 32\n");
    assert_eq!(text::refused(Refusal::at(7, 43)), "refused 7 43\n");
    assert_eq!(text::refused(Refusal::plain(42)), "refused 42\n");
    assert_eq!(text::refused(Refusal::plain(6)), "refused 6\n");
}

#[test]
fn the_new_numbers_stand_where_4_stood() {
    let refusal = |sp, base, place| run_refusal(&record(sp, base, place), 256);
    let (ram, external) = (Base::Ram(1 << 20), Base::External(256));
    assert_eq!(refusal(0x18000, Base::None, 0), None);
    for sp in [0, 0xFFFC, 0x18004, 0xFFFF, 0x18001, u32::MAX] {
        assert_eq!(refusal(sp, ram, 9), refused(41), "{sp:X}");
    }
    for sp in [0x10001, 0x10002, 0x17FFF] {
        assert_eq!(refusal(sp, external, 9), refused(42), "{sp:X}");
    }
    assert_eq!(refusal(0x10000, ram, 9), refused(43));
    assert_eq!(refusal(0x10000, Base::Ram((1 << 20) - 1), 9), refused(5));
    assert_eq!(refusal(0x10000, Base::Ram((1 << 20) - 1), 0), None);
    assert_eq!(refusal(0x18000, external, 9), refused(44));
    assert_eq!(refusal(0x18000, Base::External(255), 9), refused(5));
    assert_eq!(refusal(0x18000, Base::External(255), 1), None);
}

#[test]
fn an_external_offset_is_held_to_the_data_only_in_a_run() {
    for length in [0, 256, 512, 1 << 24] {
        let end = record(0x18000, Base::External(length), 0);
        assert_eq!(run_refusal(&end, length as usize), refused(44));
        let form = (length == 1 << 24).then_some(Refusal::at(7, 37));
        assert_eq!(form_refusal(&end), form);
    }
    for length in [256, 512, 1 << 24] {
        let last = record(0x18000, Base::External(length - 1), 0);
        assert_eq!(run_refusal(&last, length as usize), None);
        assert_eq!(form_refusal(&last), None);
    }
}

#[test]
fn each_field_of_a_form_fails_at_its_position() {
    for (at, value, position) in FAILING {
        let refusal = form_refusal(&changed(&[(at, value)]));
        assert_eq!(refusal, Some(Refusal::at(7, position)));
    }
    for at in 0..32 {
        assert_eq!(form_refusal(&changed(&[(at, &[0xFF])])), None, "byte {at}");
    }
}

#[test]
fn the_first_failing_field_decides() {
    for (number, first) in FAILING.iter().enumerate() {
        for second in &FAILING[number + 1..] {
            if first.0 == second.0 {
                continue;
            }
            let bytes = changed(&[(first.0, first.1), (second.0, second.1)]);
            assert_eq!(form_refusal(&bytes), Some(Refusal::at(7, first.2)));
        }
    }
}

#[test]
fn an_offset_fails_by_its_kind() {
    let refusal = |base: [u8; 5]| form_refusal(&changed(&[(36, &base)]));
    let offset = Some(Refusal::at(7, 37));
    assert_eq!(refusal([0, 0, 0, 0, 1]), offset);
    assert_eq!(refusal([1, 0, 0, 16, 0]), offset);
    assert_eq!(refusal([1, 255, 255, 15, 0]), None);
    assert_eq!(refusal([2, 0, 0, 0, 1]), offset);
    assert_eq!(refusal([2, 255, 255, 255, 0]), None);
    assert_eq!(refusal([3, 255, 255, 255, 255]), Some(Refusal::at(7, 36)));
    assert_eq!(refusal([255, 0, 0, 0, 0]), Some(Refusal::at(7, 36)));
}

#[test]
fn a_length_is_tested_before_the_fields() {
    for (at, value, _) in FAILING {
        for length in [0, 43, 45] {
            let mut bytes = changed(&[(at, value)]);
            let room = store_bytes(RIGHT, &bytes, &mut vec![0; length]);
            assert_eq!(room, refused(6));
            bytes.resize(length, 0);
            assert_eq!(form_refusal(&bytes), refused(6));
        }
    }
}

#[test]
fn bytes_that_hold_no_record_say_where() {
    let no_record = |position| Some(Refusal::at(255, position));
    let sp: Change = (32, &[2, 0, 0, 0]);
    let place: Change = (41, &[9, 9]);
    let (kind, none): (Change, Change) = ((36, &[3]), (36, &[0, 0, 1]));
    let flags: Change = (43, &[16]);
    let refusal = |changes: &[Change]| run_refusal(&changed(changes), 0);
    for (change, position) in [(kind, 36), (none, 37), (flags, 43)] {
        assert_eq!(refusal(&[change]), no_record(position));
        assert_eq!(refusal(&[change, sp, place]), no_record(position));
    }
    assert_eq!(refusal(&[flags, none]), no_record(37));
    assert_eq!(refusal(&[flags, none, kind]), no_record(36));
    assert_eq!(refusal(&[sp, place]), refused(41));
    assert_eq!(refusal(&[place]), refused(5));
    for length in [0, 43, 45] {
        assert_eq!(run_refusal(&vec![0xFF; length], 0), no_record(0));
        assert_eq!(run_refusal(&vec![0xFF; length], 1), refused(3));
    }
}

#[test]
fn the_parts_find_mistakes_by_themselves() {
    let in_fields = [
        "place-128",
        "alignment-before-bounds",
        "external-by-most",
        "place-before-external",
        "last-failing-field",
        "position-in-fields",
        "none-offset-at-kind",
        "no-record-at-sp",
        "no-record-at-last",
    ];
    parts::check_finds(fields::compare, &in_fields);
    let in_refusals = [
        "alignment-before-bounds",
        "external-by-most",
        "place-before-external",
        "no-record-at-sp",
        "no-record-at-last",
    ];
    parts::check_finds(refusals::compare, &in_refusals);
}

#[test]
fn both_sides_are_held_to_the_papers() {
    let papers = Told::at(7, 32);
    assert_eq!(papers.held_to(papers, "store"), Ok(()));
    for answered in [
        Told::at(7, 36),
        Told::plain(7),
        Told::at(255, 32),
        Told::ACCEPTED,
    ] {
        assert!(answered.held_to(papers, "store").is_err(), "{answered:?}");
    }
}

#[test]
fn a_tally_misses_what_was_not_met() {
    let failures = Tally::default().failures();
    let answers = [
        ("store", "6"),
        ("load", "7-at-32"),
        ("store", "7-at-36"),
        ("load", "7-at-37"),
        ("store", "7-at-41"),
        ("load", "7-at-43"),
        ("step", "41"),
        ("run", "42"),
        ("step", "43"),
        ("run", "44"),
        ("run", "255-at-0"),
        ("step", "255-at-36"),
        ("run", "255-at-37"),
        ("step", "255-at-43"),
    ];
    for (call, told) in answers {
        let line = format!("{call} {told} was not met");
        assert!(failures.contains(&line), "{line}");
    }
    assert!(!failures.iter().any(|line| line.starts_with("run 4 ")));
}

/// Answers on which both sides may well agree.
#[test]
fn a_tally_finds_answers_that_the_call_cannot_give() {
    let answers = [
        ("count", Told::plain(2), "2"),
        ("load", Told::at(0, 43), "0-at-43"),
        ("run", Told::plain(4), "4"),
        ("step", Told::at(41, 32), "41-at-32"),
        ("store", Told::at(7, 0), "7-at-0"),
    ];
    let mut tally = Tally::default();
    for (call, told, _) in answers {
        tally.call(call, told);
    }
    tally.call("store", Told::at(7, 32));
    let mut met = tally.failures();
    met.retain(|line| line.ends_with(" was met"));
    let lines = answers.map(|(call, _, told)| format!("{call} {told} was met"));
    assert_eq!(met, lines);
}
