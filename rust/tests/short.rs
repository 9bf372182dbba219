//! 02's short stored form, by hand; and that the comparison finds mistakes about it,
//! and misses what it did not meet.

mod parts;

use marshbodkin_check::compare::numbers::{in_groups, in_range, least_groups};
use marshbodkin_check::compare::sides::Told;
use marshbodkin_check::compare::tally::Tally;
use marshbodkin_check::compare::{packing, unpacking};
use marshbodkin_check::mistakes;
use marshbodkin_check::random::{Random, DEFAULT_SEED};
use marshbodkin_check::second::arith::Flags;
use marshbodkin_check::second::groups::{read, write, Flaw};
use marshbodkin_check::second::record::{stored_bytes, Base, Record, STORED};
use marshbodkin_check::second::refusal::Refusal;
use marshbodkin_check::second::rules::Rules;
use marshbodkin_check::second::short::{FIELDS, LEAST, MOST};
use marshbodkin_check::second::text;

const RIGHT: Rules = Rules::RIGHT;
const FILLING: u8 = 0xAA;

/// Numbers at the edges of groups, and their groups.
const GROUPS: [(u64, &[u8]); 13] = [
    (0, &[0]),
    (1, &[1]),
    (127, &[0x7F]),
    (128, &[0x80, 1]),
    (300, &[0xAC, 2]),
    (16_383, &[0xFF, 0x7F]),
    (16_384, &[0x80, 0x80, 1]),
    ((1 << 21) - 1, &[0xFF, 0xFF, 0x7F]),
    ((1 << 28) - 1, &[0xFF, 0xFF, 0xFF, 0x7F]),
    (1 << 28, &[0x80, 0x80, 0x80, 0x80, 1]),
    ((1 << 32) - 1, &[0xFF, 0xFF, 0xFF, 0xFF, 0x0F]),
    (1 << 32, &[0x80, 0x80, 0x80, 0x80, 0x10]),
    ((1 << 35) - 1, &[0xFF, 0xFF, 0xFF, 0xFF, 0x7F]),
];

/// What packing gives, and the room of so many bytes.
fn packed(stored: &[u8], room: usize) -> (Result<usize, Refusal>, Vec<u8>) {
    let mut room = vec![FILLING; room];
    ((RIGHT.short.pack)(RIGHT, stored, &mut room), room)
}

/// What unpacking gives, and the room of so many bytes.
fn unpacked(form: &[u8], room: usize) -> (Result<(), Refusal>, Vec<u8>) {
    let mut room = vec![FILLING; room];
    ((RIGHT.short.unpack)(RIGHT, form, &mut room), room)
}

/// A form is refused, and the room stays.
fn check_refused(form: &[u8], refusal: Refusal) {
    let left = vec![FILLING; STORED];
    assert_eq!(unpacked(form, STORED), (Err(refusal), left), "{form:X?}");
}

/// A record's stored form and this short form are turned into each other.
fn check_form(record: &Record, form: &[u8]) {
    let stored = stored_bytes(record);
    assert_eq!(packed(&stored, form.len()), (Ok(form.len()), form.to_vec()));
    assert_eq!(unpacked(form, STORED), (Ok(()), stored.clone()));
    assert_eq!(text::packed(RIGHT, &stored), form);
    assert_eq!(text::unpacked(RIGHT, form), stored);
}

/// A record whose short form is longest.
fn longest() -> Record {
    Record {
        registers: [u32::MAX; 8],
        sp: 0x1_0000,
        flags: Flags {
            n: true,
            z: true,
            c: true,
            v: true,
        },
        place: 127,
        base: Base::External(0xFF_FFFF),
    }
}

/// Zeros for r0 to r7 and SP, then these bytes.
fn behind_sp(bytes: &[u8]) -> Vec<u8> {
    [&[0; 9], bytes].concat()
}

#[test]
fn numbers_in_groups() {
    for (number, groups) in GROUPS {
        assert_eq!(write(number), groups);
        assert_eq!(read(groups), Ok((number, &[][..])));
        let followed = [groups, &[5, 0x80]].concat();
        assert_eq!(read(&followed), Ok((number, &[5, 0x80][..])));
        assert_eq!(in_groups(number, least_groups(number)), groups);
    }
}

#[test]
fn bytes_that_are_no_number() {
    assert_eq!(read(&[]), Err(Flaw::CutOff));
    for (number, groups) in GROUPS {
        assert_eq!(read(&groups[..groups.len() - 1]), Err(Flaw::CutOff));
        for more in groups.len() + 1..=9 {
            let padded = in_groups(number, more);
            let flaw = match more {
                ..=5 => Flaw::NotShortest,
                _ => Flaw::TooMany,
            };
            assert_eq!(read(&padded), Err(flaw), "{padded:X?}");
        }
    }
    assert_eq!(read(&[0x80, 0]), Err(Flaw::NotShortest));
    assert_eq!(read(&[0xFF, 0xFF, 0xFF, 0xFF, 0]), Err(Flaw::NotShortest));
    let six = [0x80, 0x80, 0x80, 0x80, 0x80, 1];
    assert_eq!(read(&six), Err(Flaw::TooMany));
    assert_eq!(read(&six[..5]), Err(Flaw::TooMany));
    assert_eq!(read(&[0xFF; 80]), Err(Flaw::TooMany));
}

#[test]
fn forms_by_hand() {
    check_form(&Record::fresh(), &[0; LEAST]);
    let mut form = [0xFF, 0xFF, 0xFF, 0xFF, 0x0F].repeat(8);
    form.extend([0x80, 0x40, 2, 0xFF, 0xFF, 0xFF, 7, 0x7F, 0x0F]);
    assert_eq!(form.len(), MOST);
    check_form(&longest(), &form);

    let record = Record {
        registers: [1, 127, 128, 16_383, 16_384, 1 << 28, 0, u32::MAX],
        sp: 0x1_7FF8,
        base: Base::Ram(0),
        place: 3,
        ..Record::fresh()
    };
    let form = [
        1, 0x7F, 0x80, 1, 0xFF, 0x7F, 0x80, 0x80, 1, 0x80, 0x80, 0x80, 0x80, 1, 0, 0xFF, 0xFF,
        0xFF, 0xFF, 0x0F, 2, 1, 0, 3, 0,
    ];
    check_form(&record, &form);
}

#[test]
fn the_form_stands_at_the_start_of_the_room() {
    let stored = stored_bytes(&longest());
    let (_, form) = packed(&stored, MOST);
    for room in 0..MOST {
        let (answer, left) = packed(&stored, room);
        assert_eq!(
            (answer, left),
            (Err(Refusal::plain(10)), vec![FILLING; room])
        );
    }
    for behind in 1..4 {
        let expected = [&form[..], &vec![FILLING; behind]].concat();
        assert_eq!(packed(&stored, MOST + behind), (Ok(MOST), expected));
    }
    assert_eq!(packed(&stored_bytes(&Record::fresh()), LEAST).0, Ok(LEAST));
    let (answer, _) = packed(&stored_bytes(&Record::fresh()), LEAST - 1);
    assert_eq!(answer, Err(Refusal::plain(10)));
}

#[test]
fn packing_tests_length_range_room() {
    let mut wrong = stored_bytes(&longest());
    wrong[43] = 16;
    for room in [0, LEAST, MOST] {
        let (answer, left) = packed(&wrong, room);
        let refusal = Refusal::at(7, 43);
        assert_eq!((answer, left), (Err(refusal), vec![FILLING; room]));
        for length in [0, 43, 45] {
            let (answer, _) = packed(&vec![0xFF; length], room);
            assert_eq!(answer, Err(Refusal::plain(6)));
        }
    }
    assert_eq!(text::packed(RIGHT, &wrong), b"refused 7 43\n");
    assert_eq!(text::packed(RIGHT, &[]), b"refused 6\n");
}

#[test]
fn unpacking_tests_room_groups_range() {
    for room in [0, 43, 45] {
        for form in [&[0; LEAST][..], &[], &behind_sp(&[3, 0, 0, 0])] {
            let left = vec![FILLING; room];
            assert_eq!(unpacked(form, room), (Err(Refusal::plain(6)), left));
        }
    }
    let past = [0xFF, 0xFF, 0xFF, 0xFF, 0x7F];
    let mut form = past.repeat(13);
    check_refused(&form, Refusal::at(7, 0));
    form.push(0);
    check_refused(&form, Refusal::plain(9));
    for length in 0..65 {
        check_refused(&form[..length], Refusal::plain(9));
    }
    form[64] = 0;
    check_refused(&form[..65], Refusal::plain(9));
    assert_eq!(text::unpacked(RIGHT, &form[..65]), b"refused 9\n");
    assert_eq!(text::unpacked(RIGHT, &[]), b"refused 9\n");
    assert_eq!(text::unpacked(RIGHT, &past.repeat(13)), b"refused 7 0\n");
}

/// Every number of a form padded, of six groups and cut off, though flags fail too.
#[test]
fn every_number_is_to_be_grouped() {
    let numbers = [1, 2, 3, 4, 5, 6, 7, 8, 9, 1, 10, 11, 16];
    let groups = numbers.map(write);
    check_refused(&groups.concat(), Refusal::at(7, 43));
    for number in 0..numbers.len() {
        let mut spoilt = groups.clone();
        for more in [2, 3, 5, 6, 9] {
            spoilt[number] = in_groups(numbers[number], more);
            check_refused(&spoilt.concat(), Refusal::plain(9));
        }
        check_refused(&groups[..number].concat(), Refusal::plain(9));
        spoilt[number] = vec![0x81];
        check_refused(&spoilt[..=number].concat(), Refusal::plain(9));
    }
    for behind in [&[0][..], &[0x80], &[0xFF; 100]] {
        check_refused(&[&groups.concat(), behind].concat(), Refusal::plain(9));
    }
}

/// A value of 2^32 or more in each field; none is cut before its test.
#[test]
fn no_number_is_past_its_field() {
    for (field, position) in FIELDS.into_iter().enumerate() {
        let mut numbers = [0, 0, 0, 0, 0, 0, 0, 0, 0, 1, 0, 0, 0];
        for value in [1 << 32, (1 << 32) + 1, (1 << 35) - 1] {
            numbers[field] = value;
            let form = numbers.map(write).concat();
            check_refused(&form, Refusal::at(7, position));
        }
    }
    let mut numbers = [0; 12];
    for (number, accepted) in [(8191, true), (8192, true), (8193, false), (1 << 30, false)] {
        numbers[8] = number;
        let form = numbers.map(write).concat();
        match accepted {
            true => assert_eq!(unpacked(&form, STORED).0, Ok(())),
            false => check_refused(&form, Refusal::at(7, 32)),
        }
    }
    check_refused(&behind_sp(&[0, 0x80, 0x80, 4, 0]), Refusal::at(7, 41));
    check_refused(&behind_sp(&[0, 0, 0x80, 2]), Refusal::at(7, 43));
}

/// None has no offset, and every other kind has one, known or not.
#[test]
fn an_offset_stands_by_its_kind() {
    assert_eq!(unpacked(&behind_sp(&[0, 0, 0]), STORED).0, Ok(()));
    check_refused(&behind_sp(&[0, 0, 0, 0]), Refusal::plain(9));
    for kind in [1, 2] {
        assert_eq!(unpacked(&behind_sp(&[kind, 0, 0, 0]), STORED).0, Ok(()));
    }
    for kind in [1, 2, 3, 127] {
        check_refused(&behind_sp(&[kind, 0, 0]), Refusal::plain(9));
    }
    for kind in [3, 127, 128, 255, 256, 257, 258, 1 << 32] {
        let with = |rest: &[u8]| behind_sp(&[&write(kind), rest].concat());
        check_refused(&with(&[0, 0, 0]), Refusal::at(7, 36));
        check_refused(&with(&[0xFF, 0x7F, 0, 0]), Refusal::at(7, 36));
        check_refused(&with(&[0, 0]), Refusal::plain(9));
        check_refused(&with(&[0, 0, 0, 0]), Refusal::plain(9));
    }
    let last = [0xFF, 0xFF, 0x3F, 0, 0];
    assert_eq!(
        unpacked(&behind_sp(&[&[1], &last[..]].concat()), STORED).0,
        Ok(())
    );
    check_refused(&behind_sp(&[1, 0x80, 0x80, 0x40, 0, 0]), Refusal::at(7, 37));
    check_refused(
        &behind_sp(&[2, 0x80, 0x80, 0x80, 8, 0, 0]),
        Refusal::at(7, 37),
    );
}

#[test]
fn made_forms_have_their_length() {
    let mut random = Random::of_page(DEFAULT_SEED, 15 << 40);
    for length in (LEAST..=MOST).flat_map(|length| [length; 20]) {
        let numbers = in_range(&mut random, length);
        assert_eq!(numbers.told(), Told::ACCEPTED);
        assert_eq!(numbers.bytes().len(), length);
        assert_eq!(numbers.stored().len(), STORED);
    }
}

#[test]
fn the_parts_find_mistakes_by_themselves() {
    let in_packing = [
        "groups-of-eight",
        "highest-group-first",
        "five-groups-refused",
        "offset-with-none",
        "sp-as-it-stands",
        "room-one-less",
        "room-for-the-longest",
        "room-cleared",
        "room-before-range",
        "place-128",
        "last-failing-field",
    ];
    parts::check_finds(packing::compare, &in_packing);
    // Those of the short form stand last.
    let names = mistakes::names();
    let of_the_form = names.iter().skip_while(|name| **name != in_packing[0]);
    let in_unpacking: Vec<&str> = of_the_form
        .filter(|name| !name.starts_with("room-"))
        .copied()
        .collect();
    assert_eq!(in_unpacking.len(), 19);
    parts::check_finds(unpacking::compare, &in_unpacking);
}

#[test]
fn a_tally_misses_what_was_not_met() {
    let failures = Tally::default().failures();
    let positions = FIELDS.map(|position| format!("unpack 7-at-{position} was not met"));
    for line in positions {
        assert!(failures.contains(&line), "{line}");
    }
    for line in [
        "pack 0 was not met",
        "pack 6 was not met",
        "pack 7-at-32 was not met",
        "pack 10 was not met",
        "unpack 0 was not met",
        "unpack 6 was not met",
        "unpack 9 was not met",
        "short form: not shortest: r0 was not met",
        "short form: more than five groups: SP was not met",
        "short form: cut off: flags was not met",
        "short form: past its field: kind was not met",
        "short form: packed lengths: 12 was not met",
        "short form: unpacked lengths: 49 was not met",
        "short form: packing: a room one too small was not met",
        "short form: unpacking: followed by bytes was not met",
        "short form: unpacking: an unknown kind with offset was not met",
        "short form: unpacking: an unknown kind without offset was not met",
        "short form: unpacking: 9 before 7 was not met",
    ] {
        assert!(failures.iter().any(|failure| failure == line), "{line}");
    }
    let of_pack = |line: &&String| line.starts_with("pack 7-at-0 ") || line.starts_with("pack 9 ");
    assert_eq!(failures.iter().find(of_pack), None);
}

/// Answers on which both sides may well agree.
#[test]
fn a_tally_finds_answers_that_the_call_cannot_give() {
    let answers = [
        ("pack", Told::at(7, 0), "7-at-0"),
        ("pack", Told::plain(9), "9"),
        ("unpack", Told::at(9, 32), "9-at-32"),
        ("unpack", Told::plain(10), "10"),
    ];
    let mut tally = Tally::default();
    for (call, told, _) in answers {
        tally.call(call, told);
    }
    let sixty_five = [0xFF, 0xFF, 0xFF, 0xFF, 0x7F].repeat(13);
    tally.unpacked(&sixty_five, STORED, Told::ACCEPTED);
    let mut met = tally.failures();
    met.retain(|line| line.ends_with(" was met"));
    let lines = answers.map(|(call, _, told)| format!("{call} {told} was met"));
    let length = "short form: unpacked lengths: another was met".to_string();
    assert_eq!(met, [&lines[..], &[length]].concat());
}
