//! The words of every number are those of the document's table, and no others.

use std::collections::BTreeMap;

use marshbodkin::{words, Fault, Refusal};

const MACHINE: &str = include_str!("../../../docs/MACHINE.md");

/// Of what, and its number; then the words.
type Table<'a> = BTreeMap<(&'a str, u32), &'a str>;

/// A row of the table; nothing for its head.
fn row(line: &str) -> Option<((&str, u32), &str)> {
    let mut cells = line.strip_prefix("| ")?.strip_suffix(" |")?.split(" | ");
    let (of, number, words) = (cells.next()?, cells.next()?, cells.next()?);
    Some(((of, number.parse().ok()?), words))
}

/// The table of the section "Words".
fn written() -> Table<'static> {
    let (_, after) = MACHINE.split_once("\n## Words\n").expect("the section");
    let section = after.split("\n## ").next().unwrap_or_default();
    section.lines().filter_map(row).collect()
}

/// What is said of a number of each kind.
fn said_of(number: u32) -> [((&'static str, u32), &'static str); 5] {
    [
        (("refusal", number), words::refusal(number)),
        (("field", number), words::field(number)),
        (("fault", number), words::fault(number)),
        (("stop", number), words::stop(number)),
        (("exit", number), words::exit(number)),
    ]
}

/// All that is said of the numbers up to 1000.
fn said() -> Table<'static> {
    let all = (0..=1000).flat_map(said_of);
    all.filter(|(_, words)| *words != "unknown").collect()
}

#[test]
fn the_documents_words() {
    assert_eq!(said(), written());
    assert_eq!(words::refusal(u32::MAX), "unknown");
    assert_eq!(words::field(u32::MAX), "unknown");
}

/// What stands behind the number and behind the words where the position 41 is
/// told.
fn told_at_41(number: u32) -> (&'static str, &'static str) {
    match number {
        7 | 255 => (" 41", " at place"),
        _ => ("", ""),
    }
}

#[test]
fn refusals_and_faults_show_them() {
    for ((of, number), words) in written() {
        match (of, Refusal::of(number, 41)) {
            ("refusal", None) => assert_eq!((number, words), (0, "accepted")),
            ("refusal", Some(refusal)) => {
                assert_ne!(refusal, Refusal::Unknown(number));
                assert_eq!(refusal.number(), number);
                let (position, field) = told_at_41(number);
                let shown = format!("refused {number}{position}: {words}{field}");
                assert_eq!(refusal.to_string(), shown);
                assert_eq!(refusal.position().is_some(), !position.is_empty());
            }
            ("fault", _) => {
                let fault = Fault::of(number);
                assert_ne!(fault, Fault::Unknown(number));
                assert_eq!(fault.number(), number);
                assert_eq!(fault.to_string(), format!("fault {number}: {words}"));
            }
            _ => {}
        }
    }
    for number in [4, 11, 15, 19, 22, 40, 45, u32::MAX] {
        assert_eq!(Refusal::of(number, 41), Some(Refusal::Unknown(number)));
    }
    assert_eq!(Refusal::Unknown(4).to_string(), "refused 4: unknown");
    assert_eq!(Fault::Unknown(8).to_string(), "fault 8: unknown");
}

/// Every field by its name, r0 too; position 0 of bytes that aren't 44 names none.
#[test]
fn positions_are_shown() {
    for ((of, position), field) in written() {
        if of == "field" {
            let refusal = Refusal::of(7, position).expect("a refusal");
            assert_eq!(refusal.position(), Some(position));
            let words = words::refusal(7);
            let shown = format!("refused 7 {position}: {words} at {field}");
            assert_eq!(refusal.to_string(), shown);
        }
    }
    let length = Refusal::of(255, 0).expect("a refusal");
    assert_eq!(length.position(), Some(0));
    assert_eq!(length.to_string(), "refused 255 0: bytes hold no record");
}
