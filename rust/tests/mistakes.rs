//! Every deliberate mistake is tried by the script that compares.

use marshbodkin_check::mistakes;

const SCRIPT: &str = include_str!("../compare.sh");

#[test]
fn each_is_tried() {
    let ends = |c: char| c.is_whitespace() || c == ';';
    let words: Vec<&str> = SCRIPT.split(ends).collect();
    for name in mistakes::names() {
        assert!(words.contains(&name), "{name}");
        assert!(mistakes::rules(name).is_some(), "{name}");
    }
    assert!(mistakes::rules("no-such-mistake").is_none());
}
