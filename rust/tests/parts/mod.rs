//! That a part of the comparison finds mistakes by itself.

use marshbodkin_check::compare::tally::Tally;
use marshbodkin_check::compare::{Comparison, Same};
use marshbodkin_check::mistakes;
use marshbodkin_check::random::DEFAULT_SEED;
use marshbodkin_check::second::rules::Rules;

/// The part finds each of these mistakes, and nothing by the right rules.
pub fn check_finds(part: fn(&mut Comparison) -> Same, names: &[&str]) {
    let compared = |rules| {
        part(&mut Comparison {
            rules,
            seed: DEFAULT_SEED,
            tally: Tally::default(),
        })
    };
    assert_eq!(compared(Rules::RIGHT), Ok(()));
    for name in names {
        let rules = mistakes::rules(name).expect("a known mistake");
        assert!(compared(rules).is_err(), "{name}");
    }
}
