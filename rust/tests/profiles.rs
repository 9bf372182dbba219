//! 02's small profile, by hand; and that the comparison finds mistakes about it,
//! and misses what it did not meet.

mod parts;

use marshbodkin_check::assemble::{page_bytes, Bundle};
use marshbodkin_check::compare::codes::UNKNOWN;
use marshbodkin_check::compare::lacking::{CompareBranch, BRANCHES, WIDE};
use marshbodkin_check::compare::tally::Tally;
use marshbodkin_check::compare::{profiles, refusals};
use marshbodkin_check::random::{self, DEFAULT_SEED};
use marshbodkin_check::second::count::{count_of, read_bundle_of, Reading};
use marshbodkin_check::second::machine::{run, Stop};
use marshbodkin_check::second::memory::RAM_SIZE;
use marshbodkin_check::second::page::{Code, NeverReturn};
use marshbodkin_check::second::profile::{FULL, SMALL};
use marshbodkin_check::second::record::{Base, Record};
use marshbodkin_check::second::refusal::Refusal;
use marshbodkin_check::second::rules::Rules;
use marshbodkin_check::second::setting::Setting;

const RIGHT: Rules = Rules::RIGHT;
const RETURNED: Stop = Stop::Service {
    low: 0,
    literal: None,
};

/// The counts under the full profile and the small one.
fn counts(bundles: &[Bundle]) -> [usize; 2] {
    let page = page_bytes(bundles);
    [FULL, SMALL].map(|profile| {
        let (count, refusal) = count_of(RIGHT, Code::plain(&page).under(profile));
        assert_eq!(refusal, None);
        count
    })
}

/// Bundle 0 under the full profile and the small one.
fn readings(bundle: Bundle) -> [Reading; 2] {
    let page = page_bytes(&[bundle]);
    [FULL, SMALL].map(|profile| read_bundle_of(RIGHT, Code::plain(&page).under(profile), 0).0)
}

/// The stop of a run from a place.
fn stop(code: Code, place: u16) -> Stop {
    let record = Record {
        place,
        ..Record::fresh()
    };
    run(Setting::new(code), &mut vec![0; RAM_SIZE], &record, 10).stop
}

#[test]
fn what_the_small_profile_lacks_is_bad() {
    let bad = |largest| [Reading::Largest(largest), Reading::Bad];
    assert_eq!(readings([0xF241, 0x2034]), bad(1));
    assert_eq!(readings([0xF8C9, 0x0000]), bad(1));
    assert_eq!(readings([0xFB90, 0xF0F1]), bad(1));
    assert_eq!(readings([0xB100, 0xBF00]), bad(1));
    assert_eq!(readings([0xBF00, 0xB9F9]), bad(17));
    assert_eq!(readings([0xB300, 0xBF00]), bad(17));
    assert_eq!(
        readings([0xDF00, 0xBB00]),
        [Reading::NoSuccessor, Reading::Bad]
    );
}

#[test]
fn the_rest_is_unchanged() {
    let same = |reading| [reading; 2];
    for half in [0x0000, 0x43FF, 0x4600, 0x4800, 0x9FFF, 0xA800, 0xB2FF] {
        assert_eq!(readings([half, 0xBF00]), same(Reading::Largest(1)));
        assert_eq!(readings([0xDF00, half]), same(Reading::NoSuccessor));
    }
    assert_eq!(readings([0xB000, 0xDF00]), same(Reading::Bad));
    assert_eq!(readings([0xE7FE, 0xF8C9]), same(Reading::Bad));
    assert_eq!(counts(&[[0x2001, 0xDF00]]), [1, 1]);
    assert_eq!(counts(&[[0xF241, 0x2034], [0xDF00, 0xBF00]]), [2, 0]);
}

#[test]
fn counts_of_the_shapes() {
    for number in 0..16 {
        let (nonzero, n) = (number / 8, number % 8);
        for shape in &BRANCHES {
            let bundles = (shape.bundles)(CompareBranch { nonzero, n });
            assert_eq!(counts(&bundles), shape.counts, "{}", shape.name);
        }
    }
    for wide in [[0xF8C9, 0x0000], [0xF2C7, 0x77FF], [0xFBB7, 0xF7F7]] {
        for shape in &WIDE {
            let bundles = (shape.bundles)(wide);
            assert_eq!(counts(&bundles), shape.counts, "{}", shape.name);
        }
    }
}

#[test]
fn what_is_bad_is_no_place() {
    let returns = [0xBF00, 0xDF00];
    let page = page_bytes(&[returns, [0xBF00, 0xB908], returns, returns]);
    let code = Code::plain(&page);
    assert_eq!(
        [0, 1, 2, 3, 4].map(|place| stop(code, place)),
        [RETURNED; 5]
    );
    let small = code.under(SMALL);
    assert_eq!([0, 1].map(|place| stop(small, place)), [RETURNED; 2]);
    assert_eq!(
        [2, 3, 4, 8].map(|place| stop(small, place)),
        [Stop::Refused(Refusal::plain(5)); 4]
    );
}

#[test]
fn an_unknown_profile_is_refused_before_all_else() {
    let good = page_bytes(&[[0x2001, 0xDF00]]);
    let unfit = Record {
        sp: 0x18004,
        place: 9,
        base: Base::Ram(1 << 20),
        ..Record::fresh()
    };
    let refused = Stop::Refused(Refusal::plain(18));
    for profile in UNKNOWN {
        for page in [&good[..], &[0; 3], &[0; 260]] {
            let code = Code::new(page, NeverReturn::ALL).under(profile);
            assert_eq!(count_of(RIGHT, code), (0, Some(18)));
            for bundle in [0, 99] {
                let read = read_bundle_of(RIGHT, code, bundle);
                assert_eq!(read, (Reading::Bad, Some(18)));
            }
            for (ram, external) in [(RAM_SIZE, 0), (0, 0), (RAM_SIZE, 1)] {
                let (mut ram, external) = (vec![7; ram], vec![0; external]);
                let setting = Setting::new(code).with_external(&external);
                let answer = run(setting, &mut ram, &unfit, 5);
                assert_eq!((answer.stop, answer.steps), (refused, 0));
                assert_eq!(answer.record, unfit);
                assert!(ram.iter().all(|&byte| byte == 7));
            }
        }
    }
}

#[test]
fn the_small_count_is_never_larger() {
    let (mut smaller, mut equal) = (0, 0);
    for number in 0..2000 {
        let page = random::page(DEFAULT_SEED, number);
        let [full, small] = [FULL, SMALL].map(|profile| {
            let code = Code::new(
                &page,
                NeverReturn(number.wrapping_mul(0x9E37_79B9_7F4A_7C15)),
            );
            count_of(RIGHT, code.under(profile)).0
        });
        assert!(small <= full, "page {number}");
        smaller += u32::from(small < full);
        equal += u32::from(small == full && small > 0);
    }
    assert!(
        smaller > 100 && equal > 10,
        "{smaller} smaller, {equal} equal"
    );
}

#[test]
fn the_parts_find_mistakes_by_themselves() {
    let in_profiles = [
        "small-with-cbnz",
        "small-with-movw",
        "full-behind-terminator",
        "profile-2-small",
        "count-without-profile",
        "run-without-profile",
    ];
    parts::check_finds(profiles::compare, &in_profiles);
    parts::check_finds(refusals::compare, &["profile-after-length"]);
}

#[test]
fn a_tally_misses_what_was_not_met() {
    let failures = Tally::default().failures();
    for class in [
        "count 18",
        "reader 18",
        "step 18",
        "run 18",
        "executed under the small profile: lsl by constant",
        "executed under the small profile: word: call",
        "bad in a first half: movw",
        "bad in a first half: cbz",
        "bad in a second half: cbnz",
        "bad behind a terminator: cbz",
        "small profile: counted less",
        "small profile: counted the same, not 0",
        "small profile: made a place unfit",
        "profiles run: small",
        "profiles counted: 4294967295",
    ] {
        let line = format!("{class} was not met");
        assert!(failures.contains(&line), "{class}");
    }
}
