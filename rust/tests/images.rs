//! 02's images, by hand; and that the comparison finds mistakes about them, and misses what
//! it did not meet.

mod parts;

use marshbodkin_check::assemble::{page_bytes, Bundle, NOP, RETURN};
use marshbodkin_check::compare::image_sides::Images;
use marshbodkin_check::compare::tally::Tally;
use marshbodkin_check::compare::{image_cases, image_refusals, images};
use marshbodkin_check::second::image::{
    build, replace, run_in, Image, ImageSetting, Lent, Platform, MOST_PAGES, PAGE,
};
use marshbodkin_check::second::machine::{run_bytes, Stop};
use marshbodkin_check::second::memory::{Fault, RAM_SIZE};
use marshbodkin_check::second::page::NeverReturn;
use marshbodkin_check::second::profile::{FULL, SMALL};
use marshbodkin_check::second::record::{stored_bytes, Base, Record};
use marshbodkin_check::second::refusal::Refusal;
use marshbodkin_check::second::rules::Rules;
use marshbodkin_check::second::window::Window;

const RULES: Rules = Rules::RIGHT;
const PLAIN: Platform = Platform {
    never_return: NeverReturn::NONE,
    profile: FULL,
};
const RETURNED: Stop = Stop::Service {
    low: 0,
    literal: None,
};

/// A page of these bundles and unlisted ones behind them.
fn page(bundles: &[Bundle]) -> Vec<u8> {
    let mut bytes = page_bytes(bundles);
    bytes.resize(PAGE, 0xDE);
    bytes
}

/// The counts of these are 1, 2, 0, 64, 1 and, with syscall 0 in the set, 1.
fn pages() -> [Vec<u8>; 6] {
    [
        page(&[[0x2001, RETURN]]),
        page(&[[0xF241, 0x2034], [NOP, RETURN]]), // movw
        page(&[]),
        page(&[[NOP, RETURN]; 64]),
        page(&[[0x4801, RETURN]]), // a literal load
        page(&[[NOP, 0xDF80]]),
    ]
}

/// An image and its index, not built yet.
fn image() -> (Vec<u8>, Vec<u8>) {
    (pages().concat(), vec![99; 6])
}

fn lent<'a>((bytes, index): &'a mut (Vec<u8>, Vec<u8>), platform: Platform) -> Lent<'a> {
    Lent {
        bytes,
        index,
        platform,
    }
}

/// The index that a build gives.
fn index_under(platform: Platform) -> Vec<u8> {
    let mut image = image();
    assert_eq!(build(RULES, &mut lent(&mut image, platform)), Ok(()));
    assert!(image.0 == pages().concat());
    image.1
}

#[test]
fn each_byte_is_its_pages_count() {
    let set = NeverReturn(1);
    let under = |never_return, profile| {
        index_under(Platform {
            never_return,
            profile,
        })
    };
    assert_eq!(under(NeverReturn::NONE, FULL), [1, 2, 0, 64, 1, 0]);
    assert_eq!(under(set, FULL), [1, 2, 0, 64, 1, 1]);
    assert_eq!(under(set, SMALL), [1, 0, 0, 64, 1, 1]);
}

/// What a build and a replacement of page 0 answer for these lengths; refused, nothing
/// changes.
fn lengths(bytes: usize, index: usize) -> [Result<(), u8>; 2] {
    let mut given = (vec![0; bytes], vec![7; index]);
    let before = given.clone();
    let built = build(RULES, &mut lent(&mut given, PLAIN));
    assert!(built.is_ok() || given == before);
    let before = given.clone();
    let replaced = replace(RULES, &mut lent(&mut given, PLAIN), 0, &pages()[0]);
    assert!(replaced.is_ok() || given == before);
    [built, replaced]
}

#[test]
fn lengths_of_image_and_index() {
    let most = PAGE * MOST_PAGES;
    for (bytes, index) in [(256, 1), (512, 2), (most, MOST_PAGES)] {
        assert_eq!(lengths(bytes, index), [Ok(()); 2]);
        for other in [0, index - 1, index + 1, bytes] {
            if other != index {
                assert_eq!(lengths(bytes, other), [Err(14); 2]);
            }
        }
    }
    for bytes in [0, 1, 255, 257, 511, most - 1, most + 1, most + PAGE] {
        for index in [0, 1, bytes / PAGE] {
            assert_eq!(lengths(bytes, index), [Err(12); 2]);
        }
    }
}

#[test]
fn a_replacement_changes_a_page_and_its_byte() {
    let mut given = image();
    build(RULES, &mut lent(&mut given, PLAIN)).expect("an image");
    let mut expected = given.clone();
    let closed = page(&[[NOP, RETURN]; 64]);
    replace(RULES, &mut lent(&mut given, PLAIN), 2, &closed).expect("a page of it");
    expected.0[2 * PAGE..3 * PAGE].copy_from_slice(&closed);
    expected.1[2] = 64;
    assert!(given == expected);

    // A wrong byte elsewhere stays.
    given.1[4] = 99;
    expected.1[4] = 99;
    replace(RULES, &mut lent(&mut given, PLAIN), 2, &pages()[2]).expect("a page of it");
    expected.0[2 * PAGE..3 * PAGE].copy_from_slice(&pages()[2]);
    expected.1[2] = 0;
    assert!(given == expected);
}

#[test]
fn replacements_that_are_refused() {
    let unknown = Platform {
        profile: 2,
        ..PLAIN
    };
    let right = page(&[]);
    let refused = |platform, index, number, page: &[u8]| {
        let mut given = image();
        given.1.resize(index, 7);
        let before = given.clone();
        let answer = replace(RULES, &mut lent(&mut given, platform), number, page);
        assert!(given == before);
        answer
    };
    assert_eq!(refused(unknown, 6, 0, &right), Err(18));
    for number in [6, 7, 4096, 65_536, u32::MAX] {
        assert_eq!(refused(PLAIN, 6, number, &right), Err(13));
        assert_eq!(refused(PLAIN, 5, number, &[]), Err(13));
        assert_eq!(refused(unknown, 5, number, &[]), Err(18));
    }
    assert_eq!(refused(PLAIN, 5, 0, &right), Err(14));
    assert_eq!(refused(PLAIN, 7, 0, &[]), Err(14));
    for length in [0, 252, 255, 257, 260] {
        assert_eq!(refused(PLAIN, 6, 5, &vec![0; length]), Err(1));
    }
}

/// A run in a page of the image, whose index is built but for changes.
fn run_with(
    platform: Platform,
    number: u32,
    change: impl FnOnce(&mut Vec<u8>),
    (ram, record): (usize, &Record),
) -> (Stop, u32, Record) {
    let mut index = index_under(Platform {
        profile: FULL,
        ..platform
    });
    change(&mut index);
    let bytes = pages().concat();
    let setting = ImageSetting {
        image: Image {
            bytes: &bytes,
            index: &index,
            platform,
        },
        external: &[],
        window: Window::WHOLE,
    };
    let (mut ram, mut record) = (vec![0; ram], stored_bytes(record));
    let (stop, steps) = run_in(RULES, setting, number, &mut ram, &mut record, 50);
    let (after, _) = marshbodkin_check::second::record::read_back(RULES, &record);
    (stop, steps, after)
}

fn number(stop: Stop) -> Option<u8> {
    stop.refusal().map(|Refusal { number, .. }| number)
}

#[test]
fn a_run_is_that_of_its_page() {
    let fresh = Record::fresh();
    let run = |number| run_with(PLAIN, number, |_| {}, (RAM_SIZE, &fresh));
    let (stop, steps, after) = run(0);
    assert_eq!((stop, steps, after.registers[0]), (RETURNED, 2, 1));
    let (stop, steps, after) = run(1);
    assert_eq!((stop, steps, after.registers[0]), (RETURNED, 3, 0x1234));
    assert_eq!(number(run(2).0), Some(5));
    assert_eq!(run(3).1, 2);
    // The literal is this page's own.
    let (stop, _, after) = run(4);
    assert_eq!((stop, after.registers[0]), (RETURNED, 0xDEDE_DEDE));
    assert_eq!(number(run(5).0), Some(5));
    assert_eq!(number(run(6).0), Some(13));
    assert_eq!(number(run(u32::MAX).0), Some(13));
}

/// A literal load past the page doesn't reach the next, nor a branch.
#[test]
fn nothing_leads_into_the_next_page() {
    let mut first = vec![[NOP, RETURN]; 64];
    first[63] = [0x4800, RETURN];
    let bytes = [page(&first), page(&first)].concat();
    let mut index = vec![0; 2];
    build(
        RULES,
        &mut Lent {
            bytes: &mut bytes.clone(),
            index: &mut index,
            platform: PLAIN,
        },
    )
    .expect("an image");
    let setting = ImageSetting {
        image: Image {
            bytes: &bytes,
            index: &index,
            platform: PLAIN,
        },
        external: &[],
        window: Window::WHOLE,
    };
    let record = Record {
        place: 126,
        ..Record::fresh()
    };
    for number in [0, 1] {
        let mut record = stored_bytes(&record);
        let mut ram = vec![0; RAM_SIZE];
        let mut alone = (record.clone(), ram.clone());
        let ran = run_in(RULES, setting, number, &mut ram, &mut record, 9);
        assert_eq!(ran, (Stop::Fault(Fault::PastPage), 0));
        let lone = setting.alone(number as usize);
        let by_itself = run_bytes(RULES, lone, &mut alone.1, &mut alone.0, 9);
        assert_eq!(by_itself, ran);
        assert!((record, ram) == alone);
    }
}

#[test]
fn any_wrong_byte_refuses_every_run() {
    let fresh = Record::fresh();
    for at in [0, 3, 5] {
        for change in [1, 255] {
            for page in [0, 1, 3, 5] {
                let wrong = |index: &mut Vec<u8>| index[at] = index[at].wrapping_add(change);
                let (stop, steps, _) = run_with(PLAIN, page, wrong, (RAM_SIZE, &fresh));
                assert_eq!((number(stop), steps), (Some(21), 0));
            }
        }
    }
    // The index of another profile and of another set.
    let small = Platform {
        profile: SMALL,
        ..PLAIN
    };
    assert_eq!(
        number(run_with(small, 0, |_| {}, (RAM_SIZE, &fresh)).0),
        Some(21)
    );
    let set = |index: &mut Vec<u8>| index[5] = 1;
    assert_eq!(
        number(run_with(PLAIN, 0, set, (RAM_SIZE, &fresh)).0),
        Some(21)
    );
    let with_set = Platform {
        never_return: NeverReturn(1),
        ..PLAIN
    };
    assert_eq!(run_with(with_set, 0, set, (RAM_SIZE, &fresh)).0, RETURNED);
}

#[test]
fn the_order_of_a_run() {
    let unfit = Record {
        sp: 3,
        base: Base::Ram(1 << 20),
        place: 127,
        ..Record::fresh()
    };
    let unknown = Platform {
        profile: 9,
        ..PLAIN
    };
    let longer = |index: &mut Vec<u8>| index.push(0);
    let wrong = |index: &mut Vec<u8>| index[2] = 1;
    let refused = |platform, page, change: fn(&mut Vec<u8>), ram, record: &Record| {
        number(run_with(platform, page, change, (ram, record)).0)
    };
    assert_eq!(refused(unknown, 6, longer, 1, &unfit), Some(18));
    assert_eq!(refused(PLAIN, 6, longer, 1, &unfit), Some(13));
    assert_eq!(refused(PLAIN, 0, longer, 1, &unfit), Some(14));
    assert_eq!(refused(PLAIN, 0, wrong, 1, &unfit), Some(21));
    assert_eq!(refused(PLAIN, 0, |_| {}, 1, &unfit), Some(2));
    assert_eq!(refused(PLAIN, 0, |_| {}, RAM_SIZE, &unfit), Some(41));
    let unfit = Record {
        sp: 0x10000,
        ..unfit
    };
    assert_eq!(refused(PLAIN, 0, |_| {}, RAM_SIZE, &unfit), Some(43));
    let unfit = Record {
        base: Base::None,
        ..unfit
    };
    assert_eq!(refused(PLAIN, 0, |_| {}, RAM_SIZE, &unfit), Some(5));
}

#[test]
fn an_index_that_is_not_fresh_is_found() {
    let (bytes, _) = image();
    let fresh = index_under(PLAIN);
    let images = |index: &[u8]| Images::new(bytes.clone(), index.to_vec());
    assert_eq!(image_cases::is_fresh(&images(&fresh), PLAIN), Ok(()));
    assert!(image_cases::is_fresh(&images(&fresh[1..]), PLAIN).is_err());
    for at in 0..6 {
        let mut wrong = fresh.clone();
        wrong[at] ^= 1;
        assert!(image_cases::is_fresh(&images(&wrong), PLAIN).is_err());
    }
    let (before, after) = (images(&fresh), images(&[0; 6]));
    assert!(image_cases::held_to("build", 0, 0, &before, &after).is_ok());
    assert!(image_cases::held_to("build", 14, 14, &before, &after).is_err());
    assert!(image_cases::held_to("build", 14, 12, &before, &before).is_err());
}

#[test]
fn the_parts_find_mistakes_by_themselves() {
    let of_images = [
        "byte-of-page-before",
        "run-of-page-before",
        "own-byte-alone",
        "own-byte-unchecked",
        "first-byte-unchecked",
        "last-byte-unchecked",
        "byte-above-accepted",
        "count-under-empty-set",
        "count-under-profile-0",
        "index-from-the-end",
        "image-cut",
        "longer-index",
        "number-cut",
        "page-of-252",
        "refused-page-written",
        "refused-byte-written",
        "replaced-one-behind",
        "replaced-and-built",
    ];
    parts::check_finds(images::compare, &of_images);
    let of_refusals = [
        "build-12-before-18",
        "build-14-before-12",
        "replace-12-before-18",
        "replace-13-before-12",
        "replace-14-before-13",
        "replace-1-before-14",
        "replace-1-first",
        "run-12-before-18",
        "run-13-before-12",
        "run-14-before-13",
        "run-21-before-14",
        "run-2-before-21",
        "pages-4097",
        "no-page",
        "refused-index-written",
    ];
    parts::check_finds(image_refusals::compare, &of_refusals);
}

#[test]
fn a_tally_misses_what_was_not_met() {
    let failures = Tally::default().failures();
    for class in [
        "image build 0",
        "image build 12",
        "image build 14",
        "image build 18",
        "image replace 1",
        "image replace 13",
        "image run 21",
        "image step 21",
        "image run 255-at-43",
        "image step 5",
        "images: of 4096 pages",
        "image runs: stops: budget",
        "image steps: stops: literal",
        "image runs: faults: 3",
        "image steps: faults: 7",
        "image runs: in the: last page",
        "image runs: sets: full",
        "image runs: profiles: small",
        "image runs: windows: empty",
        "image runs as in a page alone: fault",
        "replacements: accepted",
        "replacements: refused",
        "wrong index bytes: last, one less, in another",
        "images met: steps in several pages of one",
        "images met: a wrong byte left by a replacement beside it",
        "image build: 12 before 14",
        "image replace: 14 before 1",
        "image run: 14 before 21",
        "image run: 21 before 2",
        "image step: 21 before 5",
    ] {
        let line = format!("{class} was not met");
        assert!(failures.contains(&line), "{class}");
    }
    let both_bases = "image run: 43 before 44 was not met";
    assert!(!failures.iter().any(|failure| failure == both_bases));
}
