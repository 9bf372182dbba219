//! How fast the library is, beside the second program in the same process:
//! instructions, pages and stored forms a second, runs in images, and how the time grows.
//! No test.

#![forbid(unsafe_code)]

use std::hint::black_box;
use std::time::Instant;

use marshbodkin::{raw, Window};
use marshbodkin_check::assemble::{self as asm, page_bytes, Bundle};
use marshbodkin_check::compare::numbers::in_range;
use marshbodkin_check::random::{self, Random};
use marshbodkin_check::second::count::count_of;
use marshbodkin_check::second::image::{run_in, Image, ImageSetting, Platform, MOST_PAGES, PAGE};
use marshbodkin_check::second::machine::{run, Stop};
use marshbodkin_check::second::memory::RAM_SIZE;
use marshbodkin_check::second::page::{Code, NeverReturn};
use marshbodkin_check::second::profile::FULL;
use marshbodkin_check::second::record::{stored_bytes, Record, STORED};
use marshbodkin_check::second::rules::Rules;
use marshbodkin_check::second::setting::Setting;
use marshbodkin_check::second::short::{LEAST, MOST};
use marshbodkin_check::second::window;

/// Measurements of which the median is taken.
const TIMES: usize = 31;
/// Instructions of a timed run.
const BUDGET: u32 = 1_000_000;
/// Pages that are counted in one measurement.
const COUNTS: usize = 4000;
/// Short calls that are timed together.
const CALLS: usize = 20_000;
/// The second program's rules.
const RULES: Rules = Rules::RIGHT;

/// A page whose run is ended by the budget alone.
struct Loop {
    name: &'static str,
    page: Vec<u8>,
}

/// The seconds that the library and the second program take.
struct Taken {
    library: f64,
    second: f64,
}

/// Seconds of one go.
fn seconds(once: &mut impl FnMut()) -> f64 {
    let start = Instant::now();
    once();
    start.elapsed().as_secs_f64()
}

/// The middle of some figures.
fn median(mut figures: Vec<f64>) -> f64 {
    figures.sort_by(f64::total_cmp);
    figures[figures.len() / 2]
}

/// Both sides by turns, so that what else the computer does meets both alike.
fn measure(mut library: impl FnMut(), mut second: impl FnMut()) -> Taken {
    library();
    second();
    let (ours, theirs) = (0..TIMES)
        .map(|_| (seconds(&mut library), seconds(&mut second)))
        .unzip();
    Taken {
        library: median(ours),
        second: median(theirs),
    }
}

impl Taken {
    /// Millions a second on both sides, and their ratio.
    fn rates(&self, name: &str, unit: &str, amount: f64) {
        println!(
            "{name}: library {:.3} M {unit}/s, second program {:.3} M {unit}/s, ratio {:.2}",
            amount / self.library / 1e6,
            amount / self.second / 1e6,
            self.second / self.library
        );
    }

    /// Nanoseconds each on both sides, and the ratio of their speeds.
    fn each(&self, name: &str, amount: f64) {
        println!(
            "  {name}: library {:.1}, second program {:.1}, ratio {:.2}",
            self.library / amount * 1e9,
            self.second / amount * 1e9,
            self.second / self.library
        );
    }
}

/// Sixteen bundles that only compute, then back to the first.
fn arithmetic() -> Vec<Bundle> {
    let mut bundles = vec![
        asm::movw(0, 0x1234),
        [asm::constant8(0, 1, 7), asm::constant8(0, 2, 200)],
    ];
    for turn in 0..6 {
        bundles.push([asm::add_subtract(0, 1, 0, 3), asm::data(1, 3, 4)]);
        bundles.push([asm::shift_constant(turn % 3, 3, 4, 5), asm::data(13, 1, 2)]);
    }
    bundles.push(asm::udiv(6, 0, 1));
    bundles.push([asm::data(10, 3, 4), asm::branch(15, 1, 0)]);
    bundles
}

/// Loads and stores by r8, r9 and SP over a base that each turn sets.
fn memory() -> Vec<Bundle> {
    let mut bundles = vec![
        asm::movw(0, 0x0100),
        asm::movt(0, 1),
        [asm::service(0xE0), asm::NOP],
    ];
    for turn in 0..4 {
        bundles.push(asm::memory(asm::STORES[turn % 3], 1, 8));
        bundles.push(asm::memory(asm::LOADS[turn], 2, 16));
        bundles.push(asm::memory(asm::LOADS[turn] + 1, 3, 5));
    }
    let here = bundles.len();
    bundles.push([asm::constant8(2, 1, 1), asm::branch(here, 1, 1)]);
    bundles
}

/// Branches of each kind, conditional ones both taken and not.
fn branches() -> Vec<Bundle> {
    let mut bundles = vec![[asm::constant8(0, 1, 0), asm::constant8(1, 1, 0)]];
    for condition in [0, 1, 2, 3, 10, 11, 12, 13] {
        let here = bundles.len();
        bundles.push([
            asm::conditional(condition, here, 0, here + 1),
            asm::conditional(condition ^ 1, here, 1, here + 1),
        ]);
    }
    let here = bundles.len();
    let zero = asm::compare_branch(0, 1, here, 0, here + 1).expect("in reach");
    bundles.push([zero, asm::NOP]);
    bundles.push([asm::NOP, asm::branch(here + 1, 1, 0)]);
    bundles
}

/// Runs of a page on both sides, so many times over.
fn runs(page: &[u8], budget: u32, times: usize) -> Taken {
    let (mut ram, fresh) = (vec![0; RAM_SIZE], Record::fresh());
    let mut other = ram.clone();
    measure(
        || {
            for _ in 0..times {
                let mut record = stored_bytes(&fresh);
                let (page, window) = (black_box(page), Window::WHOLE);
                let answer = raw::run(page, 0, 0, &mut ram, &[], window, &mut record, budget);
                assert_eq!((answer.kind, answer.steps), (0, budget));
            }
        },
        || {
            for _ in 0..times {
                let setting = Setting::new(Code::plain(black_box(page)));
                let answer = run(setting, &mut other, &fresh, budget);
                assert_eq!((answer.stop, answer.steps), (Stop::Budget, budget));
            }
        },
    )
}

/// Counts of pages on both sides, so many in all.
fn counts(pages: &[Vec<u8>], times: usize) -> Taken {
    measure(
        || {
            for page in pages.iter().cycle().take(times) {
                black_box(raw::count(black_box(page), 0, 0));
            }
        },
        || {
            for page in pages.iter().cycle().take(times) {
                black_box(count_of(RULES, Code::plain(black_box(page))));
            }
        },
    )
}

/// Instructions a second on three pages.
fn run_rates(loops: &[Loop]) {
    for Loop { name, page } in loops {
        runs(page, BUDGET, 1).rates(name, "instructions", f64::from(BUDGET));
    }
}

/// Pages a second.
fn count_rates() {
    let random: Vec<Vec<u8>> = (0..)
        .map(|number| random::page(random::DEFAULT_SEED, number))
        .filter(|page| page.len() == 256)
        .take(200)
        .collect();
    let closed = [page_bytes(&[[asm::NOP, asm::RETURN]; 64])];
    for (name, pages) in [
        ("count of random pages", &random[..]),
        ("count of a page that is closed whole", &closed),
    ] {
        counts(pages, COUNTS).rates(name, "pages", COUNTS as f64);
    }
}

/// Stored and short forms of records, one of each length of the short form.
fn forms() -> Vec<(Vec<u8>, Vec<u8>)> {
    let mut random = Random::of_page(random::DEFAULT_SEED, 0);
    let numbers = (LEAST..=MOST).map(|length| in_range(&mut random, length));
    numbers.map(|it| (it.stored(), it.bytes())).collect()
}

/// Forms packed and unpacked a second.
fn form_rates() {
    let forms = forms();
    let each = || forms.iter().cycle().take(CALLS);
    let packed = measure(
        || {
            for (stored, _) in each() {
                assert_eq!(raw::pack(black_box(stored), &mut [0; MOST]).0, 0);
            }
        },
        || {
            for (stored, _) in each() {
                let answer = (RULES.short.pack)(RULES, black_box(stored), &mut [0; MOST]);
                assert!(answer.is_ok());
            }
        },
    );
    packed.rates("packing", "forms", CALLS as f64);
    let unpacked = measure(
        || {
            for (_, form) in each() {
                assert_eq!(raw::unpack(black_box(form), &mut [0; STORED]).0, 0);
            }
        },
        || {
            for (_, form) in each() {
                let answer = (RULES.short.unpack)(RULES, black_box(form), &mut [0; STORED]);
                assert!(answer.is_ok());
            }
        },
    );
    unpacked.rates("unpacking", "forms", CALLS as f64);
}

/// Pages of 256 bytes, so many and random, with one in front that returns at once.
fn random_pages() -> Vec<Vec<u8>> {
    let returns = page_bytes(&[[asm::RETURN, asm::RETURN]; 64]);
    let random = (0..).map(|number| random::page(random::DEFAULT_SEED, number));
    let whole = random.filter(|page| page.len() == PAGE).take(200);
    std::iter::once(returns).chain(whole).collect()
}

/// Runs in page 0 of an image, which stop at their first instruction, on both sides, so many
/// times over: what they take is the test of the index.
fn image_runs(bytes: &[u8], times: usize) -> Taken {
    let mut index = vec![0; bytes.len() / PAGE];
    assert_eq!(raw::image_build(bytes, &mut index, 0, 0), 0);
    let (mut ram, fresh) = (vec![0; RAM_SIZE], stored_bytes(&Record::fresh()));
    let mut other = ram.clone();
    let platform = Platform {
        never_return: NeverReturn::NONE,
        profile: FULL,
    };
    measure(
        || {
            for _ in 0..times {
                let (mut record, bytes) = (fresh.clone(), black_box(bytes));
                let (window, index) = (Window::WHOLE, &index[..]);
                let (ram, record) = (&mut ram, &mut record);
                let answer = raw::image_run(bytes, index, 0, 0, 0, ram, &[], window, record, 9);
                assert_eq!((answer.kind, answer.steps), (1, 1));
            }
        },
        || {
            for _ in 0..times {
                let mut record = fresh.clone();
                let setting = ImageSetting {
                    image: Image {
                        bytes: black_box(bytes),
                        index: &index,
                        platform,
                    },
                    external: &[],
                    window: window::Window::WHOLE,
                };
                let (_, steps) = run_in(RULES, setting, 0, &mut other, &mut record, 9);
                assert_eq!(steps, 1);
            }
        },
    )
}

/// How a run in an image grows with its pages.
fn by_pages() {
    println!("a run in an image that stops at its first instruction, by the image's pages");
    let pages = random_pages();
    for number in [1, 64, MOST_PAGES] {
        let bytes: Vec<u8> = pages
            .iter()
            .cycle()
            .take(number)
            .flatten()
            .copied()
            .collect();
        let times = MOST_PAGES / number;
        let Taken { library, second } = image_runs(&bytes, times);
        let counts = (number * times) as f64;
        println!(
            "  {number}: library {:.2} us a run, {:.3} M counts/s, second program {:.2} us, {:.3} M, ratio {:.2}",
            library / times as f64 * 1e6,
            counts / library / 1e6,
            second / times as f64 * 1e6,
            counts / second / 1e6,
            second / library
        );
    }
}

/// How the time grows with the budget.
fn by_budget(loops: &[Loop]) {
    println!("ns an instruction, by the budget of one run");
    for Loop { name, page } in loops {
        for budget in [1_000, 10_000, 100_000, 1_000_000] {
            let times = 100_000usize.div_ceil(budget as usize);
            let taken = runs(page, budget, times);
            taken.each(
                &format!("{name} {budget}"),
                f64::from(budget) * times as f64,
            );
        }
    }
}

/// How the count and a short run grow with the page.
fn by_length() {
    println!("ns a call, by the page's bytes");
    for length in [4, 64, 128, 256] {
        let page = page_bytes(&vec![[asm::NOP, asm::RETURN]; length / 4]);
        let counted = counts(std::slice::from_ref(&page), CALLS);
        counted.each(&format!("count, {length} bytes"), CALLS as f64);
        for budget in [0, 1] {
            let name = format!("run with budget {budget}, {length} bytes");
            runs(&page, budget, CALLS).each(&name, CALLS as f64);
        }
    }
}

fn main() {
    let loops = [
        ("arithmetic", arithmetic()),
        ("memory", memory()),
        ("branches", branches()),
    ]
    .map(|(name, bundles)| Loop {
        name,
        page: page_bytes(&bundles),
    });
    run_rates(&loops);
    count_rates();
    form_rates();
    by_budget(&loops);
    by_length();
    by_pages();
}
