//! Single steps: random cases over all listed encodings, and some families of
//! cases whole.

use super::cases;
use super::codes;
use super::ranges::{self, REFUSED};
use super::reach::Reach;
use super::records::{self, EDGES};
use super::sets;
use super::sides::{Handed, Rams};
use super::{Comparison, Same};
use crate::assemble::{self as asm, page_bytes, Bundle};
use crate::names;
use crate::random::{self, Random};
use crate::second::memory::RAM_SIZE;
use crate::second::page::Code;
use crate::second::profile::{FULL, SMALL};
use crate::second::record::{stored_bytes, Record};
use crate::second::window::Window;

/// Random cases; most of them are accepted.
const CASES: u64 = 300_000;
/// Lengths of external data.
const EXTERNALS: [usize; 6] = [0, 256, 256, 512, 1024, 65_536];

/// Random bytes.
pub fn noise(random: &mut Random, length: usize) -> Vec<u8> {
    (0..length).map(|_| random.field(256) as u8).collect()
}

/// Every single step.
pub fn compare(comparison: &mut Comparison) -> Same {
    let mut random = Random::of_page(comparison.seed, 1 << 40);
    let externals = EXTERNALS.map(|length| noise(&mut random, length));
    let mut rams = Rams::new(noise(&mut random, RAM_SIZE));
    for number in 0..CASES {
        random_step(comparison, number, &externals, &mut rams)
            .map_err(|found| format!("case {number}: {found}"))?;
    }
    every_halfword(comparison, &mut random, &externals[1], &mut rams)?;
    conditions(comparison)?;
    operations(comparison)
}

/// One random case.
fn random_step(
    comparison: &mut Comparison,
    number: u64,
    externals: &[Vec<u8>],
    rams: &mut Rams,
) -> Same {
    let mut random = Random::of_page(comparison.seed, (1 << 41) + number);
    let external = &externals[random.below(externals.len())];
    let mut case = cases::any(&mut random, external.len());
    if random.chance(1) {
        case.record = records::unfit(&mut random, &case.record, external.len());
    }
    let mut record = stored_bytes(&case.record);
    if random.below(200) == 0 {
        let positions = random.pick(&records::SPOILS);
        records::spoil(&mut random, &mut record, positions);
    }
    let code = codes::any(&mut random, &case.page);
    let handed = Handed {
        code,
        external,
        window: window(&mut random, code, &case.record),
        record: &record,
        budget: 1,
    };
    let given = comparison.step(&handed, rams)?;
    if given.numbers.code == 0 {
        comparison.tally.class("amounts", "random steps");
    }
    Ok(())
}

/// A window for a step, often with its edges near those of the access; few are
/// refused.
fn window(random: &mut Random, code: Code, record: &Record) -> Window {
    match (random.below(200), Reach::of(code, record)) {
        (0, _) => random.pick(&REFUSED),
        (1..=60, Some(reach)) => ranges::at_edges(random, reach),
        _ => ranges::any(random),
    }
}

/// Every 16-bit halfword, at either half of a bundle from which all of cbz and
/// cbnz reach code.
fn every_halfword(
    comparison: &mut Comparison,
    random: &mut Random,
    external: &[u8],
    rams: &mut Rams,
) -> Same {
    let mut bundles = [[asm::RETURN, asm::RETURN]; 64];
    for word in &mut bundles[48..] {
        *word = asm::word(random::service_word(random));
    }
    for number in 0..2 * 0xE800 {
        let (half, at) = ((number / 2) as u16, number % 2);
        bundles[14] = match at {
            0 => [half, asm::NOP],
            _ => [asm::NOP, half],
        };
        let mut record = records::fit(random, external.len());
        record.place = 28 + at as u16;
        let page = page_bytes(&bundles);
        for &profile in profiles(half, at) {
            let handed = Handed {
                code: Code::new(&page, sets::any(random)).under(profile),
                external,
                window: ranges::any(random),
                record: &stored_bytes(&record),
                budget: 1,
            };
            comparison.step(&handed, rams)?;
        }
    }
    Ok(())
}

/// The profiles for a halfword at a half: both where the small one lacks it, else
/// one at each half.
fn profiles(half: u16, at: usize) -> &'static [u32] {
    match (usize::from(half) + at) % 2 {
        _ if names::is_compare_branch(half) => &[FULL, SMALL],
        0 => &[FULL],
        _ => &[SMALL],
    }
}

/// A step of a bundle from a record under a profile; the bundle stands in the
/// page's middle.
fn step_of(
    comparison: &mut Comparison,
    (bundle, profile): (Bundle, u32),
    record: &Record,
    rams: &mut Rams,
) -> Same {
    let mut bundles = [[asm::RETURN, asm::RETURN]; 8];
    bundles[4] = bundle;
    let place = 8 + record.place % 2;
    let record = stored_bytes(&Record {
        place,
        ..record.clone()
    });
    let page = page_bytes(&bundles);
    let handed = Handed {
        code: Code::plain(&page).under(profile),
        external: &[],
        window: Window::WHOLE,
        record: &record,
        budget: 1,
    };
    comparison.step(&handed, rams).map(|_| ())
}

/// Each condition with all flags, from both halves, under both profiles.
fn conditions(comparison: &mut Comparison) -> Same {
    let mut rams = Rams::zero();
    for number in 0..14 * 16 * 2 {
        let (condition, half) = (number as u16 / 32, number % 2);
        let branch = asm::conditional(condition, 4, half, 1);
        let bundle = match half {
            0 => [branch, asm::NOP],
            _ => [asm::NOP, branch],
        };
        let record = Record {
            flags: records::flags(number / 2 % 16),
            place: half as u16,
            ..Record::fresh()
        };
        for profile in [FULL, SMALL] {
            step_of(comparison, (bundle, profile), &record, &mut rams)?;
        }
    }
    Ok(())
}

/// The register operations, additions and divisions with every two edges, and
/// the shifts by constant with every amount.
fn operations(comparison: &mut Comparison) -> Same {
    let mut rams = Rams::zero();
    let mut bundles: Vec<Bundle> = (0..16)
        .map(|op| [asm::data(op, 1, 0), asm::NOP])
        .chain((0..2).map(|op| [asm::add_subtract(op, 1, 0, 2), asm::NOP]))
        .collect();
    bundles.extend([asm::sdiv(2, 0, 1), asm::udiv(2, 0, 1)]);
    for bundle in bundles {
        for (x, y) in EDGES.iter().flat_map(|&x| EDGES.map(|y| (x, y))) {
            both_carries(comparison, bundle, (x, y), &mut rams)?;
        }
    }
    for number in 0..3 * 32 {
        let shift = asm::shift_constant(number / 32, number % 32, 0, 2);
        for x in EDGES {
            both_carries(comparison, [shift, asm::NOP], (x, 0), &mut rams)?;
        }
    }
    Ok(())
}

/// A step with r0, r1 and all flags clear, then set.
fn both_carries(
    comparison: &mut Comparison,
    bundle: Bundle,
    (x, y): (u32, u32),
    rams: &mut Rams,
) -> Same {
    for flags in [0, 15] {
        let record = Record {
            registers: [x, y, 0, 0, 0, 0, 0, 0],
            flags: records::flags(flags),
            ..Record::fresh()
        };
        step_of(comparison, (bundle, FULL), &record, rams)?;
    }
    Ok(())
}
