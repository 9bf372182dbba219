//! 01's own pages, and the fixed pages for its rules: their counts as 01 gives
//! them, their bundles, their runs, and the same step by step; and all that under
//! the small profile.

use super::calls::counted;
use super::sides::{Handed, Rams};
use super::{Comparison, Same};
use crate::paper::{PaperPage, PAGES};
use crate::second::page::Code;
use crate::second::profile::{FULL, SMALL};
use crate::second::record::{stored_bytes, Record};
use crate::second::text::BUDGET;
use crate::second::window::Window;

/// Most single steps on a page.
const STEPS: usize = 1000;

/// The whole part.
pub fn compare(comparison: &mut Comparison) -> Same {
    for page in PAGES {
        one_page(comparison, page).map_err(|found| format!("page {}: {found}", page.name))?;
    }
    Ok(())
}

/// All that is compared on one page.
fn one_page(comparison: &mut Comparison, page: &PaperPage) -> Same {
    let bytes = page.bytes();
    for (profile, count) in [(FULL, page.count), (SMALL, small_count(page))] {
        let code = Code::plain(&bytes).under(profile);
        counted(comparison, code, count)?;
        let fresh = stored_bytes(&Record::fresh());
        let handed = Handed {
            code,
            external: &[],
            window: Window::WHOLE,
            record: &fresh,
            budget: BUDGET,
        };
        comparison.run(&handed, &mut Rams::zero())?;
        step_by_step(comparison, handed.with_budget(1))?;
    }
    Ok(())
}

/// The count under the small profile. None of these pages has cbz or cbnz, and
/// none that has a 32-bit instruction in its code is closed before it.
fn small_count(page: &PaperPage) -> usize {
    let has_wide = page.bundles[..page.count]
        .iter()
        .any(|&[first, _]| first >= 0xE800);
    if has_wide {
        0
    } else {
        page.count
    }
}

/// Single steps from the fresh record on.
fn step_by_step(comparison: &mut Comparison, first: Handed) -> Same {
    let mut rams = Rams::zero();
    let mut record = first.record.to_vec();
    for _ in 0..STEPS {
        let handed = Handed {
            record: &record,
            ..first
        };
        let given = comparison.step(&handed, &mut rams)?;
        if given.numbers.kind != 0 {
            break;
        }
        record = given.record;
    }
    Ok(())
}
