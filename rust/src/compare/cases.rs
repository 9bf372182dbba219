//! Cases for single steps: a page with one bundle to test and a record that
//! stands at it, mostly near an edge of what that bundle does.

use super::records;
use crate::assemble::{self as asm, page_bytes, Bundle};
use crate::names::{self, Row, NARROW, SERVICES, WIDE, WORDS};
use crate::random::{self, Random};
use crate::second::decode::{narrow, wide, DataOp, Instruction, Size};
use crate::second::memory::RAM_SIZE;
use crate::second::record::{Base, Record, RAM_END, RAM_START};
use crate::second::services::{Action, Service};

/// Most bundles that lead to a tested one.
const MOST_LEAD: usize = 8;

/// A page and a record, mostly fit for it.
pub struct Case {
    pub page: Vec<u8>,
    pub record: Record,
}

/// Where a bundle stands: code goes up to `end`, then come words.
#[derive(Clone, Copy)]
pub struct Scene {
    pub total: usize,
    pub bundle: usize,
    pub half: usize,
    pub end: usize,
}

impl Scene {
    /// A scene that leaves room for the next bundle, if it can.
    fn any(random: &mut Random) -> Scene {
        let full = random.chance(80);
        let total = if full { 64 } else { random.between(1, 64) };
        let bundle = match random.below(24) {
            0 => 0,
            1 => total - 1,
            2 | 3 => total.saturating_sub(2),
            _ => random.below(total),
        };
        let end = random.between((bundle + 2).min(total), total);
        Scene {
            total,
            bundle,
            half: random.below(2),
            end,
        }
    }

    /// A bundle to branch to.
    fn target(self, random: &mut Random) -> usize {
        match random.below(40) {
            0 => random.below(70),
            1..=20 => random.between(self.bundle.min(self.end - 1), self.end - 1),
            _ => random.below(self.end),
        }
    }
}

/// A row of a table, any as often as another.
fn any_row<'a, T>(random: &mut Random, rows: &'a [Row<T>]) -> &'a Row<T> {
    &rows[random.below(rows.len())]
}

/// A halfword of any row but the services by a word, with any fields; targets
/// and words mostly lie in the page.
pub fn narrow_half(random: &mut Random, scene: Scene) -> u16 {
    let number = random.below(NARROW.len() + SERVICES.len());
    let row = match number.checked_sub(NARROW.len()) {
        Some(service) => &SERVICES[service],
        None => &NARROW[number],
    };
    let half = row.value | random.halfword() & !row.mask;
    if random.chance(2) {
        return half;
    }
    let (from, at, target) = (scene.bundle, scene.half, scene.target(random));
    let (low, any) = (half & 7, random.below(256));
    match half >> 8 {
        0x48..=0x4F => {
            let left = (scene.total + 1).saturating_sub(from).max(1);
            let words = if random.chance(90) { any % left } else { any };
            asm::load_literal(low, words as u16)
        }
        _ if names::is_compare_branch(half) => {
            let nonzero = (half >> 11) & 1;
            asm::compare_branch(nonzero, low, from, at, target).unwrap_or(half)
        }
        0xD0..=0xDD => asm::conditional((half >> 8) & 15, from, at, target),
        0xE0..=0xE7 => asm::branch(from, at, target),
        _ => half,
    }
}

/// A 32-bit instruction of any row; offsets are often small or the largest.
pub fn wide_bundle(random: &mut Random) -> Bundle {
    let row = any_row(random, &WIDE);
    let bits = row.value | random.bits() & !row.mask;
    let [second, first] = asm::word(bits);
    if !(0xF800..=0xF9FF).contains(&first) {
        return [first, second];
    }
    let imm12 = match random.below(6) {
        0 => 0,
        1 => 4095 - random.field(8),
        2 => random.field(4096),
        3 => random.field(8),
        _ => random.field(260),
    };
    asm::memory(first, second >> 12, imm12)
}

/// A literal word of any row, mostly near an edge for the record.
fn word(random: &mut Random, record: &Record, external: usize) -> u32 {
    let row = any_row(random, &WORDS);
    let any = row.value | random.bits() & !row.mask;
    let low = match row.value >> 24 {
        0xC3 => records::near(random, (record.sp - RAM_START) / 4, 2),
        0xC4 | 0xC5 => {
            let register = random.below(8) as u32;
            register << 21 | stack_offset(random, record.sp) & 0x1F_FFFF
        }
        0xC2 => records::address(random, 0),
        0xE2 => records::near(random, external as u32, 2),
        _ => any,
    };
    if random.chance(75) {
        row.value | low & !row.mask
    } else {
        any
    }
}

/// An offset from SP at or near the last that is inside RAM, or before it.
fn stack_offset(random: &mut Random, sp: u32) -> u32 {
    let room = RAM_END - sp;
    match random.below(3) {
        0 => records::near(random, room, 6),
        1 => room.saturating_sub(4 + random.below(8) as u32),
        _ => random.below(room as usize + 1) as u32,
    }
}

/// What stands before the tested instruction in its bundle.
fn before(random: &mut Random) -> u16 {
    let d = random.field(8);
    match random.below(40) {
        0 => random::listed_half(random),
        1 => random::odd_half(random),
        2..=20 => random::calculation_half(random, d),
        _ => asm::NOP,
    }
}

/// What stands after the tested instruction in its bundle.
fn after(random: &mut Random) -> u16 {
    let d = random.field(8);
    match random.below(40) {
        0 => random::listed_half(random),
        1 => random::odd_half(random),
        2..=15 => asm::RETURN,
        16..=30 => random::calculation_half(random, d),
        _ => asm::NOP,
    }
}

/// The bundle with the instruction at the scene's half.
fn beside(random: &mut Random, half: u16, scene: Scene) -> Bundle {
    match scene.half {
        0 => [half, after(random)],
        _ => [before(random), half],
    }
}

/// A case of any kind, with so many bytes of external data.
pub fn any(random: &mut Random, external: usize) -> Case {
    let scene = Scene::any(random);
    let mut record = records::fit(random, external);
    let mut bundles = surroundings(random, scene);
    let rows = [NARROW.len() + SERVICES.len(), WORDS.len(), WIDE.len()];
    let kind = random.below(rows.iter().sum::<usize>() + 2);
    let mut half = scene.half;
    bundles[scene.bundle] = if kind < rows[0] {
        let tested = narrow_half(random, scene);
        beside(random, tested, scene)
    } else if kind < rows[0] + rows[1] {
        let at = random.between(scene.end.min(scene.total - 1), scene.total - 1);
        bundles[at] = asm::word(word(random, &record, external));
        beside(random, asm::service(at as u16), scene)
    } else if kind < rows.iter().sum() {
        // The second half of a 32-bit instruction is no fit place.
        half = usize::from(random.chance(3));
        wide_bundle(random)
    } else {
        let odd = random::odd_half(random);
        beside(random, odd, scene)
    };
    record.place = (2 * scene.bundle + half) as u16;
    aim(random, &mut record, bundles[scene.bundle], half, external);
    Case {
        page: page_bytes(&bundles),
        record,
    }
}

/// The same with calculations before the tested bundle, at one of which the record
/// stands: they keep SP and base, so that what is near an edge stays there.
pub fn led_to(random: &mut Random, external: usize) -> Case {
    let mut case = any(random, external);
    let tested = usize::from(case.record.place);
    let from = (tested / 2).saturating_sub(random.between(1, MOST_LEAD));
    for bundle in case.page[4 * from..][..4 * (tested / 2 - from)].chunks_exact_mut(4) {
        let targets = [random.field(8), random.field(8)];
        let halves = targets.map(|d| random::calculation_half(random, d));
        bundle.copy_from_slice(&page_bytes(&[halves]));
    }
    case.record.place = random.between(2 * from, tested) as u16;
    case
}

/// Returns up to the scene's end, then words.
fn surroundings(random: &mut Random, scene: Scene) -> Vec<Bundle> {
    (0..scene.total)
        .map(|number| match number < scene.end {
            true => [asm::RETURN, asm::RETURN],
            false => asm::word(records::value(random)),
        })
        .collect()
}

/// Moves the record near an edge of what stands at the half.
fn aim(random: &mut Random, record: &mut Record, bundle: Bundle, half: usize, external: usize) {
    if random.chance(20) {
        return;
    }
    let instruction = match bundle {
        [first, second] if first >= 0xE800 => wide(first, second),
        _ => narrow(bundle[half]),
    };
    match instruction {
        Some(Instruction::StackStore { offset, .. } | Instruction::StackLoad { offset, .. }) => {
            aim_stack(random, record, RAM_END - 4 - offset);
        }
        Some(Instruction::Data {
            op: DataOp::Shift(_),
            m,
            ..
        }) => record.registers[m] = shift_amount(random),
        Some(Instruction::CompareBranch { n, .. }) if random.chance(50) => {
            record.registers[n] = 0;
        }
        Some(Instruction::Store { size, offset, .. } | Instruction::Load { size, offset, .. }) => {
            record.base = base_near(random, size, offset, external);
        }
        Some(Instruction::Service {
            service: Service::Direct(action),
            ..
        }) => aim_service(random, record, action, external),
        _ => {}
    }
}

/// The same for a service.
fn aim_service(random: &mut Random, record: &mut Record, action: Action, external: usize) {
    match action {
        Action::LowerStack(bytes) => aim_stack(random, record, RAM_START + bytes),
        Action::SetBaseFrom(n) => record.registers[n] = records::address(random, external),
        _ => {}
    }
}

/// SP at most a word from the given one, within its range.
fn aim_stack(random: &mut Random, record: &mut Record, sp: u32) {
    let near = sp - 4 + 4 * random.below(3) as u32;
    record.sp = near.clamp(RAM_START, RAM_END);
}

/// The low byte of an amount to shift by; the rest must not matter.
fn shift_amount(random: &mut Random) -> u32 {
    let low = match random.below(3) {
        0 => random.pick(&[0, 1, 31, 32, 33, 63, 64, 65, 128, 224, 255]),
        1 => random.below(34) as u32,
        _ => random.below(256) as u32,
    };
    let high = random.pick(&[0, 0, 0x100, 0x8000_0000, 0xFFFF_FF00]);
    high | low
}

/// A base from which the access ends at or near the end of what it may reach.
fn base_near(random: &mut Random, size: Size, offset: usize, external: usize) -> Base {
    let end = offset + size.bytes();
    let off = random.between(0, 4);
    if external > 0 && random.chance(35) {
        let page = 256 * random.below(external / 256);
        let at = match (256 + off).checked_sub(end + 2) {
            Some(at) => at.min(255),
            None => random.below(256),
        };
        return Base::External((page + at) as u32);
    }
    match random.below(20) {
        0 => records::base(random, external),
        1 | 2 => Base::None,
        3..=8 => Base::Ram(random.below(RAM_SIZE - end) as u32),
        _ => Base::Ram((RAM_SIZE + off - end - 2) as u32),
    }
}
