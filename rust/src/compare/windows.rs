//! Windows at the edges of accesses: every load and store, at offsets that are multiples
//! of its size and others, in windows of 0 to 5 bytes around it and in larger ones with
//! an edge there; the same where fault 1, 2 or 4 comes first; and all that no window
//! tests. Faults are also known from the papers, without either side, and so is that
//! the bytes outside a window stay.

use super::calls::outside_stays;
use super::codes;
use super::ranges::{self, ALLOWED};
use super::reach::Reach;
use super::records;
use super::sides::{Handed, Rams};
use super::steps::noise;
use super::{Comparison, Same};
use crate::assemble::{self as asm, page_bytes, Bundle, LOADS, RETURN, STORES};
use crate::random::Random;
use crate::second::memory::RAM_SIZE;
use crate::second::page::Code;
use crate::second::profile::FULL;
use crate::second::record::{stored_bytes, Base, Record, RAM_START};
use crate::second::window::Window;

/// How often an access is made at random, of each kind.
const RANDOM: usize = 300;
/// Bytes of external data.
const EXTERNAL: usize = 512;
/// The literal word's bundle.
const WORD: u16 = 2;

/// How an instruction accesses RAM.
#[derive(Clone, Copy, Debug)]
enum Means {
    /// By r8 or r9, with this first halfword.
    Base(u16),
    /// By SP, with this halfword but for its fields.
    Stack(u16),
    /// By SP, with this literal word but for its fields.
    Word(u32),
}

/// A page whose first instruction is tried, and the record to try it from.
struct Tried {
    page: Vec<u8>,
    profile: u32,
    record: Record,
}

impl Tried {
    /// A bundle, returns behind it, and a literal word.
    fn new(profile: u32, bundle: Bundle, word: u32, record: Record) -> Tried {
        Tried {
            page: page_bytes(&[bundle, [RETURN, RETURN], asm::word(word)]),
            profile,
            record,
        }
    }
}

impl Means {
    /// All of them.
    fn all() -> impl Iterator<Item = Means> {
        let stack = [asm::stack_store(0, 0), asm::stack_load(0, 0)].map(Means::Stack);
        let words = [0xC400_0000, 0xC500_0000].map(Means::Word);
        firsts().map(Means::Base).chain(stack).chain(words)
    }

    /// The bytes of an access.
    fn size(self) -> usize {
        match self {
            Means::Base(first) => size_of(first),
            Means::Stack(_) | Means::Word(_) => 4,
        }
    }

    /// True if it can access RAM at an offset.
    fn reaches(self, at: usize) -> bool {
        match self {
            Means::Base(_) | Means::Word(_) => true,
            Means::Stack(_) => at.is_multiple_of(4),
        }
    }

    /// The fault of an access past RAM.
    fn past(self) -> u32 {
        match self {
            Means::Base(_) => 2,
            Means::Stack(_) | Means::Word(_) => 4,
        }
    }

    /// An access at an offset that it reaches, by any fields that lead there.
    fn tried(self, random: &mut Random, at: usize) -> Tried {
        let t = random.field(8);
        match self {
            Means::Base(first) => {
                let imm12 = random.below(at.min(4095) + 1);
                let base = Base::Ram((at - imm12) as u32);
                by_base(random, asm::memory(first, t, imm12 as u16), base)
            }
            Means::Stack(half) => {
                let least = at.saturating_sub(RAM_SIZE).div_ceil(4);
                let words = random.between(least, (at / 4).min(255));
                let half = half | t << 8 | words as u16;
                on_stack(random, at - 4 * words, [half, RETURN], 0)
            }
            Means::Word(word) => {
                let sp = 4 * random.below(at.min(RAM_SIZE) / 4 + 1);
                let word = word | u32::from(t) << 21 | (at - sp) as u32;
                on_stack(random, sp, [asm::service(WORD), RETURN], word)
            }
        }
    }

    /// What the papers say of an access at an offset: its fault, if it has one.
    fn fault(self, reach: Reach, window: Window) -> Option<u32> {
        let inside = window.start as usize <= reach.at && reach.end() <= window.end as usize;
        match reach.end() {
            end if end > RAM_SIZE => Some(self.past()),
            _ if inside => None,
            _ => Some(7),
        }
    }
}

/// The first halfwords of loads and stores by r8 and r9.
fn firsts() -> impl Iterator<Item = u16> {
    let loads = LOADS.into_iter().flat_map(|first| [first, first + 1]);
    STORES.into_iter().chain(loads)
}

/// The bytes that a load or store accesses: bits 6-5 tell a byte, a halfword, a word.
fn size_of(first: u16) -> usize {
    1 << (first >> 5 & 3)
}

/// A load or store by a base.
fn by_base(random: &mut Random, bundle: Bundle, base: Base) -> Tried {
    let record = Record {
        base,
        ..records::fit(random, 0)
    };
    Tried::new(FULL, bundle, 0, record)
}

/// An instruction from an SP so many bytes above the start of RAM.
fn on_stack(random: &mut Random, sp: usize, bundle: Bundle, word: u32) -> Tried {
    let record = Record {
        sp: RAM_START + sp as u32,
        ..records::fit(random, EXTERNAL)
    };
    Tried::new(codes::either(random), bundle, word, record)
}

/// The whole part.
pub fn compare(comparison: &mut Comparison) -> Same {
    let mut random = Random::of_page(comparison.seed, 18 << 40);
    let external = noise(&mut random, EXTERNAL);
    let mut rams = Rams::new(noise(&mut random, RAM_SIZE));
    let mut steps = Steps {
        comparison,
        random,
        external: &external,
        rams: &mut rams,
    };
    for means in Means::all() {
        let made = steps.at_edges(means).and_then(|()| steps.at_random(means));
        made.map_err(|found| format!("{means:X?}: {found}"))?;
    }
    for first in firsts() {
        steps
            .without_ram(first)
            .map_err(|found| format!("{first:04X} without a RAM base: {found}"))?;
    }
    for window in ALLOWED {
        steps.sp_moves(window)?;
        steps.untested(window)?;
    }
    Ok(())
}

/// Windows of 0 to 5 bytes from six bytes before an access to one behind it, and larger
/// ones with their edges at most a byte off.
fn around(reach: Reach) -> Vec<Window> {
    let (at, end) = (reach.at as u32, reach.end() as u32);
    let small = (at.saturating_sub(6)..=end + 1)
        .flat_map(|start| (0..=5).map(move |length| (start, start + length)));
    let starts = [0, at.saturating_sub(1), at, at + 1];
    let ends = [end - 1, end, end + 1, RAM_SIZE as u32];
    let edges = starts
        .into_iter()
        .flat_map(|start| ends.map(|end| (start, end)));
    let all = small.chain(edges).map(|(start, end)| Window { start, end });
    all.filter(|window| window.is_allowed())
        .chain(ALLOWED)
        .collect()
}

/// What the part's steps are made with.
struct Steps<'a> {
    comparison: &'a mut Comparison,
    random: Random,
    external: &'a [u8],
    rams: &'a mut Rams,
}

impl Steps<'_> {
    /// Accesses of one kind, inside RAM and past it, in windows with edges there.
    fn at_edges(&mut self, means: Means) -> Same {
        let size = means.size();
        let inside = [0, 1, 2, 3, 4, 5, 255, 256, 16_381, 16_384];
        let last = [RAM_SIZE - size - 1, RAM_SIZE - size];
        let past = [RAM_SIZE - size + 1, RAM_SIZE - 1, RAM_SIZE, RAM_SIZE + 1];
        let further = [RAM_SIZE + 4, RAM_SIZE + 1000, 0xF_FFFF];
        let all = inside.into_iter().chain(last).chain(past).chain(further);
        for at in all.filter(|&at| means.reaches(at)) {
            let reach = Reach { at, size };
            for window in around(reach) {
                self.access(means, reach, window)?;
            }
        }
        Ok(())
    }

    /// Accesses of one kind anywhere in RAM, in windows near them and others.
    fn at_random(&mut self, means: Means) -> Same {
        for _ in 0..RANDOM {
            let any = self.random.below(RAM_SIZE);
            let at = if means.reaches(any) { any } else { any / 4 * 4 };
            let size = means.size();
            let reach = Reach { at, size };
            let window = match self.random.chance(50) {
                true => ranges::at_edges(&mut self.random, reach),
                false => ranges::any(&mut self.random),
            };
            self.access(means, reach, window)?;
        }
        Ok(())
    }

    /// One access in a window.
    fn access(&mut self, means: Means, reach: Reach, window: Window) -> Same {
        let tried = means.tried(&mut self.random, reach.at);
        self.step(&tried, window, means.fault(reach, window))
    }

    /// Loads and stores without a base and with an external one: fault 1 comes before any
    /// window, and external loads are tested by none.
    fn without_ram(&mut self, first: u16) -> Same {
        for window in ALLOWED {
            for imm12 in [0, 1, 4, 200, 4095] {
                let bundle = asm::memory(first, self.random.field(8), imm12);
                let none = by_base(&mut self.random, bundle, Base::None);
                self.step(&none, window, Some(1))?;
                let at = self.random.pick(&[0, 1, 255, 256, 300]);
                let external = by_base(&mut self.random, bundle, Base::External(at as u32));
                let off_page = at % 256 + usize::from(imm12) + size_of(first) > 256;
                let fault = match first & 1 {
                    0 => off_page.then_some(3),
                    _ => Some(1),
                };
                self.step(&external, window, fault)?;
            }
        }
        Ok(())
    }

    /// SP less so many words, as far as the start of RAM and further.
    fn sp_moves(&mut self, window: Window) -> Same {
        for words in 0..32 {
            let by_word = 0xC300_0000 | u32::from(words);
            let (bytes, fewer) = (4 * usize::from(words), 4 * usize::from(words / 2));
            let too_low = (fewer < bytes).then_some(5);
            for (half, word) in [
                (asm::service(0xC0 + words), 0),
                (asm::service(WORD), by_word),
            ] {
                for (sp, fault) in [(RAM_SIZE, None), (bytes, None), (fewer, too_low)] {
                    let tried = on_stack(&mut self.random, sp, [half, RETURN], word);
                    self.step(&tried, window, fault)?;
                }
            }
        }
        Ok(())
    }

    /// Sums with SP and literal loads.
    fn untested(&mut self, window: Window) -> Same {
        for number in 0..32 {
            let past_page = (number > 1).then_some(6);
            for (half, fault) in [
                (asm::add_from_sp(1, 8 * number), None),
                (asm::load_literal(1, number), past_page),
            ] {
                let sp = 4 * self.random.below(RAM_SIZE / 4 + 1);
                let tried = on_stack(&mut self.random, sp, [half, RETURN], 7);
                self.step(&tried, window, fault)?;
            }
        }
        Ok(())
    }

    /// A step in a window, whose fault, if it has one, is known from the papers.
    fn step(&mut self, tried: &Tried, window: Window, papers: Option<u32>) -> Same {
        let handed = Handed {
            code: Code::plain(&tried.page).under(tried.profile),
            external: self.external,
            window,
            record: &stored_bytes(&tried.record),
            budget: 1,
        };
        let before = self.rams.library.clone();
        let given = self.comparison.step(&handed, self.rams)?;
        let numbers = given.numbers;
        let fault = (numbers.kind == 3).then_some(numbers.value);
        if (numbers.code, numbers.steps, fault) != (0, u32::from(papers.is_none()), papers) {
            return Err(format!(
                "window {} to {}, {:X?}: both sides give {numbers:?}, the papers fault {papers:?}",
                window.start, window.end, tried.record
            ));
        }
        let untouched = given.record == handed.record && self.rams.library == before;
        if papers.is_some() && !untouched {
            return Err("both sides fault, but change record or RAM".to_string());
        }
        outside_stays(window, &before, &self.rams.library)
    }
}
