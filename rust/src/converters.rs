//! The two programs that turn stored forms into each other, against the second
//! program, to the byte: some hundreds of inputs each, in range, out of range in every
//! field, not grouped in every way, of every length up to 80 and much longer.

use std::collections::BTreeMap;
use std::fmt;
use std::io;

use crate::compare::fields::Form;
use crate::compare::forms::samples;
use crate::compare::numbers::{self, Numbers, PAST};
use crate::compare::sides::Told;
use crate::compare::steps::noise;
use crate::compare::tally::{shown, OF_A_FORM, OF_UNPACKING};
use crate::compare::unpacking;
use crate::outputs::output;
use crate::random::Random;
use crate::second::record::{stored_bytes, STORED};
use crate::second::rules::Rules;
use crate::second::short::{Flaw, Reading, LEAST, MOST};
use crate::second::{groups, text};
use crate::show;

/// Lengths that no form has.
const LONG: [usize; 3] = [66, 1000, 100_000];
/// The ways in which a short form is not grouped.
const WAYS: [&str; 4] = ["not-shortest", "above-five", "cut-off", "followed"];

/// A program, and what it is held to.
pub struct Converter {
    name: &'static str,
    /// What the second program prints.
    prints: fn(Rules, &[u8]) -> Vec<u8>,
    /// What an input is to be met by: its answer and, with 9, the way.
    meets: fn(&[u8]) -> Vec<String>,
    /// What must be met.
    required: fn() -> Vec<String>,
    inputs: fn(&mut Random) -> Vec<Vec<u8>>,
    stream: u64,
}

/// Packs the 44 bytes. Its room does for every record.
pub const PACK: Converter = Converter {
    name: "pack",
    prints: text::packed,
    meets: |input| vec![answer(pack_told(input))],
    required: || OF_A_FORM.map(answer).to_vec(),
    inputs: to_pack,
    stream: 13 << 40,
};

/// Unpacks the short form. Its room is of 44 bytes.
pub const UNPACK: Converter = Converter {
    name: "unpack",
    prints: text::unpacked,
    meets: unpack_meets,
    required: || {
        let told = OF_UNPACKING.into_iter().filter(|told| told.code != 6);
        let ways = WAYS.iter().map(|way| way.to_string());
        told.map(answer).chain(ways).collect()
    },
    inputs: to_unpack,
    stream: 14 << 40,
};

/// An answer by name.
fn answer(told: Told) -> String {
    match told {
        Told::ACCEPTED => "accepted".to_string(),
        refused => format!("refused-{}", shown(refused)),
    }
}

/// What packing tells of an input.
fn pack_told(input: &[u8]) -> Told {
    let rules = Rules::RIGHT;
    Told::of((rules.short.pack)(rules, input, &mut [0; MOST]).err())
}

/// What unpacking tells of an input, and the way in which it is not grouped.
fn unpack_meets(input: &[u8]) -> Vec<String> {
    let rules = Rules::RIGHT;
    let told = Told::of((rules.short.unpack)(rules, input, &mut [0; STORED]).err());
    let way = match Reading::of(rules.short, input).flaw {
        None => return vec![answer(told)],
        Some(Flaw::Number(_, groups::Flaw::NotShortest)) => WAYS[0],
        Some(Flaw::Number(_, groups::Flaw::TooMany)) => WAYS[1],
        Some(Flaw::Number(_, groups::Flaw::CutOff)) => WAYS[2],
        Some(Flaw::Followed) => WAYS[3],
    };
    vec![answer(told), way.to_string()]
}

/// Bytes of every length up to 80 and of some much longer: zeros, ones and noise.
fn lengths(random: &mut Random) -> Vec<Vec<u8>> {
    let all = (0..=80).chain(LONG);
    all.flat_map(|length| [vec![0; length], vec![0xFF; length], noise(random, length)])
        .collect()
}

/// Inputs to pack: of each length of the short form one in range, and the same with
/// one field that fails; choices of all fields; and all lengths.
fn to_pack(random: &mut Random) -> Vec<Vec<u8>> {
    const FAILING: [(usize, u8); 5] = [(35, 1), (36, 3), (40, 0xFF), (42, 1), (43, 16)];
    let mut inputs: Vec<Vec<u8>> = samples().iter().map(stored_bytes).collect();
    for (number, length) in (LEAST..=MOST).enumerate() {
        let stored = numbers::in_range(random, length).stored();
        let (at, byte) = FAILING[number % FAILING.len()];
        let mut failing = stored.clone();
        failing[at] = byte;
        inputs.extend([stored, failing]);
    }
    let choices = (0..Form::ALL).step_by(79).map(Form::of);
    inputs.extend(choices.map(|form| form.bytes(random)));
    inputs.extend(lengths(random));
    inputs
}

/// Inputs to unpack: of each length one in range and one that is only well grouped;
/// every field past itself; choices of all numbers, and spoilt ones; all lengths; and
/// a form followed by many bytes.
fn to_unpack(random: &mut Random) -> Vec<Vec<u8>> {
    let mut inputs = Vec::new();
    for length in LEAST..=MOST {
        inputs.push(numbers::in_range(random, length).bytes());
    }
    for length in LEAST..=65 {
        inputs.push(numbers::any(random, length).bytes());
    }
    for value in [1 << 32, PAST - 1] {
        inputs.extend((0..13).map(|field| past(random, field, value).bytes()));
    }
    for number in (0..unpacking::ALL).step_by(311) {
        let numbers = unpacking::choice(random, number);
        inputs.extend([numbers.bytes(), unpacking::spoil(random, &numbers)]);
    }
    inputs.extend(lengths(random));
    for length in LONG {
        let mut form = numbers::in_range(random, 20).bytes();
        form.resize(length, 1);
        inputs.push(form);
    }
    inputs
}

/// Numbers in range but for one of the thirteen fields.
fn past(random: &mut Random, field: usize, value: u64) -> Numbers {
    let mut numbers = numbers::in_range(random, MOST);
    match field {
        8 => numbers.sp = value,
        9 => numbers.kind = value,
        10 => numbers.offset = value,
        11 => numbers.place = value,
        12 => numbers.flags = value,
        register => numbers.registers[register] = value,
    }
    numbers
}

/// What was met, and how often.
pub struct Met {
    name: &'static str,
    inputs: u64,
    answers: BTreeMap<String, u64>,
}

impl Met {
    /// What had to be met and was not.
    pub fn failures(&self) -> Vec<String> {
        let unmet = self.answers.iter().filter(|(_, &met)| met == 0);
        let line = |(answer, _)| format!("{} {answer} was not met", self.name);
        unmet.map(line).collect()
    }
}

impl fmt::Display for Met {
    fn fmt(&self, f: &mut fmt::Formatter) -> fmt::Result {
        write!(f, "{} inputs {}:", self.name, self.inputs)?;
        for (answer, met) in &self.answers {
            write!(f, " {answer} {met}")?;
        }
        Ok(())
    }
}

impl Converter {
    /// Nothing met yet.
    fn nothing(&self) -> Met {
        let required = (self.required)().into_iter();
        Met {
            name: self.name,
            inputs: 0,
            answers: required.map(|answer| (answer, 0)).collect(),
        }
    }

    /// The inputs of a seed.
    fn inputs(&self, seed: u64) -> Vec<Vec<u8>> {
        (self.inputs)(&mut Random::of_page(seed, self.stream))
    }

    /// Counts an input by what it meets.
    fn count(&self, met: &mut Met, input: &[u8]) {
        met.inputs += 1;
        for answer in (self.meets)(input) {
            *met.answers.entry(answer).or_default() += 1;
        }
    }

    /// Compares a program on all inputs of a seed: what was met, or a difference.
    pub fn compare(
        &self,
        program: &str,
        rules: Rules,
        seed: u64,
    ) -> io::Result<Result<Met, String>> {
        let mut met = self.nothing();
        for input in self.inputs(seed) {
            let printed = output(program, &input)?;
            let expected = (self.prints)(rules, &input);
            if printed != expected {
                return Ok(Err(difference(program, &input, [&printed, &expected])));
            }
            self.count(&mut met, &input);
        }
        Ok(Ok(met))
    }
}

/// A difference in words; of a long input the first bytes are shown.
fn difference(program: &str, input: &[u8], sides: [&[u8]; 2]) -> String {
    let [printed, expected] = sides.map(|side| match side.starts_with(b"refused") {
        true => side.escape_ascii().to_string(),
        false => show::bytes(side),
    });
    format!(
        "input ({} bytes): {}\n{program} printed: {printed}\nsecond program: {expected}",
        input.len(),
        show::bytes(&input[..input.len().min(100)]),
    )
}

#[cfg(test)]
mod tests {
    use super::*;

    #[test]
    fn each_answer_must_be_met() {
        let mut met = PACK.nothing();
        assert_eq!(met.failures().len(), 7);
        PACK.count(&mut met, &[]);
        assert_eq!(met.failures()[0], "pack accepted was not met");
        let six = "pack refused-6 was not met".to_string();
        assert!(!met.failures().contains(&six));

        let mut met = UNPACK.nothing();
        assert_eq!(met.failures().len(), 19);
        UNPACK.count(&mut met, &[]);
        assert_eq!(met.failures().len(), 17);
        let shown = met.to_string();
        assert!(shown.starts_with("unpack inputs 1: "), "{shown}");
        assert!(shown.contains(" cut-off 1 "), "{shown}");
    }

    #[test]
    fn the_inputs_of_any_seed_meet_them() {
        for seed in 0..20 {
            for converter in [PACK, UNPACK] {
                let mut met = converter.nothing();
                for input in converter.inputs(seed) {
                    converter.count(&mut met, &input);
                }
                assert_eq!(met.failures(), [""; 0], "seed {seed}");
            }
        }
    }
}
