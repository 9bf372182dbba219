//! A host to copy: it keeps the departures of pressure that a filter lets pass.
//! The filter is `examples/departures.page`, named by the one argument: for each
//! pair of observation and background in the external data it takes the
//! departure, holds it to two limits, and tells the verdict by a syscall. Given no
//! pair, it aborts: by a syscall that never returns, as the host says of it.

use std::error::Error;
use std::process::ExitCode;

use marshbodkin::IMAGE_PAGE_LENGTH;
use marshbodkin::{syscall_bit, version, VERSION};
use marshbodkin::{Exit, Image, ImageSetting, Program, Record, Refusal, Setting, Stop, Window};
use marshbodkin::{BUNDLE_LENGTH, EXTERNAL_PAGE_LENGTH, EXTERNAL_START, RAM_LENGTH, SHORT_MOST};

type Outcome = Result<(), Box<dyn Error>>;

/// Steps of a slice; between slices a host has time for other things.
const SLICE: u32 = 20;
/// Steps of a cycle, lest a filter loop for ever.
const MOST_STEPS: u32 = 1000;

/// The filter's syscall that never returns.
const ABORT: u32 = 63;

/// The filter needs no RAM: what the host keeps there is safe from it.
const NO_RAM: Window = Window { start: 0, end: 0 };

/// The filter's registers.
const NEXT_PAIR: usize = 0;
const UPPER_LIMIT: usize = 1;
const LOWER_LIMIT: usize = 2;
const DEPARTURE: usize = 3;
const BACKGROUND: usize = 4;
const NUMBER_KEPT: usize = 5;
const PAIRS_LEFT: usize = 7;

/// Words are signed fixed point, 2^24 to the hPa; pressures count from 950 hPa.
const ONE_HPA: f64 = 16_777_216.0;
const ORIGIN: f64 = 950.0;

/// Two words, the observation first.
const PAIR_LENGTH: usize = 8;
/// Number of the pair, observation and background in hPa.
const PAIRS: [(usize, f64, f64); 7] = [
    (0, 1012.0, 1010.0),
    (1, 1017.0, 1010.0),
    // A true low near a storm's core. Its departure less the upper limit
    // overflows a word: a test of the sign bit alone would reject it.
    (2, 870.0, 994.0),
    (3, 860.0, 987.0),
    (4, 1000.0, 1006.0),
    (30, 998.0, 1001.0),
    (31, 1003.0, 990.0),
];

fn word_of(hpa: f64) -> u32 {
    (hpa * ONE_HPA) as i32 as u32
}

fn hpa_of(word: u32) -> f64 {
    f64::from(word as i32) / ONE_HPA
}

/// The external data: one page, with room for 32 pairs.
fn external_data() -> [u8; EXTERNAL_PAGE_LENGTH] {
    let mut data = [0; EXTERNAL_PAGE_LENGTH];
    for (pair, observation, background) in PAIRS {
        let words = [observation, background].map(|hpa| word_of(hpa - ORIGIN).to_le_bytes());
        data[PAIR_LENGTH * pair..][..PAIR_LENGTH].copy_from_slice(&words.concat());
    }
    data
}

/// A filter at work: what its runs are given, its RAM, and how many words of
/// that the host has filled.
struct Host<'a> {
    setting: Setting<'a>,
    ram: Vec<u8>,
    kept: usize,
}

impl Host<'_> {
    /// Runs the filter slice by slice until it returns, aborts or faults.
    fn cycle(&mut self, record: &mut Record) -> Outcome {
        let mut steps = 0;
        while steps <= MOST_STEPS {
            // The slices up to the first that doesn't stop as budget end as one run with
            // the sum of their budgets would, with the steps added up; a longer slice in
            // that one's place would have changed nothing.
            let stopped = self.setting.run(&mut self.ram, record, SLICE)?;
            steps += stopped.steps;
            match (stopped.stop, stopped.stop.exit()) {
                (Stop::Budget, _) => {}
                (Stop::Fault(fault), _) => {
                    println!("{fault}");
                    return Ok(());
                }
                (_, Some(Exit::Return)) => {
                    println!("return after {steps} steps");
                    return Ok(());
                }
                (_, Some(Exit::DirectSyscall { number: ABORT })) => {
                    println!("abort after {steps} steps");
                    return Ok(());
                }
                (_, Some(exit)) => self.serve(exit, record)?,
                (other, None) => return Err(format!("stopped: {other}").into()),
            }
        }
        Err("the filter does not end".into())
    }

    /// Answers a syscall; the filter goes on behind it.
    fn serve(&mut self, exit: Exit, record: &mut Record) -> Outcome {
        let departure = record.registers[DEPARTURE];
        let verdict = match exit {
            Exit::DirectSyscall { number: 0 } => {
                record.registers[NUMBER_KEPT] = self.keep(departure)?;
                "kept"
            }
            Exit::DirectSyscall { number: 1 } => "rejected",
            other => return Err(format!("not served: {other}").into()),
        };
        let departure = hpa_of(departure);
        let background = ORIGIN + hpa_of(record.registers[BACKGROUND]);
        let observation = background + departure;
        print!("{observation:.1} hPa, background {background:.1}: ");
        println!("departure {departure:+.1} {verdict}");
        Ok(())
    }

    /// Puts a departure into RAM, and tells how many there are.
    fn keep(&mut self, departure: u32) -> Result<u32, Box<dyn Error>> {
        let mut free = self.ram.chunks_exact_mut(4).skip(self.kept);
        let room = free.next().ok_or("RAM is full")?;
        room.copy_from_slice(&departure.to_le_bytes());
        self.kept += 1;
        Ok(u32::try_from(self.kept)?)
    }
}

/// Points the filter at some pairs. A record that the host changed starts a new
/// series of calls, of which the same is proved. Return, fault and abort leave
/// the place where they stand; a return leaves the stack to the host, a fault
/// leaves the base.
fn begin(record: &mut Record, first: usize, pairs: u32) {
    *record = Record {
        registers: record.registers,
        ..Record::default()
    };
    record.registers[NEXT_PAIR] = EXTERNAL_START + (PAIR_LENGTH * first) as u32;
    record.registers[PAIRS_LEFT] = pairs;
}

/// The record packed, as a slow link would take it, and give it back; a file would
/// take the 44 bytes of `store`. What is damaged on the way and out of range then is
/// told by its field, here the flags, which stand last.
fn over_a_link(record: &Record) -> Result<Record, Refusal> {
    let mut room = [0; SHORT_MOST];
    let length = record.pack(&mut room)?;
    let sent = &mut room[..length];
    println!("packed {length} bytes");
    sent[length - 1] ^= 16;
    if let Err(refusal) = Record::unpack(sent) {
        println!("damaged: {refusal}");
    }
    sent[length - 1] ^= 16;
    Record::unpack(sent)
}

/// Three cycles of the filter, with the record sent over a link after the first.
fn cycles(host: &mut Host) -> Outcome {
    let mut record = Record::default();
    record.registers[UPPER_LIMIT] = word_of(6.0);
    record.registers[LOWER_LIMIT] = word_of(-126.0);
    println!("cycle 1");
    begin(&mut record, 0, 5);
    host.cycle(&mut record)?;
    let mut record = over_a_link(&record)?;
    println!("cycle 2");
    // The host's mistake: two pairs are left, not three.
    begin(&mut record, 30, 3);
    host.cycle(&mut record)?;
    println!("cycle 3");
    // Another: without a pair the filter would count down from 0.
    begin(&mut record, 0, 0);
    host.cycle(&mut record)
}

/// Filters of many pages are kept in an image, with the count of each page beside it.
/// The filter takes the place of page 1, whose byte alone changes, and runs there as it
/// does alone: without a pair, to its abort. Its page is filled up with zeros.
fn in_an_image(filter: &[u8]) -> Outcome {
    let (mut pages, mut counts) = ([0; 2 * IMAGE_PAGE_LENGTH], [0; 2]);
    let mut image = Image::new(&mut pages, &mut counts).never_return(syscall_bit(ABORT));
    image.build()?;
    let mut page = filter.to_vec();
    page.resize(IMAGE_PAGE_LENGTH, 0);
    image.replace(1, &page)?;
    println!("image: counts {} {}", image.index()[0], image.index()[1]);
    let (mut ram, mut record) = (vec![0; RAM_LENGTH], Record::default());
    let stopped = ImageSetting::new(&image).run(1, &mut ram, &mut record, SLICE)?;
    let exit = stopped.stop.exit().ok_or("no exit")?;
    println!("page 1: {exit} after {} steps", stopped.steps);
    Ok(())
}

/// All that is printed.
fn show() -> Outcome {
    if version() != VERSION {
        return Err("wrapper and archive are of different versions".into());
    }
    let path = std::env::args().nth(1).ok_or("usage: host PAGE")?;
    let page = std::fs::read(&path).map_err(|error| format!("{path}: {error}"))?;
    let program = Program::new(&page).never_return(syscall_bit(ABORT));
    let external = external_data();
    let bundles = page.len() / BUNDLE_LENGTH;
    println!("count {} of {bundles} bundles", program.count()?);
    let mut host = Host {
        setting: Setting::new(program).external(&external).window(NO_RAM),
        ram: vec![0; RAM_LENGTH],
        kept: 0,
    };
    cycles(&mut host)?;
    print!("kept");
    for word in host.ram.chunks_exact(4).take(host.kept) {
        print!(" {:+.1}", hpa_of(u32::from_le_bytes(word.try_into()?)));
    }
    println!();
    in_an_image(&page)
}

fn main() -> ExitCode {
    match show() {
        Ok(()) => ExitCode::SUCCESS,
        Err(error) => {
            eprintln!("host: {error}");
            ExitCode::FAILURE
        }
    }
}
