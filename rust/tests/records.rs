//! The wrapper's records, which it turns into bytes and back itself, against the
//! second program's: field by field over steps, and in both stored forms.

use marshbodkin::{self as wrapper, Program, Setting};
use marshbodkin_check::compare::codes::{self, UNKNOWN};
use marshbodkin_check::compare::ranges::{self, REFUSED};
use marshbodkin_check::compare::{cases, records};
use marshbodkin_check::random::{Random, DEFAULT_SEED};
use marshbodkin_check::second::machine::{step, Stop};
use marshbodkin_check::second::memory::RAM_SIZE;
use marshbodkin_check::second::record::{
    read_back, store_bytes, stored_bytes, Base, Record, MOST_EXTERNAL, STORED,
};
use marshbodkin_check::second::refusal::Refusal;
use marshbodkin_check::second::rules::Rules;
use marshbodkin_check::second::setting;
use marshbodkin_check::second::text;

const STEPS: u64 = 20_000;
const FORMS: u16 = 5000;

/// The second program's record as the wrapper has it.
fn wrapped(record: &Record) -> wrapper::Record {
    let flags = record.flags;
    wrapper::Record {
        registers: record.registers,
        sp: record.sp,
        flags: wrapper::Flags {
            n: flags.n,
            z: flags.z,
            c: flags.c,
            v: flags.v,
        },
        place: record.place,
        base: match record.base {
            Base::None => wrapper::Base::None,
            Base::Ram(offset) => wrapper::Base::Ram(offset),
            Base::External(offset) => wrapper::Base::External(offset),
        },
    }
}

/// A refusal's number and position.
type NumberAndPosition = (u32, Option<u32>);

/// Those of the second program's refusal.
fn of_second(refusal: Refusal) -> NumberAndPosition {
    (refusal.number.into(), refusal.position.map(u32::from))
}

/// Those of the wrapper's.
fn of_wrapper(refusal: wrapper::Refusal) -> NumberAndPosition {
    (refusal.number(), refusal.position())
}

/// The second program's stop as the wrapper has it, or its refusal.
fn wrapped_stop(stop: Stop) -> Result<wrapper::Stop, NumberAndPosition> {
    Ok(match stop {
        Stop::Budget => wrapper::Stop::Budget,
        Stop::Service { low, literal } => wrapper::Stop::Service { low, literal },
        Stop::Fault(fault) => wrapper::Stop::Fault(wrapper::Fault::of(fault.number().into())),
        Stop::Unlisted => wrapper::Stop::Unlisted,
        Stop::Refused(refusal) => return Err(of_second(refusal)),
    })
}

#[test]
fn the_same_fields_after_a_step() {
    let external = [0xA5; 512];
    let (mut ram, mut other) = (vec![0; RAM_SIZE], vec![0; RAM_SIZE]);
    for number in 0..STEPS {
        let mut random = Random::of_page(DEFAULT_SEED, (7 << 40) + number);
        let mut case = cases::any(&mut random, external.len());
        if number % 16 == 0 {
            case.record = records::unfit(&mut random, &case.record, external.len());
        }
        let mut code = codes::any(&mut random, &case.page);
        if number % 64 == 1 {
            code.profile = UNKNOWN[number as usize / 64 % UNKNOWN.len()];
        }
        let window = match number % 64 {
            2 => REFUSED[number as usize / 64 % REFUSED.len()],
            _ => ranges::for_run(&mut random, &case.record),
        };
        let setting = setting::Setting::new(code).with_external(&external);
        let expected = step(setting.within(window), &mut other, &case.record);
        let mut record = wrapped(&case.record);
        let program = Program::new(&case.page)
            .never_return(code.never_return.0)
            .profile(code.profile);
        let window = wrapper::Window {
            start: window.start,
            end: window.end,
        };
        let setting = Setting::new(program).external(&external).window(window);
        let stopped = setting.step(&mut ram, &mut record);
        let stop = stopped.map(|stopped| stopped.stop);
        assert_eq!(stop.map_err(of_wrapper), wrapped_stop(expected.stop));
        assert_eq!(record, wrapped(&expected.record));
        assert!(ram == other);
    }
}

#[test]
fn the_same_stored_forms() {
    let mut random = Random::of_page(DEFAULT_SEED, 8 << 40);
    for number in 0..FORMS {
        let record = Record {
            place: number % 128,
            ..records::fit(&mut random, MOST_EXTERNAL as usize)
        };
        let stored = stored_bytes(&record);
        let bytes = wrapped(&record).store().expect("in range");
        assert_eq!(bytes[..], stored);
        assert_eq!(wrapper::Record::load(&stored), Ok(wrapped(&record)));

        let mut room = [0; wrapper::SHORT_MOST];
        let length = wrapped(&record).pack(&mut room).expect("in range");
        assert_eq!(room[..length], text::packed(Rules::RIGHT, &stored));
        assert_eq!(
            wrapper::Record::unpack(&room[..length]),
            Ok(wrapped(&record))
        );
    }
}

#[test]
fn the_same_refusals_of_a_form() {
    let mut random = Random::of_page(DEFAULT_SEED, 10 << 40);
    let mut met = [false; STORED];
    for number in 0..FORMS {
        let fit = Record {
            place: 128 + number,
            ..records::fit(&mut random, MOST_EXTERNAL as usize)
        };
        let record = match number % 4 {
            0 => fit,
            _ => records::unfit(&mut random, &fit, MOST_EXTERNAL as usize),
        };
        let stored = stored_bytes(&record);
        let refusal = store_bytes(Rules::RIGHT, &stored, &mut [0; STORED]).expect("out of range");
        met[usize::from(refusal.position.expect("a field"))] = true;
        let bytes = wrapped(&record).store();
        assert_eq!(bytes.map_err(of_wrapper), Err(of_second(refusal)));
        let packed = wrapped(&record).pack(&mut []);
        assert_eq!(packed.map_err(of_wrapper), Err(of_second(refusal)));
        assert_eq!(read_back(Rules::RIGHT, &stored).1, Some(refusal));
        let loaded = wrapper::Record::load(&stored);
        assert_eq!(loaded.map_err(of_wrapper), Err(of_second(refusal)));
    }
    assert!(met[32] && met[37] && met[41]);
}
