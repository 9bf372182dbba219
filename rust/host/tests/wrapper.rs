//! Each call against 01: what it answers, and each refusal it has.

use marshbodkin::{
    raw, syscall_bit, Base, Exit, Fault, Flags, Program, Reading, Record, Refusal, Setting, Stop,
    Stopped, Window, PROFILE_FULL, PROFILE_SMALL, RAM_LENGTH, RAM_START, RECORD_LENGTH,
};

/// 01's printed page: four bundles, of which three are counted.
const PRINTED: &[u16] = &[
    0x2800, 0xD001, 0x2001, 0xDF00, 0x2000, 0xDF00, 0x2000, 0xBF00,
];
/// A word store of r0 by the base, and a return.
const STORE: &[u16] = &[0xF8C9, 0x0000, 0x2001, 0xDF00];
/// A return; then what the small profile lacks, movw or cbnz, and another return.
const MOVW: &[u16] = &[0xBF00, 0xDF00, 0xF241, 0x2034, 0xBF00, 0xDF00];
const CBNZ: &[u16] = &[0xBF00, 0xDF00, 0xB900, 0xBF00, 0xBF00, 0xDF00];
/// Numbers of no profile; of some a part is the number of one.
const UNKNOWN_PROFILES: [u32; 6] = [2, 255, 256, 0x1_0001, 0x8000_0000, u32::MAX];

/// Windows that are refused: they start above their end, end past RAM, or both.
const REFUSED_WINDOWS: [Window; 6] = [
    window(1, 0),
    window(32_768, 32_767),
    window(u32::MAX, 32_768),
    window(0, 32_769),
    window(0, u32::MAX),
    window(u32::MAX, 32_769),
];
const BACKWARDS: Window = REFUSED_WINDOWS[0];

const fn window(start: u32, end: u32) -> Window {
    Window { start, end }
}

/// Why a call stopped and after how many steps, or why it was refused.
type Outcome = Result<(Stop, u32), Refusal>;

fn page_of(halfwords: &[u16]) -> Vec<u8> {
    halfwords
        .iter()
        .flat_map(|half| half.to_le_bytes())
        .collect()
}

/// The setting of a page without external data.
fn alone(page: &[u8]) -> Setting<'_> {
    Setting::new(Program::new(page))
}

/// A RAM in which a byte that moves or changes shows.
fn filled_ram() -> Vec<u8> {
    (0..RAM_LENGTH).map(|at| (7 * at + 3) as u8).collect()
}

/// A record with every part different, at the ends of its range.
fn full_record() -> Record {
    Record {
        registers: std::array::from_fn(|k| 0x8123_4567 + 0x1111_1111 * k as u32),
        sp: 0x10000,
        flags: Flags {
            n: true,
            z: false,
            c: false,
            v: true,
        },
        place: 127,
        base: Base::Ram(0xFFFFF),
    }
}

fn outcome(answered: Result<Stopped, Refusal>) -> Outcome {
    answered.map(|stopped| (stopped.stop, stopped.steps))
}

/// Runs the page from a record on a filled RAM, without external data.
fn run_from(halfwords: &[u16], record: &mut Record, budget: u32) -> Outcome {
    let page = page_of(halfwords);
    outcome(alone(&page).run(&mut filled_ram(), record, budget))
}

fn service(low: u8, literal: Option<u32>) -> Stop {
    Stop::Service { low, literal }
}

fn returned(steps: u32) -> Outcome {
    Ok((service(0, None), steps))
}

fn spent(steps: u32) -> Outcome {
    Ok((Stop::Budget, steps))
}

#[test]
fn counts_and_bundles() {
    let page = page_of(PRINTED);
    let (program, odd) = (Program::new(&page), Program::new(&page[1..]));
    assert_eq!(program.count(), Ok(3));
    assert_eq!(Program::new(&[]).count(), Ok(0));
    assert_eq!(odd.count(), Err(Refusal::PageLength));

    assert_eq!(program.read_bundle(0), Ok(Reading::Largest(2)));
    assert_eq!(program.read_bundle(1), Ok(Reading::Nothing));
    assert_eq!(program.read_bundle(3), Ok(Reading::Largest(4)));
    let bad = page_of(&[0xDE00, 0xDE00]);
    assert_eq!(Program::new(&bad).read_bundle(0), Ok(Reading::Bad));
    assert_eq!(program.read_bundle(4), Err(Refusal::NoSuchBundle));
    assert_eq!(odd.read_bundle(4), Err(Refusal::PageLength));
}

#[test]
fn bases() {
    let data = [0; 512];
    let setting = alone(&[]);
    let external = setting.external(&data);
    assert_eq!(setting.validate(0), Ok(Base::Ram(0xF0000)));
    assert_eq!(external.validate(0x17FFF), Ok(Base::Ram(0x7FFF)));
    assert_eq!(external.validate(0x8000_01FF), Ok(Base::External(511)));
    assert_eq!(external.validate(0x8000_0200), Ok(Base::None));
    assert_eq!(setting.validate(0x8000_0000), Ok(Base::None));
    let odd = setting.external(&data[1..]);
    assert_eq!(odd.validate(0x10000), Err(Refusal::ExternalLength));
}

#[test]
fn fresh_record() {
    let fresh = Record {
        registers: [0; 8],
        sp: 0x18000,
        flags: Flags::default(),
        place: 0,
        base: Base::None,
    };
    assert_eq!(Record::default(), fresh);
}

#[test]
fn stored_and_read_back() {
    let record = full_record();
    let stored = record.store().expect("in range");
    assert_eq!(stored[36..], [1, 0xFF, 0xFF, 0x0F, 0, 127, 0, 9]);
    assert_eq!(<[u8; RECORD_LENGTH]>::try_from(&record), Ok(stored));
    assert_eq!(Record::load(&stored), Ok(record));
    assert_eq!(Record::try_from(&stored[..]), Ok(record));
    assert_eq!(Record::load(&stored[1..]), Err(Refusal::FormLength));

    let none_with_offset = Record {
        base: Base::Unknown { kind: 0, offset: 1 },
        ..record
    };
    assert_eq!(none_with_offset.store().err(), Refusal::of(7, 37));
}

/// A record with one field out of range, at each position.
fn out_of_range(position: u32) -> Record {
    let mut record = full_record();
    match position {
        32 => record.sp = 0x10002,
        36 => record.base = Base::Unknown { kind: 3, offset: 0 },
        37 => record.base = Base::Ram(0x10_0000),
        _ => record.place = 128,
    }
    record
}

#[test]
fn a_store_tells_the_field() {
    for position in [32, 36, 37, 41] {
        let refused = Refusal::of(7, position);
        let record = out_of_range(position);
        assert_eq!(record.store().err(), refused);
        assert_eq!(<[u8; RECORD_LENGTH]>::try_from(&record).err(), refused);
        let low = Record { sp: 0, ..record };
        assert_eq!(low.store().err(), Refusal::of(7, 32));
    }
    let refused = out_of_range(41).store().expect_err("out of range");
    assert!(matches!(refused, Refusal::FormRange { position: 41, .. }));
}

/// One byte of a field changed, and with it any of a field behind.
#[test]
fn a_load_tells_the_first_field() {
    let changes = [
        (34, 0, 32),
        (36, 3, 36),
        (39, 0x10, 37),
        (42, 1, 41),
        (43, 16, 43),
    ];
    let stored = full_record().store().expect("in range");
    for (number, (at, byte, position)) in changes.into_iter().enumerate() {
        for (behind, other, _) in &changes[number..] {
            let mut damaged = stored;
            damaged[*behind] = *other;
            damaged[at] = byte;
            assert_eq!(Record::load(&damaged).err(), Refusal::of(7, position));
            let tried = Record::try_from(&damaged[..]);
            assert_eq!(tried.err(), Refusal::of(7, position));
            let cut = Record::load(&damaged[..43]);
            assert_eq!(cut, Err(Refusal::FormLength));
        }
    }
}

#[test]
fn stops() {
    let mut record = Record::default();
    assert_eq!(run_from(PRINTED, &mut record, 0), spent(0));
    assert_eq!(run_from(PRINTED, &mut record, 3), spent(3));
    assert_eq!(run_from(PRINTED, &mut record, 100_000), returned(1));
    let flags = Flags {
        z: true,
        c: true,
        ..Flags::default()
    };
    let expected = Record {
        flags,
        place: 5,
        ..Record::default()
    };
    assert_eq!(record, expected);

    let tail_call = &[0xBF00, 0xDF01, 0x0001, 0x0000];
    let stop = service(1, Some(1));
    assert_eq!(
        run_from(tail_call, &mut Record::default(), 9),
        Ok((stop, 2))
    );
}

#[test]
fn a_step_is_a_run_with_budget_1() {
    let page = page_of(PRINTED);
    let setting = alone(&page);
    let (mut ram, mut record) = (filled_ram(), Record::default());
    let mut places = Vec::new();
    for expected in [spent(1), spent(1), spent(1), returned(1)] {
        assert_eq!(outcome(setting.step(&mut ram, &mut record)), expected);
        places.push(record.place);
    }
    assert_eq!(places, [1, 4, 5, 5]);
}

/// Each of the 64 ends the flow by its own bit, and by no other.
#[test]
fn counts_of_syscalls_that_never_return() {
    for n in 0..64 {
        let page = page_of(&[0xBF00, 0xDF80 + n]);
        let program = Program::new(&page);
        let bit = 1 << n;
        assert_eq!(syscall_bit(n.into()), bit);
        for goes_on in [program, program.never_return(!bit)] {
            assert_eq!(goes_on.count(), Ok(0));
            assert_eq!(goes_on.read_bundle(0), Ok(Reading::Largest(1)));
        }
        for ends in [program.never_return(bit), program.never_return(u64::MAX)] {
            assert_eq!(ends.count(), Ok(1));
            assert_eq!(ends.read_bundle(0), Ok(Reading::Nothing));
        }
    }
    assert_eq!((syscall_bit(64), syscall_bit(u32::MAX)), (0, 0));
}

/// A step and a run of a page where the syscalls of a set never return: both
/// stop at its first service, and leave the same place.
fn place_after(halfwords: &[u16], set: u64, low: u8) -> u16 {
    let page = page_of(halfwords);
    let setting = Setting::new(Program::new(&page).never_return(set));
    let (mut ram, mut stepped, mut ran) = (filled_ram(), Record::default(), Record::default());
    let exited = Ok((service(low, None), 1));
    assert_eq!(outcome(setting.step(&mut ram, &mut stepped)), exited);
    assert_eq!(outcome(setting.run(&mut ram, &mut ran, 9)), exited);
    assert_eq!(stepped, ran);
    ran.place
}

#[test]
fn places_at_syscalls_that_never_return() {
    assert_eq!(place_after(&[0xDFBF, 0xDF00], 1 << 63, 0xBF), 0);
    assert_eq!(place_after(&[0xDFBF, 0xDF00], u64::MAX >> 1, 0xBF), 1);
    assert_eq!(place_after(&[0xDFE8, 0xDF00], u64::MAX, 0xE8), 1);
    assert_eq!(place_after(&[0xDFF0, 0xDF00], u64::MAX, 0xF0), 1);

    let page = page_of(&[0xDFBF, 0xDF00]);
    let program = Program::new(&page);
    let behind = Record {
        place: 1,
        ..Record::default()
    };
    let ended = Setting::new(program.never_return(1 << 63));
    check_refused(Refusal::UnfitPlace, ended, RAM_LENGTH, behind);
    let ran = Setting::new(program).run(&mut filled_ram(), &mut { behind }, 9);
    assert_eq!(outcome(ran), returned(1));
}

#[test]
fn counts_of_profiles() {
    let behind_a_terminator: &[u16] = &[0xDF00, 0xB100]; // cbz
    let cases = [
        (PRINTED, 3, 3),
        (MOVW, 3, 1),
        (CBNZ, 3, 1),
        (behind_a_terminator, 1, 0),
    ];
    for (halfwords, full, small) in cases {
        let page = page_of(halfwords);
        let program = Program::new(&page);
        assert_eq!(program.count(), Ok(full));
        assert_eq!(program.profile(PROFILE_SMALL).count(), Ok(small));
        let back = program.profile(PROFILE_SMALL).profile(PROFILE_FULL);
        assert_eq!(back.count(), Ok(full));
    }
}

/// What the small profile lacks is bad, so that no place in it is fit.
#[test]
fn places_of_profiles() {
    for (halfwords, steps) in [(MOVW, 3), (CBNZ, 4)] {
        let page = page_of(halfwords);
        let program = Program::new(&page);
        let small = program.profile(PROFILE_SMALL);
        assert_eq!(program.read_bundle(1), Ok(Reading::Largest(2)));
        assert_eq!(small.read_bundle(1), Ok(Reading::Bad));
        assert_eq!(small.read_bundle(2), Ok(Reading::Nothing));

        let small = Setting::new(small);
        let mut record = Record::default();
        let ran = small.run(&mut filled_ram(), &mut record, 9);
        assert_eq!(outcome(ran), returned(2));
        record.place = 2;
        check_refused(Refusal::UnfitPlace, small, RAM_LENGTH, record);
        assert_eq!(run_from(halfwords, &mut record, 9), returned(steps));
    }
}

/// Validation has no part in it; steps and runs are refused further below.
#[test]
fn unknown_profiles() {
    let page = page_of(PRINTED);
    for number in UNKNOWN_PROFILES {
        for page in [&page[..], &page[1..]] {
            let unknown = Program::new(page).profile(number);
            assert_eq!(unknown.count(), Err(Refusal::UnknownProfile));
            assert_eq!(unknown.read_bundle(0), Err(Refusal::UnknownProfile));
            assert_eq!(unknown.read_bundle(4), Err(Refusal::UnknownProfile));
            let setting = Setting::new(unknown);
            assert_eq!(setting.validate(0x10000), Ok(Base::Ram(0)));
        }
    }
}

#[test]
fn faults() {
    let with = |base, sp| Record {
        base,
        sp,
        ..Record::default()
    };
    let top = 0x18000;
    let off_page = with(Base::External(253), top);
    let low = with(Base::None, 0x10000);
    let stack_store: &[u16] = &[0x9000, 0xDF00];
    let cases: [(&[u16], Record, Fault); 7] = [
        (STORE, with(Base::None, top), Fault::NoBase),
        (STORE, with(Base::Ram(32_765), top), Fault::PastRam),
        (
            &[0xF8D8, 0x0000, 0xBF00, 0xDF00],
            off_page,
            Fault::OffExternalPage,
        ),
        (&[0x9800, 0xDF00], with(Base::None, top), Fault::PastStack),
        (&[0xDFC1, 0xDF00], low, Fault::LowStack),
        (&[0x48FF, 0xDF00], with(Base::None, top), Fault::PastPage),
        (stack_store, with(Base::None, 0x10000), Fault::OutsideWindow),
    ];
    for (number, (halfwords, given, fault)) in (1..).zip(cases) {
        let (page, mut ram, mut record) = (page_of(halfwords), filled_ram(), given);
        let setting = alone(&page).external(&[0; 512]).window(window(4, 32_768));
        let faulted = Ok((Stop::Fault(fault), 0));
        assert_eq!(outcome(setting.run(&mut ram, &mut record, 9)), faulted);
        assert_eq!(outcome(setting.step(&mut ram, &mut record)), faulted);
        assert_eq!(record, given);
        assert!(ram == filled_ram());
        assert_eq!(fault.number(), number);
    }
}

#[test]
fn ram_is_written() {
    let mut ram = filled_ram();
    let mut expected = filled_ram();
    expected[32_764..].copy_from_slice(&[0xEF, 0xCD, 0xAB, 0x89]);
    let mut record = Record::default();
    record.registers[0] = 0x89AB_CDEF;
    record.base = Base::Ram(32_764);
    let page = page_of(STORE);
    let stepped = alone(&page).step(&mut ram, &mut record);
    assert_eq!(outcome(stepped), spent(1));
    assert!(ram == expected);
    assert_eq!(record.place, 2);
}

/// A step and a run fault at their first instruction, and leave the record and RAM as
/// they were.
fn check_outside(setting: Setting, given: Record) {
    let (mut ram, mut record) = (filled_ram(), given);
    let faulted = Ok((Stop::Fault(Fault::OutsideWindow), 0));
    assert_eq!(outcome(setting.step(&mut ram, &mut record)), faulted);
    assert_eq!(outcome(setting.run(&mut ram, &mut record, 9)), faulted);
    assert_eq!(record, given);
    assert!(ram == filled_ram());
}

/// A word store at 101, and one by SP at 104.
#[test]
fn accesses_at_the_edges_of_a_window() {
    let stack_store = page_of(&[0x9001, 0xDF00]);
    let (store, given) = (page_of(STORE), Record::default());
    let by_base = Record {
        base: Base::Ram(101),
        ..given
    };
    let by_sp = Record {
        sp: RAM_START + 100,
        ..given
    };
    let cases = [(&store, by_base, 101, 3), (&stack_store, by_sp, 104, 2)];
    for (page, record, at, steps) in cases {
        let setting = alone(page);
        for (start, end) in [(at, at + 4), (0, at + 4), (at, 32_768)] {
            let inside = setting.window(window(start, end));
            let ran = inside.run(&mut filled_ram(), &mut { record }, 9);
            assert_eq!(outcome(ran), returned(steps));
        }
        for (start, end) in [
            (at + 1, at + 4),
            (at, at + 3),
            (at - 1, at + 3),
            (at + 1, at + 5),
            (0, 0),
        ] {
            check_outside(setting.window(window(start, end)), record);
        }
        let back = setting.window(window(0, 0)).window(Window::WHOLE);
        assert_eq!(
            outcome(back.step(&mut filled_ram(), &mut { record })),
            spent(1)
        );
    }
}

/// Empty ones too, and those in which no word fits: a page without an access runs there.
#[test]
fn windows_that_are_allowed() {
    let page = page_of(PRINTED);
    let small = [(0, 0), (32_768, 32_768), (5, 5), (7, 10), (32_767, 32_768)];
    for (start, end) in small {
        let setting = alone(&page).window(window(start, end));
        let ran = setting.run(&mut filled_ram(), &mut Record::default(), 9);
        assert_eq!(outcome(ran), returned(4));
    }
    assert_eq!(Window::WHOLE, window(0, 32_768));
}

#[test]
fn windows_that_are_refused() {
    let page = page_of(PRINTED);
    for refused in REFUSED_WINDOWS {
        let setting = alone(&page).window(refused);
        check_refused(
            Refusal::WindowBounds,
            setting,
            RAM_LENGTH,
            Record::default(),
        );
        assert_eq!(setting.validate(0x10000), Ok(Base::Ram(0)));
    }
}

/// Words marched up RAM from r0 on, for ever: base = validate(r0), the store of r1, r0 + 4,
/// and back.
const MARCH: &[u16] = &[0xBF00, 0xDFE0, 0xF8C9, 0x1000, 0x3004, 0xE7F9];

/// Each of two filters fills its window, and leaves the other's.
#[test]
fn two_filters_in_one_ram() {
    let page = page_of(MARCH);
    let (mut ram, mut expected) = (filled_ram(), filled_ram());
    for (start, end, word) in [(102, 203, 0x1111_1111), (203, 300, 0x2222_2222u32)] {
        let mut record = Record::default();
        record.registers[..2].copy_from_slice(&[RAM_START + start, word]);
        let setting = alone(&page).window(window(start, end));
        let ran = setting.run(&mut ram, &mut record, 10_000);
        let words = (end - start) / 4;
        let outside = Stop::Fault(Fault::OutsideWindow);
        assert_eq!(outcome(ran), Ok((outside, 5 * words + 2)));
        expected[start as usize..][..4 * words as usize].fill(word as u8);
        assert!(ram == expected);
    }
}

/// A step and a run are refused, and leave the record and RAM as they were.
fn check_refused(refusal: Refusal, setting: Setting, ram: usize, given: Record) {
    let (mut lent, mut record) = (filled_ram(), given);
    let stepped = setting.step(&mut lent[..ram], &mut record);
    assert_eq!(stepped, Err(refusal));
    let ran = setting.run(&mut lent[..ram], &mut record, 9);
    assert_eq!(ran, Err(refusal));
    assert_eq!(record, given);
    assert!(lent == filled_ram());
}

/// The same of a program with external data, also in a window that is refused if that
/// is not told first; and an unknown profile is refused before.
fn check_refused_behind_profile(
    refusal: Refusal,
    (program, external): (Program, &[u8]),
    ram: usize,
    given: Record,
) {
    let setting = |program| Setting::new(program).external(external);
    check_refused(refusal, setting(program), ram, given);
    let first = match refusal.number() {
        1..=3 => refusal,
        _ => Refusal::WindowBounds,
    };
    for refused in REFUSED_WINDOWS {
        check_refused(first, setting(program).window(refused), ram, given);
    }
    for number in UNKNOWN_PROFILES {
        let unknown = setting(program.profile(number));
        check_refused(Refusal::UnknownProfile, unknown, ram, given);
        let unknown = unknown.window(BACKWARDS);
        check_refused(Refusal::UnknownProfile, unknown, ram, given);
    }
}

/// Records with what each is refused by, given 256 bytes of external data: everything
/// wrong at first, and then mended part by part.
fn wrong_records() -> [(Refusal, Record); 6] {
    let far = Record {
        place: 6,
        ..full_record()
    };
    let past_ram = Record {
        base: Base::Ram(0x10_0000),
        ..far
    };
    let past_data = Record {
        base: Base::External(256),
        ..far
    };
    let odd_sp = Record {
        sp: 0x17FFE,
        ..past_ram
    };
    let low_sp = Record {
        sp: 0xFFFE,
        ..past_data
    };
    let base = Base::Unknown { kind: 3, offset: 0 };
    let no_record = Record { base, ..low_sp };
    let at_base_kind = Refusal::of(255, 36).expect("a refusal");
    [
        (at_base_kind, no_record),
        (Refusal::SpBounds, low_sp),
        (Refusal::SpAlignment, odd_sp),
        (Refusal::RamOffset, past_ram),
        (Refusal::ExternalOffset, past_data),
        (Refusal::UnfitPlace, far),
    ]
}

/// Everything wrong at first, and then mended part by part.
#[test]
fn refused_steps_and_runs() {
    let (page, external) = (page_of(PRINTED), [0; 256]);
    let (whole, odd) = (Program::new(&page), Program::new(&page[1..]));
    let (odd_data, short) = (&external[1..], RAM_LENGTH - 1);
    let records = wrong_records();
    let (_, no_record) = records[0];
    let rows = [
        (Refusal::PageLength, odd, short),
        (Refusal::RamLength, whole, short),
        (Refusal::ExternalLength, whole, RAM_LENGTH),
    ];
    for (refusal, program, ram) in rows {
        check_refused_behind_profile(refusal, (program, odd_data), ram, no_record);
    }
    for (refusal, record) in records {
        check_refused_behind_profile(refusal, (whole, &external), RAM_LENGTH, record);
    }
}

/// What brings 255 in a record of the wrapper, and where.
#[test]
fn bases_that_no_record_has() {
    let page = page_of(PRINTED);
    for (kind, offset, position) in [
        (0, 1, 37),
        (0, u32::MAX, 37),
        (0, 0, 36),
        (2, 0, 36),
        (3, 1, 36),
    ] {
        let base = Base::Unknown { kind, offset };
        let record = Record {
            base,
            sp: 0,
            ..Record::default()
        };
        let refused = Refusal::of(255, position).expect("a refusal");
        check_refused(refused, alone(&page), RAM_LENGTH, record);
    }
}

#[test]
fn a_refusal_is_an_error() {
    let error: Box<dyn std::error::Error> = Box::new(Refusal::RamLength);
    assert_eq!(error.to_string(), "refused 2: RAM is not 32768 bytes");
}

/// The low byte and its literal, by themselves and in a stop, give the exit.
fn check_exit(low: u8, literal: Option<u32>, exit: Option<Exit>) {
    assert_eq!(Exit::of(low, literal.unwrap_or(1)), exit);
    assert_eq!(service(low, literal).exit(), exit);
}

#[test]
fn exits_by_the_low_byte() {
    let rows = [
        (0x00, Some(Exit::Return)),
        (0xBF, Some(Exit::DirectSyscall { number: 63 })),
        (0xC0, None),
        (0xE8, Some(Exit::Breakpoint)),
        (0xEF, None),
        (0xF7, Some(Exit::CallRegister { register: 7 })),
        (0xF8, Some(Exit::TailCallRegister { register: 0 })),
    ];
    for (low, exit) in rows {
        check_exit(low, None, exit);
    }
    assert_eq!(service(0x01, None).exit(), None);
    assert_eq!(Stop::Budget.exit(), None);
}

#[test]
fn exits_by_the_literal() {
    let call = |address, words| Exit::Call { address, words };
    let tail_call = |address, words| Exit::TailCall { address, words };
    let syscall = |number, immediate| Exit::Syscall { number, immediate };
    let tail_syscall = |number, immediate| Exit::TailSyscall { number, immediate };
    let branch = |address| Exit::LongBranch { address };
    let rows = [
        (0x7FFF_FFFC, Some(call(0x80FF_FFFC, 127))),
        (0x0100_0005, Some(tail_call(0x8000_0004, 1))),
        (0x0000_0002, None),
        (0x9FFF_FFFE, Some(syscall(8191, 0x7FFF))),
        (0x8007_0003, Some(tail_syscall(7, 1))),
        (0xA000_0000, None),
        (0xC001_0000, Some(branch(0x0001_0000))),
        (0xE0FF_FFFF, Some(branch(0x80FF_FFFF))),
        (0xC200_0000, None),
    ];
    for (literal, exit) in rows {
        check_exit(0x01, Some(literal), exit);
        check_exit(0x7F, Some(literal), exit);
    }
}

#[test]
fn versions() {
    let parts = env!("CARGO_PKG_VERSION").split('.');
    let package = parts.fold(0, |number, part| {
        256 * number + part.parse::<u32>().expect("a number")
    });
    assert_eq!(marshbodkin::VERSION, package);
    assert_eq!(marshbodkin::version(), marshbodkin::VERSION);
}

/// Bytes that hold no record.
const NO_RECORD: [u8; RECORD_LENGTH] = [0xFF; RECORD_LENGTH];

/// The numbers of a refused step or run.
fn refused_numbers(code: u32, position: u32) -> raw::Answer {
    raw::Answer {
        code,
        kind: 5,
        value: code,
        literal: 0,
        position,
        steps: 0,
    }
}

/// They meet 255 in a step and a run, after 18, 1, 2, 3 and 20, and nothing changes.
#[test]
fn no_record_in_steps_and_runs() {
    let refused = |code| refused_numbers(code, if code == 255 { 36 } else { 0 });
    let (odd, short): (&[u8], usize) = (&[0], RAM_LENGTH - 1);
    let (whole, empty) = (Window::WHOLE, window(9, 9));
    let rows = [
        (18, 2, odd, short, odd, BACKWARDS),
        (18, u32::MAX, &[], RAM_LENGTH, &[], whole),
        (1, PROFILE_SMALL, odd, short, odd, BACKWARDS),
        (2, PROFILE_FULL, &[], short, odd, BACKWARDS),
        (3, PROFILE_SMALL, &[], RAM_LENGTH, odd, BACKWARDS),
        (20, PROFILE_SMALL, &[], RAM_LENGTH, &[], BACKWARDS),
        (20, PROFILE_FULL, &[], RAM_LENGTH, &[], window(0, 32_769)),
        (255, PROFILE_FULL, &[], RAM_LENGTH, &[], whole),
        (255, PROFILE_SMALL, &[], RAM_LENGTH, &[], empty),
    ];
    let (mut ram, mut bytes) = (filled_ram(), NO_RECORD);
    for (code, profile, page, length, external, window) in rows {
        let ram = &mut ram[..length];
        let ran = raw::run(page, 0, profile, ram, external, window, &mut bytes, 9);
        assert_eq!((ran, bytes), (refused(code), NO_RECORD));
        let set = u64::MAX;
        let stepped = raw::step(page, set, profile, ram, external, window, &mut bytes);
        assert_eq!((stepped, bytes), (refused(code), NO_RECORD));
    }
    assert!(ram == filled_ram());
}

/// Flags above 15 and other lengths, which no record of the wrapper crosses as.
#[test]
fn no_record_in_raw_bytes() {
    let page = page_of(PRINTED);
    let mut bytes = full_record().store().expect("in range");
    bytes[43] = 16;
    for (length, position) in [(0, 0), (43, 0), (44, 43)] {
        let (mut ram, refused) = (filled_ram(), refused_numbers(255, position));
        let (record, whole) = (&mut bytes[..length], Window::WHOLE);
        let ran = raw::run(&page, 0, 0, &mut ram, &[], whole, record, 9);
        assert_eq!(ran, refused);
        let stepped = raw::step(&page, 0, 0, &mut ram, &[], whole, record);
        assert_eq!(stepped, refused);
    }
}

/// Stored they are out of range, and nothing changes.
#[test]
fn no_record_stored() {
    let (mut ram, mut bytes) = (filled_ram(), NO_RECORD);
    assert_eq!(raw::store(&bytes, &mut ram), (6, 0));
    assert_eq!(raw::store(&bytes, &mut ram[..RECORD_LENGTH]), (7, 32));
    assert_eq!(raw::load(&[], &mut bytes[1..]), (6, 0));
    assert_eq!(raw::load(&[], &mut bytes), (6, 0));
    assert_eq!(raw::load(&NO_RECORD, &mut bytes[1..]), (6, 0));
    assert_eq!(raw::load(&[0xFE; RECORD_LENGTH], &mut bytes), (7, 32));
    assert_eq!(raw::fresh(&mut bytes[1..]), 6);
    assert_eq!(bytes, NO_RECORD);
    assert!(ram == filled_ram());
}
