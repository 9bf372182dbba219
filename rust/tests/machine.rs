//! Refusals, faults, series of calls and the stored form.

use marshbodkin_check::assemble::{self as asm, page_bytes, Bundle};
use marshbodkin_check::random;
use marshbodkin_check::second::arith::Flags;
use marshbodkin_check::second::machine::{run, step, Stop};
use marshbodkin_check::second::memory::{Fault, RAM_SIZE};
use marshbodkin_check::second::page::Code;
use marshbodkin_check::second::record::{
    read_back, store_bytes, stored_bytes, Base, Record, STORED,
};
use marshbodkin_check::second::refusal::Refusal;
use marshbodkin_check::second::rules::Rules;
use marshbodkin_check::second::setting::Setting;

const RIGHT: Rules = Rules::RIGHT;

/// Runs one bundle and a return from a record, with external data.
fn run_bundle(bundle: Bundle, record: &Record, external: &[u8]) -> (Stop, Record) {
    let page = page_bytes(&[bundle, [asm::RETURN, asm::NOP]]);
    let setting = Setting::new(Code::plain(&page)).with_external(external);
    let answer = run(setting, &mut vec![0; RAM_SIZE], record, 10);
    (answer.stop, answer.record)
}

fn with_base(base: Base) -> Record {
    Record {
        base,
        ..Record::fresh()
    }
}

#[test]
fn refusals_come_in_order() {
    let good = page_bytes(&[[0x2001, 0xDF00], [0xDF00, 0x2001]]);
    let unfit = Record {
        sp: 0x18004,
        place: 9,
        ..Record::fresh()
    };
    let refusal = |page: &[u8], ram: usize, external: usize, record: &Record| {
        let (mut ram, external) = (vec![7; ram], vec![0; external]);
        let setting = Setting::new(Code::plain(page)).with_external(&external);
        let answer = run(setting, &mut ram, record, 5);
        assert_eq!((&answer.record, answer.steps), (record, 0));
        assert!(ram.iter().all(|&byte| byte == 7));
        answer.stop.refusal()
    };
    let refused = |number| Some(Refusal::plain(number));
    assert_eq!(refusal(&[0; 2], 0, 1, &unfit), refused(1));
    assert_eq!(refusal(&good, 0, 1, &unfit), refused(2));
    assert_eq!(refusal(&good, RAM_SIZE, 1, &unfit), refused(3));
    assert_eq!(refusal(&good, RAM_SIZE, 256, &unfit), refused(41));
    for place in [3, 4, 9] {
        let record = Record {
            place,
            ..Record::fresh()
        };
        assert_eq!(refusal(&good, RAM_SIZE, 0, &record), refused(5));
    }
}

#[test]
fn budget_is_tested_first() {
    let page = page_bytes(&[[0x2001, 0xDF00]]);
    let setting = Setting::new(Code::plain(&page));
    let mut ram = vec![0; RAM_SIZE];
    let none = run(setting, &mut ram, &Record::fresh(), 0);
    assert_eq!((none.stop, none.steps), (Stop::Budget, 0));
    let one = step(setting, &mut ram, &Record::fresh());
    assert_eq!(
        (one.stop, one.steps, one.record.place),
        (Stop::Budget, 1, 1)
    );
}

#[test]
fn external_loads_stay_on_their_page() {
    let external: Vec<u8> = (0..512).map(|i| (i % 251) as u8).collect();
    let base = with_base(Base::External(0xFC));
    let (_, record) = run_bundle(asm::memory(0xF8D8, 1, 0), &base, &external);
    assert_eq!(record.registers[1], 0x0403_0201);
    let stop = |first, imm12| run_bundle(asm::memory(first, 1, imm12), &base, &external).0;
    assert_eq!(stop(0xF8D8, 1), Stop::Fault(Fault::OffExternalPage));
    assert_eq!(stop(0xF898, 4), Stop::Fault(Fault::OffExternalPage));
    assert_eq!(stop(0xF8D9, 0), Stop::Fault(Fault::NoBase));
    assert_eq!(stop(0xF8C9, 0), Stop::Fault(Fault::NoBase));
}

#[test]
fn services_leave_no_base_but_faults_keep_it() {
    let base = with_base(Base::Ram(5));
    for low in [0xC1, 0xE8, 0x80, 0xF1] {
        let (_, record) = run_bundle([asm::service(low), asm::RETURN], &base, &[]);
        assert_eq!(record.base, Base::None);
    }
    let low_stack = Record {
        sp: 0x10004,
        ..base
    };
    let (stop, record) = run_bundle([asm::service(0xC2), asm::RETURN], &low_stack, &[]);
    assert_eq!(stop, Stop::Fault(Fault::StackTooLow));
    assert_eq!(record, low_stack);
}

#[test]
fn exits_move_on_unless_they_terminate() {
    let place = |low| {
        run_bundle([asm::service(low), asm::RETURN], &Record::fresh(), &[])
            .1
            .place
    };
    assert_eq!([0x80, 0xBF, 0xE8, 0xF0, 0xF7].map(place), [1; 5]);
    assert_eq!([0x00, 0xF8, 0xFF].map(place), [0; 3]);
}

#[test]
fn single_steps_equal_one_run() {
    for number in 0..200 {
        let page = random::page(11, number);
        let setting = Setting::new(Code::plain(&page));
        let (mut whole, mut parts) = (vec![0; RAM_SIZE], vec![0; RAM_SIZE]);
        let answer = run(setting, &mut whole, &Record::fresh(), 100);
        let (mut record, mut steps, mut last) = (Record::fresh(), 0, Stop::Budget);
        while last == Stop::Budget && steps < 100 {
            let one = step(setting, &mut parts, &record);
            (record, last) = (one.record, one.stop);
            steps += one.steps;
        }
        assert_eq!((answer.record, answer.steps), (record, steps));
        assert_eq!((answer.stop, whole), (last, parts));
    }
}

fn sample() -> Record {
    Record {
        registers: [1, 2, 3, 4, 5, 6, 0x0102_0304, 0xFFFF_FFFF],
        sp: 0x10010,
        flags: Flags {
            n: true,
            z: false,
            c: true,
            v: true,
        },
        place: 127,
        base: Base::External(0x00FF_FFFF),
    }
}

/// Stores a record in the room lent.
fn store(record: &Record, room: &mut [u8]) -> Option<Refusal> {
    store_bytes(RIGHT, &stored_bytes(record), room)
}

#[test]
fn stored_form_round_trips() {
    let bases = [Base::None, Base::Ram(0xF_FFFF), Base::External(0xFF_FFFF)];
    for base in bases {
        let record = Record { base, ..sample() };
        let mut room = [0xAA; STORED];
        assert_eq!(store(&record, &mut room), None);
        assert_eq!(read_back(RIGHT, &room), (record, None));
    }
}

#[test]
fn stored_form_has_the_papers_order() {
    let mut room = [0; STORED];
    store(&sample(), &mut room);
    assert_eq!(room[24..28], [4, 3, 2, 1]);
    assert_eq!(
        room[32..],
        [0x10, 0, 1, 0, 2, 0xFF, 0xFF, 0xFF, 0, 127, 0, 11]
    );
}

#[test]
fn storing_refuses() {
    let length = Some(Refusal::plain(6));
    assert_eq!(store(&sample(), &mut [0; 43]), length);
    let sp = |sp| Record { sp, ..sample() };
    let place = Record {
        place: 128,
        ..sample()
    };
    let bad = [
        (sp(0xFFFC), 32),
        (sp(0x10002), 32),
        (place, 41),
        (with_base(Base::Ram(1 << 20)), 37),
        (with_base(Base::External(1 << 24)), 37),
    ];
    for (record, position) in bad {
        let mut room = [0xAA; STORED];
        let refusal = store(&record, &mut room);
        assert_eq!(refusal, Some(Refusal::at(7, position)));
        assert_eq!(room, [0xAA; STORED]);
    }
}

#[test]
fn reading_back_refuses() {
    let length = (Record::fresh(), Some(Refusal::plain(6)));
    assert_eq!(read_back(RIGHT, &[0; 45]), length);
    let mut good = [0; STORED];
    store(&sample(), &mut good);
    for (at, value, position) in [
        (36, 3, 36),
        (36, 0, 37),
        (36, 1, 37),
        (40, 1, 37),
        (41, 128, 41),
        (43, 16, 43),
        (34, 2, 32),
    ] {
        let mut bytes = good;
        bytes[at] = value;
        assert_eq!(
            read_back(RIGHT, &bytes),
            (Record::fresh(), Some(Refusal::at(7, position))),
            "byte {at}"
        );
    }
}
