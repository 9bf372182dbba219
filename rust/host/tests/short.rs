//! The short form against 02: bytes by hand, every refusal of both calls, and what
//! is left of the room.

use marshbodkin::{
    pack, unpack, Base, Flags, Record, Refusal, RECORD_LENGTH, SHORT_LEAST, SHORT_MOST,
};

/// What a room holds before a call.
const FILLING: u8 = 0xAA;

/// A record of which each number takes as many groups as it can.
fn longest() -> Record {
    Record {
        registers: [u32::MAX; 8],
        sp: 0x10000,
        flags: Flags {
            n: true,
            z: true,
            c: true,
            v: true,
        },
        place: 127,
        base: Base::External(0xFF_FFFF),
    }
}

/// Its short form, by hand: SP is 8,192 words below 0x18000.
fn longest_form() -> Vec<u8> {
    let mut form = [0xFF, 0xFF, 0xFF, 0xFF, 0x0F].repeat(8);
    form.extend([0x80, 0x40, 0x02, 0xFF, 0xFF, 0xFF, 0x07, 0x7F, 0x0F]);
    form
}

/// Records with their short forms.
fn forms() -> [(Record, Vec<u8>); 3] {
    let ram = Record {
        base: Base::Ram(0x80),
        sp: 0x17FFC,
        ..Record::default()
    };
    let mut ram_form = vec![0; 8];
    ram_form.extend([0x01, 0x01, 0x80, 0x01, 0x00, 0x00]);
    [
        (Record::default(), vec![0; SHORT_LEAST]),
        (longest(), longest_form()),
        (ram, ram_form),
    ]
}

/// A short form of zeros with a base of this kind and offset, and place and flags.
fn with_base(kind: u8, offset: &[u8], place: &[u8], flags: &[u8]) -> Vec<u8> {
    [&[0; 9], &[kind][..], offset, place, flags].concat()
}

/// Packing into a room of this length: what is answered, and the room.
fn packed(stored: &[u8], room: usize) -> (Result<usize, Refusal>, Vec<u8>) {
    let mut room = vec![FILLING; room];
    (pack(stored, &mut room), room)
}

/// The same of unpacking.
fn unpacked(form: &[u8], room: usize) -> (Result<(), Refusal>, Vec<u8>) {
    let mut room = vec![FILLING; room];
    (unpack(form, &mut room), room)
}

/// Packing is refused in a room of this length, and leaves it.
fn check_not_packed(stored: &[u8], room: usize, refusal: Refusal) {
    let left = vec![FILLING; room];
    assert_eq!(packed(stored, room), (Err(refusal), left));
}

/// The same of unpacking.
fn check_not_unpacked(form: &[u8], room: usize, refusal: Refusal) {
    let left = vec![FILLING; room];
    assert_eq!(unpacked(form, room), (Err(refusal), left));
}

fn out_of_range(position: u32) -> Refusal {
    Refusal::of(7, position).expect("a refusal")
}

#[test]
fn bytes_by_hand() {
    for (record, form) in forms() {
        let stored = record.store().expect("in range");
        let (answer, room) = packed(&stored, SHORT_MOST);
        assert_eq!((answer, &room[..form.len()]), (Ok(form.len()), &form[..]));
        assert_eq!(unpacked(&form, RECORD_LENGTH), (Ok(()), stored.to_vec()));

        let mut room = [0; SHORT_MOST];
        assert_eq!(record.pack(&mut room), Ok(form.len()));
        assert_eq!(Record::unpack(&form), Ok(record));
    }
    assert_eq!(longest_form().len(), SHORT_MOST);
}

/// In every room that is long enough the form stands at the start, and the rest
/// stays; in every other nothing is written.
#[test]
fn rooms_to_pack_into() {
    for (record, form) in forms() {
        let stored = record.store().expect("in range");
        for length in 0..form.len() {
            check_not_packed(&stored, length, Refusal::RoomTooSmall);
            let mut room = vec![FILLING; length];
            assert_eq!(record.pack(&mut room), Err(Refusal::RoomTooSmall));
        }
        for behind in 0..4 {
            let expected = [&form[..], &vec![FILLING; behind]].concat();
            let length = form.len() + behind;
            assert_eq!(packed(&stored, length), (Ok(form.len()), expected));
        }
    }
}

#[test]
fn rooms_to_unpack_into() {
    for length in [0, 12, 43, 45, 88] {
        check_not_unpacked(&[0; SHORT_LEAST], length, Refusal::FormLength);
        check_not_unpacked(&[], length, Refusal::FormLength);
        check_not_unpacked(&[0xFF; 70], length, Refusal::FormLength);
    }
}

/// 6, then 7, then 10.
#[test]
fn refused_packing() {
    let stored = longest().store().expect("in range");
    for room in [0, 11, SHORT_MOST - 1, SHORT_MOST] {
        check_not_packed(&[], room, Refusal::FormLength);
        check_not_packed(&[0xFF; 43], room, Refusal::FormLength);
        check_not_packed(&[&stored[..], &[0]].concat(), room, Refusal::FormLength);
        for (at, byte, position) in [(34, 0, 32), (36, 3, 36), (40, 1, 37), (42, 1, 41)] {
            let mut wrong = stored;
            wrong[at] = byte;
            wrong[43] = 16;
            check_not_packed(&wrong, room, out_of_range(position));
        }
    }
    let base = Base::Unknown { kind: 3, offset: 0 };
    let unknown = Record { base, ..longest() };
    assert_eq!(unknown.pack(&mut []), Err(out_of_range(36)));
}

/// 9 in each way, whatever is out of range too; here it is the flags.
#[test]
fn refused_by_groups() {
    let good = with_base(0, &[], &[0], &[16]);
    let not_grouped = |form: &[u8]| {
        check_not_unpacked(form, RECORD_LENGTH, Refusal::NotGrouped);
        assert_eq!(Record::unpack(form), Err(Refusal::NotGrouped));
    };
    check_not_unpacked(&good, RECORD_LENGTH, out_of_range(43));
    for length in 0..good.len() {
        not_grouped(&good[..length]);
    }
    not_grouped(&[&good[..], &[0]].concat());
    for number in 0..good.len() {
        let instead = |groups: &[u8]| [&good[..number], groups, &good[number + 1..]].concat();
        not_grouped(&instead(&[0x80, 0]));
        not_grouped(&instead(&[0xFF, 0x80, 0x80, 0x80, 0]));
        not_grouped(&instead(&[0xFF, 0xFF, 0xFF, 0xFF, 0xFF, 1]));
    }
    for length in [66, 1000, 100_000] {
        not_grouped(&vec![0; length]);
        not_grouped(&vec![0xFF; length]);
    }
}

/// A number past its field, by position: r0 at 0 too, and told as r0.
#[test]
fn refused_numbers() {
    let past = [0x80, 0x80, 0x80, 0x80, 0x10]; // 2^32
    for number in 0..8 {
        let mut form = vec![0; number];
        form.extend(past);
        form.resize(16, 0);
        check_not_unpacked(&form, RECORD_LENGTH, out_of_range(4 * number as u32));
        let refused = Record::unpack(&form).expect_err("out of range");
        assert_eq!(refused.position(), Some(4 * number as u32));
        assert!(refused.to_string().ends_with(&format!(" at r{number}")));
    }
    let sp = [&[0; 8], &[0x81, 0x40][..], &[0, 0, 0]].concat(); // 8193
    check_not_unpacked(&sp, RECORD_LENGTH, out_of_range(32));
    let kind = [&[0; 9], &[0x80, 0x02][..], &[0, 0, 0]].concat(); // 256, with an offset
    check_not_unpacked(&kind, RECORD_LENGTH, out_of_range(36));
    for (form, position) in [
        (with_base(3, &[0], &[0], &[0]), 36),
        (with_base(1, &past, &[0], &[0]), 37),
        (with_base(1, &[0x80, 0x80, 0x40], &[0], &[0]), 37), // 2^20
        (with_base(0, &[], &[0x80, 0x80, 0x04], &[0]), 41),  // 65536
        (with_base(0, &[], &[0], &[0x80, 0x02]), 43),        // 256
    ] {
        check_not_unpacked(&form, RECORD_LENGTH, out_of_range(position));
    }
}
