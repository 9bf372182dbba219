//! Exits by hand, from the rows of 002 and the rulings of 01.

use marshbodkin_check::second::exits::{exit_of, Exit};

fn call(address: u32, words: u32, tail: bool) -> Option<Exit> {
    Some(Exit::Call {
        address,
        words,
        tail,
    })
}

fn syscall(number: u32, immediate: u32, tail: bool) -> Option<Exit> {
    Some(Exit::Syscall {
        number,
        immediate,
        tail,
    })
}

fn by_register(register: usize, tail: bool) -> Option<Exit> {
    Some(Exit::CallRegister { register, tail })
}

#[test]
fn by_the_low_byte() {
    let direct = |number| Some(Exit::DirectSyscall { number });
    for literal in [0, 0x8000_0001, u32::MAX] {
        let exit = |low| exit_of(low, literal);
        assert_eq!(exit(0x00), Some(Exit::Return));
        assert_eq!((exit(0x80), exit(0xBF)), (direct(0), direct(63)));
        assert_eq!((exit(0xC0), exit(0xE7)), (None, None));
        assert_eq!(exit(0xE8), Some(Exit::Breakpoint));
        assert_eq!((exit(0xE9), exit(0xEF)), (None, None));
        assert_eq!(exit(0xF0), by_register(0, false));
        assert_eq!(exit(0xF7), by_register(7, false));
        assert_eq!(exit(0xF8), by_register(0, true));
        assert_eq!(exit(0xFF), by_register(7, true));
        assert_eq!(
            (exit(0x100), exit(0x180), exit(u32::MAX)),
            (None, None, None)
        );
    }
}

#[test]
fn by_the_literal() {
    let branch = |address| Some(Exit::LongBranch { address });
    let rows = [
        (0x0000_0000, call(0x8000_0000, 0, false)),
        (0x7FFF_FFFC, call(0x80FF_FFFC, 127, false)),
        (0x0112_3455, call(0x8012_3454, 1, true)),
        (0x0000_0002, None),
        (0x7FFF_FFFF, None),
        (0x8000_0000, syscall(0, 0, false)),
        (0x8001_0003, syscall(1, 1, true)),
        (0x9FFF_FFFE, syscall(8191, 0x7FFF, false)),
        (0xA000_0000, None),
        (0xBFFF_FFFF, None),
        (0xC012_3457, branch(0x0012_3457)),
        (0xE0FF_FFFF, branch(0x80FF_FFFF)),
        (0xC100_0000, None),
        (0xC5FF_FFFF, None),
        (0xDFFF_FFFF, None),
        (0xE100_0000, None),
        (0xFFFF_FFFF, None),
    ];
    for (literal, exit) in rows {
        assert_eq!(exit_of(0x01, literal), exit, "{literal:08X}");
        assert_eq!(exit_of(0x7F, literal), exit, "{literal:08X}");
    }
}
