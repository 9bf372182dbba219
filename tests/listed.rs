// How many 16-bit halfwords and 32-bit pairs are listed, by brute force from the text of the build paper's section
// "Listed encodings", and how many of them in the small profile of change request 12. It shares nothing with the rows in
// crates/isa: the theorems number16, number32, small_number16 and small_number32 there must give the same numbers.

fn opens32(h: u32) -> bool {
    matches!(h >> 11, 0b11101 | 0b11110 | 0b11111)
}

fn cbz_cbnz(h: u32) -> bool {
    matches!(h >> 8, 0xB1 | 0xB3 | 0xB9 | 0xBB)
}

fn listed16(h: u32) -> bool {
    let (top, low) = (h >> 8, h & 0xFF);
    let shift_add_sub_mov_cmp = h >> 14 == 0b00;
    let register_operation = h >> 10 == 0b010000;
    let mov = h >> 6 == 0b01000110_00;
    let literal_load = h >> 11 == 0b01001;
    let sp_load_store = h >> 12 == 0b1001;
    let add_from_sp = h >> 11 == 0b10101;
    let extension = top == 0b10110010;
    let nop = h == 0xBF00;
    let branch_if = h >> 12 == 0b1101 && top & 15 <= 13;
    let branch = h >> 11 == 0b11100;
    let service = top == 0xDF && !(0xE9..=0xEF).contains(&low);
    [
        shift_add_sub_mov_cmp,
        register_operation,
        mov,
        literal_load,
        sp_load_store,
        add_from_sp,
        extension,
        nop,
        cbz_cbnz(h),
        branch_if,
        branch,
        service,
    ]
    .contains(&true)
}

fn listed32(first: u32, second: u32) -> bool {
    let access = matches!(
        first,
        0xF8C9 | 0xF889 | 0xF8A9 | 0xF8D8 | 0xF8D9 | 0xF898 | 0xF899 | 0xF8B8 | 0xF8B9 | 0xF998 | 0xF999 | 0xF9B8 | 0xF9B9
    ) && second < 0x8000;
    // 11110x10 x100xxxx, 0xxx0xxx
    let movw_movt = first >> 11 == 0b11110
        && first >> 8 & 3 == 0b10
        && first >> 4 & 7 == 0b100
        && second < 0x8000
        && second >> 11 & 1 == 0;
    // with 11110xxx 11110xxx
    let division = matches!(first, 0xFB90..=0xFB97 | 0xFBB0..=0xFBB7)
        && second >> 11 == 0b11110
        && second >> 3 & 31 == 0b11110;
    access || movw_movt || division
}

// "no 32-bit instruction of our list, no cbz or cbnz"; "the rest is unchanged"

fn small16(h: u32) -> bool {
    listed16(h) && !cbz_cbnz(h)
}

fn small32(_first: u32, _second: u32) -> bool {
    false
}

fn print_numbers(name: &str, is16: fn(u32) -> bool, is32: fn(u32, u32) -> bool) {
    let halfwords = 0..0x1_0000u32;
    let narrow = halfwords.clone().filter(|&h| !opens32(h) && is16(h)).count();
    assert!(!halfwords.clone().any(|h| opens32(h) && is16(h)));
    let wide: usize = halfwords
        .clone()
        .filter(|&first| opens32(first))
        .map(|first| halfwords.clone().filter(|&second| is32(first, second)).count())
        .sum();
    println!("{name} 16: {narrow}");
    println!("{name} 32: {wide}");
}

fn main() {
    print_numbers("listed", listed16, listed32);
    print_numbers("small", small16, small32);
}
