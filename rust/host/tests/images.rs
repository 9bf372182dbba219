//! The calls on images against 02: what they answer, and each refusal they have.

use marshbodkin::{
    syscall_bit, Base, Fault, Image, ImageSetting, Program, Record, Refusal, Setting, Stop, Window,
    IMAGE_PAGES_MOST, IMAGE_PAGE_LENGTH, PROFILE_SMALL, RAM_LENGTH,
};

/// Two steps and a return; a page of no code; movw and a return; a stack store; a direct
/// syscall at the end of the code.
const PAGES: [&[u16]; 5] = [
    &[0x2001, 0xDF00],
    &[],
    &[0xF241, 0x2034, 0xBF00, 0xDF00],
    &[0x9000, 0xDF00],
    &[0xBF00, 0xDF80],
];

/// A page of these halfwords and unlisted ones behind them.
fn page_of(halfwords: &[u16]) -> Vec<u8> {
    let halfwords = halfwords.iter().flat_map(|half| half.to_le_bytes());
    let mut page: Vec<u8> = halfwords.collect();
    page.resize(IMAGE_PAGE_LENGTH, 0xDE);
    page
}

fn image_bytes() -> Vec<u8> {
    PAGES.into_iter().flat_map(page_of).collect()
}

/// A RAM in which a byte that moves or changes shows.
fn filled_ram() -> Vec<u8> {
    (0..RAM_LENGTH).map(|at| (7 * at + 3) as u8).collect()
}

fn service(low: u8) -> Stop {
    Stop::Service { low, literal: None }
}

#[test]
fn an_index_is_built() {
    let (mut bytes, mut index) = (image_bytes(), [99; 5]);
    let mut image = Image::new(&mut bytes, &mut index);
    assert_eq!(image.build(), Ok(()));
    assert_eq!(image.index(), [1, 0, 2, 1, 0]);
    assert!(image.bytes() == image_bytes());

    let mut image = image.never_return(syscall_bit(0));
    assert_eq!(image.build(), Ok(()));
    assert_eq!(image.index(), [1, 0, 2, 1, 1]);

    let mut image = image.profile(PROFILE_SMALL);
    assert_eq!(image.build(), Ok(()));
    assert_eq!(image.index(), [1, 0, 0, 1, 1]);
}

#[test]
fn builds_that_are_refused() {
    let refused = |bytes: usize, index: usize, profile| {
        let (mut bytes, mut index) = (vec![0; bytes], vec![99; index]);
        let answer = Image::new(&mut bytes, &mut index).profile(profile).build();
        assert!(answer.is_ok() || index.iter().all(|&byte| byte == 99));
        answer.err()
    };
    let most = IMAGE_PAGE_LENGTH * IMAGE_PAGES_MOST;
    assert_eq!(refused(256, 1, 0), None);
    assert_eq!(refused(most, IMAGE_PAGES_MOST, 1), None);
    for bytes in [0, 1, 255, 257, most - 1, most + 1, most + 256] {
        let pages = bytes / IMAGE_PAGE_LENGTH;
        assert_eq!(refused(bytes, pages, 0), Some(Refusal::ImageLength));
        assert_eq!(refused(bytes, pages + 1, 0), Some(Refusal::ImageLength));
        assert_eq!(refused(bytes, pages, 2), Some(Refusal::UnknownProfile));
    }
    for index in [0, 1, 3, 512] {
        assert_eq!(refused(512, index, 0), Some(Refusal::IndexLength));
        assert_eq!(refused(512, index, 2), Some(Refusal::UnknownProfile));
    }
}

#[test]
fn a_replacement_changes_a_page_and_its_byte() {
    let (mut bytes, mut index) = (image_bytes(), [0; 5]);
    let mut image = Image::new(&mut bytes, &mut index);
    image.build().expect("an image");
    let page = page_of(&[0xBF00, 0xBF00, 0xBF00, 0xDF00]);
    assert_eq!(image.replace(1, &page), Ok(()));
    assert_eq!(image.index(), [1, 2, 2, 1, 0]);
    let mut expected = image_bytes();
    expected[256..512].copy_from_slice(&page);
    assert!(image.bytes() == expected);

    // A wrong byte elsewhere stays.
    index[4] = 99;
    let mut image = Image::new(&mut bytes, &mut index);
    assert_eq!(image.replace(1, &page_of(&[])), Ok(()));
    assert_eq!(image.index(), [1, 0, 2, 1, 99]);
    assert!(image.bytes() == image_bytes());
}

#[test]
fn replacements_that_are_refused() {
    let refused = |index: usize, profile, number, page: &[u8]| {
        let (mut bytes, mut index) = (image_bytes(), vec![99; index]);
        let mut image = Image::new(&mut bytes, &mut index).profile(profile);
        let answer = image.replace(number, page);
        assert!(index.iter().all(|&byte| byte == 99));
        assert!(bytes == image_bytes());
        answer.err()
    };
    let page = page_of(&[]);
    assert_eq!(refused(5, 2, 0, &page), Some(Refusal::UnknownProfile));
    for number in [5, 6, 4096, 65_536, u32::MAX] {
        assert_eq!(refused(5, 0, number, &page), Some(Refusal::NoSuchPage));
        assert_eq!(refused(4, 0, number, &[]), Some(Refusal::NoSuchPage));
    }
    assert_eq!(refused(4, 0, 0, &page), Some(Refusal::IndexLength));
    assert_eq!(refused(6, 0, 0, &[]), Some(Refusal::IndexLength));
    for length in [0, 252, 255, 257, 260] {
        let page = vec![0; length];
        assert_eq!(refused(5, 0, 4, &page), Some(Refusal::PageLength));
    }
}

/// A step and a run give what the page alone gives.
#[test]
fn runs_in_a_page() {
    let (mut bytes, mut index) = (image_bytes(), [0; 5]);
    let mut image = Image::new(&mut bytes, &mut index).never_return(syscall_bit(0));
    image.build().expect("an image");
    let setting = ImageSetting::new(&image);
    for (number, low, steps) in [(0, 0, 2), (2, 0, 3), (4, 0x80, 2)] {
        let (mut ram, mut record) = (filled_ram(), Record::default());
        let stopped = setting.run(number, &mut ram, &mut record, 100);
        let stopped = stopped.expect("a fit place");
        assert_eq!((stopped.stop, stopped.steps), (service(low), steps));

        let page = &image_bytes()[256 * number as usize..][..256];
        let alone = Setting::new(Program::new(page).never_return(syscall_bit(0)));
        let (mut own_ram, mut own) = (filled_ram(), Record::default());
        assert_eq!(alone.run(&mut own_ram, &mut own, 100), Ok(stopped));
        assert_eq!(record, own);
        assert!(ram == own_ram);

        let (mut ram, mut stepped) = (filled_ram(), Record::default());
        for _ in 0..steps {
            setting.step(number, &mut ram, &mut stepped).expect("fit");
        }
        assert_eq!(stepped, record);
    }
}

#[test]
fn external_data_and_windows() {
    let load = page_of(&[0xF8D8, 0x0000, 0xBF00, 0xDF00]);
    let (mut bytes, mut index) = (image_bytes(), [0; 5]);
    let mut image = Image::new(&mut bytes, &mut index);
    image.build().expect("an image");
    image.replace(1, &load).expect("a page");
    let setting = ImageSetting::new(&image).external(&[0xA5; 256]);
    let (mut ram, mut record) = (filled_ram(), Record::default());
    record.base = Base::External(252);
    setting.step(1, &mut ram, &mut record).expect("a fit place");
    assert_eq!(record.registers[0], 0xA5A5_A5A5);

    let given = Record {
        sp: 0x10000,
        ..Record::default()
    };
    for (end, stop) in [(4, Stop::Budget), (3, Stop::Fault(Fault::OutsideWindow))] {
        let (mut ram, mut record) = (filled_ram(), given);
        let stopped = setting
            .window(Window { start: 0, end })
            .step(3, &mut ram, &mut record);
        assert_eq!(stopped.map(|stopped| stopped.stop), Ok(stop));
        let written = ram[..4] == [0; 4];
        assert_eq!(written, stop == Stop::Budget);
    }
}

/// A step and a run in page 0 are refused, and leave record and RAM as they were.
fn check_refused(setting: ImageSetting, number: u32, ram: usize, given: Record, refusal: Refusal) {
    let before: Vec<u8> = filled_ram().into_iter().cycle().take(ram).collect();
    let (mut ram, mut record) = (before.clone(), given);
    let ran = setting.run(number, &mut ram, &mut record, 9);
    assert_eq!(ran, Err(refusal));
    let stepped = setting.step(number, &mut ram, &mut record);
    assert_eq!(stepped, Err(refusal));
    assert_eq!(record, given);
    assert!(ram == before);
}

/// What a run is handed beside image bytes, a record and a window.
#[derive(Clone, Copy)]
struct Handed<'a> {
    /// How many bytes of the image.
    image: usize,
    index: &'a [u8],
    profile: u32,
    number: u32,
    /// How many bytes of RAM and of external data.
    ram: usize,
    external: usize,
}

impl Handed<'_> {
    /// A step and a run are refused, with a window that starts above its end.
    fn check_refused(self, given: Record, refusal: Refusal) {
        let (mut bytes, mut index) = (image_bytes(), self.index.to_vec());
        let image = Image::new(&mut bytes[..self.image], &mut index).profile(self.profile);
        let external = vec![0; self.external];
        let backwards = Window { start: 1, end: 0 };
        let setting = ImageSetting::new(&image)
            .external(&external)
            .window(backwards);
        check_refused(setting, self.number, self.ram, given, refusal);
    }
}

/// Everything wrong at first, and then mended part by part.
#[test]
fn the_order_of_a_run() {
    let given = Record {
        sp: 3,
        place: 2,
        base: Base::Unknown { kind: 9, offset: 9 },
        ..Record::default()
    };
    check_order_beside_record(given);
    check_order_in_record(given);
}

/// All is mended but the record and, last, the window.
fn check_order_beside_record(given: Record) {
    let whole = image_bytes().len();
    let mut handed = Handed {
        image: whole - 1,
        index: &[1, 0, 2, 1, 0, 0],
        profile: 2,
        number: 5,
        ram: 1,
        external: 1,
    };
    handed.check_refused(given, Refusal::UnknownProfile);
    handed.profile = 0;
    handed.check_refused(given, Refusal::ImageLength);
    handed.image = whole;
    handed.check_refused(given, Refusal::NoSuchPage);
    handed.number = 0;
    handed.check_refused(given, Refusal::IndexLength);
    for (at, byte) in [(0, 0), (0, 2), (2, 1), (4, 1), (4, 255)] {
        let mut wrong = [1, 0, 2, 1, 0];
        wrong[at] = byte;
        let handed = Handed {
            index: &wrong,
            ..handed
        };
        handed.check_refused(given, Refusal::WrongIndex);
    }
    handed.index = &[1, 0, 2, 1, 0];
    handed.check_refused(given, Refusal::RamLength);
    handed.ram = RAM_LENGTH;
    handed.check_refused(given, Refusal::ExternalLength);
    handed.external = 0;
    handed.check_refused(given, Refusal::WindowBounds);
}

/// The record is mended, all else being right.
fn check_order_in_record(mut given: Record) {
    let (mut bytes, mut index) = (image_bytes(), [1, 0, 2, 1, 0]);
    let image = Image::new(&mut bytes, &mut index);
    let setting = ImageSetting::new(&image);
    let no_record = Refusal::of(255, 36).expect("a refusal");
    check_refused(setting, 0, RAM_LENGTH, given, no_record);
    given.base = Base::Ram(1 << 20);
    check_refused(setting, 0, RAM_LENGTH, given, Refusal::SpBounds);
    given.sp = 0x10002;
    check_refused(setting, 0, RAM_LENGTH, given, Refusal::SpAlignment);
    given.sp = 0x10000;
    check_refused(setting, 0, RAM_LENGTH, given, Refusal::RamOffset);
    given.base = Base::External(0);
    check_refused(setting, 0, RAM_LENGTH, given, Refusal::ExternalOffset);
    given.base = Base::None;
    check_refused(setting, 0, RAM_LENGTH, given, Refusal::UnfitPlace);
    given.place = 0;
    check_refused(setting, 1, RAM_LENGTH, given, Refusal::UnfitPlace);
    let stopped = setting.run(0, &mut filled_ram(), &mut given, 9);
    assert_eq!(stopped.map(|stopped| stopped.stop), Ok(service(0)));
}

/// The index of another set or profile is refused.
#[test]
fn an_index_is_right_under_its_platform() {
    let (mut bytes, mut index) = (image_bytes(), [0; 5]);
    let mut image = Image::new(&mut bytes, &mut index);
    image.build().expect("an image");
    let image = image.never_return(syscall_bit(0));
    let fresh = Record::default();
    let refused = Refusal::WrongIndex;
    check_refused(ImageSetting::new(&image), 0, RAM_LENGTH, fresh, refused);
    let image = image.never_return(0).profile(PROFILE_SMALL);
    check_refused(ImageSetting::new(&image), 0, RAM_LENGTH, fresh, refused);
}
