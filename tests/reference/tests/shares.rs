//! How much of the Sun is gone: document 02, wish 4.

use reference::elements::Window;
use reference::listing::{listing, program};
use reference::refusal::Refusal;
use reference::request::Request;
use reference::room::{share_of_input, sheet_and_share_of_input, SINES};
use reference::sample::{hand_worked, kiev_1954, moscow_1954};
use reference::share::share;
use reference::sheet::{bytes_of, read, records_of, write, Record, CLOSEST, END, SHARE, WORDS};

#[test]
fn shares() {
    let (l1, l2) = (54_000_000, -1_000_000);
    // the hand-worked sheet's closest second; as long as the total phase is sure; and the discs apart
    assert_eq!(share(l1, l2, 0), 1_000_000);
    assert_eq!(share(l1, l2, 999_983 * 999_983), 1_000_000);
    assert_eq!(share(l1, l2, l1 * l1), 0);
    assert_eq!(share(l1, l2, 1_000_000_000_000_000_000), 0);
    // half way
    assert_eq!(share(l1, l2, 27_000_000 * 27_000_000), 405_728);
    // annular: near the square of n over r
    let square = 1e6 * (26.5 / 27.5_f64).powi(2);
    assert!((share(l1, -l2, 0) as f64 - square).abs() < 50.0);
}

/// The sheet of a request that asks for the share.
fn with_share(request: Request) -> Vec<u8> {
    bytes_of(&Request { share: true, ..request }.check().expect("within its limits").records())
}

/// The hand-worked sheet with its share, and the places of its records.
fn hand_worked_sheet() -> (Vec<u8>, [usize; 8]) {
    (with_share(hand_worked()), [0, 9, 16, 23, 30, 37, 44, 49])
}

fn record(share: u32) -> Vec<u8> {
    bytes_of(&[Record::new(SHARE, [share, 0, 0, 0])])
}

/// The share is that of the closest second and stands directly after it; without it the sheet has the bytes it had.
#[test]
fn sheets_with_a_share() {
    for (request, expected) in
        [(hand_worked(), 1_000_000), (kiev_1954(), 1_000_000), (moscow_1954(), 843_499)]
    {
        let plain = request.check().unwrap().records();
        let shared = Request { share: true, ..request }.check().unwrap().records();
        let [before @ .., closest, end] = &plain[..] else { panic!("a closest and an end") };
        assert_eq!((closest.kind, end.kind), (CLOSEST, END));
        let share = Record::new(SHARE, [expected, 0, 0, 0]);
        assert_eq!(shared, [before, &[*closest, share, *end]].concat());
        let bytes = request.to_bytes().unwrap();
        let second = i64::from(closest.fields[0]) - 10_800;
        assert_eq!(share_of_input(&bytes, second, &mut [0; SINES]), Ok(expected.into()));
        assert_eq!(listing(&shared), format!("{}share {expected}\n", listing(&plain)));
        assert_eq!(program(&bytes), listing(&plain));
    }
    let (sheet, _) = hand_worked_sheet();
    assert_eq!(sheet[37..], [0x30, 0x2A, 0x30, 0, 0x0F, 0xD5, 0xA7, 0x31, 0, 0x0F, 0x42, 0x40, 0x7F]);
}

#[test]
fn room_for_it() {
    let input = hand_worked().to_bytes().unwrap();
    let (sheet, _) = hand_worked_sheet();
    let (mut buffer, mut sines) = ([0xA5; 64], [0; SINES]);
    assert_eq!(sheet_and_share_of_input(&input, &mut sines, &mut buffer[..49]), Err(Refusal::Room(50)));
    assert_eq!(buffer, [0xA5; 64]);
    assert_eq!(sheet_and_share_of_input(&input, &mut sines, &mut buffer), Ok(50));
    assert_eq!((&buffer[..50], &buffer[50..]), (&sheet[..], &[0xA5; 14][..]));
}

/// 10, 1, 2, 3 and the 4 of the buffer for table S, for a sheet and for a second.
#[test]
fn requests_refused() {
    let request = hand_worked();
    let mut high = request;
    high.station.height = 9_001;
    let mut narrow = high;
    narrow.elements.tan_f2 = 0;
    let cases = [
        (Request { window: Window { first: 1, last: 0 }, guard: 15, ..narrow }, Refusal::Window),
        (Request { guard: 15, ..narrow }, Refusal::Guard),
        (narrow, Refusal::Element(21)),
        (high, Refusal::Station(3)),
        (request, Refusal::Room(901)),
    ];
    for (request, refusal) in cases {
        let input = request.to_bytes().unwrap();
        let mut sines = [7; SINES - 1];
        assert_eq!(sheet_and_share_of_input(&input, &mut sines, &mut []), Err(refusal));
        assert_eq!(share_of_input(&input, 0, &mut sines), Err(refusal));
        assert_eq!(share_of_input(&input[1..], 10_801, &mut sines), Err(Refusal::Shape));
        for second in [-10_801, 10_801, i64::MIN, i64::MAX] {
            assert_eq!(share_of_input(&input, second, &mut sines), Err(Refusal::Window));
        }
        assert_eq!(sines, [7; SINES - 1]);
    }
}

#[test]
fn each_fault_of_a_sheet() {
    let (sheet, places) = hand_worked_sheet();
    for length in 0..sheet.len() {
        let place = places.into_iter().rfind(|&start| start <= length).unwrap();
        assert_eq!(records_of(&sheet[..length]), Err(Refusal::Cut(place)));
    }
    let plain = [&sheet[..44], &sheet[49..]].concat();
    let with = |at: usize, more: &[u8]| records_of(&[&plain[..at], more, &plain[at..]].concat());
    for share in [0, 1, 999_999, 1_000_000] {
        assert_eq!(with(44, &record(share)).unwrap()[6], Record::new(SHARE, [share, 0, 0, 0]));
    }
    for share in [1_000_001, 0x0100_0000, u32::MAX] {
        assert_eq!(with(44, &record(share)), Err(Refusal::Field(44)));
        // order before the field
        assert_eq!(with(37, &record(share)), Err(Refusal::Order(37)));
    }
    for at in places.into_iter().filter(|at| *at < 44) {
        assert_eq!(with(at, &record(0)), Err(Refusal::Order(at)));
    }
    assert_eq!(with(44, &[record(5), record(5)].concat()), Err(Refusal::Order(49)));
    assert_eq!(with(45, &record(5)), Err(Refusal::After(45)));
    // nothing but the end after it
    for more in [&plain[..9], &plain[9..16], &plain[23..30], &plain[37..44]] {
        assert_eq!(with(44, &[&record(5)[..], more].concat()), Err(Refusal::Order(49)));
    }
}

#[test]
fn entries_handed_over() {
    let (sheet, places) = hand_worked_sheet();
    let words: Vec<u32> = records_of(&sheet).unwrap().iter().flat_map(|record| record.words()).collect();
    let mut buffer = [0xA5; 64];
    assert_eq!(write(&words, &mut buffer), Ok(50));
    assert_eq!(buffer[..50], sheet);
    let mut room = [9; 42];
    assert_eq!(read(&sheet, &mut room[..39]), Err(Refusal::Room(8)));
    assert_eq!(read(&sheet, &mut room), Ok(8));
    assert_eq!((&room[..40], &room[40..]), (&words[..], &[9, 9][..]));
    for length in 0..words.len() {
        assert_eq!(write(&words[..length], &mut []), Err(Refusal::Cut(places[length / WORDS])));
    }
    for (at, value) in [(31, 1_000_001), (31, u32::MAX), (32, 1), (33, 1), (34, 1)] {
        let mut changed = words.clone();
        changed[at] = value;
        assert_eq!(write(&changed, &mut []), Err(Refusal::Field(44)));
    }
}
