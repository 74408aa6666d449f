//! Document 01's run cases through the crate: the hand-worked sheet, two real eclipses, every refusal, round trips.

use std::fs;
use std::path::Path;

use ukhtvaresh::{
    listing, mirror, read, second, sheet, sheet_vec, write, write_vec, Elements, Entry, Phase, Refusal,
    Request, State, Station, Window, LEAST_GUARD, REQUEST_LENGTH,
};
use Phase::{Central, Penumbra};

// The request of document 01's hand-worked sheet.
fn hand_worked() -> Request {
    Request {
        elements: Elements {
            x1: 36_000_000,
            y0: 99_664_768,
            l1_0: 54_000_000,
            l2_0: -1_000_000,
            mu1: 15_000_000,
            tan_f1: 460_000,
            tan_f2: 458_000,
            ..Elements::default()
        },
        station: Station { number: 7, latitude: 90_000_000, longitude: 0, height: 0, delta_t: 0 },
        window: Window { first: -6000, last: 6000 },
        guard: LEAST_GUARD,
    }
}

fn bytes(request: &Request) -> [u8; REQUEST_LENGTH] {
    request.to_bytes().expect("every number fits its bytes")
}

// The hand-worked sheet's entries.
fn entries() -> Vec<Entry> {
    vec![
        Entry::Head { station: 7, first: -6000, last: 6000, guard: 16 },
        Entry::Enter { phase: Penumbra, from: -5401, to: -5399, direction: Some(2700) },
        Entry::Leave { phase: Penumbra, from: 5399, to: 5401, direction: Some(900) },
        Entry::Enter { phase: Central, from: -101, to: -99, direction: Some(2700) },
        Entry::Leave { phase: Central, from: 99, to: 101, direction: Some(900) },
        Entry::Closest { second: 0, magnitude: 1_037_735 },
        Entry::End,
    ]
}

const LISTING: &str = "\
station 7 from -6000 to 6000
enter penumbra -5401 -5399 2700
leave penumbra 5399 5401 900
enter central -101 -99 2700
leave central 99 101 900
closest 0 1037735
";

// The first byte of each record of the hand-worked sheet.
const RECORDS: [u64; 7] = [0, 9, 16, 23, 30, 37, 44];

fn entries_of(request: &Request) -> Vec<Entry> {
    read(&sheet_vec(&bytes(request)).expect("a sheet")).expect("entries")
}

fn example(name: &str) -> Vec<u8> {
    fs::read(Path::new(env!("CARGO_MANIFEST_DIR")).join("../examples").join(name)).expect(name)
}

// The refusal of a request, after a look that the buffer is as it was.
fn refused(request: &[u8]) -> Refusal {
    let mut buffer = [0xA5; 64];
    let refusal = sheet(request, &mut buffer).expect_err("a refusal");
    assert_eq!(buffer, [0xA5; 64]);
    refusal
}

// ---- sheets

#[test]
fn hand_worked_sheet() {
    assert_eq!(entries_of(&hand_worked()), entries());
    assert_eq!(listing(&sheet_vec(&bytes(&hand_worked())).expect("a sheet")), Ok(LISTING.to_string()));
}

#[test]
fn real_eclipses() {
    for name in ["moscow1954", "kiev1954"] {
        let request = example(&format!("{name}.bin"));
        let found = listing(&sheet_vec(&request).expect("a sheet")).expect("a listing");
        assert_eq!(found.as_bytes(), example(&format!("{name}.listing")));
    }
}

#[test]
fn open_at_the_windows_end() {
    for (last, to) in [(5400, 5400), (5402, 5401)] {
        let mut request = hand_worked();
        request.window = Window { first: 5400, last };
        let open = Entry::Open { phase: Penumbra, from: 5400, to };
        assert_eq!(entries_of(&request)[1], open);
    }
}

#[test]
fn buffer_of_45_bytes_and_of_44() {
    let request = bytes(&hand_worked());
    let mut buffer = [0xA5; 45];
    assert_eq!(sheet(&request, &mut buffer), Ok(45));
    assert_eq!(buffer[..], sheet_vec(&request).unwrap());
    let mut buffer = [0xA5; 44];
    assert_eq!(sheet(&request, &mut buffer), Err(Refusal::Room { needed: 45 }));
    assert_eq!(buffer, [0xA5; 44]);
    assert_eq!(sheet(&request, &mut []), Err(Refusal::Room { needed: 45 }));
}

#[test]
fn bytes_past_the_sheet_are_kept() {
    let request = bytes(&hand_worked());
    let mut buffer = [0xA5; 64];
    assert_eq!(sheet(&request, &mut buffer), Ok(45));
    assert_eq!(buffer[45..], [0xA5; 19]);
    let mut buffer = [0xA5; 64];
    assert_eq!(write(&entries(), &mut buffer), Ok(45));
    assert_eq!(buffer[45..], [0xA5; 19]);
}

#[test]
fn listings_and_their_refusals() {
    let stored = write_vec(&entries()).expect("a sheet");
    assert_eq!(listing(&stored[..44]), Err(read(&stored[..44]).expect_err("a refusal")));
    let mut after = stored.clone();
    after.push(0);
    assert_eq!(listing(&after), Err(read(&after).expect_err("a refusal")));
    let unsure = [
        Entry::Head { station: 999, first: 5400, last: 5402, guard: 1_000 },
        Entry::Open { phase: Penumbra, from: 5400, to: 5401 },
        Entry::Closest { second: 5400, magnitude: 0 },
        Entry::End,
    ];
    let expected = "station 999 from 5400 to 5402\nopen penumbra 5400 5401\nclosest 5400 0\n";
    assert_eq!(listing(&write_vec(&unsure).expect("a sheet")), Ok(expected.to_string()));
}

// ---- requests refused

#[test]
fn window_refused() {
    let mut request = hand_worked();
    request.window.last = 10_800;
    assert!(sheet_vec(&bytes(&request)).is_ok());
    request.window.last = 10_801;
    request.station.latitude = 90_000_001;
    assert_eq!(refused(&bytes(&request)), Refusal::Window);
    for (first, last) in [(-10_801, 0), (1, 0), (10_801, 10_801)] {
        request.window = Window { first, last };
        assert_eq!(refused(&bytes(&request)), Refusal::Window);
    }
}

// The ranges of the 22 elements.
const RANGES: [(i64, i64); 22] = [
    (-200_000_000, 200_000_000),
    (-100_000_000, 100_000_000),
    (-100_000, 100_000),
    (-10_000, 10_000),
    (-200_000_000, 200_000_000),
    (-100_000_000, 100_000_000),
    (-100_000, 100_000),
    (-10_000, 10_000),
    (-25_000_000, 25_000_000),
    (-20_000, 20_000),
    (-100, 100),
    (50_000_000, 60_000_000),
    (-100_000, 100_000),
    (-10_000, 10_000),
    (-5_000_000, 5_000_000),
    (-100_000, 100_000),
    (-10_000, 10_000),
    (0, 359_999_999),
    (14_900_000, 15_100_000),
    (-100, 100),
    (400_000, 500_000),
    (400_000, 500_000),
];

#[test]
fn elements_refused() {
    let mut short = hand_worked();
    short.window = Window { first: 0, last: 10 };
    for (field, (low, high)) in RANGES.into_iter().enumerate() {
        let with = |number: i64| {
            let mut numbers = short.elements.numbers();
            numbers[field] = number;
            let elements = Elements::from_numbers(numbers);
            bytes(&Request { elements, ..short })
        };
        assert!(sheet_vec(&with(low)).is_ok() && sheet_vec(&with(high)).is_ok());
        let field = field as u64;
        assert_eq!(refused(&with(low - 1)), Refusal::Element { field });
        assert_eq!(refused(&with(high + 1)), Refusal::Element { field });
    }
}

#[test]
fn stations_refused() {
    let ranges =
        [(1, 999), (-90_000_000, 90_000_000), (-180_000_000, 180_000_000), (-500, 9_000), (-10_000, 20_000)];
    let mut request = hand_worked();
    request.window = Window { first: 0, last: 10 };
    for (field, (low, high)) in ranges.into_iter().enumerate() {
        let with = |number: i64| {
            let mut changed = request;
            let station = &mut changed.station;
            *[
                &mut station.number,
                &mut station.latitude,
                &mut station.longitude,
                &mut station.height,
                &mut station.delta_t,
            ][field] = number;
            bytes(&changed)
        };
        assert!(sheet_vec(&with(low)).is_ok() && sheet_vec(&with(high)).is_ok());
        let field = field as u64;
        assert_eq!(refused(&with(low - 1)), Refusal::Station { field });
        assert_eq!(refused(&with(high + 1)), Refusal::Station { field });
    }
}

#[test]
fn shapes_refused() {
    let request = bytes(&hand_worked());
    assert_eq!(refused(&[]), Refusal::Shape);
    assert_eq!(refused(&request[..108]), Refusal::Shape);
    assert_eq!(refused(&[&request[..], &[0]].concat()), Refusal::Shape);
    for kind in [0, 89, 108] {
        let mut request = request;
        request[kind] = 5;
        assert_eq!(refused(&request), Refusal::Shape);
        assert_eq!(Request::from_bytes(&request), None);
    }
}

// ---- one second

#[test]
fn seconds() {
    let request = bytes(&hand_worked());
    let middle = second(&request, 0).unwrap();
    assert_eq!((middle.u, middle.v, middle.direction), (0, 0, None));
    assert_eq!((middle.penumbra, middle.central), (State::Inside, State::Inside));
    assert_eq!(middle.magnitude, 1_037_735);
    assert!(middle.l2 < 0);
    let unsure = second(&request, -5400).unwrap();
    assert_eq!((unsure.penumbra, unsure.central), (State::Unsure, State::Outside));
    assert_eq!((unsure.u, unsure.direction), (-54_000_000, Some(2700)));
    // Outside the window, as far as it may reach.
    let early = second(&request, -10_800).unwrap();
    assert_eq!((early.penumbra, early.magnitude), (State::Outside, 0));
    assert!(second(&request, 10_800).is_ok());
}

#[test]
fn seconds_refused() {
    let request = bytes(&hand_worked());
    for far in [-10_801, 10_801, i64::MIN, i64::MAX] {
        assert_eq!(second(&request, far), Err(Refusal::Window));
    }
    assert_eq!(second(&request[1..], 10_801), Err(Refusal::Shape));
    let mut request = hand_worked();
    request.station.height = 9_001;
    assert_eq!(second(&bytes(&request), 0), Err(Refusal::Station { field: 3 }));
    request.elements.tan_f2 = 0;
    assert_eq!(second(&bytes(&request), 0), Err(Refusal::Element { field: 21 }));
}

// ---- sheets refused

// The hand-worked sheet with some bytes changed.
fn damaged(changes: &[(usize, u8)]) -> Vec<u8> {
    let mut sheet = write_vec(&entries()).expect("a sheet");
    for &(at, byte) in changes {
        sheet[at] = byte;
    }
    sheet
}

#[test]
fn kinds_refused() {
    for at in RECORDS {
        assert_eq!(read(&damaged(&[(at as usize, 0x14)])), Err(Refusal::Kind { at }));
    }
}

#[test]
fn short_sheets_refused() {
    let sheet = damaged(&[]);
    for length in 0..45 {
        let at = RECORDS.into_iter().filter(|&at| at <= length).max();
        let cut = read(&sheet[..length as usize]);
        assert_eq!(cut, Err(Refusal::Ends { at: at.unwrap() }), "{length}");
    }
}

#[test]
fn fields_refused() {
    // Station 0; a direction of 3,600; a magnitude of over 16 million.
    for (at, changes) in [(0, vec![(1, 0), (2, 0)]), (9, vec![(14, 0x0E), (15, 0x10)]), (37, vec![(40, 1)])] {
        assert_eq!(read(&damaged(&changes)), Err(Refusal::Field { at }));
    }
}

#[test]
fn order_refused() {
    // An enter next to an enter; a second head; a closest that is missing.
    for (at, changes) in [(16, (16, 0x10)), (9, (9, 0x01)), (37, (37, 0x7F))] {
        assert_eq!(read(&damaged(&[changes])), Err(Refusal::Order { at }));
    }
}

#[test]
fn bytes_after_the_end_refused() {
    let mut sheet = damaged(&[]);
    sheet.push(0);
    assert_eq!(read(&sheet), Err(Refusal::After { at: 45 }));
}

// ---- entries written

#[test]
fn round_trips() {
    let sheet = sheet_vec(&bytes(&hand_worked())).unwrap();
    assert_eq!(write_vec(&read(&sheet).unwrap()).unwrap(), sheet);
    let mut all = entries();
    all.splice(
        3..3,
        [
            Entry::Graze { phase: Penumbra, from: 5401, to: 5500 },
            Entry::Open { phase: Penumbra, from: 5900, to: 6000 },
            Entry::Open { phase: Central, from: -6000, to: -5990 },
        ],
    );
    all[7] = Entry::Leave { phase: Central, from: 99, to: 101, direction: None };
    assert_eq!(read(&write_vec(&all).unwrap()).unwrap(), all);
}

#[test]
fn long_sheets() {
    let mut long = vec![entries()[0]];
    long.extend((0..1000).map(|k| Entry::Graze { phase: Central, from: 2 * k, to: 2 * k + 2 }));
    long.extend([entries()[5], Entry::End]);
    let sheet = write_vec(&long).unwrap();
    assert_eq!(sheet.len(), 17 + 5 * 1000);
    assert_eq!(read(&sheet).unwrap(), long);
}

// The refusal of entries, after a look that the buffer is as it was.
fn not_written(entries: &[Entry]) -> Refusal {
    let mut buffer = [0xA5; 64];
    let refusal = write(entries, &mut buffer).expect_err("a refusal");
    assert_eq!(buffer, [0xA5; 64]);
    refusal
}

#[test]
fn entries_refused() {
    let whole = entries();
    for (count, at) in RECORDS.into_iter().enumerate() {
        assert_eq!(not_written(&whole[..count]), Refusal::Ends { at });
    }
    let after = [&whole[..], &[Entry::End]].concat();
    assert_eq!(not_written(&after), Refusal::After { at: 45 });
    let swapped = [whole[0], whole[3], whole[1]];
    assert_eq!(not_written(&swapped), Refusal::Order { at: 16 });
    let mut buffer = [0xA5; 44];
    assert_eq!(write(&whole, &mut buffer), Err(Refusal::Room { needed: 45 }));
    assert_eq!(buffer, [0xA5; 44]);
}

#[test]
fn entries_that_cannot_be_stored_refused() {
    for second in [-10_801, 10_801, i64::MIN, i64::MAX, (1 << 32) - 10_800] {
        let mut entries = entries();
        entries[0] = Entry::Head { station: 7, first: -10_800, last: 10_800, guard: 16 };
        entries[5] = Entry::Closest { second, magnitude: 0 };
        assert_eq!(not_written(&entries), Refusal::Field { at: 37 });
    }
    for direction in [Some(3_600), Some(65_535)] {
        let mut entries = entries();
        entries[1] = Entry::Enter { phase: Penumbra, from: -5401, to: -5399, direction };
        assert_eq!(not_written(&entries), Refusal::Field { at: 9 });
    }
}

// ---- ephemeris time

/// First contact, totality's begin and end, last contact: the first sure second after each.
fn contacts(request: &Request) -> [i64; 4] {
    let entries = read(&sheet_vec(&bytes(request)).unwrap()).unwrap();
    let to = |wanted: Phase, entering: bool| {
        entries.iter().find_map(|entry| match *entry {
            Entry::Enter { phase, to, .. } if entering && phase == wanted => Some(to),
            Entry::Leave { phase, to, .. } if !entering && phase == wanted => Some(to),
            _ => None,
        })
    };
    [to(Penumbra, true), to(Central, true), to(Central, false), to(Penumbra, false)]
        .map(|to| to.expect("a contact"))
}

#[test]
fn delta_t_turns_the_station_back() {
    // 21 August 2017: Swiss Ephemeris has 16:56:31.3, 18:24:41.1, 18:27:21.1, 19:51:43.0 universal time; tenths of a second from 18h
    let told = [-38_087, 14_811, 16_411, 67_030];
    let request = Request::from_bytes(&example("hopkinsville2017.bin")).unwrap();
    assert_eq!(request.station.delta_t, 6_880);
    let late = |request: &Request| {
        let found = contacts(request);
        [0, 1, 2, 3].map(|k| 10 * found[k] - 688 - told[k])
    };
    // the first sure second after a contact comes a second later at most, and the places of Sun and Moon are not the same
    assert!(late(&request).iter().all(|tenths| (0..=15).contains(tenths)));
    let mut forgotten = request;
    forgotten.station.delta_t = 0;
    assert!(late(&forgotten).iter().all(|tenths| (280..=380).contains(tenths)));
    let mut turned = request;
    turned.station.delta_t = -6_880;
    assert!(late(&turned).iter().all(|tenths| (550..=790).contains(tenths)));
    // the Earth turns by 287,451 millionths of a degree in 68.80 s
    let mut west = forgotten;
    west.station.longitude -= 287_451;
    assert_eq!(sheet_vec(&bytes(&west)), sheet_vec(&bytes(&request)));
}

// ---- the mirror

fn undirected(entry: Entry) -> Entry {
    match entry {
        Entry::Enter { phase, from, to, .. } => Entry::Enter { phase, from, to, direction: None },
        Entry::Leave { phase, from, to, .. } => Entry::Leave { phase, from, to, direction: None },
        other => other,
    }
}

#[test]
fn mirrors() {
    for name in ["moscow1954.bin", "kiev1954.bin"] {
        let north = example(name);
        let south = mirror(&north).expect("a request");
        assert_eq!(mirror(&south).expect("a request")[..], north);
        let (request, other) = (Request::from_bytes(&north).unwrap(), Request::from_bytes(&south).unwrap());
        assert_eq!(other.station.latitude, -request.station.latitude);
        assert_eq!(other.station.longitude, request.station.longitude);
        let signs = |k: usize| if (4..=10).contains(&k) { -1 } else { 1 };
        for k in 0..22 {
            assert_eq!(other.elements.numbers()[k], signs(k) * request.elements.numbers()[k]);
        }
        let (a, b) = (sheet_vec(&north).unwrap(), sheet_vec(&south).unwrap());
        assert_eq!(a.len(), b.len());
        let entries = |bytes: &[u8]| read(bytes).unwrap().into_iter().map(undirected).collect::<Vec<_>>();
        assert_eq!(entries(&a), entries(&b));
        assert_ne!(read(&a).unwrap(), read(&b).unwrap());
        let (x, y) = (second(&north, 0).unwrap(), second(&south, 0).unwrap());
        assert_eq!((x.u, x.v, x.l1, x.l2), (y.u, -y.v, y.l1, y.l2));
        assert_eq!((x.penumbra, x.central, x.magnitude), (y.penumbra, y.central, y.magnitude));
    }
    assert_eq!(mirror(&[]), Err(Refusal::Shape));
    // the number that has no opposite in its bytes stays, and is refused as before
    let mut request = hand_worked();
    request.station.latitude = -(1 << 31);
    let mirrored = mirror(&bytes(&request)).unwrap();
    assert_eq!(Request::from_bytes(&mirrored).unwrap().station.latitude, -(1 << 31));
    assert_eq!(sheet_vec(&mirrored), sheet_vec(&bytes(&request)));
}

// ---- the guard

#[test]
fn guards_refused() {
    let mut request = hand_worked();
    for guard in [16, 17, 999, 1_000] {
        request.guard = guard;
        let head = Entry::Head { station: 7, first: -6000, last: 6000, guard: guard as u16 };
        assert_eq!(entries_of(&request)[0], head);
    }
    for guard in [0, 15, 1_001, 65_535] {
        let mut request = Request { guard, ..hand_worked() };
        assert_eq!(refused(&bytes(&request)), Refusal::Guard);
        assert_eq!(second(&bytes(&request), 0), Err(Refusal::Guard));
        // before an element, after the window and the second asked for
        request.elements.x0 = 200_000_001;
        assert_eq!(refused(&bytes(&request)), Refusal::Guard);
        assert_eq!(second(&bytes(&request), 10_801), Err(Refusal::Window));
        request.window.first = -10_801;
        assert_eq!(refused(&bytes(&request)), Refusal::Window);
        let mut entries = entries();
        entries[0] = Entry::Head { station: 7, first: -6000, last: 6000, guard: guard as u16 };
        assert_eq!(not_written(&entries), Refusal::Field { at: 0 });
    }
}

#[test]
fn larger_guards_withhold() {
    // An axis that goes past the penumbra 500 units off its edge, and one that stands 500 units inside the central cone.
    let mut beside = Request { window: Window { first: -60, last: 60 }, ..hand_worked() };
    (beside.elements.x0, beside.elements.x1, beside.elements.y1) = (54_000_500, 0, 36_000_000);
    let mut within = Request { window: Window { first: 0, last: 2 }, ..hand_worked() };
    (within.elements.x0, within.elements.x1) = (999_500, 0);
    for guard in [16, 499] {
        (beside.guard, within.guard) = (guard, guard);
        assert_eq!(entries_of(&beside).len(), 3);
        assert_eq!(entries_of(&within)[1], Entry::Closest { second: 0, magnitude: 1_037_735 });
        assert_eq!(second(&bytes(&within), 0).unwrap().central, State::Inside);
    }
    for (guard, from, to) in [(500, -1, 1), (1_000, -24, 24)] {
        (beside.guard, within.guard) = (guard, guard);
        assert_eq!(entries_of(&beside)[1], Entry::Graze { phase: Penumbra, from, to });
        assert_eq!(entries_of(&within)[1], Entry::Open { phase: Central, from: 0, to: 2 });
        assert_eq!(entries_of(&within)[2], Entry::Closest { second: 0, magnitude: 1_000_009 });
        assert_eq!(second(&bytes(&within), 0).unwrap().central, State::Unsure);
    }
}

#[test]
fn sheets_of_the_old_form_refused() {
    // without the head's guard, which came later
    let stored = write_vec(&entries()).expect("a sheet");
    let old = [&stored[..7], &stored[9..]].concat();
    assert_eq!((old.len(), read(&old)), (43, Err(Refusal::Field { at: 0 })));
    let shortest = [&stored[..7], &stored[37..]].concat();
    assert_eq!(listing(&shortest), Err(Refusal::Field { at: 0 }));
}

// ---- requests as bytes, refusals as words

#[test]
fn requests_as_bytes() {
    for name in ["moscow1954.bin", "kiev1954.bin"] {
        let stored = example(name);
        let request = Request::from_bytes(&stored).expect("a request");
        assert_eq!(bytes(&request)[..], stored);
    }
    let moscow = Request::from_bytes(&example("moscow1954.bin")).unwrap();
    assert_eq!(
        moscow.elements.numbers(),
        [
            -19869267, 55341229, -3333, -800, 65293771, -8866362, -19179, 183, 23193285, -2238, 0, 54000133,
            12168, -1173, -588248, 12186, -1167, 359144993, 14999410, 0, 459878, 457587
        ]
    );
    assert_eq!((moscow.station.number, moscow.station.height), (101, 166));
    let mut request = hand_worked();
    request.window.last = 32_768;
    assert_eq!(request.to_bytes(), None);
    request.window.last = 0;
    request.station.number = -1;
    assert_eq!(request.to_bytes(), None);
    request.station.number = 7;
    request.elements.x0 = 1 << 31;
    assert_eq!(request.to_bytes(), None);
    request.elements.x0 = 0;
    for guard in [-1, 1 << 16] {
        request.guard = guard;
        assert_eq!(request.to_bytes(), None);
    }
}

#[test]
fn refusals_as_words() {
    let refusal = Refusal::Room { needed: 45 };
    assert_eq!((refusal.number(), refusal.place()), (4, 45));
    assert_eq!(refusal.to_string(), "refused 4 45: sheet longer than the buffer");
    assert_eq!(Refusal::Guard.to_string(), "refused 1 1: guard outside its range");
    let boxed: Box<dyn std::error::Error> = Box::new(Refusal::Shape);
    assert_eq!(boxed.to_string(), "refused 10 0: request not of its shape");
}
