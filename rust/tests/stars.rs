//! Stars behind the Moon (document 02, wish 7), through the crate: sheets made, refused, read, written, listed and mended.

use std::fs;
use std::path::Path;

use ukhtvaresh::{
    listing, mend, read, second, sheet_vec, star, star_second, star_vec, write, write_vec, Entry, Phase,
    Refusal, Request, StarElements, StarRequest, StarSecond, State, Station, Window, LEAST_GUARD,
    STAR_REQUEST_LENGTH,
};
use Phase::{Central, Penumbra, Star};

// Over the north pole, which does not turn, 10,000 units a second: the edge is there at -2725 and 2725.
fn over_the_pole() -> StarRequest {
    StarRequest {
        elements: StarElements { x1: 36_000_000, y0: 99_664_768, mu1: 15_000_000, ..StarElements::default() },
        radius: 27_250_000,
        station: Station { number: 7, latitude: 90_000_000, longitude: 0, height: 0, delta_t: 0 },
        window: Window { first: -6000, last: 6000 },
        guard: LEAST_GUARD,
    }
}

fn bytes(request: &StarRequest) -> [u8; STAR_REQUEST_LENGTH] {
    request.to_bytes().expect("every number fits its bytes")
}

fn entries() -> Vec<Entry> {
    vec![
        Entry::Head { station: 7, first: -6000, last: 6000, guard: 16 },
        Entry::Enter { phase: Star, from: -2726, to: -2724, direction: Some(2700) },
        Entry::Leave { phase: Star, from: 2724, to: 2726, direction: Some(900) },
        Entry::Closest { second: 0, magnitude: 0 },
        Entry::End,
    ]
}

// The first byte of each record.
const RECORDS: [u64; 5] = [0, 9, 16, 23, 30];

fn example(name: &str) -> Vec<u8> {
    fs::read(Path::new(env!("CARGO_MANIFEST_DIR")).join("../examples").join(name)).expect(name)
}

// The refusal of a request, after a look that the buffer is as it was.
fn refused(request: &[u8]) -> Refusal {
    let mut buffer = [0xA5; 64];
    let refusal = star(request, &mut buffer).expect_err("a refusal");
    assert_eq!(buffer, [0xA5; 64]);
    refusal
}

// The refusal of entries, likewise.
fn not_written(entries: &[Entry]) -> Refusal {
    let mut buffer = [0xA5; 64];
    let refusal = write(entries, &mut buffer).expect_err("a refusal");
    assert_eq!(buffer, [0xA5; 64]);
    refusal
}

#[test]
fn over_the_pole_by_hand() {
    let sheet = star_vec(&bytes(&over_the_pole())).expect("a sheet");
    assert_eq!(read(&sheet).expect("entries"), entries());
    assert_eq!(write_vec(&entries()).expect("a sheet"), sheet);
    let listed =
        "station 7 from -6000 to 6000\nenter star -2726 -2724 2700\nleave star 2724 2726 900\nclosest 0 0\n";
    assert_eq!(listing(&sheet), Ok(listed.to_string()));
    let mut buffer = [0xA5; 40];
    assert_eq!(star(&bytes(&over_the_pole()), &mut buffer[..30]), Err(Refusal::Room { needed: 31 }));
    assert_eq!(buffer, [0xA5; 40]);
    assert_eq!(star(&bytes(&over_the_pole()), &mut buffer), Ok(31));
    assert_eq!((&buffer[..31], &buffer[31..]), (&sheet[..], &[0xA5; 9][..]));
}

#[test]
fn the_books_occultations() {
    for name in ["potsdam1956", "kansas1949"] {
        let request = example(&format!("{name}.bin"));
        let found = listing(&star_vec(&request).expect("a sheet")).expect("a listing");
        assert_eq!(found.as_bytes(), example(&format!("{name}.listing")));
        let typed = StarRequest::from_bytes(&request).expect("a star request");
        assert_eq!(bytes(&typed)[..], request);
    }
    // the book predicts the contact at 18:12:47.93 universal time, 19.93 s of ephemeris time from the reference instant
    let potsdam = read(&star_vec(&example("potsdam1956.bin")).expect("a sheet")).expect("entries");
    assert_eq!(potsdam[1], Entry::Enter { phase: Star, from: 19, to: 20, direction: Some(3065) });
    let kansas = StarRequest::from_bytes(&example("kansas1949.bin")).expect("a star request");
    assert_eq!((kansas.elements.d0, kansas.radius), (-28_900_194, 27_248_076));
}

#[test]
fn grazes_and_opens() {
    let mut request = over_the_pole();
    request.elements.x0 = 27_250_500;
    (request.elements.x1, request.elements.y1) = (0, 36_000_000);
    request.window = Window { first: -60, last: 60 };
    request.guard = 1_000;
    let found = read(&star_vec(&bytes(&request)).expect("a sheet")).expect("entries");
    assert_eq!(found[1], Entry::Graze { phase: Star, from: -17, to: 17 });
    request = over_the_pole();
    request.window = Window { first: 2725, last: 2730 };
    let found = read(&star_vec(&bytes(&request)).expect("a sheet")).expect("entries");
    assert_eq!(found[1], Entry::Open { phase: Star, from: 2725, to: 2726 });
}

#[test]
fn seconds_over_the_pole() {
    let request = bytes(&over_the_pole());
    for (at, state) in [
        (-10_800, State::Outside),
        (-2726, State::Outside),
        (-2725, State::Unsure),
        (-2724, State::Inside),
        (2724, State::Inside),
        (2725, State::Unsure),
        (10_800, State::Outside),
    ] {
        let direction = Some(if at < 0 { 2700 } else { 900 });
        let expected = StarSecond { u: 10_000 * at, v: 0, radius: 27_250_000, state, direction };
        assert_eq!(star_second(&request, at), Ok(expected));
    }
    let axis = StarSecond { u: 0, v: 0, radius: 27_250_000, state: State::Inside, direction: None };
    assert_eq!(star_second(&request, 0), Ok(axis));
    for at in [-10_801, 10_801, i64::MIN, i64::MAX] {
        assert_eq!(star_second(&request, at), Err(Refusal::Window));
    }
    let mut refused = over_the_pole();
    refused.station.height = 9_001;
    assert_eq!(star_second(&bytes(&refused), 0), Err(Refusal::Station { field: 3 }));
    refused.radius = 27_300_001;
    assert_eq!(star_second(&bytes(&refused), 0), Err(Refusal::Radius));
    refused.elements.d0 = 30_000_001;
    assert_eq!(star_second(&bytes(&refused), 0), Err(Refusal::Element { field: 8 }));
    refused.guard = 15;
    assert_eq!(star_second(&bytes(&refused), 0), Err(Refusal::Guard));
    assert_eq!(star_second(&bytes(&refused), 10_801), Err(Refusal::Window));
    assert_eq!(star_second(&bytes(&refused)[1..], 10_801), Err(Refusal::Shape));
    assert_eq!(star_second(&example("moscow1954.bin"), 0), Err(Refusal::Shape));
    assert_eq!(second(&request, 0), Err(Refusal::Shape));
}

#[test]
fn seconds_as_on_the_sheets() {
    for name in ["potsdam1956", "kansas1949"] {
        let request = example(&format!("{name}.bin"));
        for entry in read(&star_vec(&request).expect("a sheet")).expect("entries") {
            let (from, to, states, towards) = match entry {
                Entry::Enter { from, to, direction, .. } => {
                    (from, to, (State::Outside, State::Inside), (to, direction))
                }
                Entry::Leave { from, to, direction, .. } => {
                    (from, to, (State::Inside, State::Outside), (from, direction))
                }
                _ => continue,
            };
            let at = |second| star_second(&request, second).expect("a second");
            assert_eq!((at(from).state, at(to).state), states);
            assert_eq!(at(towards.0).direction, towards.1);
        }
    }
}

// The ranges of the twelve elements and of the radius.
const RANGES: [(i64, i64); 13] = [
    (-200_000_000, 200_000_000),
    (-100_000_000, 100_000_000),
    (-100_000, 100_000),
    (-10_000, 10_000),
    (-200_000_000, 200_000_000),
    (-100_000_000, 100_000_000),
    (-100_000, 100_000),
    (-10_000, 10_000),
    (-30_000_000, 30_000_000),
    (0, 359_999_999),
    (14_900_000, 15_100_000),
    (-100, 100),
    (27_200_000, 27_300_000),
];

#[test]
fn requests_refused_in_order() {
    let short = StarRequest { window: Window { first: 0, last: 10 }, ..over_the_pole() };
    for (field, (low, high)) in RANGES.into_iter().enumerate() {
        let with = |number: i64| {
            let mut request = short;
            if field == 12 {
                request.radius = number;
            } else {
                let mut numbers = request.elements.numbers();
                numbers[field] = number;
                request.elements = StarElements::from_numbers(numbers);
            }
            request
        };
        assert!(star_vec(&bytes(&with(low))).is_ok() && star_vec(&bytes(&with(high))).is_ok());
        let expected = match field {
            12 => Refusal::Radius,
            _ => Refusal::Element { field: field as u64 },
        };
        for number in [low - 1, high + 1] {
            // each with all that comes later
            let mut request = with(number);
            request.station.height = 9_001;
            request.radius = if field == 12 { number } else { 0 };
            assert_eq!(refused(&bytes(&request)), expected);
            request.guard = 1_001;
            assert_eq!(refused(&bytes(&request)), Refusal::Guard);
            request.window.last = 10_801;
            assert_eq!(refused(&bytes(&request)), Refusal::Window);
            assert_eq!(refused(&bytes(&request)[1..]), Refusal::Shape);
        }
    }
    assert_eq!((Refusal::Radius.number(), Refusal::Radius.place()), (13, 0));
    let mut request = short;
    request.station.delta_t = 20_001;
    assert_eq!(refused(&bytes(&request)), Refusal::Station { field: 4 });
}

#[test]
fn shapes_refused() {
    let request = bytes(&over_the_pole());
    assert_eq!((request[0], request[53], request[72]), (5, 3, 4));
    assert_eq!(refused(&[]), Refusal::Shape);
    assert_eq!(refused(&request[..78]), Refusal::Shape);
    assert_eq!(refused(&[&request[..], &[0]].concat()), Refusal::Shape);
    for kind in [0, 53, 72] {
        let mut request = request;
        request[kind] = 2;
        assert_eq!(refused(&request), Refusal::Shape);
        assert_eq!(StarRequest::from_bytes(&request), None);
    }
    // an eclipse's request is no star's, and the other way
    assert_eq!(refused(&example("moscow1954.bin")), Refusal::Shape);
    assert_eq!(sheet_vec(&request), Err(Refusal::Shape));
    assert_eq!(
        (Request::from_bytes(&request), StarRequest::from_bytes(&example("moscow1954.bin"))),
        (None, None)
    );
    let too_wide = StarRequest { radius: 1 << 31, ..over_the_pole() };
    assert_eq!(too_wide.to_bytes(), None);
}

#[test]
fn stars_and_eclipses_do_not_mix() {
    let [head, enter, leave, closest, end] = entries()[..] else { panic!("five entries") };
    for phase in [Penumbra, Central] {
        let graze = Entry::Graze { phase, from: 2730, to: 2740 };
        assert_eq!(not_written(&[head, graze, enter, closest, end]), Refusal::Order { at: 14 });
        assert_eq!(not_written(&[head, enter, graze, closest, end]), Refusal::Order { at: 16 });
        assert_eq!(not_written(&[head, enter, leave, graze, closest, end]), Refusal::Order { at: 23 });
    }
    let share = Entry::Share { share: 0 };
    assert_eq!(not_written(&[head, enter, closest, share, end]), Refusal::Order { at: 23 });
    assert!(write_vec(&[head, closest, share, end]).is_ok());
    for magnitude in [1, 1_300_000, u32::MAX] {
        let closest = Entry::Closest { second: 0, magnitude };
        assert_eq!(not_written(&[head, enter, closest, end]), Refusal::Field { at: 16 });
    }
    // the same in stored sheets
    let sheet = write_vec(&entries()).expect("a sheet");
    let with = |at: usize, byte: u8| {
        let mut changed = sheet.clone();
        changed[at] = byte;
        read(&changed)
    };
    assert_eq!(with(16, 0x11), Err(Refusal::Order { at: 16 }));
    assert_eq!(with(9, 0x20), Err(Refusal::Order { at: 16 }));
    assert_eq!(with(16, 0x40), Err(Refusal::Order { at: 16 }));
    assert_eq!(with(16, 0x44), Err(Refusal::Kind { at: 16 }));
    assert_eq!(with(29, 1), Err(Refusal::Field { at: 23 }));
    for length in 0..31 {
        let at = RECORDS.into_iter().filter(|&at| at <= length).max();
        assert_eq!(read(&sheet[..length as usize]), Err(Refusal::Ends { at: at.unwrap() }));
    }
}

#[test]
fn a_year_file_with_both() {
    let star = write_vec(&entries()).expect("a sheet");
    let eclipse = sheet_vec(&example("moscow1954.bin")).expect("a sheet");
    let file = [&star[..], &eclipse, &star].concat();
    let mended = mend(&file);
    assert_eq!((mended.sheets, mended.stretches), (file, vec![]));
}
