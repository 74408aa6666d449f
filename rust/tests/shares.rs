//! How much of the Sun is gone (document 02, wish 4), through the crate: in a sheet, at a second, read, written and listed.

use ukhtvaresh::{
    listing, mirror, read, second, share, sheet, sheet_and_share, sheet_and_share_vec, sheet_vec, write,
    write_vec, Entry, Refusal, Request, State,
};

const MOSCOW: &[u8] = include_bytes!("../../examples/moscow1954.bin");
const KIEV: &[u8] = include_bytes!("../../examples/kiev1954.bin");
const HOPKINSVILLE: &[u8] = include_bytes!("../../examples/hopkinsville2017.bin");

fn changed(change: impl FnOnce(&mut Request)) -> Vec<u8> {
    let mut request = Request::from_bytes(MOSCOW).expect("a request");
    change(&mut request);
    request.to_bytes().expect("every number fits").to_vec()
}

// The shortest sheet with a share, and where its records begin.
fn entries() -> Vec<Entry> {
    vec![
        Entry::Head { station: 7, first: 0, last: 0, guard: 16 },
        Entry::Closest { second: 0, magnitude: 512_345 },
        Entry::Share { share: 405_728 },
        Entry::End,
    ]
}

const RECORDS: [u64; 4] = [0, 9, 16, 21];

// The refusal of entries, after a look that the buffer is as it was.
fn not_written(entries: &[Entry]) -> Refusal {
    let mut buffer = [0xA5; 64];
    let refusal = write(entries, &mut buffer).expect_err("a refusal");
    assert_eq!(buffer, [0xA5; 64]);
    refusal
}

#[test]
fn the_share_stands_after_the_closest() {
    for (request, expected) in [(MOSCOW, 843_499), (KIEV, 1_000_000), (HOPKINSVILLE, 1_000_000)] {
        let (plain, shared) = (sheet_vec(request).unwrap(), sheet_and_share_vec(request).unwrap());
        let mut entries = read(&plain).unwrap();
        let [.., Entry::Closest { second, .. }, Entry::End] = entries[..] else {
            panic!("a closest, an end")
        };
        assert_eq!(share(request, second), Ok(expected));
        entries.insert(entries.len() - 1, Entry::Share { share: expected });
        assert_eq!(read(&shared).unwrap(), entries);
        assert_eq!(write_vec(&entries).unwrap(), shared);
        assert_eq!(listing(&shared).unwrap(), format!("{}share {expected}\n", listing(&plain).unwrap()));
    }
}

#[test]
fn room_for_the_sheet() {
    let needed = sheet(MOSCOW, &mut [0; 128]).unwrap() + 5;
    let mut buffer = [0xA5; 128];
    let refusal = Refusal::Room { needed: needed as u64 };
    assert_eq!(sheet_and_share(MOSCOW, &mut buffer[..needed - 1]), Err(refusal));
    assert_eq!(buffer, [0xA5; 128]);
    assert_eq!(sheet_and_share(MOSCOW, &mut buffer), Ok(needed));
    assert_eq!(buffer[..needed], sheet_and_share_vec(MOSCOW).unwrap());
    assert_eq!(buffer[needed..], [0xA5; 128][needed..]);
}

#[test]
fn shares_of_seconds() {
    // 0 before the first contact and after the last, growing and falling between them
    let of = |at: i64| share(MOSCOW, at).unwrap();
    assert_eq!([of(-10_800), of(0), of(8_000), of(10_800)], [0; 4]);
    let growing: Vec<u32> = (36..=4_115).step_by(100).map(of).collect();
    assert!(growing.windows(2).all(|pair| pair[0] < pair[1]));
    let falling: Vec<u32> = (4_116..=7_900).step_by(100).map(of).collect();
    assert!(falling.windows(2).all(|pair| pair[0] > pair[1]));
    // the whole disc as long as the total phase is sure
    let mut total = 0;
    for at in (-10_800..10_800).step_by(10) {
        let shadow = second(KIEV, at).unwrap();
        let share = share(KIEV, at).unwrap();
        if shadow.central == State::Inside {
            assert!(shadow.l2 < 0);
            assert_eq!(share, 1_000_000);
            total += 1;
        }
        if shadow.penumbra == State::Outside {
            assert_eq!(share, 0);
        }
        assert!(share <= 1_000_000);
    }
    assert!(total >= 6);
}

#[test]
fn an_annular_eclipse_leaves_a_ring() {
    // Kiev under a central cone that ends above the ground: near the square of the radii's ratio
    let mut request = Request::from_bytes(KIEV).unwrap();
    request.elements.l2_0 = 2_000_000;
    let request = request.to_bytes().unwrap();
    let entries = read(&sheet_and_share_vec(&request).unwrap()).unwrap();
    let [.., Entry::Closest { second: at, magnitude }, Entry::Share { share }, Entry::End] = entries[..]
    else {
        panic!("a closest, a share and an end")
    };
    assert_eq!(second(&request, at).unwrap().central, State::Inside);
    let square = (f64::from(magnitude) / 1e6).powi(2) * 1e6;
    assert!((f64::from(share) - square).abs() < 50.0);
}

#[test]
fn requests_refused() {
    let cases = [
        (changed(|request| request.window.last = 10_801), Refusal::Window),
        (changed(|request| request.guard = 15), Refusal::Guard),
        (changed(|request| request.elements.tan_f2 = 0), Refusal::Element { field: 21 }),
        (changed(|request| request.station.height = 9_001), Refusal::Station { field: 3 }),
        (MOSCOW[1..].to_vec(), Refusal::Shape),
    ];
    for (request, refusal) in cases {
        let mut buffer = [0xA5; 64];
        assert_eq!(sheet_and_share(&request, &mut buffer), Err(refusal));
        assert_eq!(buffer, [0xA5; 64]);
        assert_eq!(sheet_and_share_vec(&request), Err(refusal));
        assert_eq!(share(&request, 0), Err(refusal));
    }
    for far in [-10_801, 10_801, i64::MIN, i64::MAX] {
        assert_eq!(share(MOSCOW, far), Err(Refusal::Window));
        assert_eq!(share(&changed(|request| request.guard = 15), far), Err(Refusal::Window));
        assert_eq!(share(&MOSCOW[1..], far), Err(Refusal::Shape));
    }
}

#[test]
fn sheets_refused() {
    let stored = write_vec(&entries()).expect("a sheet");
    assert_eq!(stored[16..], [0x31, 0, 6, 0x30, 0xE0, 0x7F]);
    for length in 0..stored.len() as u64 {
        let at = RECORDS.into_iter().filter(|&at| at <= length).max();
        assert_eq!(read(&stored[..length as usize]), Err(Refusal::Ends { at: at.unwrap() }));
    }
    let with = |number: u32| [&stored[..17], &number.to_be_bytes(), &stored[21..]].concat();
    for number in [0, 1, 1_000_000] {
        assert_eq!(read(&with(number)).unwrap()[2], Entry::Share { share: number });
    }
    for number in [1_000_001, 0x0100_0000, u32::MAX] {
        assert_eq!(read(&with(number)), Err(Refusal::Field { at: 16 }));
    }
    let record = &stored[16..21];
    assert_eq!(read(&[&stored[..9], record, &stored[9..]].concat()), Err(Refusal::Order { at: 9 }));
    assert_eq!(read(&[&stored[..21], record, &stored[21..]].concat()), Err(Refusal::Order { at: 21 }));
    assert_eq!(read(&[&stored[..], record].concat()), Err(Refusal::After { at: 22 }));
    assert_eq!(listing(&with(1_000_001)), Err(Refusal::Field { at: 16 }));
}

#[test]
fn entries_refused() {
    let [head, closest, share, end] = entries()[..] else { panic!("four entries") };
    for millionths in [1_000_001, u32::MAX] {
        let refusal = not_written(&[head, closest, Entry::Share { share: millionths }, end]);
        assert_eq!(refusal, Refusal::Field { at: 16 });
    }
    assert_eq!(not_written(&[head, share, closest, end]), Refusal::Order { at: 9 });
    assert_eq!(not_written(&[head, closest, share, share, end]), Refusal::Order { at: 21 });
    assert_eq!(not_written(&[head, closest, end, share]), Refusal::After { at: 17 });
    assert_eq!(not_written(&[head, closest, share]), Refusal::Ends { at: 21 });
}

#[test]
fn mirrors() {
    for north in [MOSCOW, KIEV] {
        let south = mirror(north).unwrap();
        let last = |request: &[u8]| {
            let entries = read(&sheet_and_share_vec(request).unwrap()).unwrap();
            entries[entries.len() - 3..].to_vec()
        };
        assert_eq!(last(north), last(&south));
        for at in (-10_800..=10_800).step_by(900) {
            assert_eq!(share(north, at), share(&south, at));
        }
    }
}
