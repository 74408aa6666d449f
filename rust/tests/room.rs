//! The room for the sine table that a caller from C lends (document 02, wish 8): its lengths 0, 900, 901 and 902 on every path, and what it
//! holds afterwards; and that the crate's own room serves call after call, in every thread.

use std::thread;
use ukhtvaresh::{second, share, sheet_and_share_vec, sheet_vec, Request};

extern "C" {
    fn ukhtvaresh_sheet(
        request: *const u8,
        request_len: usize,
        sines: *mut u32,
        sines_len: usize,
        sheet: *mut u8,
        sheet_len: usize,
        value: *mut u64,
    ) -> u64;
    fn ukhtvaresh_sheet_and_share(
        request: *const u8,
        request_len: usize,
        sines: *mut u32,
        sines_len: usize,
        sheet: *mut u8,
        sheet_len: usize,
        value: *mut u64,
    ) -> u64;
    fn ukhtvaresh_share(
        request: *const u8,
        request_len: usize,
        second: i64,
        sines: *mut u32,
        sines_len: usize,
        value: *mut u64,
    ) -> u64;
    fn ukhtvaresh_second(
        request: *const u8,
        request_len: usize,
        second: i64,
        sines: *mut u32,
        sines_len: usize,
        shadow: *mut i64,
        shadow_len: usize,
        value: *mut u64,
    ) -> u64;
}

const MOSCOW: &[u8] = include_bytes!("../../examples/moscow1954.bin");
const PAST: usize = 64;
const LENGTHS: [usize; 4] = [0, 900, 901, 902];

fn old(lent: usize) -> Vec<u32> {
    (0..lent + PAST).map(|at| (at as u32).wrapping_mul(0x9E37_79B9) ^ 0xA5A5_5A5A).collect()
}

type Export = unsafe extern "C" fn(*const u8, usize, *mut u32, usize, *mut u8, usize, *mut u64) -> u64;

const SHEETS: [Export; 2] = [ukhtvaresh_sheet, ukhtvaresh_sheet_and_share];

// Number, value, and what the room holds with 64 numbers past its end.
fn sheet_of(export: Export, request: &[u8], lent: usize, length: usize) -> (u64, u64, Vec<u32>) {
    let (mut sines, mut sheet, mut value) = (old(lent), vec![0; length], 0);
    // SAFETY: pointers and lengths are those of live slices that do not overlap; `sines` is longer than it is told.
    let number = unsafe {
        export(
            request.as_ptr(),
            request.len(),
            sines.as_mut_ptr(),
            lent,
            sheet.as_mut_ptr(),
            sheet.len(),
            &mut value,
        )
    };
    (number, value, sines)
}

fn second_of(request: &[u8], at: i64, lent: usize, length: usize) -> (u64, u64, Vec<u32>) {
    let (mut sines, mut shadow, mut value) = (old(lent), vec![0; length], 0);
    // SAFETY: as in `sheet_of`.
    let number = unsafe {
        ukhtvaresh_second(
            request.as_ptr(),
            request.len(),
            at,
            sines.as_mut_ptr(),
            lent,
            shadow.as_mut_ptr(),
            shadow.len(),
            &mut value,
        )
    };
    (number, value, sines)
}

fn share_of(request: &[u8], at: i64, lent: usize) -> (u64, u64, Vec<u32>) {
    let (mut sines, mut value) = (old(lent), 0);
    // SAFETY: as in `sheet_of`.
    let number = unsafe {
        ukhtvaresh_share(request.as_ptr(), request.len(), at, sines.as_mut_ptr(), lent, &mut value)
    };
    (number, value, sines)
}

// Document 01's entries 0, 300 and 900, that each is more than the one before it, and what lies past the table.
fn is_filled(sines: &[u32]) -> bool {
    (sines[0], sines[300], sines[900]) == (0, 50_000_000, 100_000_000)
        && sines[..901].windows(2).all(|pair| pair[0] < pair[1])
        && sines[901..] == old(sines.len() - PAST)[901..]
}

#[test]
fn only_the_last_4_leaves_the_room_filled() {
    let whole = SHEETS.map(|export| sheet_of(export, MOSCOW, 901, 1000));
    assert_eq!((whole[0].0, whole[1].0, whole[1].1), (0, 0, whole[0].1 + 5));
    for lent in LENGTHS {
        for (export, &(_, needed, _)) in SHEETS.into_iter().zip(&whole) {
            for length in [0, needed - 1, needed, needed + 1] {
                let (number, value, sines) = sheet_of(export, MOSCOW, lent, length as usize);
                if lent < 901 {
                    assert_eq!((number, value, sines), (4, 901, old(lent)));
                } else {
                    assert_eq!((number, value), (if length < needed { 4 } else { 0 }, needed));
                    assert!(is_filled(&sines));
                }
            }
        }
        let (number, value, sines) = share_of(MOSCOW, 4_115, lent);
        if lent < 901 {
            assert_eq!((number, value, sines), (4, 901, old(lent)));
        } else {
            assert_eq!((number, value), (0, 843_499));
            assert!(is_filled(&sines));
        }
        for length in [0, 7, 8, 9] {
            let (number, value, sines) = second_of(MOSCOW, 0, lent, length);
            if lent < 901 {
                assert_eq!((number, value, sines), (4, 901, old(lent)));
            } else {
                assert_eq!((number, value), (if length < 8 { 4 } else { 0 }, 8));
                assert!(is_filled(&sines));
            }
        }
    }
}

#[test]
fn other_refusals_leave_it() {
    let request = Request::from_bytes(MOSCOW).expect("a request");
    let changed = |change: &dyn Fn(&mut Request)| {
        let mut request = request;
        change(&mut request);
        request.to_bytes().expect("every number fits")
    };
    let refused = [
        (1, 0, changed(&|request| request.window.last = 10_801)),
        (2, 0, changed(&|request| request.elements.x0 = 200_000_001)),
        (3, 3, changed(&|request| request.station.height = 9_001)),
    ];
    for lent in LENGTHS {
        for (number, place, request) in &refused {
            for export in SHEETS {
                assert_eq!(sheet_of(export, request, lent, 0), (*number, *place, old(lent)));
            }
            assert_eq!(second_of(request, 0, lent, 0), (*number, *place, old(lent)));
            assert_eq!(share_of(request, 0, lent), (*number, *place, old(lent)));
        }
        for export in SHEETS {
            assert_eq!(sheet_of(export, &MOSCOW[1..], lent, 0), (10, 0, old(lent)));
        }
        assert_eq!(second_of(&MOSCOW[1..], 0, lent, 0), (10, 0, old(lent)));
        assert_eq!(share_of(&MOSCOW[1..], 0, lent), (10, 0, old(lent)));
        assert_eq!(second_of(MOSCOW, 10_801, lent, 0), (1, 0, old(lent)));
        assert_eq!(share_of(MOSCOW, 10_801, lent), (1, 0, old(lent)));
    }
}

#[test]
fn the_crates_own_room_serves_every_call() {
    let answers = || (sheet_vec(MOSCOW), second(MOSCOW, 36), sheet_and_share_vec(MOSCOW), share(MOSCOW, 36));
    let expected = answers();
    assert!(expected.0.is_ok() && expected.1.is_ok() && expected.2.is_ok() && expected.3.is_ok());
    thread::scope(|scope| {
        for _ in 0..4 {
            scope.spawn(|| {
                for _ in 0..3 {
                    assert_eq!(answers(), expected);
                    assert!(sheet_vec(&MOSCOW[1..]).is_err());
                }
            });
        }
    });
}
