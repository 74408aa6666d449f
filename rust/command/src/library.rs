//! The exports that the command calls beside those of the crate `ukhtvaresh`. All `unsafe` of the command is here.
//!
//! Each function reads and writes only within the lengths that it is given, keeps no pointer, and needs pointers that
//! are not null and written memory that overlaps nothing else (include/ukhtvaresh.h). Slices and mutable references
//! are so.
#![allow(unsafe_code)]

use std::cell::RefCell;

extern "C" {
    fn ukhtvaresh_typed(
        text: *const u8,
        text_len: usize,
        request: *mut u8,
        request_len: usize,
        instant: *mut u64,
        instant_len: usize,
        message: *mut u8,
        message_len: usize,
        value: *mut u64,
    ) -> u64;
    fn ukhtvaresh_times(
        request: *const u8,
        request_len: usize,
        instant: *const u64,
        instant_len: usize,
        sines: *mut u32,
        sines_len: usize,
        sheet: *mut u8,
        sheet_len: usize,
        text: *mut u8,
        text_len: usize,
        value: *mut u64,
    ) -> u64;
    fn ukhtvaresh_extent(bytes: *const u8, bytes_len: usize, value: *mut u64) -> u64;
    fn ukhtvaresh_elements(
        rows: *const i64,
        rows_len: usize,
        sidereal: *const i64,
        sidereal_len: usize,
        radii: *const i64,
        radii_len: usize,
        tolerance: i64,
        sines: *mut u32,
        sines_len: usize,
        elements: *mut i64,
        elements_len: usize,
        misfits: *mut i64,
        misfits_len: usize,
        value: *mut u64,
    ) -> u64;
    fn ukhtvaresh_contact(
        request: *const u8,
        request_len: usize,
        phase: i64,
        from: i64,
        to: i64,
        sines: *mut u32,
        sines_len: usize,
        bracket: *mut i64,
        bracket_len: usize,
        value: *mut u64,
    ) -> u64;
    fn ukhtvaresh_star_contact(
        request: *const u8,
        request_len: usize,
        phase: i64,
        from: i64,
        to: i64,
        sines: *mut u32,
        sines_len: usize,
        bracket: *mut i64,
        bracket_len: usize,
        value: *mut u64,
    ) -> u64;
}

/// A refusal: its number and its place in the table of the header.
#[derive(Clone, Copy, Debug, PartialEq, Eq)]
pub struct Refused {
    pub number: u64,
    pub place: u64,
}

impl From<ukhtvaresh::Refusal> for Refused {
    fn from(refusal: ukhtvaresh::Refusal) -> Refused {
        Refused { number: refusal.number(), place: refusal.place() }
    }
}

/// The buffer was too short; the place of the refusal is the length that is needed.
const TOO_SHORT: u64 = 4;
/// A typed text is refused; the place is the line.
pub const TYPED: u64 = 20;

/// Six numbers of an instant: scale (0 none, 1 ET, 2 UT), year, month, day, hundredths of a second from 0h, and
/// TAI - UTC in seconds (0 none).
pub type Instant = [i64; 6];

thread_local! {
    static SINES: RefCell<[u32; 901]> = const { RefCell::new([0; 901]) };
}

fn length(value: u64) -> usize {
    usize::try_from(value).expect("a length fits the memory")
}

/// A typed text that was read: the bytes of its request and its instant.
#[derive(Clone, Debug, PartialEq, Eq)]
pub struct Typed {
    pub request: Vec<u8>,
    pub instant: Instant,
}

/// Why a typed text is refused: the refusal, and the library's message without its line feed.
#[derive(Clone, Debug, PartialEq, Eq)]
pub struct Fault {
    pub refused: Refused,
    pub message: String,
}

/// The request and the instant of a typed text, or its first fault.
pub fn typed(text: &[u8]) -> Result<Typed, Fault> {
    let (mut request, mut instant, mut value) = ([0; 115], [0u64; 6], 0);
    let mut message = vec![0; 256];
    loop {
        // SAFETY: pointers and lengths are those of live slices, and what is written is borrowed mutably.
        let number = unsafe {
            ukhtvaresh_typed(
                text.as_ptr(),
                text.len(),
                request.as_mut_ptr(),
                request.len(),
                instant.as_mut_ptr(),
                instant.len(),
                message.as_mut_ptr(),
                message.len(),
                &mut value,
            )
        };
        match number {
            0 => {
                let instant = instant.map(|number| i64::try_from(number).expect("the library's numbers are small"));
                return Ok(Typed { request: request[..length(value)].to_vec(), instant });
            }
            TOO_SHORT if length(value) > message.len() => message = vec![0; length(value)],
            _ => {
                let words = message.split(|byte| *byte == b'\n').next().unwrap_or_default();
                let message = String::from_utf8_lossy(words).into_owned();
                return Err(Fault { refused: Refused { number, place: value }, message });
            }
        }
    }
}

/// The listing of a request with clock times, as the program `times` prints it.
pub fn times(request: &[u8], instant: &Instant) -> Result<Vec<u8>, Refused> {
    // A number below 0 is outside its range, as the largest is.
    let given = instant.map(|number| u64::try_from(number).unwrap_or(u64::MAX));
    let (mut sheet, mut text, mut value) = (vec![0; 4096], vec![0; 16384], 0);
    loop {
        // SAFETY: as in `typed`; the lengths of `instant` and `sines` count numbers, as the library does.
        let number = SINES.with_borrow_mut(|sines| unsafe {
            ukhtvaresh_times(
                request.as_ptr(),
                request.len(),
                given.as_ptr(),
                given.len(),
                sines.as_mut_ptr(),
                sines.len(),
                sheet.as_mut_ptr(),
                sheet.len(),
                text.as_mut_ptr(),
                text.len(),
                &mut value,
            )
        });
        let needed = length(value);
        match number {
            0 => {
                text.truncate(needed);
                return Ok(text);
            }
            // The length is that of the sheet or of the text, whichever buffer was too short.
            TOO_SHORT if needed > sheet.len().min(text.len()) => {
                sheet.resize(needed.max(sheet.len()), 0);
                text.resize((8 * needed).max(text.len()), 0);
            }
            _ => return Err(Refused { number, place: value }),
        }
    }
}

/// The length of the well-formed sheet at the start of some bytes.
pub fn extent(bytes: &[u8]) -> Result<usize, Refused> {
    let mut value = 0;
    // SAFETY: as in `typed`.
    let number = unsafe { ukhtvaresh_extent(bytes.as_ptr(), bytes.len(), &mut value) };
    match number {
        0 => Ok(length(value)),
        _ => Err(Refused { number, place: value }),
    }
}

/// The 22 elements of seven hourly rows, and the misfits of x, y, d, l1, l2 and μ.
pub fn elements(
    rows: &[i64; 42],
    sidereal: &[i64; 7],
    radii: &[i64; 3],
    tolerance: i64,
) -> Result<([i64; 22], [i64; 6]), Refused> {
    let (mut elements, mut misfits, mut value) = ([0; 22], [0; 6], 0);
    // SAFETY: as in `typed`; all lengths count numbers, as the library does.
    let number = SINES.with_borrow_mut(|sines| unsafe {
        ukhtvaresh_elements(
            rows.as_ptr(),
            rows.len(),
            sidereal.as_ptr(),
            sidereal.len(),
            radii.as_ptr(),
            radii.len(),
            tolerance,
            sines.as_mut_ptr(),
            sines.len(),
            elements.as_mut_ptr(),
            elements.len(),
            misfits.as_mut_ptr(),
            misfits.len(),
            &mut value,
        )
    });
    match number {
        0 => Ok((elements, misfits)),
        _ => Err(Refused { number, place: value }),
    }
}

/// The two hundredths of a second between which the true contact lies that happens between two seconds.
///
/// `phase` is 0 for the penumbra and for a star, 1 for the central cone.
pub fn contact(request: &[u8], star: bool, phase: i64, from: i64, to: i64) -> Result<[i64; 2], Refused> {
    let export = if star { ukhtvaresh_star_contact } else { ukhtvaresh_contact };
    let (mut bracket, mut value) = ([0; 2], 0);
    // SAFETY: as in `typed`; the lengths of `sines` and `bracket` count numbers, as the library does.
    let number = SINES.with_borrow_mut(|sines| unsafe {
        export(
            request.as_ptr(),
            request.len(),
            phase,
            from,
            to,
            sines.as_mut_ptr(),
            sines.len(),
            bracket.as_mut_ptr(),
            bracket.len(),
            &mut value,
        )
    });
    match number {
        0 => Ok(bracket),
        _ => Err(Refused { number, place: value }),
    }
}
