// The library's functions. All `unsafe` of this crate is here.
// Each function reads and writes only within the lengths it is given and keeps no pointer (include/ukhtvaresh.h).
// It asks for pointers that are not null and for written memory that overlaps nothing else; a slice's pointer is never null, also
// of an empty slice, and a mutable reference overlaps no other.

use crate::{narrowed, Node, Refusal};
use std::cell::RefCell;

extern "C" {
    fn ukhtvaresh_sheet(
        request: *const u8,
        request_len: usize,
        sines: *mut u32,
        sines_len: usize,
        sheet: *mut u8,
        sheet_len: usize,
        value: *mut u64,
    ) -> u64;
    fn ukhtvaresh_sheet_and_share(
        request: *const u8,
        request_len: usize,
        sines: *mut u32,
        sines_len: usize,
        sheet: *mut u8,
        sheet_len: usize,
        value: *mut u64,
    ) -> u64;
    fn ukhtvaresh_star(
        request: *const u8,
        request_len: usize,
        sines: *mut u32,
        sines_len: usize,
        sheet: *mut u8,
        sheet_len: usize,
        value: *mut u64,
    ) -> u64;
    fn ukhtvaresh_share(
        request: *const u8,
        request_len: usize,
        second: i64,
        sines: *mut u32,
        sines_len: usize,
        value: *mut u64,
    ) -> u64;
    fn ukhtvaresh_second(
        request: *const u8,
        request_len: usize,
        second: i64,
        sines: *mut u32,
        sines_len: usize,
        shadow: *mut i64,
        shadow_len: usize,
        value: *mut u64,
    ) -> u64;
    fn ukhtvaresh_star_second(
        request: *const u8,
        request_len: usize,
        second: i64,
        sines: *mut u32,
        sines_len: usize,
        shadow: *mut i64,
        shadow_len: usize,
        value: *mut u64,
    ) -> u64;
    fn ukhtvaresh_horizon(
        request: *const u8,
        request_len: usize,
        second: i64,
        sines: *mut u32,
        sines_len: usize,
        horizon: *mut i64,
        horizon_len: usize,
        value: *mut u64,
    ) -> u64;
    fn ukhtvaresh_star_horizon(
        request: *const u8,
        request_len: usize,
        second: i64,
        sines: *mut u32,
        sines_len: usize,
        horizon: *mut i64,
        horizon_len: usize,
        value: *mut u64,
    ) -> u64;
    fn ukhtvaresh_contact(
        request: *const u8,
        request_len: usize,
        phase: i64,
        from: i64,
        to: i64,
        sines: *mut u32,
        sines_len: usize,
        bracket: *mut i64,
        bracket_len: usize,
        value: *mut u64,
    ) -> u64;
    fn ukhtvaresh_star_contact(
        request: *const u8,
        request_len: usize,
        phase: i64,
        from: i64,
        to: i64,
        sines: *mut u32,
        sines_len: usize,
        bracket: *mut i64,
        bracket_len: usize,
        value: *mut u64,
    ) -> u64;
    fn ukhtvaresh_mirror(
        request: *const u8,
        request_len: usize,
        mirrored: *mut u8,
        mirrored_len: usize,
        value: *mut u64,
    ) -> u64;
    fn ukhtvaresh_read(
        sheet: *const u8,
        sheet_len: usize,
        entries: *mut u32,
        entries_len: usize,
        value: *mut u64,
    ) -> u64;
    fn ukhtvaresh_write(
        entries: *const u32,
        entries_len: usize,
        sheet: *mut u8,
        sheet_len: usize,
        value: *mut u64,
    ) -> u64;
    fn ukhtvaresh_extent(bytes: *const u8, bytes_len: usize, value: *mut u64) -> u64;
    fn ukhtvaresh_listing(
        sheet: *const u8,
        sheet_len: usize,
        text: *mut u8,
        text_len: usize,
        value: *mut u64,
    ) -> u64;
    fn ukhtvaresh_typed(
        text: *const u8,
        text_len: usize,
        request: *mut u8,
        request_len: usize,
        instant: *mut u64,
        instant_len: usize,
        message: *mut u8,
        message_len: usize,
        value: *mut u64,
    ) -> u64;
    fn ukhtvaresh_times(
        request: *const u8,
        request_len: usize,
        instant: *const u64,
        instant_len: usize,
        sines: *mut u32,
        sines_len: usize,
        sheet: *mut u8,
        sheet_len: usize,
        text: *mut u8,
        text_len: usize,
        value: *mut u64,
    ) -> u64;
    fn ukhtvaresh_fit(
        coefficients: *const i64,
        coefficients_len: usize,
        tabulated: *const i64,
        tabulated_len: usize,
        tolerance: i64,
        value: *mut u64,
    ) -> u64;
    fn ukhtvaresh_from_tables(
        rows: *const i64,
        rows_len: usize,
        values: *mut i64,
        values_len: usize,
        value: *mut u64,
    ) -> u64;
    fn ukhtvaresh_elements(
        rows: *const i64,
        rows_len: usize,
        sidereal: *const i64,
        sidereal_len: usize,
        radii: *const i64,
        radii_len: usize,
        tolerance: i64,
        sines: *mut u32,
        sines_len: usize,
        elements: *mut i64,
        elements_len: usize,
        misfits: *mut i64,
        misfits_len: usize,
        value: *mut u64,
    ) -> u64;
    fn ukhtvaresh_root(n: u64, rounds: *mut u64) -> u64;
    fn ukhtvaresh_mend(
        file: *const u8,
        file_len: usize,
        sheets: *mut u8,
        sheets_len: usize,
        dropped: *mut u8,
        dropped_len: usize,
        kept: *mut u64,
        noted: *mut u64,
    ) -> u64;
    fn ukhtvaresh_sheet_of_doubles(
        elements: *const f64,
        elements_len: usize,
        longitude: f64,
        hours: u64,
        rest: *const i64,
        rest_len: usize,
        sines: *mut u32,
        sines_len: usize,
        sheet: *mut u8,
        sheet_len: usize,
        value: *mut u64,
    ) -> u64;
    fn ukhtvaresh_doubles(
        units: *const i64,
        units_len: usize,
        doubles: *mut f64,
        doubles_len: usize,
        value: *mut u64,
    ) -> u64;
    fn ukhtvaresh_network(
        eclipse: *const i64,
        eclipse_len: usize,
        stations: *const Node,
        stations_len: usize,
        sines: *mut u32,
        sines_len: usize,
        steps: *mut u64,
        steps_len: usize,
        value: *mut u64,
    ) -> u64;
}

// The answer of a call: the length, the count, the share or the station, or the refusal.
fn answer(number: u64, value: u64) -> Result<usize, Refusal> {
    match number {
        0 => Ok(narrowed(value)),
        _ => Err(Refusal::of(number, value)),
    }
}

// The room for the sine table, which each call fills anew: one for each thread, lent to call after call.
thread_local! {
    static SINES: RefCell<[u32; 901]> = const { RefCell::new([0; 901]) };
}

type SheetExport = unsafe extern "C" fn(*const u8, usize, *mut u32, usize, *mut u8, usize, *mut u64) -> u64;

// The sheet that one of the three functions of these parameters makes of a request.
fn made(export: SheetExport, request: &[u8], sheet: &mut [u8]) -> Result<usize, Refusal> {
    let mut value = 0;
    // SAFETY: pointers and lengths are those of live slices; what is written is borrowed mutably, so it overlaps nothing else.
    let number = SINES.with_borrow_mut(|sines| unsafe {
        export(
            request.as_ptr(),
            request.len(),
            sines.as_mut_ptr(),
            sines.len(),
            sheet.as_mut_ptr(),
            sheet.len(),
            &mut value,
        )
    });
    answer(number, value)
}

pub fn sheet(request: &[u8], sheet: &mut [u8]) -> Result<usize, Refusal> {
    made(ukhtvaresh_sheet, request, sheet)
}

pub fn sheet_and_share(request: &[u8], sheet: &mut [u8]) -> Result<usize, Refusal> {
    made(ukhtvaresh_sheet_and_share, request, sheet)
}

pub fn star(request: &[u8], sheet: &mut [u8]) -> Result<usize, Refusal> {
    made(ukhtvaresh_star, request, sheet)
}

pub fn share(request: &[u8], second: i64) -> Result<usize, Refusal> {
    let mut value = 0;
    // SAFETY: as in `made`.
    let number = SINES.with_borrow_mut(|sines| unsafe {
        ukhtvaresh_share(request.as_ptr(), request.len(), second, sines.as_mut_ptr(), sines.len(), &mut value)
    });
    answer(number, value)
}

pub fn second(request: &[u8], second: i64, shadow: &mut [i64]) -> Result<usize, Refusal> {
    numbers_at(ukhtvaresh_second, request, second, shadow)
}

pub fn star_second(request: &[u8], second: i64, shadow: &mut [i64]) -> Result<usize, Refusal> {
    numbers_at(ukhtvaresh_star_second, request, second, shadow)
}

pub fn horizon(request: &[u8], second: i64, horizon: &mut [i64]) -> Result<usize, Refusal> {
    numbers_at(ukhtvaresh_horizon, request, second, horizon)
}

pub fn star_horizon(request: &[u8], second: i64, horizon: &mut [i64]) -> Result<usize, Refusal> {
    numbers_at(ukhtvaresh_star_horizon, request, second, horizon)
}

type SecondExport =
    unsafe extern "C" fn(*const u8, usize, i64, *mut u32, usize, *mut i64, usize, *mut u64) -> u64;

// The numbers of one second of a request.
fn numbers_at(
    export: SecondExport,
    request: &[u8],
    second: i64,
    numbers: &mut [i64],
) -> Result<usize, Refusal> {
    let mut value = 0;
    // SAFETY: as in `made`; the lengths of `sines` and `numbers` count numbers, as the library does.
    let number = SINES.with_borrow_mut(|sines| unsafe {
        export(
            request.as_ptr(),
            request.len(),
            second,
            sines.as_mut_ptr(),
            sines.len(),
            numbers.as_mut_ptr(),
            numbers.len(),
            &mut value,
        )
    });
    answer(number, value)
}

pub fn contact(request: &[u8], phase: i64, from: i64, to: i64) -> Result<[i64; 2], Refusal> {
    bracket_of(ukhtvaresh_contact, request, [phase, from, to])
}

pub fn star_contact(request: &[u8], phase: i64, from: i64, to: i64) -> Result<[i64; 2], Refusal> {
    bracket_of(ukhtvaresh_star_contact, request, [phase, from, to])
}

type ContactExport =
    unsafe extern "C" fn(*const u8, usize, i64, i64, i64, *mut u32, usize, *mut i64, usize, *mut u64) -> u64;

// The two hundredths of a contact, of a phase and two seconds.
fn bracket_of(
    export: ContactExport,
    request: &[u8],
    [phase, from, to]: [i64; 3],
) -> Result<[i64; 2], Refusal> {
    let (mut value, mut bracket) = (0, [0; 2]);
    // SAFETY: as in `made`; the lengths of `sines` and `bracket` count numbers, as the library does.
    let number = SINES.with_borrow_mut(|sines| unsafe {
        export(
            request.as_ptr(),
            request.len(),
            phase,
            from,
            to,
            sines.as_mut_ptr(),
            sines.len(),
            bracket.as_mut_ptr(),
            bracket.len(),
            &mut value,
        )
    });
    answer(number, value).map(|_| bracket)
}

pub fn mirror(request: &[u8], mirrored: &mut [u8]) -> Result<usize, Refusal> {
    let mut value = 0;
    // SAFETY: as in `made`.
    let number = unsafe {
        ukhtvaresh_mirror(request.as_ptr(), request.len(), mirrored.as_mut_ptr(), mirrored.len(), &mut value)
    };
    answer(number, value)
}

pub fn read(sheet: &[u8], entries: &mut [u32]) -> Result<usize, Refusal> {
    let mut value = 0;
    // SAFETY: as in `made`; the length of `entries` counts its numbers, as the library does.
    let number = unsafe {
        ukhtvaresh_read(sheet.as_ptr(), sheet.len(), entries.as_mut_ptr(), entries.len(), &mut value)
    };
    answer(number, value)
}

pub fn write(entries: &[u32], sheet: &mut [u8]) -> Result<usize, Refusal> {
    let mut value = 0;
    // SAFETY: as in `made`; the length of `entries` counts its numbers, as the library does.
    let number = unsafe {
        ukhtvaresh_write(entries.as_ptr(), entries.len(), sheet.as_mut_ptr(), sheet.len(), &mut value)
    };
    answer(number, value)
}

pub fn extent(bytes: &[u8]) -> Result<usize, Refusal> {
    let mut value = 0;
    // SAFETY: as in `made`.
    let number = unsafe { ukhtvaresh_extent(bytes.as_ptr(), bytes.len(), &mut value) };
    answer(number, value)
}

pub fn listing(sheet: &[u8], text: &mut [u8]) -> Result<usize, Refusal> {
    let mut value = 0;
    // SAFETY: as in `made`.
    let number =
        unsafe { ukhtvaresh_listing(sheet.as_ptr(), sheet.len(), text.as_mut_ptr(), text.len(), &mut value) };
    answer(number, value)
}

pub fn typed(
    text: &[u8],
    request: &mut [u8],
    instant: &mut [u64],
    message: &mut [u8],
) -> Result<usize, Refusal> {
    let mut value = 0;
    // SAFETY: as in `made`; the length of `instant` counts its numbers, as the library does.
    let number = unsafe {
        ukhtvaresh_typed(
            text.as_ptr(),
            text.len(),
            request.as_mut_ptr(),
            request.len(),
            instant.as_mut_ptr(),
            instant.len(),
            message.as_mut_ptr(),
            message.len(),
            &mut value,
        )
    };
    answer(number, value)
}

pub fn times(request: &[u8], instant: &[u64], sheet: &mut [u8], text: &mut [u8]) -> Result<usize, Refusal> {
    let mut value = 0;
    // SAFETY: as in `made`; the lengths of `instant` and `sines` count numbers, as the library does.
    let number = SINES.with_borrow_mut(|sines| unsafe {
        ukhtvaresh_times(
            request.as_ptr(),
            request.len(),
            instant.as_ptr(),
            instant.len(),
            sines.as_mut_ptr(),
            sines.len(),
            sheet.as_mut_ptr(),
            sheet.len(),
            text.as_mut_ptr(),
            text.len(),
            &mut value,
        )
    });
    answer(number, value)
}

pub fn fit(coefficients: &[i64], tabulated: &[i64], tolerance: i64) -> Result<usize, Refusal> {
    let mut value = 0;
    // SAFETY: as in `made`; the lengths count numbers, as the library does.
    let number = unsafe {
        ukhtvaresh_fit(
            coefficients.as_ptr(),
            coefficients.len(),
            tabulated.as_ptr(),
            tabulated.len(),
            tolerance,
            &mut value,
        )
    };
    answer(number, value)
}

pub fn from_tables(rows: &[i64], values: &mut [i64]) -> Result<usize, Refusal> {
    let mut value = 0;
    // SAFETY: as in `made`; both lengths count numbers, as the library does.
    let number = unsafe {
        ukhtvaresh_from_tables(rows.as_ptr(), rows.len(), values.as_mut_ptr(), values.len(), &mut value)
    };
    answer(number, value)
}

pub fn elements(
    rows: &[i64],
    sidereal: &[i64],
    radii: &[i64],
    tolerance: i64,
    elements: &mut [i64],
    misfits: &mut [i64],
) -> Result<usize, Refusal> {
    let mut value = 0;
    // SAFETY: as in `made`; all lengths count numbers, as the library does.
    let number = SINES.with_borrow_mut(|sines| unsafe {
        ukhtvaresh_elements(
            rows.as_ptr(),
            rows.len(),
            sidereal.as_ptr(),
            sidereal.len(),
            radii.as_ptr(),
            radii.len(),
            tolerance,
            sines.as_mut_ptr(),
            sines.len(),
            elements.as_mut_ptr(),
            elements.len(),
            misfits.as_mut_ptr(),
            misfits.len(),
            &mut value,
        )
    });
    answer(number, value)
}

// The root and its rounds.
pub fn root(n: u64) -> (u64, u64) {
    let mut rounds = 0;
    // SAFETY: `rounds` is borrowed mutably, and there is no other memory.
    let root = unsafe { ukhtvaresh_root(n, &mut rounds) };
    (root, rounds)
}

// The bytes that each room has.
pub fn mend(file: &[u8], sheets: &mut [u8], dropped: &mut [u8]) -> Result<(usize, usize), Refusal> {
    let (mut kept, mut noted) = (0, 0);
    // SAFETY: as in `made`; both rooms and both values are borrowed mutably, so none overlaps another.
    let number = unsafe {
        ukhtvaresh_mend(
            file.as_ptr(),
            file.len(),
            sheets.as_mut_ptr(),
            sheets.len(),
            dropped.as_mut_ptr(),
            dropped.len(),
            &mut kept,
            &mut noted,
        )
    };
    answer(number, kept).map(|kept| (kept, narrowed(noted)))
}

pub fn sheet_of_doubles(
    elements: &[f64],
    longitude: f64,
    hours: u64,
    rest: &[i64],
    sheet: &mut [u8],
) -> Result<usize, Refusal> {
    let mut value = 0;
    // SAFETY: as in `sheet`; the lengths of `elements`, `rest` and `sines` count numbers, as the library does.
    let number = SINES.with_borrow_mut(|sines| unsafe {
        ukhtvaresh_sheet_of_doubles(
            elements.as_ptr(),
            elements.len(),
            longitude,
            hours,
            rest.as_ptr(),
            rest.len(),
            sines.as_mut_ptr(),
            sines.len(),
            sheet.as_mut_ptr(),
            sheet.len(),
            &mut value,
        )
    });
    answer(number, value)
}

// The number of the station that the penumbra reaches first, 0 for none.
pub fn network(eclipse: &[i64], stations: &[Node], steps: &mut [u64]) -> Result<usize, Refusal> {
    let mut value = 0;
    // SAFETY: as in `made`; `Node` has the header's layout, and the length of `stations` counts its structs, the others numbers.
    let number = SINES.with_borrow_mut(|sines| unsafe {
        ukhtvaresh_network(
            eclipse.as_ptr(),
            eclipse.len(),
            stations.as_ptr(),
            stations.len(),
            sines.as_mut_ptr(),
            sines.len(),
            steps.as_mut_ptr(),
            steps.len(),
            &mut value,
        )
    });
    answer(number, value)
}

pub fn doubles(units: &[i64], doubles: &mut [f64]) -> Result<usize, Refusal> {
    let mut value = 0;
    // SAFETY: as in `sheet`; both lengths count numbers, as the library does.
    let number = unsafe {
        ukhtvaresh_doubles(units.as_ptr(), units.len(), doubles.as_mut_ptr(), doubles.len(), &mut value)
    };
    answer(number, value)
}
