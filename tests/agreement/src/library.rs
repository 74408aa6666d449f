//! The library's functions, as include/ukhtvaresh.h declares them.

extern "C" {
    fn ukhtvaresh_sheet(
        request: *const u8,
        request_len: usize,
        sines: *mut u32,
        sines_len: usize,
        sheet: *mut u8,
        sheet_len: usize,
        value: *mut u64,
    ) -> u64;
    fn ukhtvaresh_sheet_and_share(
        request: *const u8,
        request_len: usize,
        sines: *mut u32,
        sines_len: usize,
        sheet: *mut u8,
        sheet_len: usize,
        value: *mut u64,
    ) -> u64;
    fn ukhtvaresh_star(
        request: *const u8,
        request_len: usize,
        sines: *mut u32,
        sines_len: usize,
        sheet: *mut u8,
        sheet_len: usize,
        value: *mut u64,
    ) -> u64;
    fn ukhtvaresh_share(
        request: *const u8,
        request_len: usize,
        second: i64,
        sines: *mut u32,
        sines_len: usize,
        value: *mut u64,
    ) -> u64;
    fn ukhtvaresh_second(
        request: *const u8,
        request_len: usize,
        second: i64,
        sines: *mut u32,
        sines_len: usize,
        shadow: *mut i64,
        shadow_len: usize,
        value: *mut u64,
    ) -> u64;
    fn ukhtvaresh_star_second(
        request: *const u8,
        request_len: usize,
        second: i64,
        sines: *mut u32,
        sines_len: usize,
        shadow: *mut i64,
        shadow_len: usize,
        value: *mut u64,
    ) -> u64;
    fn ukhtvaresh_horizon(
        request: *const u8,
        request_len: usize,
        second: i64,
        sines: *mut u32,
        sines_len: usize,
        horizon: *mut i64,
        horizon_len: usize,
        value: *mut u64,
    ) -> u64;
    fn ukhtvaresh_star_horizon(
        request: *const u8,
        request_len: usize,
        second: i64,
        sines: *mut u32,
        sines_len: usize,
        horizon: *mut i64,
        horizon_len: usize,
        value: *mut u64,
    ) -> u64;
    fn ukhtvaresh_contact(
        request: *const u8,
        request_len: usize,
        phase: i64,
        from: i64,
        to: i64,
        sines: *mut u32,
        sines_len: usize,
        bracket: *mut i64,
        bracket_len: usize,
        value: *mut u64,
    ) -> u64;
    fn ukhtvaresh_star_contact(
        request: *const u8,
        request_len: usize,
        phase: i64,
        from: i64,
        to: i64,
        sines: *mut u32,
        sines_len: usize,
        bracket: *mut i64,
        bracket_len: usize,
        value: *mut u64,
    ) -> u64;
    fn ukhtvaresh_mirror(
        request: *const u8,
        request_len: usize,
        mirrored: *mut u8,
        mirrored_len: usize,
        value: *mut u64,
    ) -> u64;
    fn ukhtvaresh_read(
        sheet: *const u8,
        sheet_len: usize,
        entries: *mut u32,
        entries_len: usize,
        value: *mut u64,
    ) -> u64;
    fn ukhtvaresh_extent(bytes: *const u8, bytes_len: usize, value: *mut u64) -> u64;
    fn ukhtvaresh_write(
        entries: *const u32,
        entries_len: usize,
        sheet: *mut u8,
        sheet_len: usize,
        value: *mut u64,
    ) -> u64;
    fn ukhtvaresh_listing(
        sheet: *const u8,
        sheet_len: usize,
        text: *mut u8,
        text_len: usize,
        value: *mut u64,
    ) -> u64;
    fn ukhtvaresh_fit(
        coefficients: *const i64,
        coefficients_len: usize,
        tabulated: *const i64,
        tabulated_len: usize,
        tolerance: i64,
        value: *mut u64,
    ) -> u64;
    fn ukhtvaresh_from_tables(
        rows: *const i64,
        rows_len: usize,
        values: *mut i64,
        values_len: usize,
        value: *mut u64,
    ) -> u64;
    fn ukhtvaresh_elements(
        rows: *const i64,
        rows_len: usize,
        sidereal: *const i64,
        sidereal_len: usize,
        radii: *const i64,
        radii_len: usize,
        tolerance: i64,
        sines: *mut u32,
        sines_len: usize,
        elements: *mut i64,
        elements_len: usize,
        misfits: *mut i64,
        misfits_len: usize,
        value: *mut u64,
    ) -> u64;
    fn ukhtvaresh_root(n: u64, rounds: *mut u64) -> u64;
    fn ukhtvaresh_mend(
        file: *const u8,
        file_len: usize,
        sheets: *mut u8,
        sheets_len: usize,
        dropped: *mut u8,
        dropped_len: usize,
        kept: *mut u64,
        noted: *mut u64,
    ) -> u64;
    fn ukhtvaresh_sheet_of_doubles(
        elements: *const f64,
        elements_len: usize,
        longitude: f64,
        hours: u64,
        rest: *const i64,
        rest_len: usize,
        sines: *mut u32,
        sines_len: usize,
        sheet: *mut u8,
        sheet_len: usize,
        value: *mut u64,
    ) -> u64;
    fn ukhtvaresh_doubles(
        units: *const i64,
        units_len: usize,
        doubles: *mut f64,
        doubles_len: usize,
        value: *mut u64,
    ) -> u64;
    fn ukhtvaresh_network(
        eclipse: *const i64,
        eclipse_len: usize,
        stations: *const Node,
        stations_len: usize,
        sines: *mut u32,
        sines_len: usize,
        steps: *mut u64,
        steps_len: usize,
        value: *mut u64,
    ) -> u64;
}

/// A station of a network's list, `ukhtvaresh_node`: number, latitude, longitude, height, ΔT, clock.
#[repr(C)]
#[derive(Clone, Copy, Debug)]
pub struct Node(pub [i64; 6]);

/// The number of the refusal, 0 for none; the length, the count or the place.
pub type Reply = (u64, u64);

/// What `value` holds before a call.
const UNSET: u64 = 0xDEAD_BEEF_DEAD_BEEF;

type SheetExport = unsafe extern "C" fn(*const u8, usize, *mut u32, usize, *mut u8, usize, *mut u64) -> u64;

/// The sheet that an export makes of a request.
fn made(export: SheetExport, request: &[u8], sines: &mut [u32], sheet: &mut [u8]) -> Reply {
    let mut value = UNSET;
    let number = unsafe {
        export(
            request.as_ptr(),
            request.len(),
            sines.as_mut_ptr(),
            sines.len(),
            sheet.as_mut_ptr(),
            sheet.len(),
            &mut value,
        )
    };
    (number, value)
}

pub fn sheet(request: &[u8], sines: &mut [u32], sheet: &mut [u8]) -> Reply {
    made(ukhtvaresh_sheet, request, sines, sheet)
}

pub fn sheet_and_share(request: &[u8], sines: &mut [u32], sheet: &mut [u8]) -> Reply {
    made(ukhtvaresh_sheet_and_share, request, sines, sheet)
}

/// The sheet of a star request.
pub fn star(request: &[u8], sines: &mut [u32], sheet: &mut [u8]) -> Reply {
    made(ukhtvaresh_star, request, sines, sheet)
}

pub fn share(request: &[u8], second: i64, sines: &mut [u32]) -> Reply {
    let mut value = UNSET;
    let number = unsafe {
        ukhtvaresh_share(request.as_ptr(), request.len(), second, sines.as_mut_ptr(), sines.len(), &mut value)
    };
    (number, value)
}

pub fn second(request: &[u8], second: i64, sines: &mut [u32], shadow: &mut [i64]) -> Reply {
    numbers_at(ukhtvaresh_second, request, second, sines, shadow)
}

/// One second of a star request.
pub fn star_second(request: &[u8], second: i64, sines: &mut [u32], shadow: &mut [i64]) -> Reply {
    numbers_at(ukhtvaresh_star_second, request, second, sines, shadow)
}

pub fn horizon(request: &[u8], second: i64, sines: &mut [u32], horizon: &mut [i64]) -> Reply {
    numbers_at(ukhtvaresh_horizon, request, second, sines, horizon)
}

/// The horizon of a star request.
pub fn star_horizon(request: &[u8], second: i64, sines: &mut [u32], horizon: &mut [i64]) -> Reply {
    numbers_at(ukhtvaresh_star_horizon, request, second, sines, horizon)
}

pub fn contact(request: &[u8], asked: [i64; 3], sines: &mut [u32], bracket: &mut [i64]) -> Reply {
    bracket_of(ukhtvaresh_contact, request, asked, sines, bracket)
}

/// The contact of a star request.
pub fn star_contact(request: &[u8], asked: [i64; 3], sines: &mut [u32], bracket: &mut [i64]) -> Reply {
    bracket_of(ukhtvaresh_star_contact, request, asked, sines, bracket)
}

type ContactExport =
    unsafe extern "C" fn(*const u8, usize, i64, i64, i64, *mut u32, usize, *mut i64, usize, *mut u64) -> u64;

/// The contact that an export gives, of a phase and two seconds.
fn bracket_of(
    export: ContactExport,
    request: &[u8],
    [phase, from, to]: [i64; 3],
    sines: &mut [u32],
    bracket: &mut [i64],
) -> Reply {
    let mut value = UNSET;
    let number = unsafe {
        export(
            request.as_ptr(),
            request.len(),
            phase,
            from,
            to,
            sines.as_mut_ptr(),
            sines.len(),
            bracket.as_mut_ptr(),
            bracket.len(),
            &mut value,
        )
    };
    (number, value)
}

type SecondExport =
    unsafe extern "C" fn(*const u8, usize, i64, *mut u32, usize, *mut i64, usize, *mut u64) -> u64;

/// The numbers that an export gives of one second of a request.
fn numbers_at(
    export: SecondExport,
    request: &[u8],
    second: i64,
    sines: &mut [u32],
    numbers: &mut [i64],
) -> Reply {
    let mut value = UNSET;
    let number = unsafe {
        export(
            request.as_ptr(),
            request.len(),
            second,
            sines.as_mut_ptr(),
            sines.len(),
            numbers.as_mut_ptr(),
            numbers.len(),
            &mut value,
        )
    };
    (number, value)
}

pub fn mirror(request: &[u8], mirrored: &mut [u8]) -> Reply {
    let mut value = UNSET;
    let number = unsafe {
        ukhtvaresh_mirror(request.as_ptr(), request.len(), mirrored.as_mut_ptr(), mirrored.len(), &mut value)
    };
    (number, value)
}

pub fn read(sheet: &[u8], entries: &mut [u32]) -> Reply {
    let mut value = UNSET;
    let number = unsafe {
        ukhtvaresh_read(sheet.as_ptr(), sheet.len(), entries.as_mut_ptr(), entries.len(), &mut value)
    };
    (number, value)
}

pub fn extent(bytes: &[u8]) -> Reply {
    let mut value = UNSET;
    let number = unsafe { ukhtvaresh_extent(bytes.as_ptr(), bytes.len(), &mut value) };
    (number, value)
}

pub fn write(entries: &[u32], sheet: &mut [u8]) -> Reply {
    let mut value = UNSET;
    let number = unsafe {
        ukhtvaresh_write(entries.as_ptr(), entries.len(), sheet.as_mut_ptr(), sheet.len(), &mut value)
    };
    (number, value)
}

pub fn listing(sheet: &[u8], text: &mut [u8]) -> Reply {
    let mut value = UNSET;
    let number =
        unsafe { ukhtvaresh_listing(sheet.as_ptr(), sheet.len(), text.as_mut_ptr(), text.len(), &mut value) };
    (number, value)
}

pub fn fit(coefficients: &[i64], tabulated: &[i64], tolerance: i64) -> Reply {
    let mut value = UNSET;
    let number = unsafe {
        ukhtvaresh_fit(
            coefficients.as_ptr(),
            coefficients.len(),
            tabulated.as_ptr(),
            tabulated.len(),
            tolerance,
            &mut value,
        )
    };
    (number, value)
}

pub fn from_tables(rows: &[i64], values: &mut [i64]) -> Reply {
    let mut value = UNSET;
    let number = unsafe {
        ukhtvaresh_from_tables(rows.as_ptr(), rows.len(), values.as_mut_ptr(), values.len(), &mut value)
    };
    (number, value)
}

pub fn elements(
    rows: &[i64],
    sidereal: &[i64],
    radii: &[i64],
    tolerance: i64,
    sines: &mut [u32],
    elements: &mut [i64],
    misfits: &mut [i64],
) -> Reply {
    let mut value = UNSET;
    let number = unsafe {
        ukhtvaresh_elements(
            rows.as_ptr(),
            rows.len(),
            sidereal.as_ptr(),
            sidereal.len(),
            radii.as_ptr(),
            radii.len(),
            tolerance,
            sines.as_mut_ptr(),
            sines.len(),
            elements.as_mut_ptr(),
            elements.len(),
            misfits.as_mut_ptr(),
            misfits.len(),
            &mut value,
        )
    };
    (number, value)
}

/// The root and its rounds.
pub fn root(n: u64) -> (u64, u64) {
    let mut rounds = UNSET;
    let root = unsafe { ukhtvaresh_root(n, &mut rounds) };
    (root, rounds)
}

/// The number of the refusal, 0 for none; the bytes written into the first buffer, or the place; those written into the
/// second.
pub type MendReply = (u64, u64, u64);

pub fn mend(file: &[u8], sheets: &mut [u8], dropped: &mut [u8]) -> MendReply {
    let (mut kept, mut noted) = (UNSET, UNSET);
    let number = unsafe {
        ukhtvaresh_mend(
            file.as_ptr(),
            file.len(),
            sheets.as_mut_ptr(),
            sheets.len(),
            dropped.as_mut_ptr(),
            dropped.len(),
            &mut kept,
            &mut noted,
        )
    };
    (number, kept, noted)
}

pub fn sheet_of_doubles(
    elements: &[f64],
    longitude: f64,
    hours: u64,
    rest: &[i64],
    sines: &mut [u32],
    sheet: &mut [u8],
) -> Reply {
    let mut value = UNSET;
    let number = unsafe {
        ukhtvaresh_sheet_of_doubles(
            elements.as_ptr(),
            elements.len(),
            longitude,
            hours,
            rest.as_ptr(),
            rest.len(),
            sines.as_mut_ptr(),
            sines.len(),
            sheet.as_mut_ptr(),
            sheet.len(),
            &mut value,
        )
    };
    (number, value)
}

/// The steps of a network's clocks, and the station whose first enter comes first.
pub fn network(eclipse: &[i64], stations: &[Node], sines: &mut [u32], steps: &mut [u64]) -> Reply {
    let mut value = UNSET;
    let number = unsafe {
        ukhtvaresh_network(
            eclipse.as_ptr(),
            eclipse.len(),
            stations.as_ptr(),
            stations.len(),
            sines.as_mut_ptr(),
            sines.len(),
            steps.as_mut_ptr(),
            steps.len(),
            &mut value,
        )
    };
    (number, value)
}

pub fn doubles(units: &[i64], doubles: &mut [f64]) -> Reply {
    let mut value = UNSET;
    let number = unsafe {
        ukhtvaresh_doubles(units.as_ptr(), units.len(), doubles.as_mut_ptr(), doubles.len(), &mut value)
    };
    (number, value)
}
