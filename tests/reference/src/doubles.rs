//! Positions as doubles: document 02, wish 5. Nothing here computes with doubles; they are taken apart and put
//! together as bits.

use crate::elements::{Elements, Station, Window, ELEMENT_RANGES, STATION_RANGES};
use crate::refusal::Refusal;
use crate::request::Request;
use crate::room::fill;
use crate::shadow::GUARDS;
use crate::sheet::{bytes_of, copy_into};
use std::ops::RangeInclusive;

/// Units to a degree, to an hour of time, and to an Earth radius or a tangent of 1.
pub const DEGREE: u64 = 1_000_000;
pub const HOUR: u64 = 15 * DEGREE;
pub const ONE: u64 = 100_000_000;

/// Units to one of each element.
pub const SCALES: [u64; 22] = {
    let mut scales = [ONE; 22];
    let mut angle = 0;
    while angle < 3 {
        scales[8 + angle] = DEGREE;
        scales[17 + angle] = DEGREE;
        angle += 1;
    }
    scales
};

/// Numbers of a survey beside its doubles.
pub const REST: usize = 7;

/// Beyond this no two units are told apart: every range ends long before.
const FAR: i128 = 1 << 120;

/// The nearest whole unit to a finite double, halves away from zero; nothing where it is not finite.
pub fn units(x: f64, scale: u64) -> Option<i128> {
    let bits = x.to_bits();
    let (field, digits) = ((bits >> 52) as i32 & 0x7FF, i128::from(bits & ((1 << 52) - 1)));
    // x is whole · 2^power
    let (whole, power) = match field {
        0x7FF => return None,
        0 => (digits, -1074),
        _ => (digits + (1 << 52), field - 1075),
    };
    // below 2^80
    let scaled = whole * i128::from(scale);
    let size = match power {
        _ if scaled == 0 => 0,
        0..=39 => scaled << power,
        40.. => FAR,
        // half of the last place and more is the next unit
        -100..=-1 => {
            let below = scaled & ((1 << -power) - 1);
            (scaled >> -power) + i128::from(2 * below >= 1 << -power)
        }
        _ => 0,
    };
    Some(if bits >> 63 == 0 { size } else { -size })
}

/// The double nearest to a unit over a scale, of two as near the even one.
pub fn double(unit: i64, scale: u64) -> f64 {
    let (size, scale) = (u128::from(unit.unsigned_abs()), u128::from(scale));
    if size == 0 {
        return 0.0;
    }
    // size · 2^shift / scale has 54 binary digits before the point, or 55
    let shift = 54 + (128 - scale.leading_zeros()) as i32 - (128 - size.leading_zeros()) as i32;
    let (over, under) = if shift >= 0 { (size << shift, scale) } else { (size, scale << -shift) };
    let mut quotient = over / under;
    let mut rest = over % under != 0;
    let mut dropped = 0;
    while quotient >= 1 << 54 {
        rest |= quotient & 1 == 1;
        quotient >>= 1;
        dropped += 1;
    }
    // 54 digits: the last one is the half
    let half = quotient & 1 == 1;
    let mut kept = quotient >> 1;
    if half && (rest || kept & 1 == 1) {
        kept += 1;
    }
    let mut exponent = dropped + 1 - shift;
    if kept == 1 << 53 {
        kept >>= 1;
        exponent += 1;
    }
    let field = (exponent + 1075) as u64;
    f64::from_bits((kept as u64 - (1 << 52)) | field << 52 | u64::from(unit < 0) << 63)
}

fn in_range(unit: i128, range: &RangeInclusive<i64>) -> bool {
    (i128::from(*range.start())..=i128::from(*range.end())).contains(&unit)
}

/// The sheet of 22 doubles, a longitude in degrees (0) or hours (1), and number, latitude, height, ΔT, first, last,
/// guard: 10, 1, 12, 2, 3, 4 for the buffer for table S, 4 for the sheet's own.
pub fn sheet(
    elements: &[f64],
    longitude: f64,
    hours: u64,
    rest: &[i64],
    sines: &mut [u32],
    buffer: &mut [u8],
) -> Result<usize, Refusal> {
    let elements: &[f64; 22] = elements.try_into().map_err(|_| Refusal::Shape)?;
    let rest: &[i64; REST] = rest.try_into().map_err(|_| Refusal::Shape)?;
    let scale = *[DEGREE, HOUR].get(hours as usize).ok_or(Refusal::Shape)?;
    let &[number, latitude, height, delta_t, first, last, guard] = rest;
    let window = Window { first, last };
    window.check()?;
    if !GUARDS.contains(&guard) {
        return Err(Refusal::Guard);
    }
    let mut read = Vec::new();
    for (field, (&x, scale)) in
        elements.iter().chain([&longitude]).zip(SCALES.into_iter().chain([scale])).enumerate()
    {
        read.push(units(x, scale).ok_or(Refusal::NotFinite(field))?);
    }
    if let Some(field) = (0..22).find(|&field| !in_range(read[field], &ELEMENT_RANGES[field])) {
        return Err(Refusal::Element(field));
    }
    let station = [number.into(), latitude.into(), read[22], height.into(), delta_t.into()];
    if let Some(field) = (0..5).find(|&field| !in_range(station[field], &STATION_RANGES[field])) {
        return Err(Refusal::Station(field));
    }
    let request = Request {
        elements: Elements::from_fields(std::array::from_fn(|field| read[field] as i64)),
        station: Station::from_fields(station.map(|unit| unit as i64)),
        window,
        guard,
        share: false,
    };
    let circumstances = request.check()?;
    fill(sines)?;
    copy_into(&bytes_of(&circumstances.records()), buffer)
}

/// 22 elements and a longitude in units as doubles, the longitude in degrees: 10, 2, 3, 4.
pub fn doubles(units: &[i64], room: &mut [f64]) -> Result<usize, Refusal> {
    let units: &[i64; 23] = units.try_into().map_err(|_| Refusal::Shape)?;
    let (elements, longitude) = (Elements::from_fields(units[..22].try_into().expect("22")), units[22]);
    elements.check()?;
    if !STATION_RANGES[2].contains(&longitude) {
        return Err(Refusal::Station(2));
    }
    let room = room.get_mut(..23).ok_or(Refusal::Room(23))?;
    for (x, (unit, scale)) in room.iter_mut().zip(units.iter().zip(SCALES.into_iter().chain([DEGREE]))) {
        *x = double(*unit, scale);
    }
    Ok(23)
}
