//! What the library is to answer where the reference has no function of the same shape.

use reference::contact::Crossing;
use reference::elements::FARTHEST;
use reference::fitted;
use reference::horizon::Horizon;
use reference::listing;
use reference::refusal::Refusal;
use reference::request::Request;
use reference::room;
use reference::shadow::{Phase, State};
use reference::sheet::{copy_into, records_of};
use reference::star::StarRequest;

/// The eight numbers of one second, from a buffer for table S: 10, 1, 2, 3, 4 for that buffer, 4 for the numbers' own.
pub fn second(request: &[u8], second: i64, sines: &mut [u32], shadow: &mut [i64]) -> Result<usize, Refusal> {
    let request = Request::from_bytes(request)?;
    if !(-FARTHEST..=FARTHEST).contains(&second) {
        return Err(Refusal::Window);
    }
    let found = request.check()?.shadow(second);
    room::fill(sines)?;
    let state = |phase| match found.state(phase, request.guard) {
        State::Outside => 0,
        State::Inside => 1,
        State::Unsure => 2,
    };
    let numbers = [
        found.u,
        found.v,
        found.l1,
        found.l2,
        state(Phase::Penumbra),
        state(Phase::Central),
        found.magnitude(request.guard),
        found.direction(),
    ];
    shadow.get_mut(..8).ok_or(Refusal::Room(8))?.copy_from_slice(&numbers);
    Ok(8)
}

/// The five numbers of one second of a star, likewise: 10, 1, 2, 13, 3, 4 for the buffer for table S, 4 for the
/// numbers' own.
pub fn star_second(
    request: &[u8],
    second: i64,
    sines: &mut [u32],
    shadow: &mut [i64],
) -> Result<usize, Refusal> {
    let numbers = StarRequest::from_bytes(request)?.second(second)?;
    room::fill(sines)?;
    shadow.get_mut(..5).ok_or(Refusal::Room(5))?.copy_from_slice(&numbers);
    Ok(5)
}

/// The three numbers of a horizon in their buffer: 4 for the buffer for table S, 4 for the numbers' own.
fn horizon_into(found: Horizon, sines: &mut [u32], horizon: &mut [i64]) -> Result<usize, Refusal> {
    room::fill(sines)?;
    horizon.get_mut(..3).ok_or(Refusal::Room(3))?.copy_from_slice(&found.numbers());
    Ok(3)
}

/// The horizon at one second: 10, 1, 2, 3, then 4 as above.
pub fn horizon(
    request: &[u8],
    second: i64,
    sines: &mut [u32],
    horizon: &mut [i64],
) -> Result<usize, Refusal> {
    horizon_into(Request::from_bytes(request)?.horizon(second)?, sines, horizon)
}

/// The same of a star: 10, 1, 2, 13, 3, then 4 as above.
pub fn star_horizon(
    request: &[u8],
    second: i64,
    sines: &mut [u32],
    horizon: &mut [i64],
) -> Result<usize, Refusal> {
    horizon_into(StarRequest::from_bytes(request)?.horizon(second)?, sines, horizon)
}

/// The two hundredths of a contact in their buffer: 4 for the room for table S, 22 for the two seconds, 4 for the numbers'
/// own.
fn bracket_into(
    crossing: Crossing,
    [_, from, to]: [i64; 3],
    sines: &mut [u32],
    bracket: &mut [i64],
) -> Result<usize, Refusal> {
    room::fill(sines)?;
    let found = crossing.bracket(from, to)?;
    bracket.get_mut(..2).ok_or(Refusal::Room(2))?.copy_from_slice(&found);
    Ok(2)
}

/// The contact of a phase between two seconds: 10, 1, 2, 3, 22 for the phase, then as above.
pub fn contact(
    request: &[u8],
    asked @ [phase, from, to]: [i64; 3],
    sines: &mut [u32],
    bracket: &mut [i64],
) -> Result<usize, Refusal> {
    bracket_into(Request::from_bytes(request)?.crossing(phase, from, to)?, asked, sines, bracket)
}

/// The same of a star: 10, 1, 2, 13, 3, 22 for the phase, then as above.
pub fn star_contact(
    request: &[u8],
    asked @ [phase, from, to]: [i64; 3],
    sines: &mut [u32],
    bracket: &mut [i64],
) -> Result<usize, Refusal> {
    bracket_into(StarRequest::from_bytes(request)?.crossing(phase, from, to)?, asked, sines, bracket)
}

/// The listing of a sheet as bytes of text.
pub fn listing(sheet: &[u8], text: &mut [u8]) -> Result<usize, Refusal> {
    copy_into(listing::listing(&records_of(sheet)?).as_bytes(), text)
}

/// Elements from rows: 10, 18, 21, 11, 4 for the room for table S, which is then filled, 2, 17, 4 for the elements' room
/// and for the misfits'.
pub fn elements(
    given: &crate::rows::Given,
    sines: &mut [u32],
    elements: &mut [i64],
    misfits: &mut [i64],
) -> Result<usize, Refusal> {
    let (rows, sidereal, radii, tolerance) = given;
    let rooms = [sines.len(), elements.len(), misfits.len()];
    match fitted::elements(rows, sidereal, radii, *tolerance, rooms) {
        Ok((made, off)) => {
            room::fill(sines)?;
            elements[..made.len()].copy_from_slice(&made);
            misfits[..off.len()].copy_from_slice(&off);
            Ok(made.len())
        }
        Err((refusal, filled)) => {
            if filled {
                room::fill(sines)?;
            }
            Err(refusal)
        }
    }
}
