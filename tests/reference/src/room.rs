//! The buffer for table S that a caller provides: document 02, wish 8.

use crate::elements::FARTHEST;
use crate::refusal::Refusal;
use crate::request::Request;
use crate::sheet::{bytes_of, copy_into, Record};
use crate::sine_table::S;
use crate::star::StarRequest;

/// How many numbers of it a request fills.
pub const SINES: usize = 901;

/// Fill the buffer with table S, or refuse as 4 with place 901 where it is shorter and leave it alone.
pub fn fill(sines: &mut [u32]) -> Result<(), Refusal> {
    let room = sines.get_mut(..SINES).ok_or(Refusal::Room(SINES))?;
    for (number, entry) in room.iter_mut().zip(S) {
        *number = entry as u32;
    }
    Ok(())
}

/// The sheet of a program's input, or its refusal: 10, 1, 2, 3, 4 for the buffer for table S, 4 for the sheet's own,
/// which alone leaves that buffer filled.
pub fn sheet_of_input(input: &[u8], sines: &mut [u32], buffer: &mut [u8]) -> Result<usize, Refusal> {
    sheet_for(Request::from_bytes(input)?, sines, buffer)
}

/// The same of the request that asks for the share too.
pub fn sheet_and_share_of_input(
    input: &[u8],
    sines: &mut [u32],
    buffer: &mut [u8],
) -> Result<usize, Refusal> {
    sheet_for(Request { share: true, ..Request::from_bytes(input)? }, sines, buffer)
}

/// The sheet of a star's input, or its refusal: 10, 1, 2, 13, 3, then 4 as above.
pub fn star_of_input(input: &[u8], sines: &mut [u32], buffer: &mut [u8]) -> Result<usize, Refusal> {
    let records = StarRequest::from_bytes(input)?.check()?.records();
    fill_and_write(&records, sines, buffer)
}

fn sheet_for(request: Request, sines: &mut [u32], buffer: &mut [u8]) -> Result<usize, Refusal> {
    fill_and_write(&request.check()?.records(), sines, buffer)
}

fn fill_and_write(records: &[Record], sines: &mut [u32], buffer: &mut [u8]) -> Result<usize, Refusal> {
    fill(sines)?;
    copy_into(&bytes_of(records), buffer)
}

/// The share at a second of a program's input, also outside its window: 10, 1 for the window or the second, then for
/// the guard, 2, 3, 4 for the buffer for table S.
pub fn share_of_input(input: &[u8], second: i64, sines: &mut [u32]) -> Result<i64, Refusal> {
    let request = Request::from_bytes(input)?;
    if !(-FARTHEST..=FARTHEST).contains(&second) {
        return Err(Refusal::Window);
    }
    let shadow = request.check()?.shadow(second);
    fill(sines)?;
    Ok(shadow.share())
}
