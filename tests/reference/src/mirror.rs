//! Document 02, wish 13: a request beyond the equator.

use crate::refusal::Refusal;
use crate::request::{Request, REQUEST_LENGTH};
use crate::sheet::copy_into;

/// The bytes of the mirror, at the start of the buffer; 10, or 4 with the length.
///
/// Done on the bytes, in two's complement: the opposite of a number is one more than all its bits turned, so that -2^31
/// is its own. The y and d coefficients are fields 4 to 10, the latitude follows the station's number.
pub fn mirror(request: &[u8], buffer: &mut [u8]) -> Result<usize, Refusal> {
    Request::from_bytes(request)?;
    let mut mirrored: [u8; REQUEST_LENGTH] = request.try_into().expect("a request");
    for at in (4..=10).map(|field| 1 + 4 * field).chain([92]) {
        let number = u32::from_be_bytes(mirrored[at..at + 4].try_into().expect("four bytes"));
        mirrored[at..at + 4].copy_from_slice(&(!number).wrapping_add(1).to_be_bytes());
    }
    copy_into(&mirrored, buffer)
}
