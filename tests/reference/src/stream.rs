//! Requests that follow each other, as program `stream` takes them.

use crate::listing::{sheet_of_input, star_of_input, ROOM};
use crate::refusal::Refusal;
use crate::request::REQUEST_LENGTH;
use crate::star::STAR_LENGTH;

/// The sheets of all requests one after the other, and a line for each that is refused. It stops at bytes that
/// are no request's.
pub fn stream(input: &[u8]) -> (Vec<u8>, String) {
    let (mut sheets, mut told) = (Vec::new(), String::new());
    let (mut rest, mut count) = (input, 0);
    while let Some(first) = rest.first() {
        count += 1;
        let long = match first {
            0x02 => REQUEST_LENGTH,
            0x05 => STAR_LENGTH,
            _ => 1,
        };
        let (request, later) = rest.split_at(long.min(rest.len()));
        let write = if *first == 0x05 { star_of_input } else { sheet_of_input };
        let mut buffer = vec![0; ROOM];
        match write(request, &mut buffer) {
            Ok(length) => sheets.extend_from_slice(&buffer[..length]),
            Err(refusal) => {
                told += &format!("request {count}: {refusal}\n");
                if refusal == Refusal::Shape {
                    told += &format!("stopped at byte {}\n", input.len() - rest.len());
                    break;
                }
            }
        }
        rest = later;
    }
    (sheets, told)
}
