//! Document 02, wish 11: the year file mended.

use crate::refusal::Refusal;
use crate::sheet::{copy_into, records_of};

/// A file mended: the kept sheets in order, and the start and length of each unbroken dropped stretch.
#[derive(Clone, PartialEq, Eq, Debug)]
pub struct Mended {
    pub sheets: Vec<u8>,
    pub stretches: Vec<(u64, u64)>,
}

/// The length of the whole well-formed sheet that some bytes begin with: all of them, or those before the first byte
/// after the end record. Otherwise the reader's refusal.
pub fn extent(bytes: &[u8]) -> Result<usize, Refusal> {
    match records_of(bytes) {
        Ok(_) => Ok(bytes.len()),
        Err(Refusal::After(place)) => Ok(place),
        Err(refusal) => Err(refusal),
    }
}

/// "Go from the start: where a whole well-formed sheet begins, keep it and go on behind it; otherwise drop one byte."
pub fn mend(file: &[u8]) -> Mended {
    let mut dropped = vec![false; file.len()];
    let mut at = 0;
    while at < file.len() {
        match extent(&file[at..]) {
            Ok(length) => at += length,
            Err(_) => {
                dropped[at] = true;
                at += 1;
            }
        }
    }
    let sheets = file.iter().zip(&dropped).filter(|(_, &dropped)| !dropped).map(|(&byte, _)| byte).collect();
    let mut start = 0;
    let mut stretches = Vec::new();
    for stretch in dropped.chunk_by(|a, b| a == b) {
        if stretch[0] {
            stretches.push((start, stretch.len() as u64));
        }
        start += stretch.len() as u64;
    }
    Mended { sheets, stretches }
}

/// "each unbroken dropped stretch as 16 bytes, its start and its length, 8 each, big-endian"
pub fn notes(stretches: &[(u64, u64)]) -> Vec<u8> {
    stretches
        .iter()
        .flat_map(|(start, length)| [start.to_be_bytes(), length.to_be_bytes()].concat())
        .collect()
}

/// Mends into two buffers of the caller; how many bytes each then has. "4 with the length needed where a room is
/// short, sheets' room first, nothing written."
pub fn mend_into(file: &[u8], sheets: &mut [u8], dropped: &mut [u8]) -> Result<(usize, usize), Refusal> {
    let mended = mend(file);
    let notes = notes(&mended.stretches);
    if sheets.len() < mended.sheets.len() {
        return Err(Refusal::Room(mended.sheets.len()));
    }
    let noted = copy_into(&notes, dropped)?;
    Ok((copy_into(&mended.sheets, sheets)?, noted))
}
