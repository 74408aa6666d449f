//! A file of sheets mended.

use crate::{ffi, Refusal};

/// Bytes of a stretch in the notes of [`mend_into`].
const NOTE: usize = 16;

/// An unbroken stretch of dropped bytes.
#[derive(Clone, Copy, Debug, PartialEq, Eq, Hash)]
pub struct Stretch {
    /// Its first byte, counted from 0 in the file.
    pub start: u64,
    /// How many bytes were dropped, at least 1.
    pub length: u64,
}

/// A file mended.
#[derive(Clone, Debug, PartialEq, Eq, Hash)]
pub struct Mended {
    /// The kept sheets in their order.
    pub sheets: Vec<u8>,
    /// What was dropped, in order; between two stretches lie kept bytes.
    pub stretches: Vec<Stretch>,
}

/// Mends a file of sheets appended to one another, of any size.
///
/// From the start: where a whole well-formed sheet begins, it is kept, and the walk goes on behind it; otherwise one byte
/// is dropped. A file of nothing but well-formed sheets comes out unchanged with no stretch. Kept bytes and the lengths of
/// the stretches add up to the file's length. Its time went by that length on every file that
/// was tried: measured, not proved.
///
/// ```
/// use ukhtvaresh::{mend, sheet_vec, Stretch};
///
/// let sheet = sheet_vec(include_bytes!("../../examples/moscow1954.bin"))?;
/// let file = [&sheet[..], &sheet[..20], &sheet[..]].concat();
/// let mended = mend(&file);
/// assert_eq!(mended.sheets, [&sheet[..], &sheet[..]].concat());
/// assert_eq!(mended.stretches, [Stretch { start: sheet.len() as u64, length: 20 }]);
/// # Ok::<(), ukhtvaresh::Refusal>(())
/// ```
pub fn mend(file: &[u8]) -> Mended {
    let mut sheets = vec![0; file.len()];
    // A stretch and the sheet behind it have 18 bytes at least, and behind the last there may be none.
    let mut dropped = vec![0; file.len() + NOTE];
    let (kept, noted) = ffi::mend(file, &mut sheets, &mut dropped).expect("room enough");
    sheets.truncate(kept);
    let number = |bytes: &[u8]| u64::from_be_bytes(bytes.try_into().expect("eight bytes"));
    let stretches = dropped[..noted]
        .chunks_exact(NOTE)
        .map(|note| Stretch { start: number(&note[..8]), length: number(&note[8..]) })
        .collect();
    Mended { sheets, stretches }
}

/// The same into two rooms: the kept sheets, and 16 bytes for each stretch, its start and its length, 8 each, big-endian.
///
/// Gives how many bytes each room then has. The bytes past them, and on refusal all bytes, keep what they held. Refusal: 4
/// with the length needed, the room of `sheets` first.
///
/// Neither room can overlap the other, or the file, since both are borrowed mutably:
///
/// ```compile_fail,E0499
/// let mut room = [0; 100];
/// let (_, dropped) = room.split_at_mut(50);
/// ukhtvaresh::mend_into(b"", &mut room, dropped).expect("room enough");
/// ```
pub fn mend_into(file: &[u8], sheets: &mut [u8], dropped: &mut [u8]) -> Result<(usize, usize), Refusal> {
    ffi::mend(file, sheets, dropped)
}
