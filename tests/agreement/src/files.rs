//! Year files to try: sheets one after the other, damaged in many ways.

use crate::sheets;
use reference::random::Random;
use reference::sheet;

/// A well-formed sheet.
pub fn whole_sheet(random: &mut Random) -> Vec<u8> {
    let entries = sheets::entries(random);
    let mut bytes = vec![0; 7 * entries.len()];
    let length = sheet::write(&entries, &mut bytes).expect("entries that keep all rules");
    bytes.truncate(length);
    bytes
}

/// An open entry of one second again and again, in which heads may stand; a sheet may begin before it, an end may
/// follow.
fn repeated(random: &mut Random) -> Vec<u8> {
    let [high, low] = (random.below(4) as u16 * 256 + random.below(4) as u16).to_be_bytes();
    let kind = [0x13, 0x23, 0x43][random.below(3) as usize];
    let mut bytes = Vec::new();
    if random.once_in(2) {
        bytes.extend([0x01, 0, 7, 0, 0, high, low, 0, 16]);
    }
    bytes.extend([kind, high, low, high, low].repeat(random.below(40) as usize));
    if random.once_in(2) {
        // a magnitude that an eclipse may have and a star may not
        bytes.extend([0x30, high, low, 0, 0, 0, random.below(2) as u8, 0x7F]);
    }
    bytes
}

/// Bytes cut out, bytes overwritten by one byte or by any, bytes put in, a piece doubled.
fn hole(random: &mut Random, file: &mut Vec<u8>) {
    let from = random.below(file.len() as u64 + 1) as usize;
    let most = if random.once_in(4) { 100 } else { 10 };
    let to = (from + random.below(most) as usize).min(file.len());
    let filler = random.below(256) as u8;
    match random.below(6) {
        0 | 1 => _ = file.drain(from..to),
        2 => file[from..to].fill([0x00, 0xFF, 0x01, filler][random.below(4) as usize]),
        3 => file[from..to].iter_mut().for_each(|byte| *byte = random.below(256) as u8),
        4 => _ = file.splice(from..from, (0..to - from).map(|_| filler)),
        _ => {
            let piece = file[from..to].to_vec();
            file.splice(to..to, piece);
        }
    }
}

/// A file: whole sheets, damaged ones, old heads among them, repeated entries, any bytes; then holes, or none.
pub fn file(random: &mut Random) -> Vec<u8> {
    let mut file = Vec::new();
    for _ in 0..random.below(6) {
        match random.below(8) {
            0..=3 => file.extend(whole_sheet(random)),
            4 | 5 => {
                let mut sheet = whole_sheet(random);
                sheets::damage(random, &mut sheet);
                file.extend(sheet);
            }
            6 => file.extend(repeated(random)),
            _ => file.extend((0..random.below(30)).map(|_| random.below(256) as u8)),
        }
    }
    for _ in 0..random.below(4) {
        hole(random, &mut file);
    }
    file
}

/// A file changed: a hole in it, or a piece of another put in or behind it.
pub fn change(random: &mut Random, bytes: &mut Vec<u8>) {
    if random.once_in(2) {
        return hole(random, bytes);
    }
    let piece = if random.once_in(3) { repeated(random) } else { whole_sheet(random) };
    let at = if random.once_in(2) { bytes.len() } else { random.below(bytes.len() as u64 + 1) as usize };
    bytes.splice(at..at, piece);
}
