//! Sheets and entries to try, whole and damaged.

use reference::random::Random;
use reference::shadow::{GUARD, GUARDS};
use reference::sheet::{self, Record, WORDS};

/// A well-formed sheet as entries, with many entries, grazes and opens among them, of an eclipse or of a star. Every
/// other one of an eclipse, or with no entry of a phase, has a share.
pub fn entries(random: &mut Random) -> Vec<u32> {
    let (a, b) = (random.below(21_601) as u32, random.below(21_601) as u32);
    let (first, last) = (a.min(b), a.max(b));
    let guard = if random.once_in(2) { GUARD } else { random.within(&GUARDS) };
    let mut entries = vec![0x01, 1 + random.below(999) as u32, first, last, guard as u32];
    let families: &[u32] = if random.once_in(3) { &[0x40] } else { &[0x10, 0x20] };
    for &base in families {
        let mut from = first;
        let mut next_contact = random.below(2) as u32;
        let most = if random.once_in(50) { 300 } else { 8 };
        for _ in 0..random.below(most) {
            if from >= last {
                break;
            }
            from += random.below(u64::from(last - from)) as u32 / 3;
            let to = from + 1 + random.below(u64::from(last - from)) as u32 / 3;
            if random.once_in(3) {
                entries.extend([base + 2, from, to, 0, 0]);
            } else if random.once_in(3) && from == first {
                entries.extend([base + 3, from, to, 0, 0]);
            } else {
                let direction = if random.once_in(9) { 65_535 } else { random.below(3600) as u32 };
                entries.extend([base + next_contact, from, to, direction, 0]);
                next_contact = 1 - next_contact;
            }
            from = to;
        }
        if random.once_in(3) {
            entries.extend([base + 3, from, last, 0, 0]);
        }
    }
    let second = first + random.below(u64::from(last - first) + 1) as u32;
    let star = entries.chunks_exact(WORDS).any(|entry| entry[0] >> 4 == 4);
    let magnitude = if star { 0 } else { random.below(1_300_001) as u32 };
    entries.extend([0x30, second, magnitude, 0, 0]);
    if !star && random.once_in(2) {
        let share = [0, 1_000_000, random.below(1_000_001) as u32][random.below(3) as usize];
        entries.extend([0x31, share, 0, 0, 0]);
    }
    entries.extend([0x7F, 0, 0, 0, 0]);
    entries
}

/// Entries dropped, doubled or exchanged.
fn shuffle<T: Copy>(random: &mut Random, list: &mut Vec<T>) {
    if list.is_empty() {
        return;
    }
    let (at, other) = (random.below(list.len() as u64) as usize, random.below(list.len() as u64) as usize);
    match random.below(3) {
        0 => _ = list.remove(at),
        1 => list.insert(at, list[other]),
        _ => list.swap(at, other),
    }
}

const KINDS: [u32; 16] =
    [0x01, 0x10, 0x11, 0x12, 0x13, 0x20, 0x21, 0x22, 0x23, 0x30, 0x31, 0x40, 0x41, 0x42, 0x43, 0x7F];

/// An entry where stars and an eclipse meet: one of the other family put in, or a share.
fn stranger(random: &mut Random, records: &mut Vec<Record>) {
    let at = 1 + random.below(records.len() as u64) as usize;
    let &Record { fields: [_, first, last, _], .. } = &records[0];
    let kind = [0x10, 0x12, 0x20, 0x23, 0x31, 0x40, 0x42, 0x43][random.below(8) as usize];
    let fields = match kind {
        0x31 => [0; 4],
        _ => [first, last, 0, 0],
    };
    records.insert(at.min(records.len()), Record::new(kind, fields));
}

/// The reader's limits, and what lies next to them.
const LIMITS: [u32; 18] = [
    0, 1, 15, 16, 999, 1_000, 1_001, 3_599, 3_600, 21_600, 21_601, 65_534, 65_535, 65_536, 1_000_000,
    1_000_001, 1_300_000, 1_300_001,
];

/// A field of an entry at a limit, or at or next to another number of the list.
fn put_at_limit(random: &mut Random, entries: &mut [u32]) {
    if entries.len() < WORDS {
        return;
    }
    let fields = WORDS - 1;
    let at = random.below((entries.len() / WORDS) as u64) as usize * WORDS
        + 1
        + random.below(fields as u64) as usize;
    let other = entries[random.below(entries.len() as u64) as usize];
    entries[at] = match random.below(4) {
        0 | 1 => LIMITS[random.below(LIMITS.len() as u64) as usize],
        2 => other,
        _ => other.wrapping_add([1, u32::MAX][random.below(2) as usize]),
    };
}

/// Damage a sheet: fields at limits, bytes changed, cut, records dropped, doubled or exchanged, a star's record among
/// an eclipse's or the other way, bytes after it, the head without its guard, as it was before; or leave it.
pub fn damage(random: &mut Random, sheet: &mut Vec<u8>) {
    for _ in 0..random.below(3) {
        match random.below(14) {
            12 if sheet.len() > 9 => _ = sheet.drain(7..9),
            13 => {
                if let Ok(mut records) = sheet::records_of(sheet) {
                    stranger(random, &mut records);
                    *sheet = sheet::bytes_of(&records);
                }
            }
            8.. => {
                if let Ok(records) = sheet::records_of(sheet) {
                    let mut words: Vec<u32> = records.iter().flat_map(Record::words).collect();
                    put_at_limit(random, &mut words);
                    let records: Vec<Record> = words
                        .chunks_exact(WORDS)
                        .map(|w| Record::new(w[0], [w[1], w[2], w[3], w[4]]))
                        .collect();
                    *sheet = sheet::bytes_of(&records);
                }
            }
            0 => sheet.truncate(random.below(sheet.len() as u64 + 1) as usize),
            1 => sheet.extend((0..1 + random.below(9)).map(|_| 0x7F)),
            2 | 3 => {
                if let Ok(mut records) = sheet::records_of(sheet) {
                    shuffle(random, &mut records);
                    *sheet = sheet::bytes_of(&records);
                }
            }
            _ if sheet.is_empty() => {}
            // a kind in place of another, with the body that stands there
            4 => {
                let at = random.below(sheet.len() as u64) as usize;
                sheet[at] = KINDS[random.below(KINDS.len() as u64) as usize] as u8;
            }
            _ => {
                let at = random.below(sheet.len() as u64) as usize;
                sheet[at] = if random.once_in(2) {
                    random.below(256) as u8
                } else {
                    sheet[at] ^ (1 << random.below(8))
                };
            }
        }
    }
}

/// Damage entries: fields at limits, numbers changed, also to those that no body holds, cut, entries dropped, doubled
/// or exchanged; or leave them.
pub fn damage_entries(random: &mut Random, entries: &mut Vec<u32>) {
    for _ in 0..random.below(3) {
        match random.below(12) {
            8.. => put_at_limit(random, entries),
            0 => entries.truncate(random.below(entries.len() as u64 + 1) as usize),
            1 => entries.extend((0..1 + random.below(9)).map(|_| 0x7F)),
            2 | 3 => {
                let mut fives: Vec<[u32; WORDS]> =
                    entries.chunks_exact(WORDS).map(|five| five.try_into().expect("five numbers")).collect();
                shuffle(random, &mut fives);
                *entries = fives.concat();
            }
            _ if entries.is_empty() => {}
            4 => {
                let at = random.below(entries.len() as u64) as usize / WORDS * WORDS;
                entries[at] = KINDS[random.below(KINDS.len() as u64) as usize];
            }
            5 => {
                let at = random.below(entries.len() as u64) as usize;
                entries[at] =
                    entries[at].wrapping_add([0x100, 0x1_0000, u32::MAX, 1][random.below(4) as usize]);
            }
            _ => {
                let at = random.below(entries.len() as u64) as usize;
                entries[at] = if random.once_in(2) {
                    random.below(25_000) as u32
                } else {
                    entries[at] ^ (1 << random.below(32))
                };
            }
        }
    }
}
