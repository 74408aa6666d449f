//! Elements from rows of Sun and Moon.

use crate::requests::{both_agree, into_range, left_lent, sines_room, LEAVE_NUMBERS};
use crate::{reply, room};
use agreement::rows::{given, Given};
use agreement::{answers, library};
use reference::fitted::{ELEMENTS, MISFITS, RADII, RADIUS_RANGES, SIDEREAL, SIDEREAL_RANGE, TOLERANCE_RANGE};
use reference::random::Random;
use reference::tables::NUMBERS;

extern "C" {
    // The guide's export, as include/ukhtvaresh.h declares that of the archive.
    fn guide_elements(
        rows: *const i64,
        rows_len: usize,
        sidereal: *const i64,
        sidereal_len: usize,
        radii: *const i64,
        radii_len: usize,
        tolerance: i64,
        sines: *mut u32,
        sines_len: usize,
        elements: *mut i64,
        elements_len: usize,
        misfits: *mut i64,
        misfits_len: usize,
        value: *mut u64,
    ) -> u64;
}

/// The numbers as bytes, eight each: the tolerance, the radii, the sidereal angles, the rows.
pub fn packed((rows, sidereal, radii, tolerance): &Given) -> Vec<u8> {
    let all = std::iter::once(tolerance).chain(radii).chain(sidereal).chain(rows);
    all.flat_map(|number| number.to_be_bytes()).collect()
}

/// And back: where bytes are missing the lists are shorter, and the rows have all that is left.
fn unpacked(bytes: &[u8]) -> Option<Given> {
    let numbers: Vec<i64> =
        bytes.chunks_exact(8).map(|eight| i64::from_be_bytes(eight.try_into().expect("eight bytes"))).collect();
    let (&tolerance, rest) = numbers.split_first()?;
    let (radii, rest) = rest.split_at(RADII.min(rest.len()));
    let (sidereal, rows) = rest.split_at(SIDEREAL.min(rest.len()));
    Some((rows.to_vec(), sidereal.to_vec(), radii.to_vec(), tolerance))
}

fn old_numbers(at: usize) -> i64 {
    (at as i64 + 1).wrapping_mul(0x1E37_79B9_7F4A_7C15)
}

/// Two bytes for the rooms, one for what is left as it stands, then the numbers.
pub fn elements(input: &[u8]) {
    let &[near, far, leave, ref raw @ ..] = input else { return };
    let Some(mut asked) = unpacked(raw) else { return };
    if leave & LEAVE_NUMBERS == 0 {
        for (radius, range) in asked.2.iter_mut().zip(&RADIUS_RANGES) {
            *radius = into_range(*radius % (1 << 40), range);
        }
        for angle in &mut asked.1 {
            *angle = into_range(*angle % (1 << 40), &SIDEREAL_RANGE);
        }
        asked.3 = into_range(asked.3 % (1 << 40), &TOLERANCE_RANGE);
    }
    // one room for both buffers, the elements' first
    let (first, second) = (room(ELEMENTS, near, 0), room(MISFITS, far & 7, 0));
    let rooms @ [lent, both] = [sines_room(leave, near, far), first + second];
    let theirs = left_lent(lent, both, old_numbers, |sines, numbers| {
        let (elements, misfits) = numbers.split_at_mut(first);
        reply(answers::elements(&asked, sines, elements, misfits))
    });
    let (rows, sidereal, radii, tolerance) = &asked;
    let ours = left_lent(lent, both, old_numbers, |sines, numbers| {
        let (elements, misfits) = numbers.split_at_mut(first);
        library::elements(rows, sidereal, radii, *tolerance, sines, elements, misfits)
    });
    both_agree("ukhtvaresh_elements", raw, rooms, &ours, &theirs);
    let guided = left_lent(lent, both, old_numbers, |sines, numbers| {
        let (elements, misfits) = numbers.split_at_mut(first);
        let mut value = 0;
        let number = unsafe {
            guide_elements(
                rows.as_ptr(),
                rows.len(),
                sidereal.as_ptr(),
                sidereal.len(),
                radii.as_ptr(),
                radii.len(),
                *tolerance,
                sines.as_mut_ptr(),
                sines.len(),
                elements.as_mut_ptr(),
                elements.len(),
                misfits.as_mut_ptr(),
                misfits.len(),
                &mut value,
            )
        };
        (number, value)
    });
    both_agree("ukhtvaresh_elements with counters", raw, rooms, &guided, &theirs);
}

/// Another conjunction, or one number changed by little; what is too short becomes a conjunction.
pub fn change(random: &mut Random, bytes: &mut Vec<u8>) {
    let whole = 8 * (1 + RADII + SIDEREAL + NUMBERS);
    if bytes.len() < whole || random.once_in(16) {
        *bytes = packed(&given(random));
        return;
    }
    let at = 8 * random.below(bytes.len() as u64 / 8) as usize;
    let number = i64::from_be_bytes(bytes[at..at + 8].try_into().expect("eight bytes"));
    let change = random.within(&(-5_000..=5_000));
    bytes[at..at + 8].copy_from_slice(&number.wrapping_add(change).to_be_bytes());
}
