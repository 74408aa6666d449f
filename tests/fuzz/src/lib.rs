//! Targets for libFuzzer: an input goes to the compiled library and to the reference, and any difference aborts.
//!
//! Compared: the refusal's number, the value beside it, and each whole buffer with 64 numbers past its end. The
//! library is there twice: the archive itself, and its guide, the same module compiled with counters on its edges, so
//! that the fuzzer sees the library's own branches.

pub mod changes;
pub mod networks;
pub mod requests;
pub mod stars;
pub mod tables;

use agreement::answers;
use agreement::library::{self, MendReply, Reply};
use reference::mend;
use reference::refusal::Refusal;
use reference::sheet::{self, WORDS};
use std::fmt::Debug;

extern "C" {
    // The guide's exports, as include/ukhtvaresh.h declares those of the archive.
    fn guide_read(input: *const u8, length: usize, room: *mut u32, room_len: usize, value: *mut u64) -> u64;
    fn guide_listing(input: *const u8, length: usize, room: *mut u8, room_len: usize, value: *mut u64)
        -> u64;
    fn guide_write(input: *const u32, length: usize, room: *mut u8, room_len: usize, value: *mut u64) -> u64;
    fn guide_mend(
        file: *const u8,
        file_len: usize,
        sheets: *mut u8,
        sheets_len: usize,
        dropped: *mut u8,
        dropped_len: usize,
        kept: *mut u64,
        noted: *mut u64,
    ) -> u64;
}

type Export<S, T> = unsafe extern "C" fn(*const S, usize, *mut T, usize, *mut u64) -> u64;

fn guide<S, T>(export: Export<S, T>, input: &[S], room: &mut [T]) -> Reply {
    let mut value = 0;
    let number = unsafe { export(input.as_ptr(), input.len(), room.as_mut_ptr(), room.len(), &mut value) };
    (number, value)
}

/// Numbers past a buffer's end, which nobody may write.
const PAST: usize = 64;

/// What a call left: the reply, and the whole buffer with what lies past its end.
#[derive(PartialEq)]
struct Left<T> {
    reply: Reply,
    buffer: Vec<T>,
}

/// What a buffer of bytes holds before a call.
fn old_byte(at: usize) -> u8 {
    (at as u8).wrapping_mul(167) ^ 0xA5
}

/// And a buffer of numbers.
fn old_number(at: usize) -> u32 {
    (at as u32).wrapping_mul(0x9E37_79B9) ^ 0xA5A5_5A5A
}

fn left<T>(room: usize, old: fn(usize) -> T, call: impl FnOnce(&mut [T]) -> Reply) -> Left<T> {
    let mut buffer: Vec<T> = (0..room + PAST).map(old).collect();
    let reply = call(&mut buffer[..room]);
    Left { reply, buffer }
}

fn reply(result: Result<usize, Refusal>) -> Reply {
    match result {
        Ok(value) => (0, value as u64),
        Err(refusal) => (refusal.number().into(), refusal.place() as u64),
    }
}

fn differ(what: &str, given: &[u8]) -> ! {
    let bytes: String = given.iter().map(|byte| format!("{byte:02x}")).collect();
    eprintln!("DIFFERENCE in {what}\ngiven {bytes}");
    std::process::abort()
}

fn must_agree<T: PartialEq + Debug>(what: &str, given: &[u8], room: usize, ours: &Left<T>, theirs: &Left<T>) {
    if ours == theirs {
        return;
    }
    eprintln!("room {room}, {what} {:?}, reference {:?}", ours.reply, theirs.reply);
    if let Some(at) = ours.buffer.iter().zip(&theirs.buffer).position(|(a, b)| a != b) {
        eprintln!("buffers from {at} on: {:?}, reference {:?}", ours.buffer[at], theirs.buffer[at]);
    }
    differ(what, given)
}

/// A sheet that reads well is written back to the same bytes.
fn must_come_back(sheet: &[u8]) {
    let mut entries = vec![0; WORDS * sheet.len()];
    let (number, count) = library::read(sheet, &mut entries);
    let mut again = vec![0; sheet.len()];
    let written = library::write(&entries[..WORDS * count as usize], &mut again);
    if number != 0 || written != (0, sheet.len() as u64) || again != sheet {
        differ("a sheet read and written again", sheet);
    }
}

/// The length of the buffer where `needed` would do: from exactly that to far less and far more, by two bytes of the
/// input.
fn room(needed: usize, near: u8, far: u8) -> usize {
    needed.saturating_add_signed((near as i8 as isize) << (far % 8))
}

/// Two bytes for the buffer's length, then the sheet.
pub fn read(input: &[u8]) {
    let &[near, far, ref stored @ ..] = input else { return };
    let records = sheet::records_of(stored);
    let room = room(records.as_ref().map_or(0, |records| WORDS * records.len()), near, far);
    let theirs = left(room, old_number, |room| reply(sheet::read(stored, room)));
    let ours = left(room, old_number, |room| library::read(stored, room));
    must_agree("ukhtvaresh_read", stored, room, &ours, &theirs);
    let guided = left(room, old_number, |room| guide(guide_read, stored, room));
    must_agree("ukhtvaresh_read with counters", stored, room, &guided, &theirs);
    let theirs = left(0, old_byte, |_| reply(mend::extent(stored)));
    let ours = left(0, old_byte, |_| library::extent(stored));
    must_agree("ukhtvaresh_extent", stored, 0, &ours, &theirs);
    if records.is_ok() {
        must_come_back(stored);
    }
}

/// Two bytes for the buffer's length, then the sheet.
pub fn listing(input: &[u8]) {
    let &[near, far, ref stored @ ..] = input else { return };
    let needed = match answers::listing(stored, &mut []) {
        Err(Refusal::Room(needed)) => needed,
        _ => 0,
    };
    let room = room(needed, near, far);
    let theirs = left(room, old_byte, |room| reply(answers::listing(stored, room)));
    let ours = left(room, old_byte, |room| library::listing(stored, room));
    must_agree("ukhtvaresh_listing", stored, room, &ours, &theirs);
    let guided = left(room, old_byte, |room| guide(guide_listing, stored, room));
    must_agree("ukhtvaresh_listing with counters", stored, room, &guided, &theirs);
}

/// Two bytes for the buffer's length, then the numbers of the entries, four bytes each, the highest first.
pub fn write(input: &[u8]) {
    let &[near, far, ref raw @ ..] = input else { return };
    let entries: Vec<u32> =
        raw.chunks_exact(4).map(|b| u32::from_be_bytes([b[0], b[1], b[2], b[3]])).collect();
    let mut plenty = vec![0; 7 * entries.len() + 7];
    let room = room(sheet::write(&entries, &mut plenty).unwrap_or(0), near, far);
    let theirs = left(room, old_byte, |room| reply(sheet::write(&entries, room)));
    let ours = left(room, old_byte, |room| library::write(&entries, room));
    must_agree("ukhtvaresh_write", raw, room, &ours, &theirs);
    let guided = left(room, old_byte, |room| guide(guide_write, &entries, room));
    must_agree("ukhtvaresh_write with counters", raw, room, &guided, &theirs);
    if let (0, length) = ours.reply {
        must_come_back(&ours.buffer[..length as usize]);
    }
}

/// The input that libFuzzer hands over.
///
/// # Safety
/// `data` and `size` are a slice.
pub unsafe fn input<'a>(data: *const u8, size: usize) -> &'a [u8] {
    if size == 0 {
        &[]
    } else {
        std::slice::from_raw_parts(data, size)
    }
}

fn guide_mended(file: &[u8], sheets: &mut [u8], dropped: &mut [u8]) -> MendReply {
    let (mut kept, mut noted) = (0, 0);
    let (sheets, sheets_len) = (sheets.as_mut_ptr(), sheets.len());
    let (dropped, dropped_len) = (dropped.as_mut_ptr(), dropped.len());
    let number = unsafe {
        guide_mend(file.as_ptr(), file.len(), sheets, sheets_len, dropped, dropped_len, &mut kept, &mut noted)
    };
    (number, kept, noted)
}

/// Two bytes for the length of each of the two buffers, then the file.
pub fn mend(input: &[u8]) {
    let &[near, far, near_notes, far_notes, ref file @ ..] = input else { return };
    let mended = mend::mend(file);
    let rooms =
        [room(mended.sheets.len(), near, far), room(16 * mended.stretches.len(), near_notes, far_notes)];
    let left = |call: &dyn Fn(&mut [u8], &mut [u8]) -> MendReply| {
        let mut kept: Vec<u8> = (0..rooms[0] + PAST).map(old_byte).collect();
        let mut notes: Vec<u8> = (0..rooms[1] + PAST).map(old_byte).collect();
        (call(&mut kept[..rooms[0]], &mut notes[..rooms[1]]), kept, notes)
    };
    let theirs = left(&|kept, notes| match mend::mend_into(file, kept, notes) {
        Ok((kept, noted)) => (0, kept as u64, noted as u64),
        Err(refusal) => (refusal.number().into(), refusal.place() as u64, 0),
    });
    for (what, ours) in [
        ("ukhtvaresh_mend", left(&|kept, notes| library::mend(file, kept, notes))),
        ("ukhtvaresh_mend with counters", left(&|kept, notes| guide_mended(file, kept, notes))),
    ] {
        if ours != theirs {
            eprintln!("rooms {rooms:?}, {what} {:?}, reference {:?}", ours.0, theirs.0);
            differ(what, file);
        }
    }
}
