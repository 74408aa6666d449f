//! `mend FILES SEED`: the compiled library's mending of year files against document 02, wish 11, in plain Rust.
//!
//! Compared for each call: the refusal's number, both values, and both buffers with 64 bytes past their ends. Files are
//! drawn whole and damaged, the buffers exact, one short, none, plenty; and a file of three sheets has holes of every
//! length at every place: bytes that are missing, and bytes that are 0, 1 or 255. What was kept is mended again.
//!
//! Prints counts; the first difference stops it with all that gives it again.

use agreement::library::{self, MendReply};
use agreement::{draws, files};
use reference::mend::{mend, mend_into, notes};
use reference::random::Random;

const PAST: usize = 64;

/// A buffer with canaries past its end.
fn room(random: &mut Random, length: usize) -> Vec<u8> {
    (0..length + PAST).map(|_| random.bits() as u8).collect()
}

fn both(random: &mut Random, file: &[u8], sheets: usize, dropped: usize) -> MendReply {
    let old = (room(random, sheets), room(random, dropped));
    let mut ours = old.clone();
    let our_reply = library::mend(file, &mut ours.0[..sheets], &mut ours.1[..dropped]);
    let mut theirs = old;
    let their_reply = match mend_into(file, &mut theirs.0[..sheets], &mut theirs.1[..dropped]) {
        Ok((kept, noted)) => (0, kept as u64, noted as u64),
        Err(refusal) => (refusal.number().into(), refusal.place() as u64, 0),
    };
    if our_reply != their_reply || ours != theirs {
        println!("DIFFERENCE in ukhtvaresh_mend");
        println!("given {file:?}, rooms {sheets} and {dropped}");
        println!("library {our_reply:?}, reference {their_reply:?}");
        std::process::exit(1);
    }
    our_reply
}

/// The library and the reference in buffers that are long enough; what was kept then mended again: nothing changes,
/// nothing is dropped.
fn with_room(random: &mut Random, file: &[u8]) -> usize {
    let mended = mend(file);
    both(random, file, mended.sheets.len(), 16 * mended.stretches.len());
    let again = both(random, &mended.sheets, mended.sheets.len(), 0);
    assert_eq!(again, (0, mended.sheets.len() as u64, 0), "mended again: {:?}", mended.sheets);
    mended.stretches.len()
}

fn main() {
    let mut arguments = std::env::args().skip(1).map(|word| word.parse().expect("usage: mend FILES SEED"));
    let (count, seed) = (arguments.next().unwrap_or(100_000), arguments.next().unwrap_or(1));
    let mut random = Random::new(seed);
    let (mut short, mut whole, mut stretches) = (0u64, 0u64, 0u64);
    for _ in 0..count {
        let file = files::file(&mut random);
        stretches += with_room(&mut random, &file) as u64;
        let mended = mend(&file);
        let sheets = draws::room(&mut random, mended.sheets.len());
        let dropped = draws::room(&mut random, notes(&mended.stretches).len());
        match both(&mut random, &file, sheets, dropped).0 {
            0 => whole += 1,
            _ => short += 1,
        }
    }
    println!("mend    {count} files, {stretches} stretches; in other rooms {whole} mended, {short} refused");

    let three: Vec<u8> = (0..3).flat_map(|_| files::whole_sheet(&mut random)).collect();
    let mut holes = 0;
    for from in 0..three.len() {
        for to in from + 1..=three.len() {
            with_room(&mut random, &[&three[..from], &three[to..]].concat());
            for filler in [0, 1, 255] {
                let mut file = three.clone();
                file[from..to].fill(filler);
                with_room(&mut random, &file);
            }
            holes += 4;
        }
    }
    println!("mend    {holes} holes in a file of three sheets, {} bytes", three.len());
}
