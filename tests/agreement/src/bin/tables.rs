//! `tables N SEED`: the compiled library's elements from tables of Sun and Moon against document 02, wish 2, in plain
//! Rust.
//!
//! Compared for each call: the refusal's number, the value beside it, the numbers past the values, on refusal all
//! numbers; and each value is compared with its exact one. Rows are drawn near the ecliptic and anywhere, at their
//! limits and one unit off, at the ends of 64 bits; lists of other lengths, and buffers that are short.
//!
//! Prints counts; the first difference stops it with all that gives it again.

use agreement::{draws, library, rows};
use reference::random::Random;
use reference::tables::{accepted, check, first_far, NUMBERS, VALUES};

const PAST: usize = 16;

fn main() {
    let arguments: Vec<u64> = std::env::args().skip(1).map(|a| a.parse().expect("a number")).collect();
    let [count, seed] = arguments[..] else {
        eprintln!("usage: tables N SEED");
        std::process::exit(2);
    };
    let mut random = Random::new(seed);
    let mut replies = [0u64; 12];
    let mut places = [0u64; 7];
    for _ in 0..count {
        let mut numbers = Vec::new();
        while numbers.len() < NUMBERS {
            let drawn = rows::row(&mut random);
            // most tables are accepted up to a late row
            if accepted(&drawn) || random.once_in(6) {
                numbers.extend(drawn);
            }
        }
        if random.once_in(32) {
            numbers.resize(random.below(2 * NUMBERS as u64) as usize, 0);
        }
        let room = if random.once_in(4) { draws::room(&mut random, VALUES) } else { VALUES };
        let old: Vec<i64> = (0..room + PAST).map(|_| random.bits() as i64).collect();
        let mut values = old.clone();
        let (number, value) = library::from_tables(&numbers, &mut values[..room]);
        let wrong = match check(&numbers, room) {
            Err(refusal) => {
                (number, value) != (refusal.number().into(), refusal.place() as u64) || values != old
            }
            Ok(rows) => {
                let far = rows
                    .iter()
                    .zip(values.chunks_exact(8))
                    .any(|(row, eight)| first_far(row, eight).is_some());
                (number, value) != (0, VALUES as u64) || far || values[VALUES..] != old[VALUES..]
            }
        };
        if wrong {
            println!("DIFFERENCE in ukhtvaresh_from_tables, room {room}: {number} {value}");
            println!("given {numbers:?}");
            println!("values {values:?}");
            std::process::exit(1);
        }
        replies[number as usize] += 1;
        if number == 11 {
            places[value as usize] += 1;
        }
    }
    let parts = replies.iter().enumerate().filter(|(_, &n)| n > 0).map(|(k, n)| format!("{k}: {n}"));
    println!("tables {count} calls, by number {}", parts.collect::<Vec<_>>().join(", "));
    println!("11 by row {places:?}");
    println!("no difference");
}
