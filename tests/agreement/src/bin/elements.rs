//! `elements N SEED`: the compiled library's elements from rows against docs/ELEMENTS.md in plain Rust.
//!
//! Compared for each call: the refusal's number, the value beside it, and every number of the three buffers, on refusals
//! too. Drawn are hours around conjunctions, numbers at their limits, lists of other lengths and rooms that are short.
//!
//! Prints counts; the first difference stops it with all that gives it again.

use agreement::{both, rows};
use reference::random::Random;

fn main() {
    let arguments: Vec<u64> = std::env::args().skip(1).map(|a| a.parse().expect("a number")).collect();
    let [count, seed] = arguments[..] else {
        eprintln!("usage: elements N SEED");
        std::process::exit(2);
    };
    let mut random = Random::new(seed);
    let mut replies = [0u64; 22];
    let mut fits = [0u64; 6];
    for _ in 0..count {
        let given = rows::given(&mut random);
        let mut rooms = [901, 22, 6];
        if random.once_in(4) {
            let at = random.below(3) as usize;
            rooms[at] = random.below(2 * rooms[at] as u64) as usize;
        }
        let (number, value) = both::elements_both(&mut random, &given, rooms);
        replies[number as usize] += 1;
        if number == 17 {
            fits[value as usize / 10] += 1;
        }
    }
    let parts = replies.iter().enumerate().filter(|(_, &n)| n > 0).map(|(k, n)| format!("{k}: {n}"));
    println!("elements {count} calls, by number {}", parts.collect::<Vec<_>>().join(", "));
    println!("17 by fit {fits:?}");
    println!("no difference");
}
