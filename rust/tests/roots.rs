//! Document 02's rounds of the root through the crate, against Rust's own root and leading zeros.

use ukhtvaresh::{root, Root};

fn same(n: u64) {
    let bits = 64 - n.leading_zeros();
    assert_eq!(root(n), Root { root: n.isqrt(), rounds: bits.div_ceil(2) }, "{n}");
}

#[test]
fn up_to_70_000() {
    (0..=70_000).for_each(same);
}

#[test]
fn squares_and_their_neighbours() {
    let edges = (0..=32).flat_map(|k| [(1u64 << k) - 1, 1 << k, (1 << k) + 1]);
    let spread = (0..20_000u64).map(|k| k * 214_748 + k % 7);
    for side in edges.chain(spread).filter(|side| *side < 1 << 32) {
        let square = side * side;
        [square.saturating_sub(1), square, square + 1].into_iter().for_each(same);
    }
    same(u64::MAX);
}

#[test]
fn ends_of_each_count_of_bits() {
    for bits in 0..64 {
        same(1 << bits);
        same(u64::MAX >> bits);
    }
}

#[test]
fn rounds() {
    let rounds = |n| root(n).rounds;
    assert_eq!([0, 1, 2, 3, 4, 15, 16].map(rounds), [0, 1, 1, 1, 2, 2, 3]);
    assert_eq!([(1 << 60) - 1, 1 << 60, u64::MAX].map(rounds), [30, 31, 32]);
}
