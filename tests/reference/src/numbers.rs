//! Rounding and the square root.

/// near(n/k): the sign of n times its size over k to the nearest, where a half is added to the size and the rest
/// dropped, so halves go away from zero. For k above 0; 2|n| + k must fit in 64 bits.
#[inline]
pub const fn near(n: i64, k: i64) -> i64 {
    n.signum() * ((2 * n.abs() + k) / (2 * k))
}

/// The largest whole number whose square is at most n, for n not negative.
#[inline]
pub const fn root(n: i64) -> i64 {
    n.isqrt()
}

/// Rounds of the root of n: the binary digits are crossed off two at a time from the right, a single one left over by
/// itself; 0 has none.
pub fn rounds(n: u64) -> u64 {
    let mut digits = match n {
        0 => String::new(),
        _ => format!("{n:b}"),
    };
    let mut rounds = 0;
    while digits.pop().is_some() {
        digits.pop();
        rounds += 1;
    }
    rounds
}
