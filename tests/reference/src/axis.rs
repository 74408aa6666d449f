//! A shadow's axis put near the edge at a second, along it, or slowed down over the station: what makes a request
//! difficult.

use crate::elements::{ELEMENT_RANGES, FARTHEST};
use crate::random::Random;
use crate::shadow::GUARD;
use std::f64::consts::TAU;

/// A request within its ranges whose axis can be moved, an eclipse's or a star's.
pub trait Axis: Copy {
    type Phase: Copy;

    /// u and v at a second.
    fn apart(&self, second: i64) -> (i64, i64);
    /// L of a phase at a second.
    fn l(&self, second: i64, phase: Self::Phase) -> i64;
    fn guard(&self) -> i64;
    /// The coefficients of x and y.
    fn coefficients(&mut self) -> [&mut [i64; 4]; 2];
}

/// How far from the cone's edge: at most 40 units either way under document 01's guard, farther out by what another
/// is more.
pub fn beyond(random: &mut Random, guard: i64) -> i64 {
    let drawn = random.within(&(-40..=40));
    drawn + (guard - GUARD) * drawn.signum()
}

/// Change x or y so that its value at a second moves by `shift`: the constant, and where that meets its
/// limit the hourly change. False, and nothing changed, where neither can change that far.
fn move_by(coefficients: &mut [i64; 4], second: i64, shift: i64) -> bool {
    let wanted = coefficients[0] + shift;
    let constant = wanted.clamp(*ELEMENT_RANGES[0].start(), *ELEMENT_RANGES[0].end());
    let rest = wanted - constant;
    let hourly = match (rest, second) {
        (0, _) => coefficients[1],
        (_, 0) => return false,
        _ => coefficients[1] + rest * 3600 / second,
    };
    let possible = ELEMENT_RANGES[1].contains(&hourly);
    if possible {
        coefficients[0] = constant;
        coefficients[1] = hourly;
    }
    possible
}

/// Put the axis at a distance of L plus `beyond` from the station at a second, in the direction `angle`
/// (radians). False where the elements cannot be moved that far.
pub fn put<A: Axis>(request: &mut A, second: i64, phase: A::Phase, beyond: i64, angle: f64) -> bool {
    let distance = (request.l(second, phase) + beyond).max(0) as f64;
    let (sine, cosine) = angle.sin_cos();
    let (u, v) = ((distance * sine).round() as i64, (distance * cosine).round() as i64);
    let now = request.apart(second);
    let mut moved = *request;
    let [x, y] = moved.coefficients();
    let done = move_by(x, second, u - now.0) && move_by(y, second, v - now.1);
    if done {
        *request = moved;
    }
    done
}

/// Put the axis near the edge in any direction that the elements allow, if there is one.
pub fn put_near_edge<A: Axis>(random: &mut Random, request: &mut A, second: i64, phase: A::Phase) {
    for _ in 0..12 {
        let beyond = beyond(random, request.guard());
        let angle = random.below(1 << 20) as f64 / (1 << 20) as f64 * TAU;
        if put(request, second, phase, beyond, angle) {
            return;
        }
    }
}

/// A minute before a second and a minute after it, and how u and v change between them.
fn way<A: Axis>(request: &A, second: i64) -> (i64, (i64, i64)) {
    let (before, after) = ((second - 60).max(-FARTHEST), (second + 60).min(FARTHEST));
    let (a, b) = (request.apart(before), request.apart(after));
    (after - before, (b.0 - a.0, b.1 - a.1))
}

/// Stop the axis over the station at a second, but for `u_rate` and `v_rate` units an hour.
pub fn slow_down<A: Axis>(request: &mut A, second: i64, u_rate: i64, v_rate: i64) {
    let (seconds, (u, v)) = way(request, second);
    let [x, y] = request.coefficients();
    for (coefficients, change, rate) in [(x, u, u_rate), (y, v, v_rate)] {
        let hourly = coefficients[1] - change * 3600 / seconds + rate;
        coefficients[1] = hourly.clamp(*ELEMENT_RANGES[1].start(), *ELEMENT_RANGES[1].end());
    }
}

/// Let the axis pass along the edge at a second: its way at right angles to the direction of the station,
/// L plus `beyond` off. False where the elements cannot be moved that far.
pub fn put_along_edge<A: Axis>(request: &mut A, second: i64, phase: A::Phase, beyond: i64) -> bool {
    let (_, (u, v)) = way(request, second);
    put(request, second, phase, beyond, (v as f64).atan2(-u as f64))
}
