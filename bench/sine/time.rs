//! Nanoseconds a sine, by quadrants and by turns over one table for each call; and to fill a buffer with the table.
//! The best of 200 runs of each, in turn.
use std::hint::black_box;
use std::time::Instant;

#[link(name = "sine_speed", kind = "static")]
extern "C" {
    fn sines_lent(out: *mut i64, length: usize);
    fn sines_turns(out: *mut i64, length: usize);
    fn sines_room(room: *mut u32, length: usize);
}

const ANGLES: usize = 3600;

fn nanoseconds<T>(run: unsafe extern "C" fn(*mut T, usize), out: &mut [T]) -> f64 {
    let start = Instant::now();
    unsafe { run(black_box(out.as_mut_ptr()), out.len()) };
    start.elapsed().as_nanos() as f64
}

fn main() {
    let ways = [sines_lent, sines_turns];
    let mut sines = [(); 2].map(|()| vec![0; ANGLES]);
    let mut room = vec![0; 901];
    let mut best = [f64::INFINITY; 2];
    let mut fill = f64::INFINITY;
    for _ in 0..200 {
        for (way, run) in ways.iter().enumerate() {
            best[way] = best[way].min(nanoseconds(*run, &mut sines[way]) / ANGLES as f64);
        }
        fill = fill.min(nanoseconds(sines_room, &mut room));
    }
    assert!(sines[0] == sines[1] && room[900] == 100_000_000);
    let [lent, turns] = best;
    println!("lent {lent:.1} ns, by turns {turns:.1} ns, ratio {:.2}; a room filled in {fill:.0} ns", lent / turns);
}
