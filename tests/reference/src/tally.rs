//! What was seen of requests whose claims were checked: counts, and the worst of each error with its request.

use crate::course::Course;
use crate::random::Random;
use crate::sheet::Family;

/// The largest of something seen, and where.
pub struct Worst<C> {
    value: f64,
    seen: Option<(C, i64)>,
}

impl<C: Course> Worst<C> {
    fn new() -> Worst<C> {
        Worst { value: f64::NEG_INFINITY, seen: None }
    }

    pub fn look(&mut self, value: f64, request: C, second: i64) {
        if value > self.value {
            *self = Worst { value, seen: Some((request, second)) };
        }
    }
}

/// What was seen of a phase.
pub struct Counts<C> {
    /// outside, inside, unsure.
    pub states: [u64; 3],
    /// within the guard plus 24 units of the edge.
    pub close: u64,
    /// enter, leave, graze, open.
    pub entries: [u64; 4],
    pub l: Worst<C>,
}

/// What was seen of all requests.
pub struct Tally<C> {
    pub random: Random,
    pub seconds: u64,
    pub requests: u64,
    pub phases: Vec<Counts<C>>,
    pub withheld: u64,
    pub changes: u64,
    pub changes_in_graze_or_open: u64,
    pub laws: u64,
    pub limits: Vec<[bool; 2]>,
    pub u: Worst<C>,
    pub v: Worst<C>,
    pub whole: Worst<C>,
    pub unsure_reach: Worst<C>,
    pub sure_reach: Worst<C>,
    pub longest_unsure: i64,
}

impl<C: Course> Tally<C> {
    pub fn new(seed: u64) -> Tally<C> {
        let counts = |_: &Family| Counts { states: [0; 3], close: 0, entries: [0; 4], l: Worst::new() };
        Tally {
            random: Random::new(seed),
            seconds: 0,
            requests: 0,
            phases: C::FAMILIES.iter().map(counts).collect(),
            withheld: 0,
            changes: 0,
            changes_in_graze_or_open: 0,
            laws: 0,
            limits: vec![[false; 2]; C::ranges().len()],
            u: Worst::new(),
            v: Worst::new(),
            whole: Worst::new(),
            unsure_reach: Worst::new(),
            sure_reach: Worst::new(),
            longest_unsure: 0,
        }
    }

    pub fn print(&self) {
        println!(
            "requests {}, seconds {}, cases of the 13-unit law {}",
            self.requests, self.seconds, self.laws
        );
        let touched = self.limits.iter().flatten().filter(|&&touched| touched).count();
        println!("limits touched: {touched} of {}", 2 * self.limits.len());
        for (family, counts) in C::FAMILIES.iter().zip(&self.phases) {
            let ([outside, inside, unsure], [enter, leave, graze, open]) = (counts.states, counts.entries);
            println!(
                "{family:?}: outside {outside}, inside {inside}, unsure {unsure}, \
                 within the guard plus 24 of the edge {}",
                counts.close
            );
            println!("{family:?}: entries: enter {enter}, leave {leave}, graze {graze}, open {open}");
        }
        println!(
            "exact changes {}, of them in a graze or open {}",
            self.changes, self.changes_in_graze_or_open
        );
        println!("sure under a guard and unsure under the next larger one: {}", self.withheld);
        println!("longest unsure spell {} s", self.longest_unsure);
        let named = |name: &str, worst: &Worst<C>| {
            println!("{name} {:.4}", worst.value);
            if let Some((request, second)) = &worst.seen {
                println!("    at {second} with {:?}", request.numbers());
            }
        };
        named("u off by", &self.u);
        named("v off by", &self.v);
        for (family, counts) in C::FAMILIES.iter().zip(&self.phases) {
            named(&format!("L of {family:?} off by"), &counts.l);
        }
        named("distance less L off by", &self.whole);
        named("unsure, farther from the edge than the guard by", &self.unsure_reach);
        named("sure, nearer to the edge than the guard by", &self.sure_reach);
    }
}
