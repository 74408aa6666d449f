//! `network LISTS SEED`: the compiled library's answers to lists of stations against document 02, wish 10, in plain
//! Rust.
//!
//! Compared for each call: the refusal's number, the value beside it, and the buffers for steps and for table S with 64
//! numbers past their ends. Lists are stars, chains, trees, rings and chains into rings, of 1 to 64 stations side by
//! side, at one place or anywhere, in any order; with numbers used twice, clocks of no station, numbers outside their
//! ranges, up to the ends of 64 bits; none, 65 and more; other lengths of the eclipse, of the steps and of the buffer
//! for table S. Of each list that is not refused the named station is compared with the sheets that the library writes
//! one by one, and the steps against what each clock says.
//!
//! Prints counts; the first difference stops it with all that gives it again.

use agreement::draws;
use agreement::networks::{by_sheets, network_both};
use reference::elements::Station;
use reference::network::{Network, Node, ECLIPSE, MOST};
use reference::random::Random;
use reference::room::SINES;
use reference::sample_network::{draw, list, shaped, Shape, SHAPES};
use std::collections::BTreeMap;
use std::time::Instant;

/// How often each number was answered, and what was seen of lists that are not refused.
#[derive(Default)]
struct Counts {
    replies: BTreeMap<u64, u64>,
    lists: u64,
    stations: u64,
    entered: u64,
    named: u64,
    ties: u64,
    steps: u64,
}

impl Counts {
    /// A list in buffers that are long enough, then in others, with an eclipse of another length once in a while.
    fn compare(&mut self, random: &mut Random, asked: &Network) {
        let ((number, named), steps) = network_both(random, &asked.eclipse(), asked, SINES, MOST);
        *self.replies.entry(number).or_default() += 1;
        if number == 0 {
            let seen = by_sheets(asked, named, &steps[..MOST]);
            self.lists += 1;
            self.stations += asked.nodes.len() as u64;
            self.entered += seen.entered as u64;
            self.named += u64::from(named != 0);
            self.ties += u64::from(seen.tie);
            self.steps = self.steps.max(seen.steps);
        }
        let lent = draws::sines_room(random);
        let mut eclipse = asked.eclipse();
        let mut room = MOST;
        match random.below(8) {
            0 => eclipse.resize(draws::room(random, ECLIPSE), 0),
            1 => room = draws::room(random, MOST),
            _ => {}
        }
        let ((number, _), _) = network_both(random, &eclipse, asked, lent, room);
        *self.replies.entry(number).or_default() += 1;
    }

    fn print(&self) {
        let Counts { lists, stations, entered, named, ties, steps, .. } = self;
        let parts: Vec<String> =
            self.replies.iter().map(|(number, count)| format!("{number}: {count}")).collect();
        println!("network calls by number {}", parts.join(", "));
        println!(
        "network {lists} lists answered, {stations} stations, of them {entered} enter; a station named in {named},"
    );
        println!("network another at the same second in {ties}; {steps} steps at most");
    }
}

/// Every list of one to three stations with numbers 1 to 3, also used twice, and clocks 0 to 4, at one place and in a
/// window of one second.
fn small_lists(random: &mut Random, counts: &mut Counts) {
    let asked = shaped(random, Shape::Star, 1);
    let station = asked.nodes[0].station;
    for count in 1..=3u32 {
        for choice in 0..5i64.pow(count) * 3i64.pow(count) {
            let node = |place: u32| {
                let (clock, number) = (choice / 15i64.pow(place) % 15 / 3, choice / 15i64.pow(place) % 3 + 1);
                Node { station: Station { number, ..station }, clock }
            };
            let mut one = Network { nodes: (0..count).map(node).collect(), ..asked.clone() };
            one.window.last = one.window.first;
            counts.compare(random, &one);
        }
    }
}

/// Of 64 stations, the most there may be, each shape; and one station more.
fn full_lists(random: &mut Random, counts: &mut Counts) {
    for shape in SHAPES {
        let mut asked = shaped(random, shape, MOST);
        asked.window.last = asked.window.last.min(asked.window.first + 600);
        counts.compare(random, &asked);
        let stations: Vec<_> = asked.nodes.iter().map(|node| node.station).collect();
        asked.nodes = list(random, shape, &stations);
        counts.compare(random, &asked);
        asked.nodes.push(asked.nodes[0]);
        counts.compare(random, &asked);
    }
}

fn main() {
    let mut arguments = std::env::args().skip(1).map(|word| word.parse().expect("usage: network LISTS SEED"));
    let (lists, seed) = (arguments.next().unwrap_or(2_500), arguments.next().unwrap_or(1));
    let start = Instant::now();
    let mut random = Random::new(seed);
    let mut counts = Counts::default();
    small_lists(&mut random, &mut counts);
    for _ in 0..8 {
        full_lists(&mut random, &mut counts);
    }
    for _ in 0..lists {
        let asked = draw(&mut random);
        counts.compare(&mut random, &asked);
    }
    println!("network {lists} lists drawn agree, {:.1} s", start.elapsed().as_secs_f64());
    counts.print();
}
