//! Networks to try: stars, chains, trees, rings and chains into rings, clocks of no station, numbers used twice;
//! stations side by side, at one place, or anywhere.

use crate::elements::{Elements, Station, Window, ELEMENT_RANGES, FARTHEST, STATION_RANGES};
use crate::network::{Network, Node, MOST};
use crate::random::Random;
use crate::request::Request;
use crate::sample::{self, put_near_edge, Manner};
use crate::shadow::{Phase, GUARDS};
use std::ops::RangeInclusive;

/// How the clocks hang together.
#[derive(Clone, Copy, PartialEq, Eq, Debug)]
pub enum Shape {
    /// Each follows the antenna.
    Star,
    /// Each follows the one before it, the first the antenna.
    Chain,
    /// Each follows one before it or the antenna.
    Tree,
    /// Each follows any other or the antenna: trees, rings, and chains that lead into a ring.
    Any,
    /// Some follow one another round, the others a tree.
    Ring,
}

pub const SHAPES: [Shape; 5] = [Shape::Star, Shape::Chain, Shape::Tree, Shape::Any, Shape::Ring];

/// The place that each place follows, or nothing for the antenna.
fn followed(random: &mut Random, shape: Shape, count: usize) -> Vec<Option<usize>> {
    let mut below = |count: usize| random.below(count as u64) as usize;
    let mut follows: Vec<Option<usize>> = (0..count)
        .map(|place| match shape {
            Shape::Star => None,
            Shape::Chain => place.checked_sub(1),
            Shape::Tree | Shape::Ring => below(place + 1).checked_sub(1),
            Shape::Any => below(count + 1).checked_sub(1),
        })
        .collect();
    if shape == Shape::Ring && count > 0 {
        let first = below(count);
        let last = first + below(count - first);
        for (place, follow) in follows.iter_mut().enumerate().take(last + 1).skip(first) {
            *follow = Some(if place == last { first } else { place + 1 });
        }
    }
    follows
}

/// The list in another order.
fn shuffle<T>(random: &mut Random, list: &mut [T]) {
    for last in (1..list.len()).rev() {
        list.swap(last, random.below(last as u64 + 1) as usize);
    }
}

/// A list of these stations with numbers of their own and clocks of this shape, in any order or in that of its chains.
pub fn list(random: &mut Random, shape: Shape, stations: &[Station]) -> Vec<Node> {
    let mut numbers: Vec<i64> = STATION_RANGES[0].clone().collect();
    shuffle(random, &mut numbers);
    if random.once_in(4) {
        numbers[..stations.len()].sort();
    }
    let follows = followed(random, shape, stations.len());
    let node_of = |(place, station): (usize, &Station)| Node {
        station: Station { number: numbers[place], ..*station },
        clock: follows[place].map_or(0, |other| numbers[other]),
    };
    let mut nodes: Vec<Node> = stations.iter().enumerate().map(node_of).collect();
    if random.once_in(2) {
        shuffle(random, &mut nodes);
    }
    nodes
}

/// How many stations: one, a few, 64, or any number up to it.
pub fn count(random: &mut Random) -> usize {
    match random.below(8) {
        0 => 1,
        1..=3 => 2 + random.below(10) as usize,
        4 => MOST,
        5 => MOST - 1,
        _ => 1 + random.below(MOST as u64) as usize,
    }
}

/// A station near another: at the same place, some kilometres or some hundreds off, or anywhere.
fn beside(random: &mut Random, station: &Station) -> Station {
    let off = match random.below(8) {
        0 | 1 => return *station,
        2 => 1_000,
        3..=5 => 100_000,
        6 => 3_000_000,
        _ => return sample::draw(random, Manner::Anywhere).station,
    };
    let mut near = |number: i64, field: usize| {
        let range = &STATION_RANGES[field];
        (number + random.within(&(-off..=off))).clamp(*range.start(), *range.end())
    };
    Station { latitude: near(station.latitude, 1), longitude: near(station.longitude, 2), ..*station }
}

/// An eclipse whose penumbra's edge passes near a station in the middle of the window, or is far from it.
fn eclipse(random: &mut Random) -> Request {
    let manners = [Manner::Anywhere, Manner::AtLimits, Manner::Natural, Manner::Natural];
    let manner = manners[random.below(4) as usize];
    let mut request = sample::draw(random, manner);
    let second = request.window.first;
    if !random.once_in(8) {
        put_near_edge(random, &mut request, second, Phase::Penumbra);
    }
    let length = match random.below(400) {
        0 => 2 * FARTHEST,
        1..=40 => random.within(&(0..=12)),
        41..=80 => random.within(&(500..=2_000)),
        _ => random.within(&(12..=500)),
    };
    let first = (second - random.within(&(0..=length))).max(-FARTHEST);
    Request { window: Window { first, last: (first + length).min(FARTHEST) }, ..request }
}

/// A network that is not refused for a number outside its range; its clocks of this shape.
pub fn shaped(random: &mut Random, shape: Shape, count: usize) -> Network {
    let Request { elements, station, window, guard, .. } = eclipse(random);
    let stations: Vec<Station> = (0..count).map(|_| beside(random, &station)).collect();
    let nodes = list(random, shape, &stations);
    Network { elements, window, guard, nodes }
}

/// Outside a range by one, by much, or at an end of 64 bits.
fn past(random: &mut Random, range: &RangeInclusive<i64>) -> i64 {
    match random.below(6) {
        0 | 1 => range.start() - 1,
        2 | 3 => range.end() + 1,
        4 => [i64::MIN, i64::MAX][random.below(2) as usize],
        _ => range.end() + 1 + random.below(1 << 40) as i64,
    }
}

/// One fault: a list of another length, a number outside its range, a number used twice, a clock of no station, a
/// station that follows itself, two that follow each other.
pub fn fault(random: &mut Random, network: &mut Network) {
    let sort = random.below(10);
    if sort == 0 {
        let count = [0, MOST + 1, MOST + 2, 2 * MOST][random.below(4) as usize];
        let spare = Node { station: sample::hand_worked().station, clock: 0 };
        return network.nodes.resize(count, spare);
    }
    if sort == 1 {
        let (first, last) =
            [(1, 0), (-FARTHEST - 1, 0), (0, FARTHEST + 1), (i64::MIN, i64::MAX)][random.below(4) as usize];
        network.window = Window { first, last };
    } else if sort == 2 {
        network.guard = past(random, &GUARDS);
    } else if sort == 3 {
        let field = random.below(22) as usize;
        let mut fields = network.elements.fields();
        fields[field] = past(random, &ELEMENT_RANGES[field]);
        network.elements = Elements::from_fields(fields);
    }
    if network.nodes.is_empty() {
        return;
    }
    let [place, other] = [0; 2].map(|_| random.below(network.nodes.len() as u64) as usize);
    let numbers = [place, other].map(|at| network.nodes[at].station.number);
    match sort {
        4 => {
            let field = random.below(5) as usize;
            let mut fields = network.nodes[place].fields();
            fields[field] = past(random, &STATION_RANGES[field]);
            network.nodes[place] = Node::from_fields(fields);
        }
        5 => network.nodes[place].station.number = numbers[1],
        6 => {
            let stray = [1, 999, 1_000, -1, i64::MIN, i64::MAX, random.within(&STATION_RANGES[0])];
            network.nodes[place].clock = stray[random.below(7) as usize];
        }
        7 => network.nodes[place].clock = numbers[0],
        8 | 9 => {
            network.nodes[place].clock = numbers[1];
            network.nodes[other].clock = numbers[0];
        }
        _ => {}
    }
}

/// A network: of any shape, every third time with one to three faults.
pub fn draw(random: &mut Random) -> Network {
    let shape = SHAPES[random.below(5) as usize];
    let count = count(random);
    let mut network = shaped(random, shape, count);
    if random.once_in(3) {
        for _ in 0..1 + random.below(3) {
            fault(random, &mut network);
        }
    }
    network
}
