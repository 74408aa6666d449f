//! Document 02, wish 10: the whole network in one list.

use crate::elements::{Elements, Station, Window, FARTHEST};
use crate::refusal::Refusal;
use crate::request::Request;
use crate::room;
use crate::shadow::GUARDS;
use crate::sheet::ENTER_PENUMBRA;
use std::fmt::Write;

/// A station of the list.
#[derive(Clone, Copy, PartialEq, Eq, Debug)]
pub struct Node {
    pub station: Station,
    /// the number of the station whose clock it follows, 0 being the antenna.
    pub clock: i64,
}

impl Node {
    /// From its six numbers in their order.
    pub fn from_fields([number, latitude, longitude, height, delta_t, clock]: [i64; 6]) -> Node {
        Node { station: Station { number, latitude, longitude, height, delta_t }, clock }
    }

    pub fn fields(&self) -> [i64; 6] {
        let [number, latitude, longitude, height, delta_t] = self.station.fields();
        [number, latitude, longitude, height, delta_t, self.clock]
    }
}

/// How many stations a list may have.
pub const MOST: usize = 64;

/// How many numbers an eclipse has: the 22 elements, first, last, guard.
pub const ECLIPSE: usize = 25;

/// An eclipse and a list of stations; any numbers at all.
#[derive(Clone, PartialEq, Eq, Debug)]
pub struct Network {
    pub elements: Elements,
    pub window: Window,
    /// how near to a cone's edge nothing is sure, units, 16 to 1,000.
    pub guard: i64,
    pub nodes: Vec<Node>,
}

/// The station whose first enter comes first; this says nothing of the horizon.
#[derive(Clone, Copy, PartialEq, Eq, Debug)]
pub struct First {
    /// its number.
    pub number: i64,
    /// the "to" of its first enter penumbra, a second.
    pub to: i64,
}

impl Network {
    /// From the numbers of the eclipse and the list. Refused as 10 where these are not 25.
    pub fn from_numbers(eclipse: &[i64], nodes: &[Node]) -> Result<Network, Refusal> {
        let eclipse: &[i64; ECLIPSE] = eclipse.try_into().map_err(|_| Refusal::Shape)?;
        let [elements @ .., first, last, guard] = *eclipse;
        let (elements, window) = (Elements::from_fields(elements), Window { first, last });
        Ok(Network { elements, window, guard, nodes: nodes.to_vec() })
    }

    /// The numbers of the eclipse.
    pub fn eclipse(&self) -> Vec<i64> {
        [&self.elements.fields()[..], &[self.window.first, self.window.last, self.guard]].concat()
    }

    /// What a station of the list would ask for alone.
    pub fn request(&self, node: &Node) -> Request {
        let Network { elements, window, guard, .. } = *self;
        Request { elements, station: node.station, window, guard, share: false }
    }

    /// Refused as 19, 1, 2, 3, 14, 15 or 16.
    pub fn check(&self) -> Result<(), Refusal> {
        if !(1..=MOST).contains(&self.nodes.len()) {
            return Err(Refusal::List);
        }
        self.window.check()?;
        if !GUARDS.contains(&self.guard) {
            return Err(Refusal::Guard);
        }
        self.elements.check()?;
        for (place, node) in self.nodes.iter().enumerate() {
            let field_of = |refusal: Refusal| Refusal::Station(10 * place + refusal.place());
            node.station.check().map_err(field_of)?;
        }
        let used = |place: &usize| self.place_of(self.nodes[*place].station.number) != Some(*place);
        let unknown = |place: &usize| {
            let clock = self.nodes[*place].clock;
            clock != 0 && self.place_of(clock).is_none()
        };
        let endless = |place: &usize| self.steps_of(*place).is_none();
        let places = 0..self.nodes.len();
        if let Some(place) = places.clone().find(used) {
            return Err(Refusal::Repeated(place));
        }
        if let Some(place) = places.clone().find(unknown) {
            return Err(Refusal::Clock(place));
        }
        match places.clone().find(endless) {
            Some(place) => Err(Refusal::Chain(place)),
            None => Ok(()),
        }
    }

    /// The first place of the list that has a station of this number.
    fn place_of(&self, number: i64) -> Option<usize> {
        self.nodes.iter().position(|node| node.station.number == number)
    }

    /// How many steps the clock at a place is from the antenna, or nothing if its chain never reaches 0: such a chain comes to some
    /// station twice, so it has more steps than the list has stations.
    fn steps_of(&self, place: usize) -> Option<u64> {
        let mut clock = self.nodes[place].clock;
        let mut steps = 1;
        while clock != 0 {
            if steps > self.nodes.len() as u64 {
                return None;
            }
            clock = self.nodes[self.place_of(clock)?].clock;
            steps += 1;
        }
        Some(steps)
    }

    /// The steps of each station of a list that is not refused.
    pub fn steps(&self) -> Vec<u64> {
        (0..self.nodes.len()).filter_map(|place| self.steps_of(place)).collect()
    }

    /// The station whose first enter penumbra, in the sheet that it gets alone, has the smallest "to"; the first in the list among
    /// equals. Of a list that is not refused.
    pub fn first(&self) -> Option<First> {
        let entered = |node: &Node| {
            let records = self.request(node).check().expect("a request within its ranges").records();
            let enter = records.iter().find(|record| record.kind == ENTER_PENUMBRA)?;
            let to = i64::from(enter.fields[1]) - FARTHEST;
            Some(First { number: node.station.number, to })
        };
        // Of equals `min_by_key` gives the first.
        self.nodes.iter().filter_map(entered).min_by_key(|first| first.to)
    }
}

/// The number of the station whose first enter comes first, 0 if none enters, and the steps in lent room, 0 past the list. Refusals: 10
/// for other lengths than 25 and 64; 19, 1, 2, 3, 14, 15, 16; 4 for the room for table S. After a refusal both rooms hold what they held.
pub fn network(
    eclipse: &[i64],
    nodes: &[Node],
    sines: &mut [u32],
    steps: &mut [u64],
) -> Result<u64, Refusal> {
    let steps: &mut [u64; MOST] = steps.try_into().map_err(|_| Refusal::Shape)?;
    let network = Network::from_numbers(eclipse, nodes)?;
    network.check()?;
    room::fill(sines)?;
    let found = network.steps();
    *steps = std::array::from_fn(|place| found.get(place).copied().unwrap_or(0));
    Ok(network.first().map_or(0, |first| first.number as u64))
}

/// What the program `network` prints: a line for each station with its steps, then the station whose first enter comes first with the
/// second, and whether the Sun is above its horizon then; or the refusal.
pub fn program(eclipse: &[i64], nodes: &[Node]) -> String {
    let network = Network::from_numbers(eclipse, nodes).and_then(|network| network.check().map(|()| network));
    let network = match network {
        Ok(network) => network,
        Err(refusal) => return format!("{refusal}\n"),
    };
    let mut text = String::new();
    for (node, steps) in network.nodes.iter().zip(network.steps()) {
        writeln!(text, "station {} steps {steps}", node.station.number).expect("text grows");
    }
    match network.first() {
        Some(First { number, to }) => {
            let node = network.nodes.iter().find(|node| node.station.number == number).expect("a station of the list");
            let horizon = network.request(node).horizon(to).expect("a second of the window");
            let sun = if horizon.altitude < 0 { "down" } else { "up" };
            writeln!(text, "first {number} to {to} sun {sun}")
        }
        None => writeln!(text, "first 0"),
    }
    .expect("text grows");
    text
}
