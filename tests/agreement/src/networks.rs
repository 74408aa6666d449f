//! Networks: one call of the library and of the reference, and the sheets of all stations by the library.

use crate::both::{buffer, must_agree, reply, Left};
use crate::library::{self, Node};
use reference::network::{network, Network};
use reference::random::Random;
use reference::room::SINES;
use reference::sheet::{ENTER_PENUMBRA, WORDS};

/// The list as the library takes it.
pub fn stations(asked: &Network) -> Vec<Node> {
    asked.nodes.iter().map(|node| Node(node.fields())).collect()
}

/// Both answers to an eclipse and a list: the reply and both buffers, each with 64 numbers past its end.
pub fn network_both(
    random: &mut Random,
    eclipse: &[i64],
    asked: &Network,
    lent: usize,
    room: usize,
) -> Left<u64> {
    let old_sines = buffer(random, lent, |bits| bits as u32);
    let old = buffer(random, room, |bits| bits);
    let (mut ours, mut our_sines) = (((0, 0), old.clone()), old_sines.clone());
    ours.0 = library::network(eclipse, &stations(asked), &mut our_sines[..lent], &mut ours.1[..room]);
    let (mut theirs, mut their_sines) = (((0, 0), old), old_sines);
    let made = network(eclipse, &asked.nodes, &mut their_sines[..lent], &mut theirs.1[..room]);
    theirs.0 = reply(made, |number| number);
    let given = (eclipse, asked, lent, room);
    must_agree("ukhtvaresh_network", &given, &ours, &theirs);
    let sines = ((ours.0, our_sines), (theirs.0, their_sines));
    must_agree("the sines of ukhtvaresh_network", &given, &sines.0, &sines.1);
    ours
}

/// The stored "to" of the first enter penumbra of each station, from the sheet that the library writes for it alone.
fn enters_alone(asked: &Network) -> Vec<Option<u32>> {
    let mut sines = [0; SINES];
    let enter = |node| {
        let request = asked.request(node).to_bytes().expect("a station within its ranges");
        let (mut sheet, mut entries) = (vec![0; 65_536], vec![0; 65_536]);
        let (number, length) = library::sheet(&request, &mut sines, &mut sheet);
        let (read, count) = library::read(&sheet[..length as usize], &mut entries);
        assert_eq!((number, read), (0, 0), "a sheet of {request:?}");
        let mut written = entries.chunks_exact(WORDS).take(count as usize);
        written.find(|entry| entry[0] == ENTER_PENUMBRA).map(|entry| entry[2])
    };
    asked.nodes.iter().map(enter).collect()
}

/// What there is to see at a list that is not refused.
pub struct Seen {
    /// how many stations enter.
    pub entered: usize,
    /// whether another enters at the same second as the named one.
    pub tie: bool,
    /// the most steps.
    pub steps: u64,
}

/// The named station against the sheets of all, and the steps against what each clock says.
pub fn by_sheets(asked: &Network, named: u64, steps: &[u64]) -> Seen {
    let alone = enters_alone(asked);
    let earliest = alone.iter().flatten().min();
    let place = earliest.and_then(|to| alone.iter().position(|other| other.as_ref() == Some(to)));
    let expected = place.map_or(0, |place| asked.nodes[place].station.number as u64);
    let followed = |clock: i64| match clock {
        0 => 0,
        _ => {
            steps[asked
                .nodes
                .iter()
                .position(|node| node.station.number == clock)
                .expect("a clock of the list")]
        }
    };
    let counted =
        asked.nodes.iter().map(|node| followed(node.clock) + 1).eq(steps[..alone.len()].iter().copied());
    if named != expected || !counted || steps[alone.len()..64].iter().any(|&past| past != 0) {
        println!("DIFFERENCE: station {named} named, {expected} by the sheets, steps {steps:?}: {asked:?}");
        std::process::exit(1);
    }
    let tie = earliest.is_some_and(|to| alone.iter().flatten().filter(|other| *other == to).count() > 1);
    Seen { entered: alone.iter().flatten().count(), tie, steps: steps.iter().copied().max().unwrap_or(0) }
}
