//! A network: an eclipse and a list of stations.

use crate::requests::{both_agree, into_range, left_lent, request, sines_room, LEAVE_NUMBERS, LEAVE_SHAPE};
use crate::{reply, room};
use agreement::library::{self, Node};
use reference::elements::STATION_RANGES;
use reference::network::{self, Network, ECLIPSE, MOST};
use reference::random::Random;
use reference::request::{Request, REQUEST_LENGTH};
use reference::sample::hand_worked;
use reference::sample_network::{draw, fault};

extern "C" {
    // The guide's export, as include/ukhtvaresh.h declares that of the archive.
    fn guide_network(
        eclipse: *const i64,
        eclipse_len: usize,
        stations: *const Node,
        stations_len: usize,
        sines: *mut u32,
        sines_len: usize,
        steps: *mut u64,
        steps_len: usize,
        value: *mut u64,
    ) -> u64;
}

/// The bytes of a station: its numbers as a request has them, then the clock; number and clock 2 bytes, the others 4.
const NODE_LENGTH: usize = 20;

/// The numbers of a station's bytes; those of its place brought into their ranges unless they are left as they stand.
fn node(leave: u8, bytes: &[u8]) -> network::Node {
    let two = |at: usize| i64::from(i16::from_be_bytes([bytes[at], bytes[at + 1]]));
    let four =
        |at: usize| i64::from(i32::from_be_bytes([bytes[at], bytes[at + 1], bytes[at + 2], bytes[at + 3]]));
    let mut fields = [two(0), four(2), four(6), four(10), four(14), two(18)];
    if leave & LEAVE_NUMBERS == 0 {
        for (field, range) in fields.iter_mut().zip(&STATION_RANGES).skip(1) {
            *field = into_range(*field, range);
        }
    }
    network::Node::from_fields(fields)
}

/// The bytes of a network, or nothing if a number does not fit in them: a request whose station is not used, then the
/// stations.
pub fn packed(asked: &Network) -> Option<Vec<u8>> {
    let Network { elements, window, guard, .. } = *asked;
    let unused = hand_worked();
    let mut bytes = Request { elements, window, guard, ..unused }.to_bytes()?.to_vec();
    for node in &asked.nodes {
        let [number, place @ .., clock] = node.fields();
        bytes.extend(i16::try_from(number).ok()?.to_be_bytes());
        for field in place {
            bytes.extend(i32::try_from(field).ok()?.to_be_bytes());
        }
        bytes.extend(i16::try_from(clock).ok()?.to_be_bytes());
    }
    Some(bytes)
}

/// The eclipse and the list of such bytes.
fn unpacked(leave: u8, raw: &[u8]) -> Option<Network> {
    let (eclipse, list) = raw.split_at_checked(REQUEST_LENGTH)?;
    // Always a request's shape: the lengths of the eclipse's numbers and of the steps are changed by themselves.
    let Request { elements, window, guard, .. } =
        Request::from_bytes(&request(leave & !LEAVE_SHAPE, eclipse)).ok()?;
    let nodes = list.chunks_exact(NODE_LENGTH).map(|bytes| node(leave, bytes)).collect();
    Some(Network { elements, window, guard, nodes })
}

fn old_steps(at: usize) -> u64 {
    (at as u64 + 1).wrapping_mul(0x9E37_79B9_7F4A_7C15)
}

/// Two bytes for the buffer's length, one for what is left as it stands, then the eclipse as a request and the
/// stations. With `LEAVE_SHAPE` the lengths of eclipse and steps may be others.
pub fn network(input: &[u8]) {
    let &[near, far, leave, ref raw @ ..] = input else { return };
    let Some(asked) = unpacked(leave, raw) else { return };
    let (mut eclipse, mut room_for_steps) = (asked.eclipse(), MOST);
    if leave & LEAVE_SHAPE != 0 {
        room_for_steps = room(MOST, near, far & 1);
        eclipse.resize(room(ECLIPSE, far >> 4, 0), 0);
    }
    let rooms @ [lent, steps] = [sines_room(leave, near, far), room_for_steps];
    let theirs = left_lent(lent, steps, old_steps, |sines, steps| {
        reply(network::network(&eclipse, &asked.nodes, sines, steps).map(|number| number as usize))
    });
    let stations: Vec<Node> = asked.nodes.iter().map(|node| Node(node.fields())).collect();
    let ours =
        left_lent(lent, steps, old_steps, |sines, steps| library::network(&eclipse, &stations, sines, steps));
    both_agree("ukhtvaresh_network", raw, rooms, &ours, &theirs);
    let guided = left_lent(lent, steps, old_steps, |sines, steps| {
        let mut value = 0;
        let (sines, sines_len) = (sines.as_mut_ptr(), sines.len());
        let (steps, steps_len) = (steps.as_mut_ptr(), steps.len());
        let (list, count) = (stations.as_ptr(), stations.len());
        let number = unsafe {
            let (eclipse, length) = (eclipse.as_ptr(), eclipse.len());
            guide_network(eclipse, length, list, count, sines, sines_len, steps, steps_len, &mut value)
        };
        (number, value)
    });
    both_agree("ukhtvaresh_network with counters", raw, rooms, &guided, &theirs);
}

/// A station taken out, doubled or moved, a clock or a number that is another's, a fault of the list; what is no
/// network becomes one.
pub fn change(random: &mut Random, bytes: &mut Vec<u8>) {
    let asked = unpacked(LEAVE_NUMBERS, bytes).filter(|asked| !asked.nodes.is_empty());
    let mut asked = asked.unwrap_or_else(|| draw(random));
    if asked.nodes.is_empty() {
        return;
    }
    let [place, other] = [0; 2].map(|_| random.below(asked.nodes.len() as u64) as usize);
    match random.below(7) {
        0 => _ = asked.nodes.remove(place),
        1 => asked.nodes.push(asked.nodes[place]),
        2 => asked.nodes.swap(place, other),
        3 | 4 => asked.nodes[place].clock = asked.nodes[other].station.number,
        5 => asked.nodes[place].clock = 0,
        _ => fault(random, &mut asked),
    }
    if let Some(changed) = packed(&asked) {
        *bytes = changed;
    }
}
