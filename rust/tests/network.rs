//! The whole network in one list (document 02, wish 10), through the crate: steps, the first station, every refusal in its order; and the
//! room for the sine table that a caller from C lends.

use ukhtvaresh::{
    network, network_into, read, sheet_vec, Eclipse, Entry, Network, Node, Phase, Refusal, Request, Station,
    STATIONS,
};

extern "C" {
    fn ukhtvaresh_network(
        eclipse: *const i64,
        eclipse_len: usize,
        stations: *const Node,
        stations_len: usize,
        sines: *mut u32,
        sines_len: usize,
        steps: *mut u64,
        steps_len: usize,
        value: *mut u64,
    ) -> u64;
}

fn moscow() -> Request {
    Request::from_bytes(include_bytes!("../../examples/moscow1954.bin")).expect("a request")
}

fn eclipse() -> Eclipse {
    Eclipse::of(&moscow())
}

// Moscow again and again, with these numbers and clocks.
fn list(clocks: &[(i64, i64)]) -> Vec<Node> {
    let station = moscow().station;
    clocks.iter().map(|&(number, clock)| Node::new(Station { number, ..station }, clock)).collect()
}

fn said(clocks: &[(i64, i64)]) -> Network {
    network(&eclipse(), &list(clocks)).expect("a list that is not refused")
}

// The refusal, after a look that the steps are as they were.
fn refused(eclipse: &Eclipse, stations: &[Node]) -> (u64, u64) {
    let mut steps = [0xA5; STATIONS];
    let refusal = network_into(&eclipse.numbers(), stations, &mut steps).expect_err("a refusal");
    assert_eq!(steps, [0xA5; STATIONS]);
    assert_eq!(network(eclipse, stations), Err(refusal));
    (refusal.number(), refusal.place())
}

#[test]
fn steps_from_the_antenna() {
    assert_eq!(said(&[(7, 0)]), Network { steps: vec![1], first: Some(7) });
    assert_eq!(said(&[(9, 8), (8, 7), (7, 0)]).steps, [3, 2, 1]);
    assert_eq!(said(&[(1, 0), (2, 1), (3, 1), (4, 2), (5, 0), (999, 4)]).steps, [1, 2, 2, 3, 1, 4]);
    let chain: Vec<(i64, i64)> = (1..=64).map(|number| (number, number - 1)).collect();
    assert_eq!(said(&chain).steps, (1..=64).collect::<Vec<_>>());
    let mut steps = [0xA5; STATIONS];
    let answer = network_into(&eclipse().numbers(), &list(&chain[..3]), &mut steps);
    assert_eq!((answer, &steps[..3], &steps[3..]), (Ok(Some(1)), &[1, 2, 3][..], &[0; 61][..]));
}

#[test]
fn the_first_station_by_the_sheets() {
    let mut stations = list(&[(30, 0), (20, 30), (10, 20), (40, 0)]);
    // all at one place: the first in the list
    assert_eq!(network(&eclipse(), &stations).expect("an answer").first, Some(30));
    // one farther west, one at the pole, one that never enters
    stations[1].longitude -= 10_000_000;
    stations[2].latitude = 90_000_000;
    (stations[3].latitude, stations[3].longitude) = (-50_000_000, 0);
    let enters: Vec<Option<i64>> = stations
        .iter()
        .map(|node| {
            let request = eclipse().request(node.station()).to_bytes().expect("every number fits");
            let entries = read(&sheet_vec(&request).expect("a sheet")).expect("entries");
            entries.iter().find_map(|entry| match entry {
                Entry::Enter { phase: Phase::Penumbra, to, .. } => Some(*to),
                _ => None,
            })
        })
        .collect();
    assert_eq!((enters[0], enters[3]), (Some(36), None));
    let earliest = *enters.iter().flatten().min().expect("one that enters");
    let place = enters.iter().position(|to| *to == Some(earliest)).expect("its place");
    assert_eq!(network(&eclipse(), &stations).expect("an answer").first, Some(stations[place].number));
    assert_ne!(place, 0);
    // a window in which nobody enters
    let mut late = eclipse();
    late.window.first = 4_000;
    assert_eq!(network(&late, &stations[..2]).expect("an answer").first, None);
}

#[test]
fn refusals_in_their_order() {
    let mut asked = eclipse();
    let mut stations = list(&[(1, 1), (2, 9), (2, 0)]);
    assert_eq!(refused(&asked, &stations), (14, 2));
    assert_eq!(refused(&asked, &list(&[(1, 1), (2, 9), (3, 0)])), (15, 1));
    assert_eq!(refused(&asked, &list(&[(1, 0), (4, 3), (3, 5), (5, 3)])), (16, 1));
    assert_eq!(refused(&asked, &list(&[(1, 1)])), (16, 0));
    for clock in [-1, 1_000, i64::MIN, i64::MAX] {
        assert_eq!(refused(&asked, &list(&[(1, 0), (2, clock)])), (15, 1));
    }
    stations[1].delta_t = 20_001;
    assert_eq!(refused(&asked, &stations), (3, 14));
    stations[1].height = -501;
    assert_eq!(refused(&asked, &stations), (3, 13));
    stations[1].longitude = i64::MAX;
    assert_eq!(refused(&asked, &stations), (3, 12));
    stations[1].latitude = i64::MIN;
    assert_eq!(refused(&asked, &stations), (3, 11));
    stations[1].number = 1_000;
    assert_eq!(refused(&asked, &stations), (3, 10));
    stations[0].number = 0;
    assert_eq!(refused(&asked, &stations), (3, 0));
    asked.elements.tan_f2 = 0;
    assert_eq!(refused(&asked, &stations), (2, 21));
    asked.guard = 1_001;
    assert_eq!(refused(&asked, &stations), (1, 1));
    asked.window.last = 10_801;
    assert_eq!(refused(&asked, &stations), (1, 0));
    assert_eq!(refused(&asked, &[]), (19, 0));
    assert_eq!(refused(&asked, &vec![Node::default(); 65]), (19, 0));
    for (numbers, room) in [(24, 64), (26, 64), (0, 64), (25, 63), (25, 65), (25, 0)] {
        let mut steps = vec![0xA5; room];
        assert_eq!(network_into(&vec![0; numbers], &[], &mut steps), Err(Refusal::Shape));
        assert_eq!(steps, vec![0xA5; room]);
    }
    assert_eq!(Refusal::List.to_string(), "refused 19 0: a list of no station or of more than 64");
}

// Number, value, steps, and what the room of so many numbers holds, with 64 past its end.
fn called(stations: &[Node], lent: usize) -> (u64, u64, [u64; STATIONS], Vec<u32>) {
    let (mut sines, mut steps, mut value) = (vec![7; lent + 64], [0xA5; STATIONS], 0);
    let eclipse = eclipse().numbers();
    // SAFETY: pointers and lengths are those of live slices that do not overlap; `sines` is longer than it is told.
    let number = unsafe {
        ukhtvaresh_network(
            eclipse.as_ptr(),
            eclipse.len(),
            stations.as_ptr(),
            stations.len(),
            sines.as_mut_ptr(),
            lent,
            steps.as_mut_ptr(),
            steps.len(),
            &mut value,
        )
    };
    (number, value, steps, sines)
}

#[test]
fn the_room_for_the_sine_table() {
    for lent in [0, 900] {
        assert_eq!(called(&list(&[(1, 0)]), lent), (4, 901, [0xA5; STATIONS], vec![7; lent + 64]));
    }
    for lent in [901, 902] {
        let (number, value, steps, sines) = called(&list(&[(1, 0), (2, 1)]), lent);
        assert_eq!((number, value, &steps[..3]), (0, 1, &[1, 2, 0][..]));
        assert_eq!((sines[0], sines[300], sines[900]), (0, 50_000_000, 100_000_000));
        assert_eq!(sines[901..], vec![7; lent + 64 - 901]);
        // on every refusal it is as it was
        assert_eq!(called(&list(&[(1, 1)]), lent), (16, 0, [0xA5; STATIONS], vec![7; lent + 64]));
    }
}
