//! The whole network in one list: the cases that follow from the words of document 02, wish 10.

use reference::elements::{Station, FARTHEST, STATION_RANGES};
use reference::network::{network, program, First, Network, Node, ECLIPSE, MOST};
use reference::random::Random;
use reference::refusal::Refusal;
use reference::room::SINES;
use reference::sample::hand_worked;
use reference::sample_network::{draw, fault, list, shaped, Shape, SHAPES};
use reference::sheet::{records_of, Role};
use reference::sine_table::S;
use std::collections::BTreeMap;

/// Stations of the hand-worked eclipse, all at its pole, with these numbers and clocks.
fn at_pole(clocks: &[(i64, i64)]) -> Network {
    let request = hand_worked();
    let node_of =
        |&(number, clock): &(i64, i64)| Node { station: Station { number, ..request.station }, clock };
    let nodes = clocks.iter().map(node_of).collect();
    Network { elements: request.elements, window: request.window, guard: request.guard, nodes }
}

/// The answer, the steps and the buffer for table S, after a look that a refusal leaves both buffers alone.
fn answer(asked: &Network, lent: usize) -> (Result<u64, Refusal>, [u64; MOST]) {
    let (mut sines, mut steps) = (vec![7; lent], [u64::MAX; MOST]);
    let result = network(&asked.eclipse(), &asked.nodes, &mut sines, &mut steps);
    if result.is_err() {
        assert_eq!((&sines, steps), (&vec![7; lent], [u64::MAX; MOST]));
    } else {
        let table: Vec<u32> = S.iter().map(|&entry| entry as u32).collect();
        assert_eq!((&sines[..SINES], &sines[SINES..]), (&table[..], &vec![7; lent - SINES][..]));
    }
    (result, steps)
}

fn refused(asked: &Network) -> (u32, usize) {
    let refusal = answer(asked, SINES).0.expect_err("a refusal");
    (refusal.number(), refusal.place())
}

fn steps(clocks: &[(i64, i64)]) -> Vec<u64> {
    let (result, steps) = answer(&at_pole(clocks), SINES);
    result.expect("a list that is not refused");
    assert!(steps[clocks.len()..].iter().all(|&steps| steps == 0));
    steps[..clocks.len()].to_vec()
}

#[test]
fn steps_by_hand() {
    assert_eq!(steps(&[(7, 0)]), [1]);
    assert_eq!(steps(&[(7, 0), (8, 7), (9, 8)]), [1, 2, 3]);
    assert_eq!(steps(&[(9, 8), (8, 7), (7, 0)]), [3, 2, 1]);
    assert_eq!(steps(&[(1, 0), (2, 1), (3, 1), (4, 2), (5, 0), (999, 4)]), [1, 2, 2, 3, 1, 4]);
    let chain: Vec<(i64, i64)> = (1..=64).map(|number| (number, number - 1)).collect();
    assert_eq!(steps(&chain), (1..=64).collect::<Vec<_>>());
    let back: Vec<(i64, i64)> = chain.iter().rev().copied().collect();
    assert_eq!(steps(&back), (1..=64).rev().collect::<Vec<_>>());
    let star: Vec<(i64, i64)> = (936..=999).map(|number| (number, 0)).collect();
    assert_eq!(steps(&star), [1; 64]);
}

#[test]
fn lists_refused() {
    assert_eq!(refused(&at_pole(&[])), (19, 0));
    let many: Vec<(i64, i64)> = (1..=65).map(|number| (number, 0)).collect();
    assert_eq!(refused(&at_pole(&many)), (19, 0));
    assert!(answer(&at_pole(&many[..64]), SINES).0.is_ok());
    // a number already used, at the later place
    assert_eq!(refused(&at_pole(&[(1, 0), (2, 0), (3, 0), (2, 0), (1, 0)])), (14, 3));
    // a clock of no station, and numbers that no station may have
    for clock in [2, 999, 1_000, -1, i64::MIN, i64::MAX] {
        assert_eq!(refused(&at_pole(&[(1, 0), (3, clock)])), (15, 1));
    }
    // a station that follows itself, a ring, and a chain that leads into one: the first in the list, on the ring or not
    assert_eq!(refused(&at_pole(&[(1, 1)])), (16, 0));
    assert_eq!(refused(&at_pole(&[(1, 0), (2, 3), (3, 2)])), (16, 1));
    assert_eq!(refused(&at_pole(&[(1, 0), (2, 1), (4, 3), (3, 5), (5, 3)])), (16, 2));
    let ring: Vec<(i64, i64)> = (1..=64).map(|number| (number, number % 64 + 1)).collect();
    assert_eq!(refused(&at_pole(&ring)), (16, 0));
    // 14 before 15 before 16, wherever they stand
    assert_eq!(refused(&at_pole(&[(1, 1), (2, 9), (2, 0)])), (14, 2));
    assert_eq!(refused(&at_pole(&[(1, 1), (2, 9), (3, 0)])), (15, 1));
}

/// Each refusal with all that come later in the order.
#[test]
fn the_first_refusal() {
    let mut asked = at_pole(&[(1, 1), (2, 9), (2, 0)]);
    assert_eq!(answer(&asked, 900).0, Err(Refusal::Repeated(2)));
    for field in (0..5).rev() {
        let mut fields = asked.nodes[1].fields();
        fields[field] = STATION_RANGES[field].end() + 1;
        asked.nodes[1] = Node::from_fields(fields);
        assert_eq!(refused(&asked), (3, 10 + field));
    }
    asked.nodes[2].station.latitude = -90_000_001;
    assert_eq!(refused(&asked), (3, 10));
    asked.nodes[0].station.delta_t = -10_001;
    assert_eq!(refused(&asked), (3, 4));
    asked.elements.tan_f2 = 500_001;
    assert_eq!(refused(&asked), (2, 21));
    asked.elements.x[0] = i64::MIN;
    assert_eq!(refused(&asked), (2, 0));
    asked.guard = 15;
    assert_eq!(refused(&asked), (1, 1));
    asked.window.last = 10_801;
    assert_eq!(refused(&asked), (1, 0));
    for count in [0, 65, 200] {
        asked.nodes.resize(count, Node::from_fields([0; 6]));
        assert_eq!(refused(&asked), (19, 0));
    }
    // 10 before all of it
    let mut steps = [5; 2 * MOST];
    for length in [0, MOST - 1, MOST + 1, 2 * MOST] {
        let given = (asked.eclipse(), &asked.nodes);
        assert_eq!(network(&given.0, given.1, &mut [], &mut steps[..length]), Err(Refusal::Shape));
    }
    for length in [0, ECLIPSE - 1, ECLIPSE + 1] {
        let eclipse = vec![0; length];
        assert_eq!(network(&eclipse, &asked.nodes, &mut [], &mut steps[..MOST]), Err(Refusal::Shape));
    }
    assert_eq!(steps, [5; 2 * MOST]);
    // the last: the buffer for table S
    let asked = at_pole(&[(1, 0)]);
    for lent in [0, SINES - 1] {
        assert_eq!(answer(&asked, lent).0, Err(Refusal::Room(SINES)));
    }
    for lent in [SINES, SINES + 1, 2_000] {
        assert_eq!(answer(&asked, lent).0, Ok(1));
    }
}

#[test]
fn the_first_station() {
    // at one place all enter at the same second, so the first in the list it is
    let asked = at_pole(&[(9, 0), (3, 9), (5, 9)]);
    assert_eq!(asked.first(), Some(First { number: 9, to: -5399 }));
    let answered = "station 9 steps 1\nstation 3 steps 2\nstation 5 steps 2\nfirst 9 to -5399 sun up\n";
    assert_eq!(program(&asked.eclipse(), &asked.nodes), answered);
    // the axis comes from the west, on the side of 90 degrees east at second 0
    let mut asked = at_pole(&[(9, 0), (3, 9), (5, 9)]);
    asked.nodes[1].station.latitude = 89_000_000;
    asked.nodes[1].station.longitude = -90_000_000;
    let alone: Vec<i64> = asked.nodes.iter().map(|node| enter_of(&asked, node).expect("an enter")).collect();
    assert!(alone[1] < alone[0] && alone[0] == alone[2], "{alone:?}");
    assert_eq!(answer(&asked, SINES).0, Ok(3));
    // a window that begins inside the penumbra has a leave and no enter
    asked.window.first = 0;
    assert_eq!(answer(&asked, SINES).0, Ok(0));
    assert!(program(&asked.eclipse(), &asked.nodes).ends_with("station 5 steps 2\nfirst 0\n"));
    // nor has one that ends before the contact is sure
    (asked.window.first, asked.window.last) = (-6_000, -5_700);
    assert_eq!(answer(&asked, SINES).0, Ok(0));
}

/// The "to" of the first enter penumbra, from the bytes of the sheet that a station gets alone.
fn enter_of(asked: &Network, node: &Node) -> Option<i64> {
    let mut buffer = vec![0; 65_536];
    let length = asked.request(node).sheet(&mut buffer).expect("a sheet");
    let records = records_of(&buffer[..length]).expect("a sheet that reads well");
    let enter = records.iter().find(|record| record.kind < 0x20 && record.role() == Some(Role::Enter))?;
    Some(i64::from(enter.fields[1]) - FARTHEST)
}

/// The refusal by the clocks alone, from what the words say of numbers: the antenna has the steps 0, and whoever
/// follows one with steps has one more; who is never reached has no chain to 0.
fn by_levels(nodes: &[Node]) -> Result<Vec<u64>, (u32, usize)> {
    let numbers: Vec<i64> = nodes.iter().map(|node| node.station.number).collect();
    if let Some(place) = (0..nodes.len()).find(|&place| numbers[..place].contains(&numbers[place])) {
        return Err((14, place));
    }
    let known: Vec<i64> = numbers.iter().copied().chain([0]).collect();
    if let Some(place) = nodes.iter().position(|node| !known.contains(&node.clock)) {
        return Err((15, place));
    }
    let mut level = BTreeMap::from([(0, 0)]);
    for steps in 1..=nodes.len() as u64 {
        for node in nodes {
            if level.get(&node.clock) == Some(&(steps - 1)) {
                level.insert(node.station.number, steps);
            }
        }
    }
    match numbers.iter().position(|number| !level.contains_key(number)) {
        Some(place) => Err((16, place)),
        None => Ok(numbers.iter().map(|number| level[number]).collect()),
    }
}

/// Lists of every shape, with clocks changed at random: the steps level by level.
#[test]
fn drawn_clocks() {
    let mut random = Random::new(10);
    let mut seen = [0; 4];
    for _ in 0..20_000 {
        let shape = SHAPES[random.below(5) as usize];
        let count = 1 + random.below(MOST as u64) as usize;
        let stations = vec![hand_worked().station; count];
        let mut asked = Network { nodes: list(&mut random, shape, &stations), ..at_pole(&[]) };
        for _ in 0..random.below(3) {
            let place = random.below(count as u64) as usize;
            let other = asked.nodes[random.below(count as u64) as usize].station.number;
            match random.below(3) {
                0 => asked.nodes[place].clock = other,
                1 => asked.nodes[place].clock = random.within(&(-1..=1_000)),
                _ => asked.nodes[place].station.number = other,
            }
        }
        let expected = by_levels(&asked.nodes);
        match asked.check() {
            Ok(()) => assert_eq!(Ok(asked.steps()), expected),
            Err(refusal) => assert_eq!(Err((refusal.number(), refusal.place())), expected),
        }
        seen[expected.map_or_else(|(number, _)| number as usize - 13, |_| 0)] += 1;
    }
    assert!(seen.iter().all(|&count| count > 500), "{seen:?}");
}

#[test]
fn drawn_shapes() {
    let mut random = Random::new(11);
    for _ in 0..300 {
        let count = 1 + random.below(MOST as u64) as usize;
        let clocks = |random: &mut Random, shape| {
            let stations = vec![hand_worked().station; count];
            let mut steps = by_levels(&list(random, shape, &stations))?;
            steps.sort();
            Ok(steps)
        };
        assert_eq!(clocks(&mut random, Shape::Star), Ok(vec![1; count]));
        assert_eq!(clocks(&mut random, Shape::Chain), Ok((1..=count as u64).collect()));
        assert!(clocks(&mut random, Shape::Tree).is_ok());
        assert!(matches!(clocks(&mut random, Shape::Ring), Err((16, _))));
    }
}

/// The named station against the sheets of all, one by one.
#[test]
fn drawn_enters() {
    let mut random = Random::new(12);
    let (mut entered, mut equal, mut none) = (0, 0, 0);
    for _ in 0..400 {
        let count = 1 + random.below(8) as usize;
        let asked = shaped(&mut random, Shape::Tree, count);
        let alone: Vec<Option<i64>> = asked.nodes.iter().map(|node| enter_of(&asked, node)).collect();
        let Some(first) = alone.iter().copied().flatten().min() else {
            assert_eq!(answer(&asked, SINES).0, Ok(0));
            none += 1;
            continue;
        };
        let place = alone.iter().position(|to| *to == Some(first)).expect("one that enters first");
        assert_eq!(asked.first(), Some(First { number: asked.nodes[place].station.number, to: first }));
        equal += u64::from(alone[place + 1..].contains(&Some(first)));
        entered += 1;
    }
    assert!(entered > 100 && equal > 30 && none > 50, "{entered} {equal} {none}");
}

/// Any network, with faults of any kind: a refusal leaves both buffers, and every number of a refusal is met.
#[test]
fn drawn_networks() {
    let mut random = Random::new(13);
    let mut seen = BTreeMap::new();
    for _ in 0..3_000 {
        let mut asked = draw(&mut random);
        if random.once_in(2) {
            fault(&mut random, &mut asked);
        }
        if asked.check().is_ok() {
            // one second is enough here
            asked.window.last = asked.window.first;
        }
        let lent = if random.once_in(8) { SINES - 1 } else { SINES };
        let number = answer(&asked, lent).0.map_or_else(|refusal| refusal.number(), |_| 0);
        *seen.entry(number).or_insert(0) += 1;
    }
    let numbers: Vec<u32> = seen.keys().copied().collect();
    assert_eq!(numbers, [0, 1, 2, 3, 4, 14, 15, 16, 19], "{seen:?}");
    assert!(seen.values().all(|&count| count > 20), "{seen:?}");
}
