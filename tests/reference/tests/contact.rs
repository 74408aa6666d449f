//! Hundredths of a second between which a contact lies: the cases that follow from the words of docs/CONTACTS.md.

use reference::contact::{value_at, Time, HUNDREDTHS};
use reference::elements;
use reference::random::Random;
use reference::refusal::Refusal;
use reference::sample::{self, hand_worked, Manner};
use reference::sample_star::over_the_pole;
use reference::shadow::Phase;

/// At the pole the hand-worked axis moves 10,000 units a second, 100 a hundredth, and the edges are met at ±5,400 s and
/// ±100 s exactly: there the state is unsure, and sure a hundredth before and after.
#[test]
fn hand_worked_contacts() {
    let request = hand_worked();
    let bracket =
        |phase, from, to| request.crossing(phase, from, to).and_then(|crossing| crossing.bracket(from, to));
    assert_eq!(bracket(0, -5_401, -5_399), Ok([-540_001, -539_999]));
    assert_eq!(bracket(0, 5_399, 5_401), Ok([539_999, 540_001]));
    assert_eq!(bracket(1, -101, -99), Ok([-10_001, -9_999]));
    assert_eq!(bracket(1, 99, 101), Ok([9_999, 10_001]));
    // any two seconds with the contact between them
    assert_eq!(bracket(0, -10_800, 0), Ok([-540_001, -539_999]));
    assert_eq!(bracket(1, 0, 10_800), Ok([9_999, 10_001]));
}

#[test]
fn the_guard_is_at_least_32() {
    for (guard, bracket) in
        [(16, [-540_001, -539_999]), (32, [-540_001, -539_999]), (99, [-540_001, -539_999])]
    {
        let request = reference::request::Request { guard, ..hand_worked() };
        let crossing = request.crossing(0, -5_401, -5_399).expect("within its ranges");
        assert_eq!(crossing.bracket(-5_401, -5_399), Ok(bracket), "{guard}");
    }
    // 100 and 200 units from the edge
    for (guard, hundredths) in [(100, 2), (150, 2), (200, 3), (1_000, 11)] {
        let request = reference::request::Request { guard, ..hand_worked() };
        let crossing = request.crossing(0, -5_401, -5_399).expect("within its ranges");
        let expected = [-540_000 - hundredths, -540_000 + hundredths];
        assert_eq!(crossing.bracket(-5_401, -5_399), Ok(expected), "{guard}");
    }
}

#[test]
fn stars() {
    let request = over_the_pole();
    let crossing = request.crossing(0, -10_800, 0).expect("within its ranges");
    let [earlier, later] = crossing.bracket(-10_800, 0).expect("the star vanishes before second 0");
    assert!(later - earlier <= 2);
    assert_eq!(request.crossing(1, -10_800, 0).err(), Some(Refusal::NoPhase));
}

#[test]
fn whole_seconds() {
    let mut random = Random::new(43);
    for _ in 0..1_000 {
        let coefficients =
            [2, 1, 0, 0].map(|zeros| random.within(&(-200_000_000..=200_000_000)) / 10_i64.pow(4 - zeros));
        let second = random.within(&(-10_800..=10_800));
        let at_second = elements::value_at(&coefficients, second);
        assert_eq!(value_at(&coefficients, Time { above: second, below: 1 }), at_second);
        assert_eq!(
            value_at(&coefficients, Time { above: HUNDREDTHS * second, below: HUNDREDTHS }),
            at_second
        );
        let request = sample::draw(&mut random, Manner::Anywhere);
        let Ok(circumstances) = request.check() else { continue };
        let guard = request.guard.max(32);
        for (number, phase) in [(0, Phase::Penumbra), (1, Phase::Central)] {
            let crossing = request.crossing(number, second, second).expect("within its ranges");
            let expected = circumstances.shadow(second).state(phase, guard);
            assert_eq!(crossing.state(Time { above: second, below: 1 }), expected);
        }
    }
}

#[test]
fn refusals_in_their_order() {
    let request = hand_worked();
    let refused = |phase, from, to| {
        request
            .crossing(phase, from, to)
            .and_then(|crossing| crossing.bracket(from, to))
            .expect_err("a refusal")
    };
    assert_eq!(refused(7, 1, 0), Refusal::Window);
    assert_eq!(refused(0, -10_801, 0), Refusal::Window);
    assert_eq!(refused(7, 0, 1), Refusal::NoPhase);
    assert_eq!(refused(-1, 0, 1), Refusal::NoPhase);
    // both inside, both outside, one unsure
    for (from, to) in [(0, 1), (-10_800, 10_800), (-5_400, 0), (0, 0)] {
        assert_eq!(refused(0, from, to), Refusal::NoContact);
    }
    let guard = reference::request::Request { guard: 15, ..request };
    assert_eq!(guard.crossing(7, 0, 1).err(), Some(Refusal::Guard));
    let station = reference::request::Request {
        station: elements::Station { number: 0, ..request.station },
        ..request
    };
    assert_eq!(station.crossing(7, 0, 1).err(), Some(Refusal::Station(0)));
}
