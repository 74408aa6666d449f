//! The buffer for table S: document 02, wish 8.

use reference::elements::{Elements, Station, Window};
use reference::refusal::Refusal;
use reference::request::Request;
use reference::room::{fill, sheet_of_input, SINES};
use reference::sample::hand_worked;
use reference::sine_table::S;

/// What a buffer of so many numbers holds after the call, and the answer.
fn after(input: &[u8], lent: usize, length: usize) -> (Result<usize, Refusal>, Vec<u32>, Vec<u32>) {
    let old: Vec<u32> = (0..lent as u32).map(|at| at.wrapping_mul(0x9E37_79B9)).collect();
    let mut sines = old.clone();
    let answer = sheet_of_input(input, &mut sines, &mut vec![0; length]);
    (answer, old, sines)
}

/// The length of the hand-worked sheet.
fn needed() -> usize {
    hand_worked().sheet(&mut [0; 100]).expect("room enough")
}

fn holds_table(old: &[u32], sines: &[u32]) -> bool {
    sines.iter().zip(S).all(|(&number, entry)| i64::from(number) == entry) && sines[SINES..] == old[SINES..]
}

#[test]
fn a_shorter_room_is_refused_with_901_and_left() {
    let input = hand_worked().to_bytes().unwrap();
    for lent in [0, 1, 900] {
        for length in [0, needed() - 1, needed(), 100] {
            let (answer, old, sines) = after(&input, lent, length);
            assert_eq!(answer, Err(Refusal::Room(901)));
            assert_eq!(old, sines);
        }
    }
    assert_eq!(fill(&mut [7; 900]), Err(Refusal::Room(901)));
}

#[test]
fn only_the_sheets_4_leaves_it_filled() {
    let input = hand_worked().to_bytes().unwrap();
    for lent in [901, 902, 1000] {
        for length in [0, needed() - 1, needed(), 100] {
            let (answer, old, sines) = after(&input, lent, length);
            assert_eq!(answer, if length < needed() { Err(Refusal::Room(needed())) } else { Ok(needed()) });
            assert!(holds_table(&old, &sines));
        }
    }
}

#[test]
fn the_other_refusals_come_before_it() {
    let request = hand_worked();
    let refused = [
        (Request { window: Window { first: 1, last: 0 }, ..request }, Refusal::Window),
        (Request { elements: Elements::from_fields([0; 22]), ..request }, Refusal::Element(11)),
        (Request { station: Station { height: 9_001, ..request.station }, ..request }, Refusal::Station(3)),
    ];
    for lent in [0, 900, 901, 902] {
        for (request, refusal) in &refused {
            let (answer, old, sines) = after(&request.to_bytes().unwrap(), lent, 0);
            assert_eq!(answer, Err(*refusal));
            assert_eq!(old, sines);
        }
        let (answer, old, sines) = after(&request.to_bytes().unwrap()[1..], lent, 0);
        assert_eq!(answer, Err(Refusal::Shape));
        assert_eq!(old, sines);
    }
}
