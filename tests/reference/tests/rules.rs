//! The cases that documents 01 and 02 give or that follow from their words.

use reference::elements::{value_at, Elements, Station, Window, ELEMENT_RANGES, FARTHEST, STATION_RANGES};
use reference::entries::{entries, Entry};
use reference::fit::judge;
use reference::listing::{listing, program, sheet_of_input};
use reference::numbers::{near, root};
use reference::place::{place, Place};
use reference::random::Random;
use reference::refusal::Refusal;
use reference::request::{Request, KIND_PLACES};
use reference::sample::hand_worked;
use reference::shadow::{direction, state, Shadow, State, GUARD, GUARDS};
use reference::sheet::{read, records_of, write, Role, WORDS};
use reference::sine::{cosine, sine, sine_cosine, UNIT};
use reference::sine_table::S;

const HAND_WORKED: &str = "\
station 7 from -6000 to 6000
enter penumbra -5401 -5399 2700
leave penumbra 5399 5401 900
enter central -101 -99 2700
leave central 99 101 900
closest 0 1037735
";

fn listing_in_window(first: i64, last: i64) -> String {
    let request = Request { window: Window { first, last }, ..hand_worked() };
    program(&request.to_bytes().unwrap())
}

/// The hand-worked sheet and its entries, five numbers each.
fn hand_worked_sheet() -> (Vec<u8>, Vec<u32>) {
    let mut buffer = vec![0; 45];
    assert_eq!(hand_worked().sheet(&mut buffer), Ok(45));
    let words = records_of(&buffer).unwrap().iter().flat_map(|record| record.words()).collect();
    (buffer, words)
}

#[test]
fn near_values() {
    assert_eq!(near(50_000_000, UNIT), 1);
    assert_eq!(near(-50_000_000, UNIT), -1);
    assert_eq!(near(-50_000_001, UNIT), -1);
    // An odd denominator has no halves.
    assert_eq!([-5, -4, -2, -1, 0, 1, 2, 4, 5].map(|n| near(n, 3)), [-2, -1, -1, 0, 0, 0, 1, 1, 2]);
    assert_eq!([-4, -3, -2, -1, 0, 1, 2, 3, 4].map(|n| near(n, 2)), [-2, -2, -1, -1, 0, 1, 1, 2, 2]);
}

#[test]
fn root_values() {
    assert_eq!([0, 1, 3, 4, 8, 9, 15].map(root), [0, 1, 1, 2, 2, 3, 3]);
    for k in [2i64, 99_664_768, 100_000_000, 853_000_000, 3_037_000_498] {
        assert_eq!([k * k - 1, k * k, k * k + 2 * k].map(root), [k - 1, k, k]);
    }
}

#[test]
fn table_is_the_sine() {
    assert_eq!([S[0], S[300], S[900]], [0, 50_000_000, UNIT]);
    for (k, &entry) in S.iter().enumerate() {
        let exact = 1e8 * (k as f64 * std::f64::consts::PI / 1800.0).sin();
        assert!((entry as f64 - exact).abs() <= 0.500_001, "entry {k}");
    }
}

#[test]
fn sine_values() {
    assert_eq!(sine(30_000_000), 50_000_000);
    assert_eq!(sine(1), 2);
    assert_eq!(sine(89_999_999), UNIT);
    assert_eq!(cosine(180_000_000), -UNIT);
    assert_eq!(sine_cosine(0), (0, UNIT));
    assert_eq!(sine_cosine(90_000_000), (UNIT, 0));
    assert_eq!(sine_cosine(270_000_000), (-UNIT, 0));
    assert_eq!(sine_cosine(-90_000_000), (-UNIT, 0));
    assert_eq!(sine_cosine(360_000_000), (0, UNIT));
    assert_eq!(sine_cosine(i64::MIN), sine_cosine(i64::MIN.rem_euclid(360_000_000)));
    assert_eq!(sine_cosine(i64::MAX), sine_cosine(i64::MAX % 360_000_000));
}

/// The rule as document 01 words it, sine and cosine calling each other.
#[test]
fn quadrants_as_worded() {
    fn worded_sine(angle: i64) -> i64 {
        if angle <= 90_000_000 {
            sine(angle)
        } else {
            worded_cosine(angle - 90_000_000)
        }
    }
    fn worded_cosine(angle: i64) -> i64 {
        if angle <= 90_000_000 {
            sine(90_000_000 - angle)
        } else {
            -worded_sine(angle - 90_000_000)
        }
    }
    let quarters = (0..4).flat_map(|quarter| (-3..=3).map(move |by| 90_000_000 * quarter + by));
    for angle in quarters.chain((0..360_000_000).step_by(99_991)).filter(|&angle| angle >= 0) {
        assert_eq!(sine_cosine(angle), (worded_sine(angle), worded_cosine(angle)), "{angle}");
    }
}

#[test]
fn sine_is_close_to_the_sine() {
    for angle in (0..360_000_000).step_by(7_919) {
        let exact = 1e8 * (angle as f64 / 1e6).to_radians().sin();
        assert!((sine(angle) as f64 - exact).abs() < 2.5, "{angle}");
    }
}

#[test]
fn places() {
    assert_eq!(place(90_000_000, 0), Place { r: 0, p: 99_664_768 });
    assert_eq!(place(-90_000_000, 0), Place { r: 0, p: -99_664_768 });
    assert_eq!(place(0, 0), Place { r: UNIT, p: 0 });
}

#[test]
fn values_at_a_second() {
    assert_eq!(value_at(&[5, 3600], -7), -2);
    assert_eq!(value_at(&[0, 1], 1800), 1);
    assert_eq!(value_at(&[0, 1], -1800), -1);
    assert_eq!(value_at(&[10, 0, 0, 8], -1800), 9);
    assert_eq!(value_at(&[10, 0, 0, 2], -1800), 9);
    assert_eq!(value_at(&[1, 2, 3, 4], 0), 1);
}

#[test]
fn directions() {
    assert_eq!(direction(1, 1), 450);
    assert_eq!(direction(0, -5), 1800);
    assert_eq!(direction(0, 0), 65_535);
    assert_eq!([direction(0, 1), direction(1, 0), direction(-1, 0)], [0, 900, 2700]);
    assert_eq!([direction(1, -1), direction(-1, -1), direction(-1, 1)], [1350, 2250, 3150]);
    assert_eq!([direction(-1, 600_000_000), direction(1, 600_000_000)], [3599, 0]);
    assert_eq!([direction(i64::MIN, i64::MIN), direction(i64::MAX, i64::MIN)], [2250, 1350]);
}

#[test]
fn states_by_squares() {
    let l = 1_000_000;
    let (inner, outer) = ((l - GUARD) * (l - GUARD), (l + GUARD) * (l + GUARD));
    assert_eq!(state(l, inner - 1, GUARD), State::Inside);
    assert_eq!(state(l, inner, GUARD), State::Unsure);
    assert_eq!(state(l, outer, GUARD), State::Unsure);
    // root of this is l + 16, yet it is outside.
    assert_eq!(state(l, outer + 1, GUARD), State::Outside);
    assert_eq!(
        [state(16, 0, GUARD), state(17, 0, GUARD), state(0, 257, GUARD)],
        [State::Unsure, State::Inside, State::Outside]
    );
}

/// Larger guards only withhold: each state under all guards, and the first that says unsure.
#[test]
fn larger_guards_withhold() {
    for (l, m, sure) in [
        (1_000_000, (1_000_000i64 - 500).pow(2), State::Inside),
        (1_000_000, (1_000_000i64 + 500).pow(2), State::Outside),
        (500, 0, State::Inside),
        (0, 500 * 500, State::Outside),
    ] {
        for guard in GUARDS {
            let expected = if guard < 500 { sure } else { State::Unsure };
            assert_eq!(state(l, m, guard), expected, "{l} {m} {guard}");
        }
    }
}

#[test]
fn magnitudes() {
    let shadow = Shadow { u: 0, v: 0, l1: 54_000_000, l2: -1_000_000 };
    assert_eq!(shadow.magnitude(GUARD), 1_037_735);
    // Annular: below 1.
    assert_eq!(Shadow { l2: 1_000_000, ..shadow }.magnitude(GUARD), 963_636);
    assert_eq!(Shadow { u: 54_000_000, ..shadow }.magnitude(GUARD), 0);
    assert_eq!(Shadow { u: 54_000_001, ..shadow }.magnitude(GUARD), 0);
    assert_eq!(Shadow { u: 27_500_000, ..shadow }.magnitude(GUARD), 500_000);
    // Inside by 500 units: where the guard is not less, the total phase is not known.
    let edge = Shadow { u: 999_500, ..shadow };
    assert_eq!(
        [16, 499, 500, 1_000].map(|guard| edge.magnitude(guard)),
        [1_037_735, 1_037_735, 1_000_009, 1_000_009]
    );
}

#[test]
fn hand_worked_listing() {
    assert_eq!(program(&hand_worked().to_bytes().unwrap()), HAND_WORKED);
}

#[test]
fn eclipse_of_1954() {
    let moscow =
        (include_bytes!("data/moscow1954_hourly.bin"), include_str!("data/moscow1954_hourly.expect"));
    let kiev = (include_bytes!("data/kiev1954.bin"), include_str!("data/kiev1954.expect"));
    for (input, expected) in [moscow, kiev] {
        assert_eq!(program(input), expected);
        assert_eq!(Request::from_bytes(input).unwrap().to_bytes().unwrap(), *input);
    }
}

#[test]
fn short_windows() {
    assert_eq!(
        listing_in_window(5400, 5400),
        "station 7 from 5400 to 5400\nopen penumbra 5400 5400\nclosest 5400 0\n"
    );
    assert_eq!(
        listing_in_window(5400, 5402),
        "station 7 from 5400 to 5402\nopen penumbra 5400 5401\nclosest 5400 0\n"
    );
    assert_eq!(
        listing_in_window(5399, 5400),
        "station 7 from 5399 to 5400\nopen penumbra 5399 5400\nclosest 5399 188\n"
    );
}

#[test]
fn entries_of_states() {
    let of = |text: &str| {
        let states: Vec<State> = (text.chars())
            .map(|c| match c {
                'o' => State::Outside,
                'i' => State::Inside,
                _ => State::Unsure,
            })
            .collect();
        let shown = |entry: Entry| (entry.role, entry.from, entry.to);
        entries(0, &states).into_iter().map(shown).collect::<Vec<_>>()
    };
    assert_eq!(of("ooo"), []);
    assert_eq!(of("oi"), [(Role::Enter, 0, 1)]);
    assert_eq!(of("o??io"), [(Role::Enter, 0, 3), (Role::Leave, 3, 4)]);
    assert_eq!(of("o?o?i??i"), [(Role::Graze, 0, 2), (Role::Enter, 2, 4), (Role::Graze, 4, 7)]);
    assert_eq!(of("??o?"), [(Role::Open, 0, 2), (Role::Open, 2, 3)]);
    assert_eq!(of("?"), [(Role::Open, 0, 0)]);
    assert_eq!(of("????"), [(Role::Open, 0, 3)]);
    assert_eq!(of("?i?"), [(Role::Open, 0, 1), (Role::Open, 1, 2)]);
}

#[test]
fn room_for_the_sheet() {
    let mut buffer = [0xA5; 45];
    assert_eq!(hand_worked().sheet(&mut buffer[..44]), Err(Refusal::Room(45)));
    assert_eq!(buffer, [0xA5; 45]);
    assert_eq!(hand_worked().sheet(&mut buffer), Ok(45));
    let mut longer = [0xA5; 52];
    assert_eq!(hand_worked().sheet(&mut longer), Ok(45));
    assert_eq!((&longer[..45], &longer[45..]), (&buffer[..], &[0xA5; 7][..]));
}

/// The guard is in the head of the sheet and not in its listing; outside its range it comes after the window and
/// before the elements.
#[test]
fn guards_of_requests() {
    for guard in GUARDS {
        let mut buffer = [0; 45];
        assert_eq!(Request { guard, ..hand_worked() }.sheet(&mut buffer), Ok(45));
        assert_eq!(buffer[7..9], (guard as u16).to_be_bytes());
        assert_eq!(listing(&records_of(&buffer).unwrap()), HAND_WORKED);
    }
    for guard in [0, 15, 1_001, 65_535] {
        let mut request = Request { guard, ..hand_worked() };
        assert_eq!(program(&request.to_bytes().unwrap()), "refused 1 1\n");
        request.elements.x[0] = 200_000_001;
        assert_eq!(request.sheet(&mut []), Err(Refusal::Guard));
        request.window.last = 10_801;
        assert_eq!(request.sheet(&mut []), Err(Refusal::Window));
    }
    for guard in [i64::MIN, -16, i64::MAX] {
        assert_eq!(Request { guard, ..hand_worked() }.sheet(&mut []), Err(Refusal::Guard));
    }
}

/// Beside the cone, 500 units off it at second 0: a graze under the larger guards alone.
#[test]
fn graze_under_a_larger_guard() {
    let listed = |guard| {
        let mut request = Request { guard, window: Window { first: -60, last: 60 }, ..hand_worked() };
        request.elements.x = [54_000_500, 0, 0, 0];
        request.elements.y[1] = 36_000_000;
        program(&request.to_bytes().unwrap())
    };
    assert_eq!(listed(499), "station 7 from -60 to 60\nclosest 0 0\n");
    assert_eq!(listed(500), "station 7 from -60 to 60\ngraze penumbra -1 1\nclosest 0 0\n");
    assert_eq!(listed(1_000), "station 7 from -60 to 60\ngraze penumbra -24 24\nclosest 0 0\n");
}

#[test]
fn windows_of_requests() {
    assert!(!listing_in_window(-6000, 10_800).starts_with("refused"));
    for (first, last) in [(-6000, 10_801), (-10_801, 0), (1, 0)] {
        let mut request = hand_worked();
        request.window = Window { first, last };
        request.station.latitude = 90_000_001;
        assert_eq!(program(&request.to_bytes().unwrap()), "refused 1 0\n");
    }
}

#[test]
fn first_field_outside_its_range() {
    let mut buffer = vec![0; 100];
    for (field, range) in ELEMENT_RANGES.iter().enumerate() {
        for value in [range.start() - 1, range.end() + 1, i64::MIN, i64::MAX] {
            let mut fields = hand_worked().elements.fields();
            fields[21] = if field < 21 { 0 } else { value };
            fields[field] = value;
            let mut request = Request { elements: Elements::from_fields(fields), ..hand_worked() };
            request.station.number = 0;
            assert_eq!(request.sheet(&mut buffer), Err(Refusal::Element(field)));
        }
    }
    for (field, range) in STATION_RANGES.iter().enumerate() {
        for value in [range.start() - 1, range.end() + 1, i64::MIN, i64::MAX] {
            let mut fields = hand_worked().station.fields();
            fields[4] = 20_001;
            fields[field] = value;
            let station = Station::from_fields(fields);
            assert_eq!(Request { station, ..hand_worked() }.sheet(&mut []), Err(Refusal::Station(field)));
        }
    }
    for (first, last) in [(i64::MIN, i64::MAX), (i64::MAX, i64::MIN), (0, i64::MAX), (i64::MIN, 0)] {
        let window = Window { first, last };
        assert_eq!(Request { window, ..hand_worked() }.sheet(&mut buffer), Err(Refusal::Window));
    }
    assert_eq!(buffer, vec![0; 100]);
}

#[test]
fn elements_keep_their_order() {
    let fields = std::array::from_fn(|field| field as i64);
    assert_eq!(Elements::from_fields(fields).fields(), fields);
}

#[test]
fn input_of_another_shape() {
    let good = hand_worked().to_bytes().unwrap();
    let mut buffer = [0; 45];
    for length in [0, 1, 45, 109, 113, 114] {
        assert_eq!(sheet_of_input(&good[..length], &mut buffer), Err(Refusal::Shape));
    }
    assert_eq!(sheet_of_input(&[&good[..], &[0]].concat(), &mut buffer), Err(Refusal::Shape));
    for at in KIND_PLACES {
        let mut bad = good;
        bad[at] ^= 1;
        assert_eq!(program(&bad), "refused 10 0\n");
    }
}

#[test]
fn sheet_cut_or_lengthened() {
    let (sheet, _) = hand_worked_sheet();
    let starts = [0, 9, 16, 23, 30, 37, 44];
    for length in 0..45 {
        let place = starts.into_iter().rfind(|&start| start <= length).unwrap();
        assert_eq!(records_of(&sheet[..length]), Err(Refusal::Cut(place)));
    }
    assert_eq!(records_of(&[&sheet[..], &[0xFF]].concat()), Err(Refusal::After(45)));
}

#[test]
fn reader_with_room() {
    let (sheet, words) = hand_worked_sheet();
    let mut room = vec![9; 37];
    assert_eq!(read(&sheet, &mut room[..34]), Err(Refusal::Room(7)));
    assert_eq!(room, vec![9; 37]);
    assert_eq!(read(&sheet, &mut room), Ok(7));
    assert_eq!((&room[..35], &room[35..]), (&words[..], &[9, 9][..]));
    assert_eq!(read(&sheet[..44], &mut []), Err(Refusal::Cut(44)));
}

#[test]
fn each_fault_of_a_sheet() {
    let (sheet, _) = hand_worked_sheet();
    let with = |changes: &[(usize, u8)]| {
        let mut changed = sheet.clone();
        for &(at, byte) in changes {
            changed[at] = byte;
        }
        records_of(&changed)
    };
    // Kinds that are not in the table, also where order would be broken.
    assert_eq!(with(&[(0, 0x02)]), Err(Refusal::Kind(0)));
    assert_eq!(with(&[(9, 0x14)]), Err(Refusal::Kind(9)));
    assert_eq!(with(&[(44, 0xFF)]), Err(Refusal::Kind(44)));
    // Cut before order: the end in place of which a longer record stands.
    assert_eq!(with(&[(44, 0x30)]), Err(Refusal::Cut(44)));
    // Order before fields.
    assert_eq!(with(&[(0, 0x10)]), Err(Refusal::Order(0)));
    assert_eq!(with(&[(9, 0x01)]), Err(Refusal::Order(9)));
    assert_eq!(with(&[(16, 0x10)]), Err(Refusal::Order(16)));
    assert_eq!(with(&[(16, 0x10), (17, 0)]), Err(Refusal::Order(16)));
    assert_eq!(with(&[(30, 0x11)]), Err(Refusal::Order(30)));
    assert_eq!(with(&[(9, 0x7F)]), Err(Refusal::Order(9)));
    assert_eq!(with(&[(30, 0x30)]), Err(Refusal::Field(30)));
    // From of the leave, 16,199, before to of the enter, 5,401; then equal to it.
    assert_eq!(with(&[(17, 0x15), (18, 0x18)]), Err(Refusal::Order(16)));
    assert!(with(&[(17, 0x15), (18, 0x19)]).is_ok());
    // Fields: station, window, guard, seconds, direction, magnitude.
    assert_eq!(with(&[(2, 0)]), Err(Refusal::Field(0)));
    assert_eq!(with(&[(1, 3), (2, 0xE8)]), Err(Refusal::Field(0)));
    assert_eq!(with(&[(5, 0x54), (6, 0x61)]), Err(Refusal::Field(0)));
    assert_eq!(with(&[(3, 0x41), (4, 0xA1)]), Err(Refusal::Field(0)));
    let with_guard = |guard: u16| with(&[(7, guard.to_be_bytes()[0]), (8, guard.to_be_bytes()[1])]);
    assert!(with_guard(16).is_ok() && with_guard(1_000).is_ok());
    for guard in [0, 15, 1_001, 65_535] {
        assert_eq!(with_guard(guard), Err(Refusal::Field(0)));
    }
    assert_eq!(with(&[(10, 0x12), (11, 0xBF)]), Err(Refusal::Field(9)));
    assert_eq!(with(&[(14, 0x0E), (15, 0x10)]), Err(Refusal::Field(9)));
    assert!(with(&[(14, 0x0E), (15, 0x0F)]).is_ok());
    assert!(with(&[(14, 0xFF), (15, 0xFF)]).is_ok());
    assert_eq!(with(&[(40, 0x00), (41, 0x13), (42, 0xD6), (43, 0x21)]), Err(Refusal::Field(37)));
    assert!(with(&[(40, 0x00), (41, 0x13), (42, 0xD6), (43, 0x20)]).is_ok());
}

#[test]
fn order_of_a_family() {
    let sheet = |middle: &[u8]| {
        records_of(&[&[1, 0, 7, 0, 10, 0, 20, 0, 16], middle, &[0x30, 0, 10, 0, 0, 0, 0, 0x7F]].concat())
    };
    // Grazes and opens are passed over.
    assert!(sheet(&[0x10, 0, 10, 0, 11, 0, 0, 0x12, 0, 11, 0, 13, 0x11, 0, 13, 0, 14, 0, 0]).is_ok());
    assert_eq!(
        sheet(&[0x10, 0, 10, 0, 11, 0, 0, 0x12, 0, 11, 0, 13, 0x10, 0, 13, 0, 14, 0, 0]),
        Err(Refusal::Order(21))
    );
    // Each family begins again, and penumbra does not come back.
    assert!(sheet(&[0x10, 0, 18, 0, 19, 0, 0, 0x20, 0, 10, 0, 11, 0, 0]).is_ok());
    assert_eq!(sheet(&[0x20, 0, 10, 0, 11, 0, 0, 0x10, 0, 18, 0, 19, 0, 0]), Err(Refusal::Order(16)));
    // Opens touch an end of the window; one second is enough.
    assert!(sheet(&[0x13, 0, 10, 0, 10, 0x13, 0, 20, 0, 20]).is_ok());
    assert!(sheet(&[0x13, 0, 10, 0, 12, 0x13, 0, 12, 0, 20]).is_ok());
    assert_eq!(sheet(&[0x13, 0, 11, 0, 12]), Err(Refusal::Field(9)));
    assert_eq!(sheet(&[0x13, 0, 20, 0, 19]), Err(Refusal::Field(9)));
    assert_eq!(sheet(&[0x12, 0, 11, 0, 11]), Err(Refusal::Field(9)));
    assert_eq!(sheet(&[0x12, 0, 19, 0, 21]), Err(Refusal::Field(9)));
    assert_eq!(sheet(&[0x10, 0, 11, 0, 11, 0, 0]), Err(Refusal::Field(9)));
    // Closest twice, nothing between closest and end.
    assert_eq!(sheet(&[0x30, 0, 10, 0, 0, 0, 0]), Err(Refusal::Order(16)));
}

#[test]
fn writer_gives_the_sheet_again() {
    let (sheet, words) = hand_worked_sheet();
    let mut buffer = [0xA5; 46];
    assert_eq!(write(&words, &mut buffer[..44]), Err(Refusal::Room(45)));
    assert_eq!(buffer, [0xA5; 46]);
    assert_eq!(write(&words, &mut buffer), Ok(45));
    assert_eq!((&buffer[..45], buffer[45]), (&sheet[..], 0xA5));
    assert_eq!(listing(&records_of(&buffer[..45]).unwrap()), HAND_WORKED);
}

#[test]
fn each_fault_of_entries() {
    let (_, words) = hand_worked_sheet();
    let with = |at: usize, value: u32| {
        let mut changed = words.clone();
        changed[at] = value;
        write(&changed, &mut [])
    };
    let places = [0, 9, 16, 23, 30, 37, 44];
    for (entry, place) in places.into_iter().enumerate() {
        assert_eq!(with(WORDS * entry, 0x101), Err(Refusal::Kind(place)));
        assert_eq!(with(WORDS * entry, u32::MAX), Err(Refusal::Kind(place)));
        for cut in 0..WORDS {
            assert_eq!(write(&words[..WORDS * entry + cut], &mut []), Err(Refusal::Cut(place)));
        }
    }
    // Numbers that are not used, and numbers too large for their bytes.
    assert_eq!(with(WORDS * 6 + 4, 1), Err(Refusal::Field(44)));
    assert_eq!(with(WORDS * 5 + 3, 1), Err(Refusal::Field(37)));
    assert_eq!(with(WORDS + 4, 16), Err(Refusal::Field(9)));
    assert_eq!(with(1, 0x1_0007), Err(Refusal::Field(0)));
    assert_eq!(with(4, 0x1_0010), Err(Refusal::Field(0)));
    assert_eq!(with(4, 15), Err(Refusal::Field(0)));
    assert_eq!(with(4, 1_001), Err(Refusal::Field(0)));
    assert_eq!(with(4, 1_000), Err(Refusal::Room(45)));
    assert_eq!(with(8, 0x1_0000), Err(Refusal::Field(9)));
    assert_eq!(with(7, u32::MAX), Err(Refusal::Field(9)));
    assert_eq!(with(10, 0x10), Err(Refusal::Order(16)));
    // After the end entry: 9, before the buffer's length is checked.
    for more in [&[0x7F][..], &[5, 5], &[0x7F, 0, 0, 0, 0], &[0xFFFF, 1, 2, 3, 4, 5]] {
        assert_eq!(write(&[&words, more].concat(), &mut []), Err(Refusal::After(45)));
    }
    assert_eq!(write(&[], &mut []), Err(Refusal::Cut(0)));
}

/// A whole sheet of the old form, without the guard: its next record stands where the guard is, and no kind begins a
/// number below 1,000.
#[test]
fn old_sheets() {
    let (sheet, _) = hand_worked_sheet();
    let old = [&sheet[..7], &sheet[9..]].concat();
    assert_eq!((old.len(), records_of(&old)), (43, Err(Refusal::Field(0))));
    for kind in [0x10, 0x11, 0x12, 0x13, 0x20, 0x21, 0x22, 0x23, 0x30, 0x40, 0x41, 0x42, 0x43] {
        for second in 0..=21_600u16 {
            let [high, low] = second.to_be_bytes();
            let old = [&[1, 0, 1, 0, 0, 0x54, 0x60, kind, high, low], &[0; 8][..]].concat();
            assert_eq!(records_of(&old), Err(Refusal::Field(0)));
        }
    }
}

#[test]
fn stored_seconds() {
    let (sheet, _) = hand_worked_sheet();
    assert_eq!(sheet[..9], [1, 0, 7, 0x12, 0xC0, 0x41, 0xA0, 0, 16]);
    assert_eq!(i64::from(u16::from_be_bytes([sheet[10], sheet[11]])) - FARTHEST, -5401);
    assert_eq!(sheet[37..], [0x30, 0x2A, 0x30, 0x00, 0x0F, 0xD5, 0xA7, 0x7F]);
}

/// No numbers and no bytes stop the program.
#[test]
fn anything_at_all() {
    let mut random = Random::new(1);
    let (sheet, words) = hand_worked_sheet();
    let mut buffer = [0; 100];
    let mut room = [0; 100];
    for _ in 0..20_000 {
        let number = |random: &mut Random| (random.bits() as i64) >> random.below(64);
        let fields = std::array::from_fn(|_| number(&mut random));
        let mut request = Request { elements: Elements::from_fields(fields), ..hand_worked() };
        assert!(request.sheet(&mut buffer).is_err());
        request.station.number = number(&mut random);
        request.station.longitude = number(&mut random);
        request.window.first = number(&mut random);
        request.window.last = number(&mut random);
        request.guard = number(&mut random);
        assert!(request.sheet(&mut buffer).is_err());

        let mut changed = sheet.clone();
        let mut entries = words.clone();
        for _ in 0..=random.below(3) {
            changed[random.below(45) as usize] = random.bits() as u8;
            entries[random.below(35) as usize] = random.bits() as u32 >> random.below(32);
        }
        // What one takes the other gives back.
        if let Ok(count) = read(&changed, &mut room) {
            assert_eq!(write(&room[..WORDS * count], &mut buffer), Ok(changed.len()));
            assert_eq!(buffer[..changed.len()], changed);
        }
        if let Ok(length) = write(&entries, &mut buffer) {
            assert_eq!(read(&buffer[..length], &mut room), Ok(entries.len() / WORDS));
            assert_eq!(room[..entries.len()], entries);
        }
    }
}

#[test]
fn fits() {
    // x of 30 June 1954, and the hourly values 9h to 15h of source document 001.
    let x = [-19_869_267, 55_341_229, -3_333, -800];
    let hourly = [-185_901_200, -130_559_000, -75_213_000, -19_869_000, 35_468_000, 90_793_000, 146_103_000];
    assert_eq!(judge(&x, &hourly, 459), Ok(()));
    assert_eq!(judge(&x, &hourly, 458), Err(Refusal::Hour(5)));
    assert_eq!(judge(&x, &hourly, 0), Err(Refusal::Hour(0)));
    for tolerance in [-1, 1_001, i64::MIN] {
        assert_eq!(judge(&[i64::MAX; 4], &[i64::MIN; 7], tolerance), Err(Refusal::Given(0)));
    }
    for place in 0..7 {
        let mut tabulated = hourly;
        tabulated[place..].fill(-1_000_000_001);
        assert_eq!(judge(&[i64::MAX; 4], &tabulated, 0), Err(Refusal::Given(place + 1)));
        tabulated[place..].fill(1_000_000_000);
        assert_eq!(judge(&x, &tabulated, 459), Err(Refusal::Hour(place)));
    }
    for place in 0..4 {
        let mut coefficients = x;
        coefficients[place..].fill(200_000_001);
        assert_eq!(judge(&coefficients, &hourly, 0), Err(Refusal::Element(place)));
    }
    assert_eq!(judge(&x[..3], &hourly, -1), Err(Refusal::Shape));
    assert_eq!(judge(&x, &hourly[..6], -1), Err(Refusal::Shape));
    // at whole hours nothing is rounded
    for hour in -3..=3 {
        assert_eq!(value_at(&x, 3600 * hour), x[0] + hour * (x[1] + hour * (x[2] + hour * x[3])));
    }
}
