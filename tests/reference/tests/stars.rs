//! Stars behind the Moon: the cases that follow from the words of document 02, wish 7, and its examples.

use reference::elements::{Elements, Station, Window, STATION_RANGES};
use reference::listing::{listing, star_of_input, star_program};
use reference::mend::mend;
use reference::random::Random;
use reference::refusal::Refusal;
use reference::request::Request;
use reference::room;
use reference::sample::{self, Manner};
use reference::sample_star::{self, over_the_pole};
use reference::shadow::State;
use reference::sheet::{bytes_of, read, records_of, write, Record, WORDS};
use reference::star::{star_ranges, StarElements, StarRequest, RADII, STAR_KIND_PLACES};

const OVER_THE_POLE: &str = "\
station 7 from -6000 to 6000
enter star -2726 -2724 2700
leave star 2724 2726 900
closest 0 0
";

fn listed(request: &StarRequest) -> String {
    star_program(&request.to_bytes().unwrap())
}

fn in_window(first: i64, last: i64) -> StarRequest {
    StarRequest { window: Window { first, last }, ..over_the_pole() }
}

/// The sheet over the pole and its entries, five numbers each.
fn sheet() -> (Vec<u8>, Vec<u32>) {
    let mut buffer = vec![0; 31];
    assert_eq!(over_the_pole().sheet(&mut buffer), Ok(31));
    let words = records_of(&buffer).unwrap().iter().flat_map(Record::words).collect();
    (buffer, words)
}

#[test]
fn over_the_pole_by_hand() {
    assert_eq!(listed(&over_the_pole()), OVER_THE_POLE);
    let (sheet, words) = sheet();
    assert_eq!(sheet[9..16], [0x40, 0x1F, 0x8A, 0x1F, 0x8C, 0x0A, 0x8C]);
    assert_eq!((sheet[16], &sheet[23..]), (0x41, &[0x30, 0x2A, 0x30, 0, 0, 0, 0, 0x7F][..]));
    assert_eq!(words[WORDS], 0x40);
    let head = "station 7 from 2725 to";
    assert_eq!(listed(&in_window(2725, 2725)), format!("{head} 2725\nopen star 2725 2725\nclosest 2725 0\n"));
    assert_eq!(listed(&in_window(2725, 2730)), format!("{head} 2730\nopen star 2725 2726\nclosest 2725 0\n"));
}

#[test]
fn the_books_occultations() {
    let potsdam = (
        &include_bytes!("../../../examples/potsdam1956.bin")[..],
        include_str!("../../../examples/potsdam1956.listing"),
    );
    let kansas = (
        &include_bytes!("../../../examples/kansas1949.bin")[..],
        include_str!("../../../examples/kansas1949.listing"),
    );
    for (input, expected) in [potsdam, kansas] {
        assert_eq!(star_program(input), expected);
        assert_eq!(StarRequest::from_bytes(input).unwrap().to_bytes().unwrap(), input);
    }
    // The book predicts 18:12:47.93 universal time, 19.93 s of ephemeris time after the reference instant.
    let potsdam = StarRequest::from_bytes(potsdam.0).unwrap().check().unwrap();
    let beyond = |second| (potsdam.shadow(second).m() as f64).sqrt() - potsdam.shadow(second).l as f64;
    let contact = 19.0 + beyond(19) / (beyond(19) - beyond(20));
    assert!((contact - 19.93).abs() < 0.1, "{contact}");
}

/// Along the edge, 500 units off it: a graze under the larger guards alone.
#[test]
fn grazes() {
    let grazing = |guard| {
        let mut request = StarRequest { guard, ..in_window(-60, 60) };
        request.elements.x = [27_250_500, 0, 0, 0];
        request.elements.y[1] = 36_000_000;
        listed(&request)
    };
    assert_eq!(grazing(499), "station 7 from -60 to 60\nclosest 0 0\n");
    assert_eq!(grazing(500), "station 7 from -60 to 60\ngraze star -1 1\nclosest 0 0\n");
    assert_eq!(grazing(1_000), "station 7 from -60 to 60\ngraze star -17 17\nclosest 0 0\n");
}

/// The cylinder is the shadow of an eclipse whose declination stays, but for L: u, v and direction are the same at
/// every second.
#[test]
fn the_axis_of_an_eclipse_without_its_cones() {
    let mut random = Random::new(7);
    for _ in 0..3_000 {
        let mut eclipse = sample::draw(&mut random, Manner::Anywhere);
        eclipse.elements.d[1] = 0;
        eclipse.elements.d[2] = 0;
        let Request { elements: Elements { x, y, d: [d0, ..], mu, .. }, station, window, guard, .. } =
            eclipse;
        let radius = random.within(&RADII);
        let star = StarRequest { elements: StarElements { x, y, d0, mu }, radius, station, window, guard };
        let (shadow, cylinder) =
            (sample::shadow(&eclipse, window.first), sample_star::shadow(&star, window.first));
        assert_eq!((shadow.u, shadow.v, shadow.m()), (cylinder.u, cylinder.v, cylinder.m()));
        assert_eq!((shadow.direction(), radius), (cylinder.direction(), cylinder.l));
    }
}

#[test]
fn ranges_and_the_first_refusal() {
    let short = in_window(0, 2);
    let with = |field: usize, value: i64| {
        let mut fields = short.elements.fields();
        fields[field] = value;
        StarRequest { elements: StarElements::from_fields(fields), ..short }
    };
    let mut buffer = [0xA5; 64];
    for (field, range) in star_ranges().into_iter().enumerate() {
        for value in [*range.start(), *range.end()] {
            assert!(with(field, value).sheet(&mut [0; 64]).is_ok(), "{field} {value}");
        }
        for value in [range.start() - 1, range.end() + 1, i64::MIN, i64::MAX] {
            // before the radius and the station
            let mut request = StarRequest { radius: 0, ..with(field, value) };
            request.elements.mu[2] = if field == 11 { value } else { 101 };
            request.station.number = 0;
            assert_eq!(request.sheet(&mut buffer), Err(Refusal::Element(field)));
            let guarded = StarRequest { guard: 15, ..request };
            assert_eq!(guarded.sheet(&mut buffer), Err(Refusal::Guard));
            let window = Window { first: 1, last: 0 };
            assert_eq!(StarRequest { window, ..guarded }.sheet(&mut buffer), Err(Refusal::Window));
        }
    }
    for radius in [27_200_000, 27_227_400, 27_300_000] {
        assert!(StarRequest { radius, ..short }.sheet(&mut [0; 64]).is_ok());
    }
    for radius in [27_199_999, 27_300_001, 0, -27_250_000, i64::MIN, i64::MAX] {
        let mut request = StarRequest { radius, ..short };
        assert_eq!(request.sheet(&mut buffer), Err(Refusal::Radius));
        request.station.number = 0;
        assert_eq!(request.sheet(&mut []), Err(Refusal::Radius));
    }
    assert_eq!((Refusal::Radius.number(), Refusal::Radius.place()), (13, 0));
    for (field, range) in STATION_RANGES.iter().enumerate() {
        for value in [range.start() - 1, range.end() + 1] {
            let mut fields = short.station.fields();
            fields[4] = 20_001;
            fields[field] = value;
            let station = Station::from_fields(fields);
            assert_eq!(StarRequest { station, ..short }.sheet(&mut []), Err(Refusal::Station(field)));
        }
    }
    assert_eq!(over_the_pole().sheet(&mut buffer[..30]), Err(Refusal::Room(31)));
    assert_eq!(buffer, [0xA5; 64]);
    assert_eq!(over_the_pole().sheet(&mut buffer), Ok(31));
    assert_eq!((&buffer[..31], &buffer[31..]), (&sheet().0[..], &[0xA5; 33][..]));
}

#[test]
fn inputs_of_another_shape() {
    let good = over_the_pole().to_bytes().unwrap();
    assert_eq!(STAR_KIND_PLACES.map(|at| good[at]), [5, 3, 4]);
    for length in [0, 1, 53, 78] {
        assert_eq!(star_of_input(&good[..length], &mut []), Err(Refusal::Shape));
    }
    assert_eq!(star_of_input(&[&good[..], &[0]].concat(), &mut []), Err(Refusal::Shape));
    for at in STAR_KIND_PLACES {
        let mut bad = good;
        bad[at] ^= 1;
        assert_eq!(star_program(&bad), "refused 10 0\n");
    }
    // an eclipse's request is no star's, and the other way
    let eclipse = sample::hand_worked().to_bytes().unwrap();
    assert_eq!(star_program(&eclipse), "refused 10 0\n");
    assert_eq!(Request::from_bytes(&good), Err(Refusal::Shape));
    let fields = std::array::from_fn(|field| field as i64);
    assert_eq!(StarElements::from_fields(fields).fields(), fields);
}

/// The buffer for table S: shorter it is refused before the sheet's own buffer, which alone leaves it filled.
#[test]
fn rooms() {
    let request = over_the_pole().to_bytes().unwrap();
    let mut sines = [7; 902];
    assert_eq!(room::star_of_input(&request, &mut sines[..900], &mut []), Err(Refusal::Room(901)));
    assert_eq!(sines, [7; 902]);
    let refused = StarRequest { radius: 0, ..over_the_pole() }.to_bytes().unwrap();
    assert_eq!(room::star_of_input(&refused, &mut [], &mut []), Err(Refusal::Radius));
    assert_eq!(room::star_of_input(&request, &mut sines, &mut []), Err(Refusal::Room(31)));
    assert_eq!((sines[300], sines[900], sines[901]), (50_000_000, 100_000_000, 7));
    let mut buffer = [0; 31];
    assert_eq!(room::star_of_input(&request, &mut sines, &mut buffer), Ok(31));
    assert_eq!(buffer, sheet().0[..]);
}

const HEAD: [u8; 9] = [1, 0, 7, 0, 10, 0, 20, 0, 16];
const CLOSEST: [u8; 7] = [0x30, 0, 10, 0, 0, 0, 0];
const ENTER: [u8; 7] = [0x40, 0, 11, 0, 12, 0, 9];
const OPEN: [u8; 5] = [0x43, 0, 18, 0, 20];
const SHARE: [u8; 5] = [0x31, 0, 0, 0, 0];
const END: [u8; 1] = [0x7F];

#[test]
fn order_with_stars() {
    let of = |parts: &[&[u8]]| records_of(&parts.concat());
    assert!(of(&[&HEAD, &ENTER, &OPEN, &CLOSEST, &END]).is_ok());
    // the star's family keeps the rules of the others
    assert_eq!(of(&[&HEAD, &ENTER, &ENTER, &CLOSEST, &END]), Err(Refusal::Order(16)));
    assert_eq!(of(&[&HEAD, &OPEN, &ENTER, &CLOSEST, &END]), Err(Refusal::Order(14)));
    assert_eq!(of(&[&HEAD, &CLOSEST, &ENTER, &END]), Err(Refusal::Order(16)));
    assert_eq!(of(&[&ENTER]), Err(Refusal::Order(0)));
    assert_eq!(of(&[&HEAD, &[0x40, 0, 12, 0, 12, 0, 9], &CLOSEST, &END]), Err(Refusal::Field(9)));
    assert_eq!(of(&[&HEAD, &[0x42, 0, 9, 0, 12], &CLOSEST, &END]), Err(Refusal::Field(9)));
    assert_eq!(of(&[&HEAD, &[0x43, 0, 11, 0, 12], &CLOSEST, &END]), Err(Refusal::Field(9)));
    assert_eq!(of(&[&HEAD, &[0x44, 0, 11, 0, 12], &CLOSEST, &END]), Err(Refusal::Kind(9)));
    assert_eq!(of(&[&HEAD, &ENTER[..6]]), Err(Refusal::Cut(9)));
    // star and eclipse entries in one sheet, whichever comes first
    for kind in [0x10, 0x20] {
        let contact = [kind, 0, 13, 0, 14, 0, 9];
        let graze = [kind + 2, 0, 13, 0, 14];
        for eclipse in [&contact[..], &graze] {
            let place = 9 + eclipse.len();
            assert_eq!(of(&[&HEAD, eclipse, &ENTER, &CLOSEST, &END]), Err(Refusal::Order(place)));
            assert_eq!(of(&[&HEAD, eclipse, &OPEN, &CLOSEST, &END]), Err(Refusal::Order(place)));
            assert_eq!(of(&[&HEAD, &ENTER, eclipse, &CLOSEST, &END]), Err(Refusal::Order(16)));
            assert_eq!(of(&[&HEAD, &OPEN, eclipse, &CLOSEST, &END]), Err(Refusal::Order(14)));
        }
    }
    // a star and a share; without a star entry the share may stand, whatever the request was
    assert!(of(&[&HEAD, &CLOSEST, &SHARE, &END]).is_ok());
    assert_eq!(of(&[&HEAD, &ENTER, &CLOSEST, &SHARE, &END]), Err(Refusal::Order(23)));
    assert_eq!(of(&[&HEAD, &ENTER, &SHARE, &CLOSEST, &END]), Err(Refusal::Order(16)));
    // a magnitude after a star entry
    for magnitude in [1u32, 1_300_000, 1_300_001, u32::MAX] {
        let closest = [&[0x30, 0, 10][..], &magnitude.to_be_bytes()].concat();
        assert_eq!(of(&[&HEAD, &ENTER, &closest, &END]), Err(Refusal::Field(16)));
        assert_eq!(of(&[&HEAD, &OPEN, &closest, &END]), Err(Refusal::Field(14)));
        assert_eq!(of(&[&HEAD, &closest, &END]).is_ok(), magnitude <= 1_300_000);
    }
}

#[test]
fn entries_handed_over() {
    let (sheet, words) = sheet();
    let mut buffer = [0xA5; 32];
    assert_eq!(write(&words, &mut buffer), Ok(31));
    assert_eq!((&buffer[..31], buffer[31]), (&sheet[..], 0xA5));
    let with = |at: usize, value: u32| {
        let mut changed = words.clone();
        changed[at] = value;
        write(&changed, &mut [])
    };
    assert_eq!(with(WORDS, 0x10), Err(Refusal::Order(16)));
    assert_eq!(with(2 * WORDS, 0x11), Err(Refusal::Order(16)));
    assert_eq!(with(2 * WORDS, 0x40), Err(Refusal::Order(16)));
    assert_eq!(with(2 * WORDS, 0x44), Err(Refusal::Kind(16)));
    assert_eq!(with(3 * WORDS + 2, 1), Err(Refusal::Field(23)));
    assert_eq!(with(WORDS + 4, 1), Err(Refusal::Field(9)));
    let shared = [&words[..4 * WORDS], &[0x31, 0, 0, 0, 0], &words[4 * WORDS..]].concat();
    assert_eq!(write(&shared, &mut []), Err(Refusal::Order(30)));
}

#[test]
fn a_year_file_with_stars() {
    let star = sheet().0;
    let mut eclipse = vec![0; 45];
    assert_eq!(sample::hand_worked().sheet(&mut eclipse), Ok(45));
    let whole = [&star[..], &eclipse, &star].concat();
    assert_eq!((mend(&whole).sheets, mend(&whole).stretches), (whole.clone(), vec![]));
    // the eclipse's records cut into the star's sheet
    let mixed = [&star[..16], &eclipse[9..], &star].concat();
    let length = mixed.len() as u64 - 31;
    assert_eq!((mend(&mixed).sheets, mend(&mixed).stretches), (star, vec![(0, length)]));
}

/// Requests of all sorts give sheets that read well, with no magnitude, and come back.
#[test]
fn sheets_of_drawn_requests() {
    let mut random = Random::new(1);
    let mut kinds = [0; 4];
    for _ in 0..5_000 {
        let mut request = sample_star::difficult(&mut random);
        request.window.last = request.window.last.min(request.window.first + 300);
        let checked = request.check().unwrap();
        let records = checked.records();
        let sheet = bytes_of(&records);
        assert_eq!(records_of(&sheet), Ok(records.clone()));
        let mut words = vec![0; WORDS * records.len()];
        assert_eq!(read(&sheet, &mut words), Ok(records.len()));
        let [.., closest, _] = records[..] else { panic!("a closest, an end") };
        assert_eq!((closest.kind, closest.fields[1]), (0x30, 0));
        let second = i64::from(closest.fields[0]) - 10_800;
        let least = request.window.seconds().map(|at| checked.shadow(at).m()).min();
        assert_eq!(Some(checked.shadow(second).m()), least);
        for record in records.iter().filter(|record| record.kind >> 4 == 4) {
            kinds[(record.kind & 3) as usize] += 1;
        }
        assert!(listing(&records).lines().count() + 1 == records.len());
        let sure =
            request.window.seconds().filter(|&at| checked.shadow(at).state(request.guard) != State::Unsure);
        assert!(sure.count() > 0 || records[1].kind == 0x43);
    }
    assert!(kinds.iter().all(|&count| count > 20), "{kinds:?}");
}
