//! Document 02's positions as doubles through the crate: a real eclipse both ways, every field at its ends, every refusal in its order.

use ukhtvaresh::{
    doubles, doubles_into, read, sheet_of_doubles, sheet_of_doubles_vec, sheet_vec, Elements, Longitude,
    Refusal, Request, Survey, Window,
};

// Units to one of each element, and the ends of its range.
const ONE: f64 = 1e8;
const DEGREE: f64 = 1e6;
const FIELDS: [(f64, i64, i64); 22] = [
    (ONE, -200_000_000, 200_000_000),
    (ONE, -100_000_000, 100_000_000),
    (ONE, -100_000, 100_000),
    (ONE, -10_000, 10_000),
    (ONE, -200_000_000, 200_000_000),
    (ONE, -100_000_000, 100_000_000),
    (ONE, -100_000, 100_000),
    (ONE, -10_000, 10_000),
    (DEGREE, -25_000_000, 25_000_000),
    (DEGREE, -20_000, 20_000),
    (DEGREE, -100, 100),
    (ONE, 50_000_000, 60_000_000),
    (ONE, -100_000, 100_000),
    (ONE, -10_000, 10_000),
    (ONE, -5_000_000, 5_000_000),
    (ONE, -100_000, 100_000),
    (ONE, -10_000, 10_000),
    (DEGREE, 0, 359_999_999),
    (DEGREE, 14_900_000, 15_100_000),
    (DEGREE, -100, 100),
    (ONE, 400_000, 500_000),
    (ONE, 400_000, 500_000),
];

const MOSCOW: &[u8] = include_bytes!("../../examples/moscow1954.bin");

fn surveyed(request: &Request) -> Survey {
    let (elements, degrees) = doubles(&request.elements, request.station.longitude).expect("in range");
    Survey {
        elements,
        longitude: Longitude::Degrees(degrees),
        number: request.station.number,
        latitude: request.station.latitude,
        height: request.station.height,
        delta_t: request.station.delta_t,
        window: request.window,
        guard: request.guard,
    }
}

fn moscow() -> Request {
    Request::from_bytes(MOSCOW).expect("a request")
}

fn refused(survey: &Survey) -> Refusal {
    sheet_of_doubles(survey, &mut [0; 64]).expect_err("refused")
}

#[test]
fn moscow_there_and_back() {
    let survey = surveyed(&moscow());
    let Longitude::Degrees(degrees) = survey.longitude else { panic!("degrees") };
    let sheet = sheet_vec(MOSCOW).expect("a sheet");
    assert_eq!(sheet_of_doubles_vec(&survey), Ok(sheet.clone()));
    let hours = Survey { longitude: Longitude::Hours(degrees / 15.0), ..survey };
    assert_eq!(sheet_of_doubles_vec(&hours), Ok(sheet.clone()));
    assert!(read(&sheet).is_ok());
    let mut buffer = [7; 128];
    let length = sheet_of_doubles(&survey, &mut buffer).expect("a sheet");
    assert_eq!(&buffer[..length], &sheet[..]);
    assert!(buffer[length..].iter().all(|&byte| byte == 7));
    assert_eq!(
        sheet_of_doubles(&survey, &mut buffer[..length - 1]),
        Err(Refusal::Room { needed: length as u64 })
    );
}

#[test]
fn each_field_at_its_ends() {
    let good = surveyed(&moscow());
    for (field, (scale, least, most)) in FIELDS.into_iter().enumerate() {
        for (end, out) in [(least, -1.0), (most, 1.0)] {
            // well within half a unit of the end, and well past it
            for (off, taken) in [(0.0, true), (0.49, true), (0.51, false), (1.0, false), (1e30, false)] {
                let mut survey = good;
                survey.elements[field] = (end as f64 + out * off) / scale;
                let answer = sheet_of_doubles_vec(&survey).map(|_| ());
                let expected = if taken { Ok(()) } else { Err(Refusal::Element { field: field as u64 }) };
                assert_eq!(answer, expected, "field {field} {off} past {end}");
            }
        }
    }
    for (off, taken) in [(0.0, true), (0.49, true), (0.51, false), (1e30, false)] {
        for sign in [-1.0, 1.0] {
            let degrees = sign * (180_000_000.0 + off) / DEGREE;
            for longitude in [Longitude::Degrees(degrees), Longitude::Hours(degrees / 15.0)] {
                let answer = sheet_of_doubles_vec(&Survey { longitude, ..good }).map(|_| ());
                assert_eq!(answer, if taken { Ok(()) } else { Err(Refusal::Station { field: 2 }) });
            }
        }
    }
}

#[test]
fn refusals_in_their_order() {
    let good = surveyed(&moscow());
    let everything = Survey {
        elements: [f64::INFINITY; 22],
        longitude: Longitude::Hours(f64::NAN),
        number: 0,
        window: Window { first: 1, last: 0 },
        guard: 15,
        ..good
    };
    assert_eq!(refused(&everything), Refusal::Window);
    let window = Survey { window: good.window, ..everything };
    assert_eq!(refused(&window), Refusal::Guard);
    let guard = Survey { guard: good.guard, ..window };
    assert_eq!(refused(&guard), Refusal::NotFinite { field: 0 });
    for none in [f64::INFINITY, f64::NEG_INFINITY, f64::NAN, -f64::NAN] {
        for field in 0..22 {
            // all from this field on are not finite, and all before it are out of range
            let mut survey = Survey { elements: [1e300; 22], ..guard };
            survey.elements[field..].fill(none);
            assert_eq!(refused(&survey), Refusal::NotFinite { field: field as u64 });
        }
        for longitude in [Longitude::Degrees(none), Longitude::Hours(none)] {
            let survey = Survey { elements: [f64::MAX; 22], longitude, ..guard };
            assert_eq!(refused(&survey), Refusal::NotFinite { field: 22 });
        }
    }
    let finite = Survey { elements: [f64::MAX; 22], longitude: Longitude::Degrees(-f64::MAX), ..guard };
    assert_eq!(refused(&finite), Refusal::Element { field: 0 });
    for large in [1e300, -1e300, 92_233_720_368.547_76, -92_233_720_368.547_76] {
        let mut survey = good;
        survey.elements[21] = large;
        assert_eq!(refused(&survey), Refusal::Element { field: 21 });
        let survey = Survey { longitude: Longitude::Degrees(large), ..good };
        assert_eq!(refused(&survey), Refusal::Station { field: 2 });
    }
    assert_eq!(
        refused(&Survey { number: 0, longitude: Longitude::Hours(1e300), ..good }),
        Refusal::Station { field: 0 }
    );
    assert_eq!(refused(&Survey { latitude: 90_000_001, ..good }), Refusal::Station { field: 1 });
    assert_eq!(refused(&Survey { height: 9_001, ..good }), Refusal::Station { field: 3 });
    assert_eq!(refused(&Survey { delta_t: 20_001, ..good }), Refusal::Station { field: 4 });
    assert_eq!(Refusal::NotFinite { field: 22 }.to_string(), "refused 12 22: a double that is not finite");
}

#[test]
fn small_doubles_are_nothing() {
    let mut request = moscow();
    request.elements.x2 = 0;
    let sheet = sheet_vec(&request.to_bytes().expect("fits"));
    for nothing in [0.0, -0.0, f64::from_bits(1), -f64::from_bits(1), f64::MIN_POSITIVE, 4.9e-9, -4.9e-9] {
        let mut survey = surveyed(&request);
        survey.elements[2] = nothing;
        assert_eq!(sheet_of_doubles_vec(&survey), sheet);
    }
}

#[test]
fn units_at_the_ends_of_their_ranges() {
    let good = moscow();
    let mut units = [good.station.longitude; 23];
    units[..22].copy_from_slice(&good.elements.numbers());
    let mut room = [1.5; 25];
    for (field, (scale, least, most)) in
        FIELDS.into_iter().chain([(DEGREE, -180_000_000, 180_000_000)]).enumerate()
    {
        for unit in [least, least + 1, most - 1, most] {
            let mut given = units;
            given[field] = unit;
            assert_eq!(doubles_into(&given, &mut room), Ok(23));
            assert_eq!(room[field], unit as f64 / scale);
            assert_eq!(room[23..], [1.5; 2]);
        }
        for unit in [least - 1, most + 1, i64::MIN, i64::MAX] {
            let mut given = units;
            given[field] = unit;
            let old = room;
            let expected = if field == 22 {
                Refusal::Station { field: 2 }
            } else {
                Refusal::Element { field: field as u64 }
            };
            assert_eq!(doubles_into(&given, &mut room), Err(expected));
            assert_eq!(room, old);
        }
    }
    for length in [0, 22, 24] {
        assert_eq!(doubles_into(&vec![0; length], &mut room), Err(Refusal::Shape));
    }
    for length in [0, 22] {
        assert_eq!(doubles_into(&units, &mut room[..length]), Err(Refusal::Room { needed: 23 }));
    }
    assert_eq!(doubles(&Elements::default(), 0), Err(Refusal::Element { field: 11 }));
}
