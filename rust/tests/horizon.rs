// Altitude, azimuth and zenith at a second, through the safe functions: by hand, at the limits, mirrored, refused.
use ukhtvaresh::{
    horizon, mirror, read, second, sheet_vec, star_horizon, Elements, Entry, Horizon, Refusal, Request,
    StarElements, StarRequest, Station, Window,
};

const DEGREE: i64 = 1_000_000;

fn example(name: &str) -> Vec<u8> {
    std::fs::read(format!("{}/../examples/{name}", env!("CARGO_MANIFEST_DIR"))).expect("an example")
}

fn station(latitude: i64) -> Station {
    Station { number: 7, latitude, longitude: 0, height: 0, delta_t: 0 }
}

// A request of an hour angle and a declination at second 0.
fn eclipse(latitude: i64, h: i64, d0: i64) -> Request {
    let elements = Elements {
        d0,
        l1_0: 54_000_000,
        mu0: h.rem_euclid(360 * DEGREE),
        mu1: 15 * DEGREE,
        tan_f1: 460_000,
        tan_f2: 458_000,
        ..Elements::default()
    };
    let window = Window { first: -60, last: 60 };
    Request { elements, station: station(latitude), window, guard: 16 }
}

fn star(latitude: i64, h: i64, d0: i64) -> StarRequest {
    let mu0 = h.rem_euclid(360 * DEGREE);
    let elements = StarElements { d0, mu0, mu1: 15 * DEGREE, ..StarElements::default() };
    let window = Window { first: -60, last: 60 };
    StarRequest { elements, radius: 27_250_000, station: station(latitude), window, guard: 16 }
}

fn bytes(request: &Request) -> [u8; 115] {
    request.to_bytes().expect("every number fits")
}

fn star_bytes(request: &StarRequest) -> [u8; 79] {
    request.to_bytes().expect("every number fits")
}

fn found(altitude: i16, azimuth: u16, zenith: u16) -> Horizon {
    Horizon { altitude, azimuth: Some(azimuth), zenith: Some(zenith) }
}

// The horizon of the Sun and of a star at the same place, which must be the same.
fn seen(latitude: i64, h: i64, d0: i64) -> Horizon {
    let [latitude, h, d0] = [latitude, h, d0].map(|degrees| degrees * DEGREE);
    let of_sun = horizon(&bytes(&eclipse(latitude, h, d0)), 0).expect("a horizon");
    let of_star = star_horizon(&star_bytes(&star(latitude, h, d0)), 0).expect("a horizon");
    assert_eq!(of_sun, of_star);
    of_sun
}

#[test]
fn by_hand() {
    // on the equator: overhead, straight down, rising, setting, on the meridian
    let none = |altitude| Horizon { altitude, azimuth: None, zenith: None };
    assert_eq!((seen(0, 0, 0), seen(0, 180, 0)), (none(900), none(-900)));
    assert_eq!((seen(0, -90, 0), seen(0, 90, 0)), (found(0, 900, 2700), found(0, 2700, 900)));
    assert_eq!((seen(0, 0, 20), seen(0, 0, -20)), (found(700, 0, 1800), found(700, 1800, 0)));
    // at the poles the altitude is the declination
    assert_eq!((seen(90, 0, 20), seen(90, 90, 20)), (found(200, 1800, 0), found(200, 2700, 0)));
    assert_eq!((seen(-90, 0, 20), seen(-90, -90, -20)), (found(-200, 0, 1800), found(200, 900, 1800)));
    // noon and midnight in the north
    assert_eq!((seen(55, 0, 20), seen(70, 180, 23)), (found(550, 1800, 0), found(30, 0, 0)));
}

#[test]
fn rounded_down_about_the_horizon() {
    // from the pole, where the altitude is d: a millionth of a degree is enough to be below
    for (d0, altitude) in
        [(0, 0), (99_999, 0), (100_000, 1), (-1, -1), (-100_000, -1), (-100_001, -2), (25 * DEGREE, 250)]
    {
        assert_eq!(horizon(&bytes(&eclipse(90 * DEGREE, 0, d0)), 0).map(|at| at.altitude), Ok(altitude));
        assert_eq!(
            star_horizon(&star_bytes(&star(90 * DEGREE, 0, d0)), 0).map(|at| at.altitude),
            Ok(altitude)
        );
    }
}

// At the closest second of each eclipse and at a contact of each star: what ERFA's hd2ae and hd2pa give, rounded down.
#[test]
fn the_examples() {
    let closest = |name| {
        let request = example(name);
        let entries = read(&sheet_vec(&request).expect("a sheet")).expect("entries");
        let Some(&Entry::Closest { second, .. }) = entries.iter().rev().nth(1) else { panic!("a closest") };
        horizon(&request, second).expect("a horizon")
    };
    assert_eq!(closest("hopkinsville2017.bin"), found(639, 1986, 151));
    assert_eq!(closest("moscow1954.bin"), found(390, 2530, 358));
    assert_eq!(closest("kiev1954.bin"), found(440, 2518, 411));
    assert_eq!(star_horizon(&example("potsdam1956.bin"), 20), Ok(found(439, 1410, 3369)));
    assert_eq!(star_horizon(&example("kansas1949.bin"), 465), Ok(found(176, 2035, 206)));
}

#[test]
fn seconds_outside_the_window() {
    let request = bytes(&eclipse(0, 0, 0));
    assert_eq!(horizon(&request, 3_600), Ok(found(750, 2700, 900)));
    assert_eq!(horizon(&request, -10_800), Ok(found(450, 900, 2700)));
    assert_eq!(horizon(&request, 10_800), Ok(found(450, 2700, 900)));
    let star = star_bytes(&star(0, 0, 0));
    assert_eq!(star_horizon(&star, -10_800), Ok(found(450, 900, 2700)));
    assert_eq!(star_horizon(&star, 10_800), Ok(found(450, 2700, 900)));
    // 200 seconds of ΔT, 0.8356 degree
    let mut late = eclipse(0, 0, 0);
    late.station.delta_t = 20_000;
    assert_eq!(horizon(&bytes(&late), 0), Ok(found(891, 900, 2700)));
}

#[test]
fn moving_declination() {
    // from the pole: 20,000 an hour for three hours, to the tenth and not a second before
    let mut request = eclipse(90 * DEGREE, 0, 9_940_000);
    request.elements.d1 = 20_000;
    let altitude = |at| horizon(&bytes(&request), at).map(|found| found.altitude);
    assert_eq!([0, 10_799, 10_800].map(altitude), [Ok(99), Ok(99), Ok(100)]);
}

#[test]
fn mirrored() {
    let sums = |a: Option<u16>, b: Option<u16>| match (a, b) {
        (Some(a), Some(b)) => [1799, 1800].contains(&((a + b) % 3600)),
        (a, b) => a.is_none() && b.is_none(),
    };
    for name in ["hopkinsville2017.bin", "moscow1954.bin", "kiev1954.bin"] {
        let request = example(name);
        let beyond = mirror(&request).expect("a request");
        for at in (-10_800..=10_800).step_by(600) {
            let (north, south) = (horizon(&request, at).unwrap(), horizon(&beyond, at).unwrap());
            assert_eq!(north.altitude, south.altitude);
            assert!(
                sums(north.azimuth, south.azimuth) && sums(north.zenith, south.zenith),
                "{north:?} {south:?}"
            );
        }
    }
}

#[test]
fn refused_in_order() {
    let mut request = eclipse(0, 0, 0);
    for at in [-10_801, 10_801, i64::MIN, i64::MAX] {
        assert_eq!(horizon(&bytes(&request), at), Err(Refusal::Window));
        assert_eq!(star_horizon(&star_bytes(&star(0, 0, 0)), at), Err(Refusal::Window));
    }
    request.station.height = 9_001;
    assert_eq!(horizon(&bytes(&request), 0), Err(Refusal::Station { field: 3 }));
    request.elements.d0 = 25_000_001;
    assert_eq!(horizon(&bytes(&request), 0), Err(Refusal::Element { field: 8 }));
    request.guard = 15;
    assert_eq!(horizon(&bytes(&request), 0), Err(Refusal::Guard));
    assert_eq!(horizon(&bytes(&request), 10_801), Err(Refusal::Window));
    request.window = Window { first: 1, last: 0 };
    assert_eq!(horizon(&bytes(&request), 0), Err(Refusal::Window));
    assert_eq!(horizon(&bytes(&request)[1..], 0), Err(Refusal::Shape));

    let mut request = star(0, 0, 0);
    request.station.delta_t = 20_001;
    assert_eq!(star_horizon(&star_bytes(&request), 0), Err(Refusal::Station { field: 4 }));
    request.radius = 27_300_001;
    assert_eq!(star_horizon(&star_bytes(&request), 0), Err(Refusal::Radius));
    request.elements.d0 = -30_000_001;
    assert_eq!(star_horizon(&star_bytes(&request), 0), Err(Refusal::Element { field: 8 }));
    request.guard = 1_001;
    assert_eq!(star_horizon(&star_bytes(&request), 0), Err(Refusal::Guard));
    assert_eq!(star_horizon(&star_bytes(&request), -10_801), Err(Refusal::Window));
    // an eclipse's request is no star's, and the other way
    assert_eq!(star_horizon(&example("moscow1954.bin"), 0), Err(Refusal::Shape));
    assert_eq!(horizon(&example("potsdam1956.bin"), 0), Err(Refusal::Shape));
}

// As `second` on the same requests: refused alike, in the same order.
#[test]
fn refused_as_the_second_is() {
    for at in [-10_801, -10_800, 0, 10_800, 10_801] {
        for change in 0..64 {
            let mut request = eclipse(10 * DEGREE, 0, 0);
            if change & 1 != 0 {
                request.window.first = 61;
            }
            if change & 2 != 0 {
                request.guard = 0;
            }
            if change & 4 != 0 {
                request.elements.x3 = 10_001;
            }
            if change & 8 != 0 {
                request.elements.tan_f2 = 0;
            }
            if change & 16 != 0 {
                request.station.number = 1_000;
            }
            if change & 32 != 0 {
                request.station.latitude = 90_000_001;
            }
            let request = bytes(&request);
            assert_eq!(horizon(&request, at).err(), second(&request, at).err());
        }
    }
}
