//! Altitude, azimuth and zenith of a second: the cases that follow from the words of docs/HORIZON.md.

use reference::elements::{Elements, Window, FARTHEST};
use reference::horizon::{altitude, altitude_sine, Horizon};
use reference::mirror::mirror;
use reference::random::Random;
use reference::refusal::Refusal;
use reference::request::Request;
use reference::sample::{self, hand_worked, Manner};
use reference::sample_star::{self, over_the_pole};
use reference::shadow::{Turned, NO_DIRECTION};
use reference::sine::UNIT;
use reference::sine_table::S;
use reference::star::{StarElements, StarRequest};

const DEGREE: i64 = 1_000_000;

/// A star of declination d0 and hour angle H at second 0, seen from a latitude.
fn seen(latitude: i64, h: i64, d0: i64) -> Horizon {
    let mut request = over_the_pole();
    request.station.latitude = latitude * DEGREE;
    request.elements.d0 = d0 * DEGREE;
    request.elements.mu[0] = (h * DEGREE).rem_euclid(360 * DEGREE);
    request.horizon(0).expect("within its ranges")
}

fn horizon(altitude: i64, azimuth: i64, zenith: i64) -> Horizon {
    Horizon { altitude, azimuth, zenith }
}

#[test]
fn altitudes_round_down() {
    assert_eq!((S[1], S[2], S[300], S[899]), (174_533, 349_065, 50_000_000, 99_999_848));
    for (a, tenths) in [
        (0, 0),
        (1, 0),
        (174_532, 0),
        (174_533, 1),
        (349_065, 2),
        (49_999_999, 299),
        (50_000_000, 300),
        (99_999_847, 898),
        (99_999_848, 899),
        (99_999_999, 899),
        (UNIT, 900),
        (UNIT + 1, 900),
        (i64::MAX, 900),
        (-1, -1),
        (-174_533, -1),
        (-174_534, -2),
        (-50_000_000, -300),
        (-50_000_001, -301),
        (-99_999_848, -899),
        (-99_999_849, -900),
        (-UNIT, -900),
        (-UNIT - 1, -900),
        (-i64::MAX, -900),
    ] {
        assert_eq!(altitude(a), tenths, "{a}");
    }
    // on each entry, and one unit either side of it
    for (k, sine) in (0..).zip(S) {
        assert_eq!((altitude(sine), altitude(-sine)), (k, -k));
        assert_eq!(altitude(-sine - 1), if k < 900 { -k - 1 } else { -900 });
        if k > 0 {
            assert_eq!((altitude(sine - 1), altitude(1 - sine)), (k - 1, -k));
        }
    }
}

#[test]
fn on_the_equator() {
    let none = NO_DIRECTION;
    assert_eq!(seen(0, 0, 0), horizon(900, none, none));
    assert_eq!(seen(0, 180, 0), horizon(-900, none, none));
    // it rises in the east, with the zenith to its west, and sets in the west
    assert_eq!(seen(0, -90, 0), horizon(0, 900, 2700));
    assert_eq!(seen(0, 90, 0), horizon(0, 2700, 900));
    assert_eq!(seen(0, -45, 0), horizon(450, 900, 2700));
    // through the meridian, north or south of the zenith
    assert_eq!(seen(0, 0, 30), horizon(600, 0, 1800));
    assert_eq!(seen(0, 0, -30), horizon(600, 1800, 0));
    // 60° down, the way up leads over the north pole
    assert_eq!(seen(0, 180, 30), horizon(-600, 0, 0));
}

#[test]
fn at_the_poles() {
    // the altitude is the declination; the azimuth counts from the meridian where H is 180°
    for d0 in [-30, -1, 0, 1, 30] {
        assert_eq!(seen(90, 0, d0), horizon(10 * d0, 1800, 0));
        assert_eq!(seen(90, 90, d0), horizon(10 * d0, 2700, 0));
        assert_eq!(seen(90, 180, d0), horizon(10 * d0, 0, 0));
        assert_eq!(seen(-90, 0, d0), horizon(-10 * d0, 0, 1800));
        assert_eq!(seen(-90, -90, d0), horizon(-10 * d0, 900, 1800));
    }
}

#[test]
fn on_the_meridian() {
    // 55° north, the Sun at 20°: 55° up in the south, upright
    assert_eq!(seen(55, 0, 20), horizon(550, 1800, 0));
    assert_eq!(seen(-55, 0, -20), horizon(550, 0, 1800));
    // the midnight Sun of 70° north, due north
    assert_eq!(seen(70, 180, 23), horizon(30, 0, 0));
    assert_eq!(seen(70, 180, 19), horizon(-10, 0, 0));
}

#[test]
fn seconds_and_delta_t() {
    let mut request = over_the_pole();
    request.station.latitude = 0;
    request.elements.mu = [0, 15_000_000, 0];
    // 15° an hour from the zenith on: west of it in the afternoon
    assert_eq!(request.horizon(3_600), Ok(horizon(750, 2700, 900)));
    assert_eq!(request.horizon(-FARTHEST), Ok(horizon(450, 900, 2700)));
    assert_eq!(request.horizon(FARTHEST), Ok(horizon(450, 2700, 900)));
    // 200 seconds of ΔT turn the Earth back by 0.8356°
    request.station.delta_t = 20_000;
    assert_eq!(request.horizon(0), Ok(horizon(891, 900, 2700)));
    // an eclipse's d moves
    let mut eclipse = hand_worked();
    eclipse.elements.d = [10 * DEGREE, 20_000, 100];
    assert_eq!(eclipse.horizon(0).map(|found| found.altitude), Ok(100));
    assert_eq!(eclipse.horizon(-1).map(|found| found.altitude), Ok(99));
    assert_eq!(eclipse.horizon(FARTHEST).map(|found| found.altitude), Ok(100));
    eclipse.elements.d = [9_940_000, 20_000, 0];
    assert_eq!(eclipse.horizon(FARTHEST - 1).map(|found| found.altitude), Ok(99));
    assert_eq!(eclipse.horizon(FARTHEST).map(|found| found.altitude), Ok(100));
}

/// A star is an eclipse whose declination stays.
#[test]
fn a_star_as_an_eclipse() {
    let mut random = Random::new(41);
    for _ in 0..2_000 {
        let mut eclipse = sample::draw(&mut random, Manner::Anywhere);
        (eclipse.elements.d[1], eclipse.elements.d[2]) = (0, 0);
        let Request { elements: Elements { x, y, d: [d0, ..], mu, .. }, station, window, guard, .. } =
            eclipse;
        let elements = StarElements { x, y, d0, mu };
        let star = StarRequest { elements, radius: 27_250_000, station, window, guard };
        let second = random.within(&(-FARTHEST..=FARTHEST));
        assert_eq!(eclipse.horizon(second), star.horizon(second));
    }
}

/// The ranges, the sign, and the same in double precision: within a unit or two of 10^-8.
#[test]
fn sines_and_ranges() {
    let mut random = Random::new(42);
    for _ in 0..20_000 {
        let latitude = random.within(&(-90 * DEGREE..=90 * DEGREE));
        let (h, d) = (random.within(&(0..=359_999_999)), random.within(&(-30 * DEGREE..=30 * DEGREE)));
        let turned = Turned::by(h, d);
        let a = altitude_sine(latitude, &turned);
        let found = Horizon::of(latitude, &turned);
        assert!((-900..=900).contains(&found.altitude));
        assert_eq!(found.altitude >= 0, a >= 0);
        for direction in [found.azimuth, found.zenith] {
            assert!((0..3_600).contains(&direction) || direction == NO_DIRECTION);
        }
        let [phi, h, d] = [latitude, h, d].map(|angle| (angle as f64 / 1e6).to_radians());
        let exact = phi.sin() * d.sin() + phi.cos() * d.cos() * h.cos();
        assert!((a as f64 - 1e8 * exact).abs() < 5.0, "{a} {exact}");
    }
}

fn mirrored(a: i64, b: i64) -> bool {
    [1799, 1800].contains(&((a + b) % 3600)) || (a, b) == (NO_DIRECTION, NO_DIRECTION)
}

/// Beyond the equator the altitude is the same; azimuths, and zeniths, add up to 1799, or to 1800 on a tenth.
#[test]
fn mirrors() {
    let mut random = Random::new(43);
    for _ in 0..4_000 {
        let second = random.within(&(-FARTHEST..=FARTHEST));
        let eclipse = sample::draw(&mut random, Manner::AtLimits);
        let mut bytes = [0; 115];
        mirror(&eclipse.to_bytes().unwrap(), &mut bytes).expect("a request");
        let star = sample_star::draw(&mut random, Manner::AtLimits);
        for (north, south) in [
            (eclipse.horizon(second), Request::from_bytes(&bytes).unwrap().horizon(second)),
            (star.horizon(second), star.mirrored().horizon(second)),
        ] {
            let (north, south) = (north.unwrap(), south.unwrap());
            assert_eq!(north.altitude, south.altitude);
            assert!(mirrored(north.azimuth, south.azimuth), "{north:?} {south:?}");
            assert!(mirrored(north.zenith, south.zenith), "{north:?} {south:?}");
        }
    }
}

#[test]
fn refusals_in_order() {
    let mut eclipse = hand_worked();
    let mut star = over_the_pole();
    for second in [-FARTHEST, FARTHEST] {
        assert!(eclipse.horizon(second).is_ok() && star.horizon(second).is_ok());
    }
    for second in [-FARTHEST - 1, FARTHEST + 1, i64::MIN, i64::MAX] {
        assert_eq!(eclipse.horizon(second), Err(Refusal::Window));
        assert_eq!(star.horizon(second), Err(Refusal::Window));
    }
    (eclipse.station.number, star.station.number) = (0, 0);
    assert_eq!(eclipse.horizon(0), Err(Refusal::Station(0)));
    assert_eq!(star.horizon(0), Err(Refusal::Station(0)));
    star.radius = 0;
    assert_eq!(star.horizon(0), Err(Refusal::Radius));
    (eclipse.elements.d[0], star.elements.d0) = (25_000_001, 30_000_001);
    assert_eq!(eclipse.horizon(0), Err(Refusal::Element(8)));
    assert_eq!(star.horizon(0), Err(Refusal::Element(8)));
    (eclipse.guard, star.guard) = (15, 15);
    assert_eq!(eclipse.horizon(0), Err(Refusal::Guard));
    assert_eq!(star.horizon(0), Err(Refusal::Guard));
    assert_eq!(eclipse.horizon(FARTHEST + 1), Err(Refusal::Window));
    assert_eq!(star.horizon(FARTHEST + 1), Err(Refusal::Window));
    (eclipse.window, star.window) = (Window { first: 1, last: 0 }, Window { first: 1, last: 0 });
    assert_eq!(eclipse.horizon(0), Err(Refusal::Window));
    assert_eq!(star.horizon(0), Err(Refusal::Window));
}
