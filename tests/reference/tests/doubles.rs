//! Doubles as whole units and back: halves, ends, what is not finite, every unit of the short ranges.

use reference::doubles::{double, units, DEGREE, HOUR, ONE, SCALES};
use reference::elements::{ELEMENT_RANGES, STATION_RANGES};
use reference::random::Random;

#[test]
fn halves_go_away_from_zero() {
    // 1/128 degree is 7812.5 units
    assert_eq!(units(1.0 / 128.0, DEGREE), Some(7_813));
    assert_eq!(units(-1.0 / 128.0, DEGREE), Some(-7_813));
    assert_eq!(units(1.0 / 128.0 - f64::EPSILON / 256.0, DEGREE), Some(7_812));
    assert_eq!(units(1.0 / 128.0, HOUR), Some(117_188));
    assert_eq!(units(1.0 / 512.0, ONE), Some(195_313));
    assert_eq!(units(-1.0 / 512.0, ONE), Some(-195_313));
}

#[test]
fn ends() {
    for scale in [DEGREE, HOUR, ONE] {
        for nothing in [0.0, -0.0, f64::from_bits(1), -f64::from_bits(1), f64::MIN_POSITIVE] {
            assert_eq!(units(nothing, scale), Some(0));
        }
        for none in
            [f64::INFINITY, f64::NEG_INFINITY, f64::NAN, -f64::NAN, f64::from_bits(0x7FF0_0000_0000_0001)]
        {
            assert_eq!(units(none, scale), None);
        }
        assert!(units(f64::MAX, scale).expect("finite") > i128::from(i64::MAX));
        assert!(units(-f64::MAX, scale).expect("finite") < i128::from(i64::MIN));
    }
    assert_eq!(units(12.0, HOUR), Some(180_000_000));
    assert_eq!(units(0.1, ONE), Some(10_000_000));
}

#[test]
fn a_unit_is_one_division_and_is_read_back() {
    let mut random = Random::new(5);
    for (range, scale) in ELEMENT_RANGES.iter().zip(SCALES).chain([(&STATION_RANGES[2], DEGREE)]) {
        let (least, most) = (*range.start(), *range.end());
        let all = most - least < 50_000;
        let drawn: Vec<i64> =
            if all { range.clone().collect() } else { (0..20_000).map(|_| random.within(range)).collect() };
        for unit in drawn.into_iter().chain([least, least + 1, 0.max(least), most - 1, most]) {
            let x = double(unit, scale);
            assert_eq!(x.to_bits(), (unit as f64 / scale as f64).to_bits(), "{unit} over {scale}");
            assert_eq!(units(x, scale), Some(unit.into()));
        }
    }
}
