use crate::{ffi, Elements, Refusal};

/// How many hourly rows the tables have.
pub const ROWS: usize = 7;

/// A place from the Earth's centre in 10^-8 of its equatorial radius, right-handed, the third to the north pole.
#[derive(Clone, Copy, Debug, Default, PartialEq, Eq, Hash)]
pub struct Position {
    /// To the equinox.
    pub x: i64,
    /// A quarter turn east of it on the equator.
    pub y: i64,
    /// To the north pole.
    pub z: i64,
}

/// A row of the tables: the apparent places of Sun and Moon at one hour.
#[derive(Clone, Copy, Debug, Default, PartialEq, Eq, Hash)]
pub struct Row {
    /// The Sun, 23,000 to 24,000 radii off: set for a parallax of 8.80", see [`from_tables`].
    pub sun: Position,
    /// The Moon, 55 to 65 radii off.
    pub moon: Position,
}

/// The Besselian elements of one row. Lengths lie within 1,000 units of the exact values, the others within 4.
#[derive(Clone, Copy, Debug, Default, PartialEq, Eq, Hash)]
pub struct Besselian {
    /// The Moon from the Earth's centre, across the axis to the east, 10^-8 radius.
    pub x: i64,
    /// The same to the north.
    pub y: i64,
    /// Sine of the axis' declination, 10^-8.
    pub sin_d: i64,
    /// Its cosine.
    pub cos_d: i64,
    /// Tangent of the penumbra's half-angle, 10^-8.
    pub tan_f1: i64,
    /// Of the central cone's.
    pub tan_f2: i64,
    /// Radius of the penumbra in the fundamental plane, 10^-8 radius.
    pub l1: i64,
    /// Of the central cone, below zero where the eclipse is total.
    pub l2: i64,
}

/// The Besselian elements of seven hourly rows.
///
/// The Sun's radius is document 02's, 109.04847 Earth radii. That is 959.63" at one astronomical unit only for a solar
/// parallax of 8.80", so set the Sun at its distance in astronomical units times 1 / sin 8.80" = 23,439.18 Earth radii,
/// and not times today's 23,454.8: with that the Sun is 0.64" too small, and second and third contact come 1.8 s
/// wrong in the median and up to 8.5 s.
/// The Moon's distance is the true one over the equatorial radius.
///
/// Refusals: 11 with the first row in which the Moon or the Sun is outside its distances or the size of the sine of d is above 0.43.
pub fn from_tables(rows: &[Row; ROWS]) -> Result<[Besselian; ROWS], Refusal> {
    let numbers: Vec<i64> =
        rows.iter().flat_map(|Row { sun, moon }| [sun.x, sun.y, sun.z, moon.x, moon.y, moon.z]).collect();
    let mut values = [0; 8 * ROWS];
    ffi::from_tables(&numbers, &mut values)?;
    let mut elements = [Besselian::default(); ROWS];
    for (row, eight) in elements.iter_mut().zip(values.chunks_exact(8)) {
        *row = Besselian {
            x: eight[0],
            y: eight[1],
            sin_d: eight[2],
            cos_d: eight[3],
            tan_f1: eight[4],
            tan_f2: eight[5],
            l1: eight[6],
            l2: eight[7],
        };
    }
    Ok(elements)
}

/// The same from 42 numbers to the start of `values`, 56 of them; gives 56.
///
/// What lies past the values, and on refusal all of `values`, keeps what it held. Refusals: 10 for another count than 42, 11, then 4
/// with 56.
pub fn from_tables_into(rows: &[i64], values: &mut [i64]) -> Result<usize, Refusal> {
    ffi::from_tables(rows, values)
}

/// The radii of Sun and Moon, 10^-8 of the Earth's equatorial radius.
#[derive(Clone, Copy, Debug, PartialEq, Eq, Hash)]
pub struct Radii {
    /// The Sun's, 10,890,000,000 to 10,930,000,000.
    pub sun: i64,
    /// The Moon's for the penumbra, 27,200,000 to 27,300,000.
    pub penumbra: i64,
    /// The Moon's for the central cone, 27,200,000 to 27,300,000.
    pub central: i64,
}

/// Document 02's radii. With these the values of each row are those of [`from_tables`].
pub const DOCUMENT_02: Radii = Radii { sun: 10_904_847_000, penumbra: 27_227_400, central: 27_227_400 };

/// How far each fit is from its seven values at most, in units.
#[derive(Clone, Copy, Debug, Default, PartialEq, Eq, Hash)]
pub struct Misfits {
    /// Of x, 10^-8 radius.
    pub x: i64,
    /// Of y.
    pub y: i64,
    /// Of d, 10^-6 degree.
    pub d: i64,
    /// Of l1, 10^-8 radius.
    pub l1: i64,
    /// Of l2.
    pub l2: i64,
    /// Of mu, 10^-6 degree.
    pub mu: i64,
}

/// The 22 elements of seven hourly rows and the Greenwich apparent sidereal time at their hours (10^-6 degree, 0 to
/// 359,999,999), and how far each fit is off; x and y are cubics, d, l1, l2 and mu quadratics of least squares, tan f
/// the middle row's. The tolerance is 0 to 1,000 units. docs/ELEMENTS.md has the rule.
///
/// ```
/// use ukhtvaresh::{elements, Position, Row, DOCUMENT_02};
/// // the Moon before the Sun, both on the x axis, the Earth turning below
/// let row = Row { sun: Position { x: 2_345_000_000_000, y: 0, z: 0 }, moon: Position { x: 6_000_000_000, y: 0, z: 0 } };
/// let sidereal = [-3, -2, -1, 0, 1, 2, 3].map(|hour| 90_000_000 + 15_041_069 * hour);
/// let (made, misfits) = elements(&[row; 7], &sidereal, DOCUMENT_02, 100).unwrap();
/// assert_eq!((made.x0, made.y0, made.d0, made.mu0, made.mu1), (0, 0, 0, 90_000_000, 15_041_069));
/// assert_eq!((misfits.x, misfits.mu), (0, 0));
/// ```
///
/// Refusals, the first of them: 18 for the tolerance, 21, 11, 2, 17.
pub fn elements(
    rows: &[Row; ROWS],
    sidereal: &[i64; ROWS],
    radii: Radii,
    tolerance: i64,
) -> Result<(Elements, Misfits), Refusal> {
    let numbers: Vec<i64> =
        rows.iter().flat_map(|Row { sun, moon }| [sun.x, sun.y, sun.z, moon.x, moon.y, moon.z]).collect();
    let lengths = [radii.sun, radii.penumbra, radii.central];
    let (mut made, mut off) = ([0; 22], [0; 6]);
    ffi::elements(&numbers, sidereal, &lengths, tolerance, &mut made, &mut off)?;
    let [x, y, d, l1, l2, mu] = off;
    Ok((Elements::from_numbers(made), Misfits { x, y, d, l1, l2, mu }))
}

/// The same from 42, seven and three numbers to the start of `elements`, 22 of them, and of `misfits`, six; gives 22.
///
/// What lies past them, and on refusal all of both, keeps what it held. Refusals: 10 for other counts, 18, 21, 11, 2, 17,
/// then 4 with 22, then 4 with 6.
pub fn elements_into(
    rows: &[i64],
    sidereal: &[i64],
    radii: &[i64],
    tolerance: i64,
    elements: &mut [i64],
    misfits: &mut [i64],
) -> Result<usize, Refusal> {
    ffi::elements(rows, sidereal, radii, tolerance, elements, misfits)
}
