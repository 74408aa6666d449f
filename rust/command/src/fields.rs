//! The fields of a request by name, unit and range, and refusals in words.
//!
//! The library alone judges a request. This table puts its refusals into words and its bytes into text.

use crate::library::Refused;

/// A number of a request: its typed name, the decimals of its unit, its range in units, and a good value.
pub struct Field {
    pub name: &'static str,
    pub decimals: usize,
    pub least: i64,
    pub greatest: i64,
    pub example: &'static str,
}

const fn field(
    name: &'static str,
    decimals: usize,
    least: i64,
    greatest: i64,
    example: &'static str,
) -> Field {
    Field { name, decimals, least, greatest, example }
}

static ECLIPSE: [Field; 22] = [
    field("x0", 8, -200_000_000, 200_000_000, "-0.19869267"),
    field("x1", 8, -100_000_000, 100_000_000, "0.55341229"),
    field("x2", 8, -100_000, 100_000, "-0.00003333"),
    field("x3", 8, -10_000, 10_000, "-0.000008"),
    field("y0", 8, -200_000_000, 200_000_000, "0.65293771"),
    field("y1", 8, -100_000_000, 100_000_000, "-0.08866362"),
    field("y2", 8, -100_000, 100_000, "-0.00019179"),
    field("y3", 8, -10_000, 10_000, "0.00000183"),
    field("d0", 6, -25_000_000, 25_000_000, "23.193285"),
    field("d1", 6, -20_000, 20_000, "-0.002238"),
    field("d2", 6, -100, 100, "0"),
    field("l10", 8, 50_000_000, 60_000_000, "0.54000133"),
    field("l11", 8, -100_000, 100_000, "0.00012168"),
    field("l12", 8, -10_000, 10_000, "-0.00001173"),
    field("l20", 8, -5_000_000, 5_000_000, "-0.00588248"),
    field("l21", 8, -100_000, 100_000, "0.00012186"),
    field("l22", 8, -10_000, 10_000, "-0.00001167"),
    field("mu0", 6, 0, 359_999_999, "359.144993"),
    field("mu1", 6, 14_900_000, 15_100_000, "14.99941"),
    field("mu2", 6, -100, 100, "0"),
    field("tan f1", 8, 400_000, 500_000, "0.00459878"),
    field("tan f2", 8, 400_000, 500_000, "0.00457587"),
];

static STAR: [Field; 13] = [
    field("x0", 8, -200_000_000, 200_000_000, "-0.19869267"),
    field("x1", 8, -100_000_000, 100_000_000, "0.55341229"),
    field("x2", 8, -100_000, 100_000, "-0.00003333"),
    field("x3", 8, -10_000, 10_000, "-0.000008"),
    field("y0", 8, -200_000_000, 200_000_000, "0.65293771"),
    field("y1", 8, -100_000_000, 100_000_000, "-0.08866362"),
    field("y2", 8, -100_000, 100_000, "-0.00019179"),
    field("y3", 8, -10_000, 10_000, "0.00000183"),
    field("d0", 6, -30_000_000, 30_000_000, "23.193285"),
    field("mu0", 6, 0, 359_999_999, "359.144993"),
    field("mu1", 6, 14_900_000, 15_100_000, "15.041069"),
    field("mu2", 6, -100, 100, "0"),
    field("radius", 8, 27_200_000, 27_300_000, "0.2725076"),
];

pub static STATION: [Field; 5] = [
    field("station", 0, 1, 999, "101"),
    field("latitude", 6, -90_000_000, 90_000_000, "55.755"),
    field("longitude", 6, -180_000_000, 180_000_000, "37.57"),
    field("height", 0, -500, 9_000, "166"),
    field("delta t", 2, -10_000, 20_000, "69.18"),
];

static WINDOW: [Field; 3] = [
    field("first", 0, -10_800, 10_800, "-10800"),
    field("last", 0, -10_800, 10_800, "10800"),
    field("guard", 0, 16, 1_000, "32"),
];

/// The fields of a request in the order of its bytes.
pub fn fields(star: bool) -> impl Iterator<Item = &'static Field> {
    let body = if star { &STAR[..] } else { &ECLIPSE[..] };
    body.iter().chain(&STATION).chain(&WINDOW)
}

/// Units as the decimal number that a typed request has.
pub fn decimal(units: i64, decimals: usize) -> String {
    let digits = format!("{:0>width$}", units.unsigned_abs(), width = decimals + 1);
    let (whole, part) = digits.split_at(digits.len() - decimals);
    let part = part.trim_end_matches('0');
    let sign = if units < 0 { "-" } else { "" };
    if part.is_empty() {
        format!("{sign}{whole}")
    } else {
        format!("{sign}{whole}.{part}")
    }
}

impl Field {
    /// Its range, as in `-90 to 90`.
    pub fn range(&self) -> String {
        format!("{} to {}", decimal(self.least, self.decimals), decimal(self.greatest, self.decimals))
    }

    /// Whether units lie in its range.
    pub fn holds(&self, units: i64) -> bool {
        (self.least..=self.greatest).contains(&units)
    }

    /// The words for a value outside its range.
    pub fn outside(&self, value: &str) -> String {
        format!("{} {value} is outside {}", self.name, self.range())
    }
}

/// The numbers of a request's bytes in the order of [`fields`]; `None` where they are not of its shape.
pub fn numbers(request: &[u8]) -> Option<(bool, Vec<i64>)> {
    if let Some(r) = ukhtvaresh::Request::from_bytes(request) {
        let mut all = r.elements.numbers().to_vec();
        all.extend(rest(&r.station, &r.window, r.guard));
        return Some((false, all));
    }
    let r = ukhtvaresh::StarRequest::from_bytes(request)?;
    let mut all = r.elements.numbers().to_vec();
    all.push(r.radius);
    all.extend(rest(&r.station, &r.window, r.guard));
    Some((true, all))
}

fn rest(station: &ukhtvaresh::Station, window: &ukhtvaresh::Window, guard: i64) -> [i64; 8] {
    let ukhtvaresh::Station { number, latitude, longitude, height, delta_t } = *station;
    [number, latitude, longitude, height, delta_t, window.first, window.last, guard]
}

/// The typed text of a request's bytes.
pub fn text_of(request: &[u8]) -> Option<String> {
    let (star, numbers) = numbers(request)?;
    let line = |(field, units): (&Field, i64)| format!("{} {}\n", field.name, decimal(units, field.decimals));
    Some(fields(star).zip(numbers).map(line).collect())
}

/// Where the value of a field was typed: what stands after its name, and the line.
pub type Find<'a> = &'a dyn Fn(&str) -> Option<(String, usize)>;

/// The words for a refused request, with field, value and range, and the line where it was typed.
pub fn words(refused: Refused, request: &[u8], typed: Find) -> String {
    let Refused { number, place } = refused;
    let at = usize::try_from(place).unwrap_or(usize::MAX);
    let said = match numbers(request) {
        None => shape_words(request),
        Some((star, numbers)) => {
            let count = numbers.len();
            let shown = |index: usize| {
                let field = fields(star).nth(index).expect("a field of the request");
                let typed = typed(field.name);
                let value =
                    typed.as_ref().map_or_else(|| decimal(numbers[index], field.decimals), |t| t.0.clone());
                let line = typed.map_or(String::new(), |t| format!(" (line {})", t.1));
                (field, value, line)
            };
            let outside = |index: usize| {
                let (field, value, line) = shown(index);
                format!("{}{line}", field.outside(&value))
            };
            match (number, at) {
                (1, 0) => match [count - 3, count - 2].into_iter().find(|&k| !WINDOW[0].holds(numbers[k])) {
                    Some(index) => outside(index),
                    None => {
                        let ((_, first, line), (_, last, _)) = (shown(count - 3), shown(count - 2));
                        format!("first {first} is after last {last}{line}")
                    }
                },
                (1, _) => outside(count - 1),
                (2, k) if k < count - 8 => outside(k),
                (13, _) if star => outside(count - 9),
                (3, k) if k < 5 => outside(count - 8 + k),
                _ => general(refused),
            }
        }
    };
    with_number(&said, refused)
}

/// Words with the refusal's number and place beside them.
pub fn with_number(said: &str, refused: Refused) -> String {
    format!("{said} [refusal {} {}]", refused.number, refused.place)
}

/// What is wrong with bytes that are no request.
pub fn shape_words(request: &[u8]) -> String {
    let count = request.len();
    let bytes = if count == 1 { "byte" } else { "bytes" };
    match request.first() {
        None => "there are no bytes where a request should begin".to_owned(),
        Some(2) if count != 115 => {
            format!("a request for an eclipse has 115 bytes, and here are {count} {bytes}")
        }
        Some(5) if count != 79 => format!("a request for a star has 79 bytes, and here are {count} {bytes}"),
        Some(2) => inner(request, 89, 108),
        Some(5) => inner(request, 53, 72),
        Some(first) => {
            format!("a request begins with byte 02 (an eclipse) or 05 (a star), and this byte is {first:02x}")
        }
    }
}

fn inner(request: &[u8], station: usize, window: usize) -> String {
    let (at, due) = if request[station] != 3 { (station, 3) } else { (window, 4) };
    format!("byte {at} of a request must be {due:02x}, and it is {:02x}", request[at])
}

/// The words of the table for a refusal whose field is not known.
pub fn general(refused: Refused) -> String {
    match refused.number {
        4 => format!("a buffer is too short: {} are needed", refused.place),
        11 => format!("row {} of Sun and Moon is outside its distances", refused.place),
        17 => "a fit is farther from the hourly values than 1000 units".to_owned(),
        22 => "the two seconds are not one surely outside and one surely inside".to_owned(),
        _ => "the library refuses it".to_owned(),
    }
}

/// The words for a refused sheet that begins at a byte of its file.
pub fn sheet_words(refused: Refused, start: u64) -> String {
    let at = start + refused.place;
    let said = match refused.number {
        5 => format!("byte {at}: the kind of a record is not in the table"),
        6 => format!("byte {at}: the bytes end inside a record or before the end record of a sheet"),
        7 => format!("byte {at}: a field of this record breaks a rule of sheets"),
        8 => format!("byte {at}: this record breaks the order of sheets"),
        _ => format!("byte {at}: {}", general(refused)),
    };
    with_number(&said, refused)
}
