//! Typed text: prepared for the library's reader, and its faults in words.
//!
//! The library reads the text and reports the first invalid line. This module takes a byte-order mark off, turns the
//! minus sign of typesetters into that of keyboards, rounds where that is asked for, and words the faults.

use crate::failure::{note, Failure, Outcome};
use crate::fields::{fields, with_number, Field, STATION};
use crate::library::{self, Fault, Refused, Typed};

/// The most decimals that `--round` rounds.
pub const MOST_DECIMALS: usize = 14;

const MARK: &[u8] = b"\xef\xbb\xbf"; // U+FEFF
const MINUS: &[u8] = b"\xe2\x88\x92"; // U+2212

/// The text without a byte-order mark and with `-` for the minus sign U+2212; a text in UTF-16 is refused.
pub fn prepared(text: &[u8]) -> Outcome<Vec<u8>> {
    if text.starts_with(b"\xff\xfe") || text.starts_with(b"\xfe\xff") {
        return Err(Failure::Refused("the text is in UTF-16: save it as UTF-8".to_owned()));
    }
    let mut rest = text.strip_prefix(MARK).unwrap_or(text);
    let mut made = Vec::with_capacity(rest.len());
    while let Some((&first, later)) = rest.split_first() {
        match rest.strip_prefix(MINUS) {
            Some(behind) => {
                made.push(b'-');
                rest = behind;
            }
            None => {
                made.push(first);
                rest = later;
            }
        }
    }
    Ok(made)
}

fn is_blank(byte: u8) -> bool {
    matches!(byte, b' ' | b'\t' | b'\r')
}

/// What a line says: without its comment and the blanks around it.
pub fn said(line: &[u8]) -> &[u8] {
    let line = line.split(|byte| *byte == b'#').next().unwrap_or_default();
    let start = line.iter().position(|byte| !is_blank(*byte)).unwrap_or(line.len());
    let end = line.iter().rposition(|byte| !is_blank(*byte)).map_or(start, |at| at + 1);
    &line[start..end]
}

/// What stands after a name in what a line says; `None` where it has another name.
pub fn after<'a>(said: &'a [u8], name: &str) -> Option<&'a [u8]> {
    let rest = said.strip_prefix(name.as_bytes())?;
    if rest.first().is_some_and(|byte| !is_blank(*byte)) {
        return None;
    }
    let start = rest.iter().position(|byte| !is_blank(*byte)).unwrap_or(rest.len());
    Some(&rest[start..])
}

fn lines(text: &[u8]) -> impl Iterator<Item = (usize, &[u8])> {
    text.split(|byte| *byte == b'\n').enumerate().map(|(at, line)| (at + 1, said(line)))
}

/// Whether a typed request is that of a star: it names the Moon's radius.
pub fn is_star(text: &[u8]) -> bool {
    lines(text).any(|(_, said)| after(said, "radius").is_some())
}

fn shown(bytes: &[u8]) -> String {
    let text = String::from_utf8_lossy(bytes);
    let mut made: String =
        text.chars().map(|c| if c.is_control() { '\u{fffd}' } else { c }).take(60).collect();
    if text.chars().count() > 60 {
        made.push_str("..");
    }
    made
}

/// The value that a text has after a name, and its line.
pub fn find(text: &[u8], name: &str) -> Option<(String, usize)> {
    lines(text).find_map(|(line, said)| after(said, name).map(|value| (shown(value), line)))
}

// A decimal number in its parts: sign, digits before and after the point.
fn parts(value: &str) -> Option<(bool, &str, &str)> {
    let (negative, rest) = match value.strip_prefix('-') {
        Some(rest) => (true, rest),
        None => (false, value.strip_prefix('+').unwrap_or(value)),
    };
    let (whole, part) = rest.split_once('.').unwrap_or((rest, ""));
    let digits = |text: &str| text.bytes().all(|byte| byte.is_ascii_digit());
    (digits(whole) && digits(part) && !(whole.is_empty() && part.is_empty()))
        .then_some((negative, whole, part))
}

/// How many decimals a number is typed with, not counting zeros at the end.
pub fn decimals(value: &str) -> Option<usize> {
    parts(value).map(|(_, _, part)| part.trim_end_matches('0').len())
}

/// A decimal number rounded to so many decimals, halves away from zero; `None` for what is no number.
pub fn rounded(value: &str, most: usize) -> Option<String> {
    let (negative, whole, part) = parts(value)?;
    let part = part.trim_end_matches('0');
    let kept = &part[..part.len().min(most)];
    let mut digits: Vec<u8> = format!("0{whole}{kept:0<most$}").into_bytes();
    if part.as_bytes().get(most).is_some_and(|digit| *digit >= b'5') {
        for digit in digits.iter_mut().rev() {
            if *digit == b'9' {
                *digit = b'0';
            } else {
                *digit += 1;
                break;
            }
        }
    }
    let digits = String::from_utf8(digits).expect("digits");
    let (whole, part) = digits.split_at(digits.len() - most);
    let (whole, part) = (whole.trim_start_matches('0'), part.trim_end_matches('0'));
    let whole = if whole.is_empty() { "0" } else { whole };
    let sign = if negative && (whole != "0" || !part.is_empty()) { "-" } else { "" };
    Some(if part.is_empty() { format!("{sign}{whole}") } else { format!("{sign}{whole}.{part}") })
}

/// The text with each number that has too many decimals, 14 at most, rounded to those that its field takes.
pub fn round(text: &[u8]) -> Vec<u8> {
    let star = is_star(text);
    let mut made = Vec::with_capacity(text.len());
    for (at, line) in text.split(|byte| *byte == b'\n').enumerate() {
        if at > 0 {
            made.push(b'\n');
        }
        match rounded_line(line, star) {
            Some((field, value, round)) => {
                note(&format!("{} {value} is rounded to {round} (line {})", field.name, at + 1));
                made.extend_from_slice(format!("{} {round}", field.name).as_bytes());
            }
            None => made.extend_from_slice(line),
        }
    }
    made
}

fn rounded_line(line: &[u8], star: bool) -> Option<(&'static Field, String, String)> {
    let said = said(line);
    let (field, value) = fields(star).find_map(|field| Some((field, after(said, field.name)?)))?;
    let value = std::str::from_utf8(value).ok()?;
    let typed = decimals(value)?;
    if typed <= field.decimals || typed > MOST_DECIMALS {
        return None;
    }
    Some((field, value.to_owned(), rounded(value, field.decimals)?))
}

/// The request and the instant of a prepared text, or its first fault in words.
pub fn read(text: &[u8]) -> Outcome<Typed> {
    library::typed(text).map_err(|fault| Failure::Refused(fault_words(&fault, text)))
}

/// What is wrong with a line of a text, with its value, and what would be taken.
pub fn fault_words(fault: &Fault, text: &[u8]) -> String {
    let Fault { refused: Refused { number, place }, message } = fault;
    if *number != library::TYPED {
        return with_number(message, fault.refused);
    }
    if text.iter().all(|byte| byte.is_ascii_whitespace()) {
        let form =
            "a request is lines of a name and a value, such as latitude 55.755, or its 115 or 79 bytes";
        return with_number(&format!("the input is empty: {form}"), fault.refused);
    }
    let wrong = message.strip_prefix(&format!("line {place}: ")).unwrap_or(message);
    let line = usize::try_from(*place).unwrap_or(usize::MAX);
    let typed = lines(text).nth(line.wrapping_sub(1)).map_or(&b""[..], |(_, said)| said);
    with_number(&worded(wrong, typed, line, text), fault.refused)
}

fn worded(wrong: &str, typed: &[u8], line: usize, text: &[u8]) -> String {
    let star = is_star(text);
    let place = format!("(line {line})");
    let of = |ending: &str| {
        let name = wrong.strip_suffix(ending)?;
        let field = fields(star).find(|field| field.name == name)?;
        Some((field, after(typed, name).map(shown).unwrap_or_default()))
    };
    if let Some((field, value)) = of(" is not a number") {
        if value.is_empty() {
            return format!("{} has no value {place}: write, for example, {0} {}", field.name, field.example);
        }
        let example = Some(value.replace(',', ".")).filter(|value| parts(value).is_some());
        let example = example.unwrap_or_else(|| field.example.to_owned());
        return format!(
            "{} {value} is not a number {place}: write it in digits with a point, for example {example}",
            field.name
        );
    }
    if let Some((field, value)) = of(" has too many decimals for a whole number of units") {
        let count = decimals(&value).unwrap_or(0);
        let taken = field.decimals;
        let most = if taken == 0 {
            "must be a whole number".to_owned()
        } else {
            format!("may have {taken} decimals and has {count}")
        };
        let way = if count > MOST_DECIMALS {
            format!("--round takes {MOST_DECIMALS} at most")
        } else {
            "or add --round".to_owned()
        };
        let example = rounded(&value, taken).unwrap_or_else(|| field.example.to_owned());
        return format!("{} {value} {most} {place}: write {example}, {way}", field.name);
    }
    if let Some((field, value)) = of(" is too large for its bytes") {
        return format!("{} {place}", field.outside(&value));
    }
    if let Some((field, _)) = of(" is given twice") {
        let first = find(text, field.name).map_or(0, |found| found.1);
        return format!("{} is given twice, on lines {first} and {line}: leave one of them out", field.name);
    }
    if let Some((field, _)) = of(" is missing") {
        return format!("{} is missing: add a line such as {0} {}", field.name, field.example);
    }
    if let Some(name) = wrong.strip_prefix("unknown name ") {
        let name = shown(name.as_bytes());
        let near = nearest(&name, star).map_or(String::new(), |near| format!("; do you mean {near}?"));
        return format!("{name} is not a name of a request {place}{near}");
    }
    let example = match wrong.split(' ').next() {
        Some("instant") => ": write, for example, instant 2017-08-21 18:00:00 ET",
        Some("tai-utc") => ": write, for example, tai-utc 37, with an instant from 1972 on",
        _ => "",
    };
    // `instant is not a date and time`, with the value that was typed after the name.
    match wrong.split_once(' ') {
        Some((name, rest)) => {
            let value = after(typed, name).map(shown).filter(|value| !value.is_empty());
            let value = value.map_or(String::new(), |value| format!(" {value}"));
            format!("{name}{value} {rest} {place}{example}")
        }
        None => format!("{wrong} {place}{example}"),
    }
}

// The name of a field that a word is most like, if it is like one.
fn nearest(word: &str, star: bool) -> Option<&'static str> {
    let word = word.to_lowercase();
    let all = fields(star).map(|field| field.name).chain(["instant", "tai-utc"]);
    let (far, name) = all.map(|name| (distance(&word, name), name)).min()?;
    let most = if name.len() > 4 { 2 } else { 1 };
    (far <= most).then_some(name)
}

// How many letters must be changed, added or left out to make one word of the other.
fn distance(one: &str, other: &str) -> usize {
    let other: Vec<char> = other.chars().collect();
    let mut row: Vec<usize> = (0..=other.len()).collect();
    for (i, a) in one.chars().enumerate() {
        let mut corner = row[0];
        row[0] = i + 1;
        for (j, b) in other.iter().enumerate() {
            let changed = corner + usize::from(a != *b);
            corner = row[j + 1];
            row[j + 1] = changed.min(corner + 1).min(row[j] + 1);
        }
    }
    row[other.len()]
}

/// A number of the command line in units of a field, taken exactly or, where that is asked for, rounded.
pub fn argument(field: &Field, value: &str, round: bool) -> Outcome<i64> {
    let typed = value.trim().trim_end_matches(',').replace('\u{2212}', "-");
    let refuse = |words: String| Err(Failure::Refused(words));
    let Some(count) = decimals(&typed) else {
        let comma = Some(typed.replace(',', ".")).filter(|value| parts(value).is_some());
        let example = comma.unwrap_or_else(|| field.example.to_owned());
        return refuse(format!("{} {value} is not a number: write, for example, {example}", field.name));
    };
    if count > field.decimals && !(round && count <= MOST_DECIMALS) {
        let near = rounded(&typed, field.decimals).expect("a number");
        let way = if count > MOST_DECIMALS { "" } else { ", or add --round" };
        let most = match field.decimals {
            0 => "must be a whole number".to_owned(),
            most => format!("may have {most} decimals and has {count}"),
        };
        return refuse(format!("{} {value} {most}: write {near}{way}", field.name));
    }
    let near = rounded(&typed, field.decimals).expect("a number");
    if count > field.decimals {
        note(&format!("{} {value} is rounded to {near}", field.name));
    }
    let (negative, whole, part) = parts(&near).expect("a number");
    let digits = format!("{whole}{part:0<width$}", width = field.decimals);
    let size = digits.parse::<i64>().unwrap_or(i64::MAX);
    let units = if negative { -size } else { size };
    if !field.holds(units) {
        let station = STATION.iter().position(|other| other.name == field.name);
        let refused = match station {
            Some(place) => Refused { number: 3, place: place as u64 },
            None => Refused { number: 1, place: 1 },
        };
        return refuse(with_number(&field.outside(value), refused));
    }
    Ok(units)
}

#[cfg(test)]
mod tests {
    use super::*;

    #[test]
    fn rounding_is_away_from_zero_and_carries() {
        for (value, most, round) in [
            ("0.123456785", 8, "0.12345679"),
            ("-0.123456785", 8, "-0.12345679"),
            ("9.9999999", 6, "10"),
            ("-0.0000004", 6, "0"),
            (".5", 0, "1"),
            ("+00012.50", 2, "12.5"),
            ("7", 0, "7"),
        ] {
            assert_eq!(rounded(value, most).as_deref(), Some(round), "{value}");
        }
        for word in ["", ".", "-", "1e5", "1,5", "0x1"] {
            assert_eq!(rounded(word, 3), None, "{word}");
        }
    }

    #[test]
    fn marks_and_minus_signs_are_prepared() {
        let text = "\u{feff}x0 \u{2212}0.5\r\n".as_bytes();
        assert_eq!(prepared(text).unwrap(), b"x0 -0.5\r\n");
        assert!(prepared(b"\xff\xfex\0").is_err());
    }

    #[test]
    fn lines_say_what_stands_before_a_comment() {
        assert_eq!(said(b" \tlatitude  55.7 \r # there"), b"latitude  55.7");
        assert_eq!(after(b"tan f1 0.1", "tan f1"), Some(&b"0.1"[..]));
        assert_eq!(after(b"latitude55", "latitude"), None);
    }
}
