use crate::{ffi, narrowed, Refusal, REQUEST_LENGTH};
use std::error::Error;
use std::fmt;

/// The time scale of an instant.
#[derive(Clone, Copy, Debug, PartialEq, Eq, Hash)]
pub enum Scale {
    /// Ephemeris time.
    Ephemeris,
    /// Universal time.
    Universal,
}

/// The date and time of second 0, in the Gregorian calendar.
#[derive(Clone, Copy, Debug, PartialEq, Eq, Hash)]
pub struct Instant {
    /// The scale of the date and time.
    pub scale: Scale,
    /// 1583 to 9999.
    pub year: u64,
    /// 1 to 12.
    pub month: u64,
    /// 1 to the month's last.
    pub day: u64,
    /// Hundredths of a second from 0h, 0 to 8,639,999.
    pub hundredths: u64,
    /// TAI less UTC in seconds, 10 to 99 and only from 1972 on; `None` where it is not given.
    pub tai_utc: Option<u64>,
}

/// A typed text that was read.
#[derive(Clone, Debug, PartialEq, Eq, Hash)]
pub struct Typed {
    /// The bytes of the request, of an eclipse or of a star.
    pub request: Vec<u8>,
    /// The instant, where the text has one.
    pub instant: Option<Instant>,
}

/// The first invalid line of a typed text: refusal 20.
#[derive(Clone, Debug, PartialEq, Eq, Hash)]
pub struct Fault {
    /// The line, counted from 1; 0 where the text is too long.
    pub line: u64,
    /// What is wrong with it, as program `request` says it, with the end of line.
    pub message: String,
}

impl fmt::Display for Fault {
    fn fmt(&self, f: &mut fmt::Formatter<'_>) -> fmt::Result {
        f.write_str(self.message.trim_end())
    }
}

impl Error for Fault {}

/// The request that a typed text is, and its instant.
///
/// ```
/// use ukhtvaresh::typed;
///
/// let moscow = typed(include_bytes!("../../examples/moscow1954.txt"))?;
/// assert_eq!((&moscow.request[..], moscow.instant), (&include_bytes!("../../examples/moscow1954.bin")[..], None));
///
/// let fault = typed(b"latitude north\n").expect_err("no number");
/// assert_eq!((fault.line, fault.to_string().as_str()), (1, "line 1: latitude is not a number"));
/// # Ok::<(), Box<dyn std::error::Error>>(())
/// ```
pub fn typed(text: &[u8]) -> Result<Typed, Fault> {
    let (mut request, mut numbers) = (vec![0; REQUEST_LENGTH], [0; 6]);
    // A message has at most 87 bytes beside the text's own; that is the library's promise for its length.
    let mut message = vec![0; text.len() + 128];
    match ffi::typed(text, &mut request, &mut numbers, &mut message) {
        Ok(length) => {
            request.truncate(length);
            Ok(Typed { request, instant: instant(numbers) })
        }
        Err(Refusal::Line { line }) => {
            let end = message.iter().position(|&byte| byte == b'\n').map_or(message.len(), |at| at + 1);
            Err(Fault { line, message: String::from_utf8_lossy(&message[..end]).into_owned() })
        }
        Err(refusal) => unreachable!("{refusal}: every buffer is long enough"),
    }
}

/// What program `times` prints of a request, a star's if it has 79 bytes: the listing of its sheet with clock times by
/// the instant, altitudes and notes.
///
/// ```
/// use ukhtvaresh::{times, typed, Scale};
///
/// let mut text = include_bytes!("../../examples/moscow1954.txt").to_vec();
/// text.extend(b"instant 1954-06-30 12:00:00 ET\n");
/// let moscow = typed(&text)?;
/// let instant = moscow.instant.expect("the text has one");
/// assert_eq!((instant.scale, instant.year, instant.hundredths), (Scale::Ephemeris, 1954, 4_320_000));
/// let listing = times(&moscow.request, Some(&instant))?;
/// assert!(listing.contains("instant 1954-06-30 12:00:00.00 ET"));
/// # Ok::<(), Box<dyn std::error::Error>>(())
/// ```
///
/// Refusals, the first of them: 23 for the instant; then those of [`sheet`](crate::sheet()), or of
/// [`star`](crate::star()), but 4.
pub fn times(request: &[u8], instant: Option<&Instant>) -> Result<String, Refusal> {
    let numbers = numbers(instant);
    let (mut sheet, mut text) = (vec![0; 128], vec![0; 1024]);
    loop {
        match ffi::times(request, &numbers, &mut sheet, &mut text) {
            Ok(length) => {
                text.truncate(length);
                return Ok(String::from_utf8(text).expect("words, digits, spaces and ends of lines"));
            }
            // The sheet's own 4 comes first, then the text's: afterwards both buffers have the length that one needs.
            Err(Refusal::Room { needed }) => {
                let length = text.len().max(narrowed(needed));
                sheet.resize(length, 0);
                text.resize(length, 0);
            }
            Err(refusal) => return Err(refusal),
        }
    }
}

fn instant(numbers: [u64; 6]) -> Option<Instant> {
    let [scale, year, month, day, hundredths, offset] = numbers;
    let scale = match scale {
        0 => return None,
        1 => Scale::Ephemeris,
        2 => Scale::Universal,
        _ => unreachable!("the library gives only scales of the table"),
    };
    let tai_utc = (offset > 0).then_some(offset);
    Some(Instant { scale, year, month, day, hundredths, tai_utc })
}

fn numbers(instant: Option<&Instant>) -> [u64; 6] {
    instant.map_or([0; 6], |given| {
        let scale = match given.scale {
            Scale::Ephemeris => 1,
            Scale::Universal => 2,
        };
        [scale, given.year, given.month, given.day, given.hundredths, given.tai_utc.unwrap_or(0)]
    })
}
