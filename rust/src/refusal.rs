use std::error::Error;
use std::fmt;

/// Why a request, a sheet, a list of entries, a fit or a network is refused.
///
/// [`number`](Refusal::number) and [`place`](Refusal::place) are those of document 01's table of refusals; 11 to 19
/// are document 02's, 20, 22 and 23 the library's own.
#[derive(Clone, Copy, Debug, PartialEq, Eq, Hash)]
pub enum Refusal {
    /// 1: the window, or the second asked for, is outside its range (place 0).
    Window,
    /// 1: the guard is outside its range (place 1; document 02).
    Guard,
    /// 2: an element, or a coefficient of a fit, is outside its range.
    Element {
        /// The first such field, 0 to 21, in the order of [`Elements`](crate::Elements), or 0 to 11 in that of
        /// [`StarElements`](crate::StarElements); of a fit 0 to 3.
        field: u64,
    },
    /// 3: a station value is outside its range.
    Station {
        /// The first such value: 0 number, 1 latitude, 2 longitude, 3 height, 4 ΔT; in a network's list ten times the list place,
        /// counted from 0, plus that.
        field: u64,
    },
    /// 4: the sheet is longer than the buffer.
    Room {
        /// The length the sheet needs.
        needed: u64,
    },
    /// 5: a kind that is not in the table.
    Kind {
        /// First byte of that record.
        at: u64,
    },
    /// 6: the input ends inside a record or before the end record.
    Ends {
        /// First byte of that record, or the input's length.
        at: u64,
    },
    /// 7: a field breaks a reader's rule.
    Field {
        /// First byte of its record.
        at: u64,
    },
    /// 8: order broken.
    Order {
        /// First byte of the record.
        at: u64,
    },
    /// 9: bytes, or entries, after the end record.
    After {
        /// First byte of them.
        at: u64,
    },
    /// 10: the request is not of its shape.
    Shape,
    /// 11: a row of the tables of Sun and Moon is outside its distances (document 02).
    Row {
        /// The first such row, 0 to 6.
        row: u64,
    },
    /// 12: a double is not finite (document 02).
    NotFinite {
        /// The first such field, 0 to 21 in the order of [`Elements`](crate::Elements), 22 for the longitude.
        field: u64,
    },
    /// 13: the radius of a star request is outside its range (place 0; document 02).
    Radius,
    /// 14: a station number is already used in a network's list (document 02).
    Repeated {
        /// The first such list place, counted from 0.
        place: u64,
    },
    /// 15: a clock is neither 0 nor in a network's list (document 02).
    Clock {
        /// The first such list place.
        place: u64,
    },
    /// 16: a station's chain of clocks never reaches 0 (document 02).
    Chain {
        /// The first such list place.
        place: u64,
    },
    /// 17: a fit's value differs from the tabulated one by more than the tolerance.
    Hour {
        /// The first such hour, 0 to 6 for -3 to 3; of [`elements`](crate::elements) ten times the fit, 0 to 5, plus that.
        hour: u64,
    },
    /// 18: the tolerance of a fit, or a tabulated value, is outside its range.
    Given {
        /// 0 for the tolerance, 1 to 7 for the first such tabulated value.
        place: u64,
    },
    /// 19: a network's list is empty or has more than 64 stations (place 0; document 02).
    List,
    /// 21: a radius or a sidereal angle is outside its range (ours).
    Places {
        /// The first such: 0 to 2 for a radius, 3 to 9 for a sidereal angle.
        place: u64,
    },
    /// 22: the shadow has no phase of that number (place 0; of no document).
    Phase,
    /// 22: two seconds are not one surely outside and one surely inside (place 1; of no document).
    NoContact,
    /// 20: a line of a typed text is invalid.
    Line {
        /// The first such line, counted from 1; 0 where the text is too long.
        line: u64,
    },
    /// 23: a number of an instant is outside its range.
    Instant {
        /// The first such number: 0 scale, 1 date, 4 hundredths of a second, 5 TAI less UTC.
        field: u64,
    },
}

impl Refusal {
    /// The refusal's number, 1 to 23.
    pub fn number(self) -> u64 {
        match self {
            Refusal::Window | Refusal::Guard => 1,
            Refusal::Element { .. } => 2,
            Refusal::Station { .. } => 3,
            Refusal::Room { .. } => 4,
            Refusal::Kind { .. } => 5,
            Refusal::Ends { .. } => 6,
            Refusal::Field { .. } => 7,
            Refusal::Order { .. } => 8,
            Refusal::After { .. } => 9,
            Refusal::Shape => 10,
            Refusal::Row { .. } => 11,
            Refusal::NotFinite { .. } => 12,
            Refusal::Radius => 13,
            Refusal::Repeated { .. } => 14,
            Refusal::Clock { .. } => 15,
            Refusal::Chain { .. } => 16,
            Refusal::Hour { .. } => 17,
            Refusal::Given { .. } => 18,
            Refusal::List => 19,
            Refusal::Phase | Refusal::NoContact => 22,
            Refusal::Line { .. } => 20,
            Refusal::Instant { .. } => 23,
            Refusal::Places { .. } => 21,
        }
    }

    /// The refusal's place: a field, a length, a byte, a row, an hour or a list place, as the number says; of 1 it is 0 for the window,
    /// 1 for the guard; of 10, 13 and 19 it is 0; of 22 it is 0 for the phase, 1 for the two seconds.
    pub fn place(self) -> u64 {
        match self {
            Refusal::Window | Refusal::Shape | Refusal::Radius | Refusal::List | Refusal::Phase => 0,
            Refusal::Guard | Refusal::NoContact => 1,
            Refusal::Element { field }
            | Refusal::Station { field }
            | Refusal::NotFinite { field }
            | Refusal::Instant { field } => field,
            Refusal::Line { line } => line,
            Refusal::Room { needed } => needed,
            Refusal::Row { row } => row,
            Refusal::Hour { hour } => hour,
            Refusal::Given { place }
            | Refusal::Repeated { place }
            | Refusal::Clock { place }
            | Refusal::Chain { place }
            | Refusal::Places { place } => place,
            Refusal::Kind { at }
            | Refusal::Ends { at }
            | Refusal::Field { at }
            | Refusal::Order { at }
            | Refusal::After { at } => at,
        }
    }

    // The refusal of a number and a place that the library gave.
    pub(crate) fn of(number: u64, place: u64) -> Refusal {
        match number {
            1 if place == 0 => Refusal::Window,
            1 => Refusal::Guard,
            2 => Refusal::Element { field: place },
            3 => Refusal::Station { field: place },
            4 => Refusal::Room { needed: place },
            5 => Refusal::Kind { at: place },
            6 => Refusal::Ends { at: place },
            7 => Refusal::Field { at: place },
            8 => Refusal::Order { at: place },
            9 => Refusal::After { at: place },
            10 => Refusal::Shape,
            11 => Refusal::Row { row: place },
            12 => Refusal::NotFinite { field: place },
            13 => Refusal::Radius,
            14 => Refusal::Repeated { place },
            15 => Refusal::Clock { place },
            16 => Refusal::Chain { place },
            17 => Refusal::Hour { hour: place },
            18 => Refusal::Given { place },
            19 => Refusal::List,
            22 if place == 0 => Refusal::Phase,
            22 => Refusal::NoContact,
            20 => Refusal::Line { line: place },
            23 => Refusal::Instant { field: place },
            21 => Refusal::Places { place },
            _ => unreachable!("the library gives only numbers of the table"),
        }
    }
}

impl fmt::Display for Refusal {
    fn fmt(&self, f: &mut fmt::Formatter<'_>) -> fmt::Result {
        let words = match self {
            Refusal::Window => "window outside its range",
            Refusal::Guard => "guard outside its range",
            Refusal::Element { .. } => "an element outside its range",
            Refusal::Station { .. } => "a station value outside its range",
            Refusal::Room { .. } => "sheet longer than the buffer",
            Refusal::Kind { .. } => "kind not in the table",
            Refusal::Ends { .. } => "input ends inside a record or before the end record",
            Refusal::Field { .. } => "a field breaks a reader's rule",
            Refusal::Order { .. } => "order broken",
            Refusal::After { .. } => "bytes after the end record",
            Refusal::Shape => "request not of its shape",
            Refusal::Row { .. } => "a row of the tables outside its distances",
            Refusal::NotFinite { .. } => "a double that is not finite",
            Refusal::Radius => "the radius of a star request outside its range",
            Refusal::Repeated { .. } => "a station number already used in the list",
            Refusal::Clock { .. } => "a clock neither 0 nor in the list",
            Refusal::Chain { .. } => "a station whose chain of clocks never reaches 0",
            Refusal::Hour { .. } => "a fit further from a tabulated value than the tolerance",
            Refusal::Given { .. } => "a tolerance or a tabulated value outside its range",
            Refusal::List => "a list of no station or of more than 64",
            Refusal::Phase => "no such phase",
            Refusal::NoContact => "two seconds that are not one surely outside and one surely inside",
            Refusal::Line { .. } => "an invalid line of a typed text",
            Refusal::Instant { .. } => "a number of an instant outside its range",
            Refusal::Places { .. } => "a radius or a sidereal angle outside its range",
        };
        write!(f, "refused {} {}: {words}", self.number(), self.place())
    }
}

impl Error for Refusal {}
