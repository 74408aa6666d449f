//! The refusals of documents 01 and 02, each with its number and its place.

use std::fmt;

/// Why nothing was done. What a case carries is its place.
#[derive(Clone, Copy, PartialEq, Eq, Debug)]
pub enum Refusal {
    /// 1: the window is outside its range (0).
    Window,
    /// 1: the guard is outside its range (1).
    Guard,
    /// 2: an element is outside its range; the first such field, 0..21, of a star 0..11.
    Element(usize),
    /// 3: a station value is outside its range; the first such field, 0..4, in a network's list ten times the list
    /// place plus that.
    Station(usize),
    /// 4: the buffer is too short; the length or count it needs.
    Room(usize),
    /// 5: a kind that is not in the table; the first byte of that record.
    Kind(usize),
    /// 6: the input ends inside a record or before the end record.
    Cut(usize),
    /// 7: a field breaks a reader's rule.
    Field(usize),
    /// 8: the order is broken.
    Order(usize),
    /// 9: bytes after the end record; the first of them.
    After(usize),
    /// 10: the program's input has another shape.
    Shape,
    /// 11: a row of the tables of Sun and Moon is outside its distances; the first such row, 0..6.
    Row(usize),
    /// 12: a double is not finite; the first such field, 0..22.
    NotFinite(usize),
    /// 13: the radius of a star request is outside its range (0).
    Radius,
    /// 14: a station number of a network is already used; the first such list place.
    Repeated(usize),
    /// 15: a clock of a network is neither 0 nor in the list; the first such list place.
    Clock(usize),
    /// 16: a station of a network whose chain never reaches 0; the first such list place.
    Chain(usize),
    /// 17: a fit differs from the tabulated value by more than the tolerance; the first such hour, 0..6. Of elements from
    /// rows ten times the fit, 0..5, plus that.
    Hour(usize),
    /// 18: the tolerance of a fit (0), or a tabulated value (the first such, 1..7), is outside its range.
    Given(usize),
    /// 19: the list of a network is empty or has more than 64 stations (0).
    List,
    /// 21: of elements from rows, a radius (0..2) or a sidereal angle (3..9) is outside its range.
    Places(usize),
    /// 22: the number of a phase that the shadow does not have (0). Ours, of no document.
    NoPhase,
    /// 22: two seconds that are not one surely outside and one surely inside (1). Ours, of no document.
    NoContact,
}

impl Refusal {
    pub fn number(self) -> u32 {
        match self {
            Refusal::Window | Refusal::Guard => 1,
            Refusal::Element(_) => 2,
            Refusal::Station(_) => 3,
            Refusal::Room(_) => 4,
            Refusal::Kind(_) => 5,
            Refusal::Cut(_) => 6,
            Refusal::Field(_) => 7,
            Refusal::Order(_) => 8,
            Refusal::After(_) => 9,
            Refusal::Shape => 10,
            Refusal::Row(_) => 11,
            Refusal::NotFinite(_) => 12,
            Refusal::Radius => 13,
            Refusal::Repeated(_) => 14,
            Refusal::Clock(_) => 15,
            Refusal::Chain(_) => 16,
            Refusal::Hour(_) => 17,
            Refusal::Given(_) => 18,
            Refusal::List => 19,
            Refusal::Places(_) => 21,
            Refusal::NoPhase | Refusal::NoContact => 22,
        }
    }

    pub fn place(self) -> usize {
        match self {
            Refusal::Window | Refusal::Shape | Refusal::Radius | Refusal::List | Refusal::NoPhase => 0,
            Refusal::Guard | Refusal::NoContact => 1,
            Refusal::Element(place)
            | Refusal::Station(place)
            | Refusal::Room(place)
            | Refusal::Kind(place)
            | Refusal::Cut(place)
            | Refusal::Field(place)
            | Refusal::Order(place)
            | Refusal::After(place)
            | Refusal::Row(place)
            | Refusal::NotFinite(place)
            | Refusal::Repeated(place)
            | Refusal::Clock(place)
            | Refusal::Chain(place)
            | Refusal::Hour(place)
            | Refusal::Given(place)
            | Refusal::Places(place) => place,
        }
    }
}

impl fmt::Display for Refusal {
    fn fmt(&self, f: &mut fmt::Formatter) -> fmt::Result {
        write!(f, "refused {} {}", self.number(), self.place())
    }
}
