use crate::narrowed;

/// The shadow that an entry is about.
#[derive(Clone, Copy, Debug, PartialEq, Eq, Hash)]
pub enum Phase {
    /// The penumbra.
    Penumbra,
    /// The central cone, of a total or an annular eclipse.
    Central,
    /// The cylinder behind which a star vanishes. It stands in place of the other two: no sheet has both.
    Star,
}

/// An entry of a sheet. Enter, leave, graze and open are document 01's words.
///
/// Seconds count from the reference instant (a sheet stores them plus 10,800). A direction is in tenths of a degree,
/// north through east, 0 to 3,599; `None` where the axis goes through the station.
#[derive(Clone, Copy, Debug, PartialEq, Eq, Hash)]
pub enum Entry {
    /// The station's number, the window and the guard.
    Head {
        /// The station's number, 1 to 999.
        station: u16,
        /// First second of the window.
        first: i64,
        /// Last second of the window.
        last: i64,
        /// The request's guard, 10^-8 of the Earth's equatorial radius, 16 to 1,000: nothing is sure within it of a cone's edge.
        guard: u16,
    },
    /// Outside at `from`, inside at `to`.
    Enter {
        /// Penumbra, central or star.
        phase: Phase,
        /// The last sure second before.
        from: i64,
        /// The first sure second after.
        to: i64,
        /// Direction at `to`.
        direction: Option<u16>,
    },
    /// Inside at `from`, outside at `to`.
    Leave {
        /// Penumbra, central or star.
        phase: Phase,
        /// The last sure second before.
        from: i64,
        /// The first sure second after.
        to: i64,
        /// Direction at `from`.
        direction: Option<u16>,
    },
    /// One state at `from` and `to`, with unsure seconds between them.
    Graze {
        /// Penumbra, central or star.
        phase: Phase,
        /// The last sure second before.
        from: i64,
        /// The first sure second after.
        to: i64,
    },
    /// Unsure seconds at an end of the window, up to the nearest sure second.
    Open {
        /// Penumbra, central or star.
        phase: Phase,
        /// First second.
        from: i64,
        /// Last second.
        to: i64,
    },
    /// The second at which the axis is closest to the station.
    Closest {
        /// The second of least distance in the fundamental plane; the greatest magnitude came up to 14 s from it.
        second: i64,
        /// Its magnitude, millionths, 0 to 1,300,000; 0 after an entry of a star.
        magnitude: u32,
    },
    /// How much of the Sun's disc is covered at the closest second: directly after [`Entry::Closest`], in a sheet that has it. No
    /// sheet with an entry of a star has it.
    Share {
        /// Millionths, rounded down, 0 to 1,000,000.
        share: u32,
    },
    /// The end of the sheet.
    End,
}

// A second is stored plus 10,800.
const SHIFT: i64 = 10_800;
// Direction where there is none.
const NONE: u32 = 65_535;
// Breaks every rule on a second or a direction; stands for one that cannot be stored.
const BAD: u32 = u32::MAX;

fn stored(second: i64) -> u32 {
    second.checked_add(SHIFT).and_then(|second| u32::try_from(second).ok()).unwrap_or(BAD)
}

fn second(stored: u32) -> i64 {
    i64::from(stored) - SHIFT
}

fn tenths(direction: Option<u16>) -> u32 {
    match direction {
        Some(tenths @ 0..=3_599) => u32::from(tenths),
        Some(_) => BAD,
        None => NONE,
    }
}

pub(crate) fn direction(tenths: u32) -> Option<u16> {
    (tenths != NONE).then(|| narrowed(tenths))
}

impl Phase {
    // The kind of the phase's enter; leave, graze and open follow it.
    fn kind(self) -> u32 {
        match self {
            Phase::Penumbra => 0x10,
            Phase::Central => 0x20,
            Phase::Star => 0x40,
        }
    }

    // The phase of one of these kinds.
    fn of(kind: u32) -> Phase {
        match kind >> 4 {
            1 => Phase::Penumbra,
            2 => Phase::Central,
            _ => Phase::Star,
        }
    }
}

impl Entry {
    // The entry as the library has it: its kind and the kind's fields.
    pub(crate) fn numbers(self) -> [u32; 5] {
        match self {
            Entry::Head { station, first, last, guard } => {
                [0x01, u32::from(station), stored(first), stored(last), u32::from(guard)]
            }
            Entry::Enter { phase, from, to, direction } => {
                [phase.kind(), stored(from), stored(to), tenths(direction), 0]
            }
            Entry::Leave { phase, from, to, direction } => {
                [phase.kind() + 1, stored(from), stored(to), tenths(direction), 0]
            }
            Entry::Graze { phase, from, to } => [phase.kind() + 2, stored(from), stored(to), 0, 0],
            Entry::Open { phase, from, to } => [phase.kind() + 3, stored(from), stored(to), 0, 0],
            Entry::Closest { second, magnitude } => [0x30, stored(second), magnitude, 0, 0],
            Entry::Share { share } => [0x31, share, 0, 0, 0],
            Entry::End => [0x7F, 0, 0, 0, 0],
        }
    }

    // The entry of numbers that the library gave.
    pub(crate) fn of(numbers: [u32; 5]) -> Entry {
        let [kind, a, b, c, d] = numbers;
        let (phase, from, to) = (Phase::of(kind), second(a), second(b));
        match kind {
            0x01 => {
                Entry::Head { station: narrowed(a), first: second(b), last: second(c), guard: narrowed(d) }
            }
            0x10 | 0x20 | 0x40 => Entry::Enter { phase, from, to, direction: direction(c) },
            0x11 | 0x21 | 0x41 => Entry::Leave { phase, from, to, direction: direction(c) },
            0x12 | 0x22 | 0x42 => Entry::Graze { phase, from, to },
            0x13 | 0x23 | 0x43 => Entry::Open { phase, from, to },
            0x30 => Entry::Closest { second: second(a), magnitude: b },
            0x31 => Entry::Share { share: a },
            0x7F => Entry::End,
            _ => unreachable!("the library gives only kinds of the table"),
        }
    }
}
