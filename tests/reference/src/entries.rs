//! From states to the entries of a phase.

use crate::shadow::State;
use crate::sheet::Role;

/// An entry of a phase: from and to are seconds.
#[derive(Clone, Copy, PartialEq, Eq, Debug)]
pub struct Entry {
    pub role: Role,
    pub from: i64,
    pub to: i64,
}

/// The entries of a phase by time, from the states of the seconds that begin with `first`.
///
/// The sure seconds are collected, then each pair of neighbours among them is looked at.
pub fn entries(first: i64, states: &[State]) -> Vec<Entry> {
    let last = first + states.len() as i64 - 1;
    let sure: Vec<(i64, State)> =
        (first..).zip(states.iter().copied()).filter(|&(_, state)| state != State::Unsure).collect();
    let (Some(&(earliest, _)), Some(&(latest, _))) = (sure.first(), sure.last()) else {
        return vec![Entry { role: Role::Open, from: first, to: last }];
    };
    let mut entries = Vec::new();
    if first < earliest {
        entries.push(Entry { role: Role::Open, from: first, to: earliest });
    }
    for pair in sure.windows(2) {
        let ((from, before), (to, after)) = (pair[0], pair[1]);
        let role = match (before, after) {
            (State::Outside, State::Inside) => Role::Enter,
            (State::Inside, State::Outside) => Role::Leave,
            _ if to - from > 1 => Role::Graze,
            _ => continue,
        };
        entries.push(Entry { role, from, to });
    }
    if latest < last {
        entries.push(Entry { role: Role::Open, from: latest, to: last });
    }
    entries
}
