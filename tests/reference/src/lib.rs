//! Document 01 in plain Rust: the local circumstances of a solar eclipse in whole numbers.
//!
//! Written from document 01 alone, to be compared with the proved programs. Lengths are in units of
//! 10^-8 of the Earth's equatorial radius, sines and tangents in 10^-8, angles in 10^-6 degree, time in
//! whole seconds from the reference instant. East longitude is positive.

pub mod axis;
pub mod contact;
pub mod course;
pub mod doubles;
pub mod elements;
pub mod entries;
pub mod exact;
pub mod fit;
pub mod fitted;
pub mod horizon;
pub mod listing;
pub mod mend;
pub mod mirror;
pub mod network;
pub mod numbers;
pub mod observer;
pub mod place;
pub mod random;
pub mod refusal;
pub mod request;
pub mod room;
pub mod sample;
pub mod sample_network;
pub mod sample_star;
pub mod shadow;
pub mod share;
pub mod sheet;
pub mod sine;
pub mod sine_table;
pub mod star;
pub mod stream;
pub mod tables;
pub mod tally;
pub mod wide;
