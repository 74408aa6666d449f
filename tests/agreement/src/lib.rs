//! The compiled library, and what to try it on.

pub mod answers;
pub mod both;
pub mod draws;
pub mod files;
pub mod fits;
pub mod horizons;
pub mod library;
pub mod networks;
pub mod rows;
pub mod sheets;
pub mod stars;
