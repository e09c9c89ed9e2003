// Readings of values.

pub mod date_and_time;
mod primitives;
