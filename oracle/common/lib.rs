//! What the oracle, its other programs and the benchmark share: random numbers, sound to encode, the program `flac`,
//! the check sums, and the two readers' answers.
pub mod draw;
pub mod flac;
pub mod readers;
pub mod signal;
pub mod sums;
