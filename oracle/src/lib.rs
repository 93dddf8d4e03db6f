//! A model of the SPI FRAM chips MB85RS64VY, MB85RS128TY and MB85RS256B, of the memory board that a driver makes of
//! such a chip, of dumps, and of the three script runs. It was written from the rules alone (`docs/RULES.md`,
//! `docs/FORMATS.md`, `docs/REFUSALS.md`, `include/fram.h`), apart from the library that it is compared with.

pub mod board;
pub mod bus;
pub mod chip;
pub mod differential;
pub mod driver;
#[cfg(feature = "library")]
pub mod ffi;
pub mod generate;
#[cfg(feature = "library")]
pub mod guarded;
pub mod refusal;
pub mod rng;
pub mod script;
pub mod sheet;
pub mod transfer;
