//! Compares the library with the model on many scripts: `soak SCRIPTS [SEED [FIRST]]`, where the seed may be in
//! hexadecimal (0x...) and FIRST is the index of the first case.

use std::env;
use std::process::ExitCode;

use oracle::differential::{SEED, soak};
use oracle::ffi::Library;

fn number(text: &str) -> Option<u64> {
    match text.strip_prefix("0x") {
        Some(digits) => u64::from_str_radix(digits, 16).ok(),
        None => text.parse().ok(),
    }
}

fn main() -> ExitCode {
    let numbers: Option<Vec<u64>> = env::args().skip(1).map(|text| number(&text)).collect();
    let (scripts, seed, first) = match numbers.as_deref() {
        Some(&[scripts]) => (scripts, SEED, 0),
        Some(&[scripts, seed]) => (scripts, seed, 0),
        Some(&[scripts, seed, first]) => (scripts, seed, first),
        _ => {
            eprintln!("usage: soak SCRIPTS [SEED [FIRST]]");
            return ExitCode::from(2);
        }
    };
    match soak(seed, first, scripts, &mut Library) {
        Ok(()) => ExitCode::SUCCESS,
        Err(fault) => {
            eprintln!("{fault}");
            ExitCode::FAILURE
        }
    }
}
