//! The library against the model on many scripts. The seed is fixed, and every class of outcome is to be reached often
//! enough, so that the test cannot pass idly. It has no test harness, so that what it prints is always shown.

use std::process::ExitCode;

use oracle::differential::{SEED, soak};
use oracle::ffi::Library;

const SCRIPTS: u64 = 360_000;

fn main() -> ExitCode {
    match soak(SEED, 0, SCRIPTS, &mut Library) {
        Ok(()) => ExitCode::SUCCESS,
        Err(fault) => {
            eprintln!("{fault}");
            ExitCode::FAILURE
        }
    }
}
