//! How fast the library is beside the model: each task is done by both in turn, many times, in one process; the least
//! time of each counts, and their ratio (library to model) is printed. `bench [ROUNDS]`.

use std::env;
use std::hint::black_box;
use std::process::ExitCode;
use std::time::{Duration, Instant};

use oracle::bus::Mode;
use oracle::ffi;
use oracle::generate::Run;
use oracle::rng::Rng;
use oracle::script::{Numbers, Report, board_run_by_driver, chip_run};
use oracle::transfer::{Order, Way, read_plain, transfer};

const ROUNDS: u32 = 30;

/// An MB85RS256B, and its cells.
const CHIP: Numbers = Numbers { t: 0x05, f: 0x09, drop: 1, sleep: 0, fast: 1, stored: 0 };
const CELLS: usize = 32_768;

/// The pins between two sessions, and with CS low: WP and HOLD high.
const IDLE: u8 = 0x19;
const SELECTED: u8 = 0x18;

/// A session in mode 0, as samples of a script.
fn session(script: &mut Vec<u8>, bytes: &[u8]) {
    script.extend([1, IDLE, 1, SELECTED]);
    for &byte in bytes {
        for i in (0..8).rev() {
            let si = byte >> i & 1;
            script.extend([1, SELECTED | si << 2 | 2, 1, SELECTED | si << 2]);
        }
    }
    script.extend([1, IDLE]);
}

/// WREN, then WRITE of every cell.
fn write_script(bytes: &[u8]) -> Vec<u8> {
    let mut script = Vec::new();
    session(&mut script, &[0x06]);
    session(&mut script, &[&[0x02, 0, 0], bytes].concat());
    script
}

/// READ of every cell.
fn read_script() -> Vec<u8> {
    let mut script = Vec::new();
    session(&mut script, &[&[0x03, 0, 0][..], &vec![0; CELLS]].concat());
    script
}

/// Steps of all kinds to a board, at places all over it.
fn board_script(rng: &mut Rng) -> Vec<u8> {
    let mut script = Vec::new();
    for i in 0..20_000 {
        let [.., high, low] = rng.below(CELLS - 8).to_be_bytes();
        match i % 5 {
            0 => script.push(3),
            1 => script.extend([4, 0, high, low]),
            2 => script.extend([5, 0, high, low]),
            3 => script.extend([&[6, 0, high, low], &rng.bytes(8)[..]].concat()),
            _ => script.extend([7, 0, high, low, rng.byte()]),
        }
    }
    script
}

/// The least time of each side over the rounds, taken in turn.
fn least(rounds: u32, mut library: impl FnMut(), mut model: impl FnMut()) -> (Duration, Duration) {
    let timed = |task: &mut dyn FnMut()| {
        let start = Instant::now();
        task();
        start.elapsed()
    };
    (0..rounds).fold((Duration::MAX, Duration::MAX), |(a, b), _| (a.min(timed(&mut library)), b.min(timed(&mut model))))
}

/// One line of the table: nanoseconds for each unit, and the ratio.
fn line(name: &str, unit: &str, units: usize, (library, model): (Duration, Duration)) {
    let each = |time: Duration| time.as_nanos() as f64 / units as f64;
    println!(
        "| {name} | {unit} | {:.2} | {:.2} | {:.2} |",
        each(library),
        each(model),
        library.as_secs_f64() / model.as_secs_f64()
    );
}

/// A run of the model on a chip.
type ModelRun = fn(&Numbers, &mut [u8], &[u8], &mut [u8]) -> Report;

fn runs(rounds: u32, name: &str, unit: &str, run: Run, model: ModelRun, script: Vec<u8>) {
    let mut memory = [vec![0; CELLS], vec![0; CELLS]];
    let mut answers = [vec![0; 9 * script.len()], vec![0; 9 * script.len()]];
    let [m, n] = &mut memory;
    let [a, b] = &mut answers;
    let steps = model(&CHIP, n, &script, b).steps as usize;
    let times = least(
        rounds,
        || {
            black_box(ffi::run(run, &CHIP, m, &script, a));
        },
        || {
            black_box(model(&CHIP, n, &script, b));
        },
    );
    assert!(memory[0] == memory[1] && answers[0] == answers[1], "{name}: library and model differ");
    line(name, unit, steps, times);
}

fn transfers(rounds: u32, name: &str, way: Way, bytes: &[u8], buffer: &mut [u8]) {
    let mut memory = [vec![0; CELLS], vec![0; CELLS]];
    let mut buffers = [buffer.to_vec(), buffer.to_vec()];
    let order = Order { before: &[], start: 0, bytes };
    let [m, n] = &mut memory;
    let [b, c] = &mut buffers;
    let times = least(
        rounds,
        || {
            black_box(ffi::transfer(&CHIP, m, way, order, b));
        },
        || {
            black_box(transfer(&CHIP, n, way, order, c));
        },
    );
    assert!(memory[0] == memory[1] && buffers[0] == buffers[1], "{name}: library and model differ");
    line(name, "byte", bytes.len() + buffer.len(), times);
}

fn main() -> ExitCode {
    let rounds = match env::args().nth(1).map(|text| text.parse()) {
        None => ROUNDS,
        Some(Ok(rounds)) if rounds > 0 => rounds,
        Some(_) => {
            eprintln!("usage: bench [ROUNDS]");
            return ExitCode::from(2);
        }
    };
    let mut rng = Rng::new(1);
    let bytes = rng.bytes(CELLS);
    println!("MB85RS256B, the least of {rounds} rounds in nanoseconds; the model's board run is by its own driver");
    println!("| task | for each | library | model | ratio |");
    println!("|---|---|---|---|---|");
    runs(rounds, "chip run: WRITE of every cell", "sample", Run::Chip, chip_run, write_script(&bytes));
    runs(rounds, "chip run: READ of every cell", "sample", Run::Chip, chip_run, read_script());
    runs(rounds, "board run: all kinds of steps", "step", Run::Board, board_run_by_driver, board_script(&mut rng));
    for (way, bus) in [
        (Way::Bytes, "stepped by bytes"),
        (Way::Line(Mode::Zero, 0), "line in mode 0"),
        (Way::Line(Mode::Three, 1), "line in mode 3, one held sample"),
    ] {
        transfers(rounds, &format!("driver, write of every cell: {bus}"), way, &bytes, &mut []);
        transfers(rounds, &format!("driver, read of every cell: {bus}"), way, &[], &mut vec![0; CELLS]);
    }
    let mut memory = rng.bytes(1 << 20);
    let mut same = memory.clone();
    let mut buffers = [vec![0; 1 << 20], vec![0; 1 << 20]];
    let [b, c] = &mut buffers;
    let times = least(
        rounds,
        || {
            black_box(ffi::read_plain(&mut memory, 0, b));
        },
        || {
            black_box(read_plain(&mut same, 0, c));
        },
    );
    assert!(buffers[0] == buffers[1], "plain memory: library and model differ");
    line("plain memory, read of every cell", "byte", 1 << 20, times);
    ExitCode::SUCCESS
}
