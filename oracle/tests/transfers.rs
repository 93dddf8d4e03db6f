//! The library's driver over both of its buses, and its plain memory, against the model: by the model's own driver and
//! by the rule of a driver's image.

#![cfg(feature = "library")]

use oracle::bus::Mode;
use oracle::differential::SEED;
use oracle::ffi;
use oracle::generate::{TransferCase, transfer_case};
use oracle::rng::Rng;
use oracle::script::Numbers;
use oracle::sheet::{cells, density};
use oracle::transfer::{Order, Transfer, Way, read_plain, transfer, transfer_by_image};

const TRANSFERS: u64 = 40_000;
const PLAIN_READS: u64 = 20_000;

/// An MB85RS64VY with these stored bits.
fn chip_64vy(stored: u8) -> Numbers {
    Numbers { t: 0x03, f: 0x02, sleep: 1, stored, ..Numbers::default() }
}

const WAYS: [Way; 5] = [
    Way::Bytes,
    Way::Line(Mode::Zero, 0),
    Way::Line(Mode::Zero, 3),
    Way::Line(Mode::Three, 0),
    Way::Line(Mode::Three, 7),
];

/// Memory and buffer after a transfer, and what it came to.
type Done = (Transfer, Vec<u8>, Vec<u8>);

fn done(case: &TransferCase, carry_out: impl FnOnce(&mut [u8], Order, &mut [u8]) -> Transfer) -> Done {
    let mut memory = case.memory.clone();
    let mut buffer = case.buffer.clone();
    let order = Order { before: &case.before, start: case.start, bytes: &case.bytes };
    let transfer = carry_out(&mut memory, order, &mut buffer);
    (transfer, memory, buffer)
}

fn by_library(case: &TransferCase) -> Done {
    done(case, |memory, order, buffer| {
        ffi::guarded_transfer(&case.numbers, memory, case.way, order, buffer).expect("nothing else is changed")
    })
}

#[test]
fn transfers_agree() {
    let mut reached = [0u64; 8];
    for index in 0..TRANSFERS {
        let case = transfer_case(&mut Rng::of_case(SEED, index));
        let library = by_library(&case);
        let model = done(&case, |memory, order, buffer| transfer(&case.numbers, memory, case.way, order, buffer));
        let image = done(&case, |memory, order, buffer| transfer_by_image(&case.numbers, memory, order, buffer));
        assert!(model == image, "the model's driver and its image differ: seed {SEED:#X}, case {index}: {case:?}");
        assert!(library == model, "library {library:?}\nmodel {model:?}\nseed {SEED:#X}, case {index}: {case:?}");
        let class = match library.0 {
            Transfer { refusal: 1, .. } => 0,
            Transfer { refusal: 2, .. } => 1,
            Transfer { written: 0, read: 0, .. } if library.1 != case.memory => 2,
            Transfer { written: 0, read: 0, .. } => 3,
            Transfer { written: 0, read: 4, .. } => 4,
            Transfer { written: 5, read: 0, .. } => 5,
            Transfer { written: 5, read: 4, .. } => 6,
            _ => 7,
        };
        reached[class] += 1;
    }
    println!("seed {SEED:#X}, {TRANSFERS} transfers: {reached:?}");
    assert!(reached.iter().all(|&count| count >= 200), "a class was not reached often enough: {reached:?}");
}

/// A read of no cells at the size is accepted, one past it refused by 4.
#[test]
fn reads_of_no_cells() {
    for way in WAYS {
        for (start, read) in [(8192, 0), (8193, 4)] {
            let order = Order { before: &[], start, bytes: &[] };
            let done = ffi::transfer(&chip_64vy(0), &mut [0; 8192], way, order, &mut []);
            assert_eq!((done.written, done.read), (read, read), "at {start}");
        }
    }
}

/// A write of no cells at a fenced place is accepted, one of a cell refused by 5.
#[test]
fn writes_of_no_cells() {
    for way in WAYS {
        for (bytes, written) in [(&[][..], 0), (&[0x55][..], 5)] {
            let mut memory = [0; 8192];
            let order = Order { before: &[], start: 0x1800, bytes };
            let done = ffi::transfer(&chip_64vy(0x04), &mut memory, way, order, &mut []);
            assert_eq!((done.written, done.stored), (written, 0x04));
            assert_eq!(memory, [0; 8192]);
        }
    }
}

/// Whole chips, written and read back in one session each.
#[test]
fn whole_chips() {
    let mut rng = Rng::new(SEED);
    for d in 1..=5 {
        for way in WAYS {
            let size = cells(density(d).expect("d is from 1 to 5"));
            let numbers = Numbers { t: d, f: 0x02, drop: 1, fast: 1, ..Numbers::default() };
            let bytes = rng.bytes(size);
            let mut memory = rng.bytes(size);
            let mut buffer = vec![0; size];
            let order = Order { before: &[], start: 0, bytes: &bytes };
            let done = ffi::transfer(&numbers, &mut memory, way, order, &mut buffer);
            assert_eq!(done, Transfer::default());
            assert!(memory == bytes && buffer == bytes, "d = {d}, {way:?}");
        }
    }
}

#[test]
fn plain_reads_agree() {
    let mut refused = 0;
    for index in 0..PLAIN_READS {
        let mut rng = Rng::of_case(SEED, index);
        let length = rng.below(64);
        let mut memory = rng.bytes(length);
        let start = rng.pick(&[0, 1, length, length + 1, length / 2, usize::MAX]);
        let count = rng.below(64);
        let mut buffer = rng.bytes(count);
        let mut wanted = buffer.clone();
        let answer = read_plain(&mut memory.clone(), start, &mut wanted);
        let before = memory.clone();
        assert_eq!(ffi::read_plain(&mut memory, start, &mut buffer), answer, "case {index}");
        assert!(buffer == wanted && memory == before, "case {index}");
        refused += u64::from(answer == 4);
    }
    assert!(refused > 1000 && refused < PLAIN_READS - 1000, "{refused}");
    // Plain memory has no more than 1,048,576 cells, however long it is.
    let mut memory = vec![0x5A; (1 << 20) + 8];
    assert_eq!(ffi::read_plain(&mut memory, (1 << 20) - 8, &mut [0; 8]), 0);
    assert_eq!(ffi::read_plain(&mut memory, (1 << 20) - 7, &mut [0; 8]), 4);
}
