//! The model agrees with itself: the buses with each other, a driver over each of them with the image that the rules
//! give it, and the layers with plain lists of cells.

use oracle::board::{Board, Cell, Cells, Dump, Join, MOST_CELLS, Memory, ReadBoard, Shield, Window};
use oracle::bus::{Bus, ByteBus, Line, Mode};
use oracle::chip::{Chip, ParkedChip};
use oracle::differential::{Model, Outcome};
use oracle::driver::Driver;
use oracle::generate::{Case, Run, case};
use oracle::refusal::Refusal;
use oracle::rng::Rng;
use oracle::script::board_run_by_driver;
use oracle::sheet::{Marks, Sheet, Stored};

fn sheet(rng: &mut Rng) -> Sheet {
    let t = rng.pick(&[1, 1, 1, 2, 3]) | rng.byte() & 0xE0;
    let marks = Marks { drop: rng.flip(), sleep: rng.flip(), fast: rng.flip() };
    Sheet::new(t, rng.byte(), marks).unwrap()
}

/// Samples that leave a chip in any state: whole sessions of bytes, then a part of one, then some at random.
fn samples(rng: &mut Rng) -> Vec<u8> {
    let mut samples = Vec::new();
    for _ in 0..rng.below(4) {
        samples.push(0x18);
        let op_code = rng.pick(&[0x06, 0x06, 0xB9, 0xB9, 0x01, 0x05, 0x9F]);
        for byte in [op_code, rng.byte()].into_iter().take(rng.pick(&[1, 1, 2])) {
            samples.extend((0..8).rev().map(|i| byte >> i & 1).flat_map(|si| [0x1A | si << 2, 0x18 | si << 2]));
        }
        samples.push(0x19);
    }
    if rng.flip() {
        samples.pop();
    }
    samples.extend((0..rng.below(6)).map(|_| rng.byte() & 0x1F));
    samples
}

fn chip<'m>(sheet: Sheet, stored: Stored, samples: &[u8], memory: &'m mut [u8]) -> Chip<'m> {
    let mut chip = ParkedChip::new(sheet, stored).power(memory);
    for &sample in samples {
        chip.put(sample).unwrap();
    }
    chip
}

#[derive(Clone, Copy, Debug)]
enum Call {
    Select,
    Exchange(u8),
    Deselect,
}

fn calls(rng: &mut Rng) -> Vec<Call> {
    let mut calls = Vec::new();
    for _ in 0..rng.from_to(1, 8) {
        if rng.chance(900) {
            calls.push(Call::Select);
        }
        let op_code = rng.pick(&[0x06, 0x06, 0x04, 0x05, 0x01, 0x03, 0x02, 0x02, 0x9F, 0x0B, 0xB9, 0x00]);
        let length = match op_code {
            0x06 | 0xB9 => rng.pick(&[1, 1, 1, 2]),
            _ => rng.below(11),
        };
        calls.extend([op_code].into_iter().chain(rng.bytes(10)).take(length).map(Call::Exchange));
        if rng.chance(900) {
            calls.push(Call::Deselect);
        }
    }
    calls
}

fn answer(bus: &mut dyn Bus, call: Call) -> Option<u8> {
    match call {
        Call::Select => bus.select(),
        Call::Deselect => bus.deselect(),
        Call::Exchange(byte) => return Some(bus.exchange(byte)),
    }
    None
}

/// The record, and what the rules still read of the session.
fn assert_same(a: &Chip, b: &Chip) {
    assert_eq!(a.memory(), b.memory());
    assert_eq!((a.stored(), a.latch(), a.asleep()), (b.stored(), b.latch(), b.asleep()));
    assert_eq!((a.selected(), a.session()), (b.selected(), b.session()));
}

#[test]
fn every_bus_does_the_same() {
    for seed in 0..20_000 {
        let rng = &mut Rng::of_case(1, seed);
        let sheet = sheet(rng);
        let stored = Stored::new(rng.byte());
        let samples = samples(rng);
        let length = if rng.chance(50) { 100 } else { sheet.cells() };
        let memory = rng.bytes(length);
        let [mut first, mut second, mut third] = [memory.clone(), memory.clone(), memory];
        let wp = rng.flip();
        let mode = rng.pick(&[Mode::Zero, Mode::Three]);
        let held = rng.below(10) as u8;
        let mut bytewise = ByteBus::new(chip(sheet, stored, &samples, &mut first), wp);
        let mut plain = Line::new(chip(sheet, stored, &samples, &mut second), Mode::Zero, 0, wp);
        let mut other = Line::new(chip(sheet, stored, &samples, &mut third), mode, held, wp);
        for call in calls(rng) {
            let read = answer(&mut bytewise, call);
            assert_eq!(answer(&mut plain, call), read, "seed {seed}, {call:?}");
            assert_eq!(answer(&mut other, call), read, "seed {seed}, {call:?}, {mode:?}, {held} held");
            assert_same(bytewise.chip(), plain.chip());
            assert_same(bytewise.chip(), other.chip());
        }
        // The chip stepped by bytes is left as the line in mode 0 leaves it, for any samples that follow.
        let (mut bytewise, mut plain) = (bytewise.into_chip(), plain.into_chip());
        assert_eq!(bytewise.so(), plain.so());
        for _ in 0..40 {
            let sample = rng.byte() & if rng.chance(100) { 0x1F } else { 0x1E };
            assert_eq!(bytewise.put(sample), plain.put(sample));
        }
        assert_same(&bytewise, &plain);
    }
}

/// A range that often lies at an edge of a board, or past it.
fn range(rng: &mut Rng, size: usize, edge: usize) -> (usize, usize) {
    let place = match rng.below(5) {
        0 => edge,
        1 => size,
        2 => 0,
        3 => rng.next_u64() as usize,
        _ => rng.below(size + 1),
    };
    let start = place.wrapping_add(rng.below(13)).wrapping_sub(6);
    (start, rng.pick(&[0, 0, 1, 1, 2, 3, 8, 20]))
}

/// A random call: the board answers what the plain list of cells answers.
fn assert_same_answer(rng: &mut Rng, board: &mut dyn Board, cells: &mut Cells, edge: usize) {
    let (start, count) = range(rng, cells.size(), edge);
    match rng.below(4) {
        0 => assert_eq!(board.size(), cells.size()),
        1 => assert_eq!(board.first_fence(start, count), cells.first_fence(start, count)),
        2 => {
            let mut buffers = [vec![0xA5; count], vec![0xA5; count]];
            let [ours, theirs] = &mut buffers;
            assert_eq!(board.read(start, ours), cells.read(start, theirs));
            assert_eq!(ours, theirs);
        }
        _ => {
            let bytes = rng.bytes(count);
            assert_eq!(board.write(start, &bytes), cells.write(start, &bytes));
        }
    }
}

fn bytes(cells: &Cells) -> Vec<u8> {
    cells.list().iter().map(|cell| cell.byte).collect()
}

/// What holds after each call of a driver: no session is open, the chip is awake, and its latch is 0.
fn assert_left(chip: &Chip) {
    assert_eq!((chip.selected(), chip.asleep(), chip.latch()), (false, false, false));
}

/// Makes some calls of a driver over a bus, and compares it with the image that the rules give it.
fn try_driver<B: Bus>(rng: &mut Rng, bus: B, chip: impl Fn(&B) -> &Chip<'_>) {
    let (fitted, sheet, stored) = (chip(&bus).fitted(), chip(&bus).sheet(), chip(&bus).stored());
    let memory = chip(&bus).memory().to_vec();
    let mut cells = Cells::of_chip(if fitted { &memory } else { &[] }, stored);
    let edge = stored.first_protected(cells.size());
    let mut driver = Driver::new(bus);
    for _ in 0..20 {
        assert_left(chip(driver.bus()));
        assert_same_answer(rng, &mut driver, &mut cells, edge);
        assert_left(chip(driver.bus()));
        assert_eq!(driver.probe(), if fitted { Ok(sheet.density()) } else { Err(Refusal::UnknownId) });
        let chip = chip(driver.bus());
        assert_eq!(chip.stored(), stored);
        assert_eq!(chip.memory(), if fitted { bytes(&cells) } else { memory.clone() });
    }
}

#[test]
fn a_driver_shows_the_image_of_its_chip() {
    for seed in 0..2_000 {
        let rng = &mut Rng::of_case(2, seed);
        let sheet = sheet(rng);
        let stored = Stored::new(rng.byte());
        let samples = samples(rng);
        let length = if rng.chance(50) { 100 } else { sheet.cells() };
        let mut memory = rng.bytes(length);
        let chip = chip(sheet, stored, &samples, &mut memory);
        let wp = rng.flip();
        if rng.flip() {
            try_driver(rng, ByteBus::new(chip, wp), |bus| bus.chip());
        } else {
            let mode = rng.pick(&[Mode::Zero, Mode::Three]);
            let held = rng.below(4) as u8;
            try_driver(rng, Line::new(chip, mode, held, wp), |bus| bus.chip());
        }
    }
}

#[test]
fn a_driver_makes_the_board_run_that_the_rule_makes() {
    for index in 0..20_000 {
        let mut case = case(&mut Rng::of_case(3, index));
        case.run = Run::Board;
        let Case { numbers, mut memory, script, mut answers, .. } = case.clone();
        let report = board_run_by_driver(&numbers, &mut memory, &script, &mut answers);
        assert_eq!(Outcome { report, memory, answers }, Model::outcome(&case), "case {index}");
    }
}

#[test]
fn a_blank_chip_answers_ones_and_keeps_its_memory() {
    let sheet = Sheet::new(0x03, 0x02, Marks::MB85RS64VY).unwrap();
    for length in [0, 1, 8191, 8193] {
        let mut memory = vec![0x5A; length];
        let mut chip = ParkedChip::new(sheet, Stored::new(0)).power(&mut memory);
        let mut rng = Rng::new(4);
        for _ in 0..1000 {
            let byte = rng.byte() & 0x3F;
            let level = chip.put(byte);
            assert_eq!(level.is_err(), byte > 0x1F);
            assert!(level.is_err() || level == Ok(oracle::chip::Level::HighZ));
        }
        let mut driver = Driver::new(ByteBus::new(chip, true));
        assert_eq!((driver.size(), driver.probe()), (0, Err(Refusal::UnknownId)));
        assert_eq!(driver.write(0, &[1]), Err(Refusal::OutOfRange));
        assert_eq!(driver.write(0, &[]), Ok(()));
        assert!(memory.iter().all(|&byte| byte == 0x5A));
    }
}

/// A random pile of layers over memories of few bytes, and its image.
fn pile<'m>(
    rng: &mut Rng,
    height: usize,
    memories: &mut impl Iterator<Item = &'m mut [u8]>,
) -> (Box<dyn Board + 'm>, Cells) {
    if height == 0 {
        let memory = memories.next().expect("two memories for each join");
        let cells = memory.iter().map(|&byte| Cell { byte, fenced: false }).collect();
        return (Box::new(Memory::new(memory)), Cells::new(cells));
    }
    let (below, cells) = pile(rng, height - 1, memories);
    let mut cells = cells.list().to_vec();
    match rng.below(3) {
        0 => {
            let (offset, length) = range(rng, cells.len(), cells.len());
            let length = if rng.flip() { length } else { rng.below(100) };
            let image = cells.into_iter().skip(offset).take(length).collect();
            (Box::new(Window::new(below, offset, length)), Cells::new(image))
        }
        1 => {
            let (second, more) = pile(rng, height - 1, memories);
            cells.extend(more.list());
            (Box::new(Join::new(below, second)), Cells::new(cells))
        }
        _ => {
            let mut shield = Shield::new(below);
            let mut ranges = Vec::new();
            for i in 0..rng.below(10) {
                let (start, count) = range(rng, cells.len(), cells.len() / 2);
                let added = shield.add(start, count);
                assert_eq!(added, if i < 8 { Ok(()) } else { Err(Refusal::ShieldFull) });
                if i < 8 {
                    ranges.push((start, count));
                }
            }
            for _ in 0..rng.below(3) {
                let i = rng.below(9);
                let by = rng.pick(&[0, 1, 3, usize::MAX]);
                let widened = shield.widen(i, by);
                match ranges.get_mut(i) {
                    Some((_, count)) => *count = count.saturating_add(by).min(MOST_CELLS),
                    None => assert_eq!(widened, Err(Refusal::OutOfRange)),
                }
            }
            for (place, cell) in cells.iter_mut().enumerate() {
                cell.fenced |= ranges.iter().any(|&(start, count)| start <= place && place - start < count);
            }
            (Box::new(shield), Cells::new(cells))
        }
    }
}

#[test]
fn piles_of_layers_show_their_images() {
    for seed in 0..10_000 {
        let rng = &mut Rng::of_case(5, seed);
        let mut memories: Vec<Vec<u8>> = (0..16)
            .map(|_| {
                let length = rng.below(40);
                rng.bytes(length)
            })
            .collect();
        let mut lent = memories.iter_mut().map(Vec::as_mut_slice);
        let (mut board, mut cells) = {
            let height = rng.from_to(1, 4);
            pile(rng, height, &mut lent)
        };
        for _ in 0..40 {
            let edge = cells.size() / 2;
            assert_same_answer(rng, &mut board, &mut cells, edge);
        }
        let mut all = vec![0; cells.size()];
        assert_eq!(board.read(0, &mut all), Ok(()));
        assert_eq!(all, bytes(&cells));
    }
}

#[test]
fn boards_are_cut_at_the_most_cells() {
    let mut long = vec![0; MOST_CELLS + 10];
    let mut memory = Memory::new(&mut long);
    assert_eq!(memory.size(), MOST_CELLS);
    assert_eq!(memory.write(MOST_CELLS - 1, &[1, 2]), Err(Refusal::OutOfRange));
    assert_eq!(memory.write(MOST_CELLS - 1, &[1]), Ok(()));
    let mut more = [0; 20];
    let mut join = Join::new(Window::new(memory, 5, MOST_CELLS), Memory::new(&mut more));
    assert_eq!(join.size(), MOST_CELLS);
    assert_eq!(join.write(MOST_CELLS - 6, &[1, 2, 3, 4, 5, 6]), Ok(()));
    assert_eq!(join.write(MOST_CELLS - 6, &[1, 2, 3, 4, 5, 6, 7]), Err(Refusal::OutOfRange));
    assert_eq!(more[..6], [2, 3, 4, 5, 6, 0]);
    assert_eq!(long[MOST_CELLS - 1..MOST_CELLS + 1], [1, 0]);
}

#[test]
fn a_write_over_the_seam_puts_all_or_none() {
    let (mut low, mut high) = ([0; 8], [0; 8]);
    let mut shield = Shield::new(Memory::new(&mut high));
    shield.add(1, 0).unwrap();
    shield.widen(0, 1).unwrap();
    let mut join = Join::new(Memory::new(&mut low), shield);
    assert_eq!(join.write(6, &[1, 2, 3, 4]), Err(Refusal::Fenced));
    assert_eq!(join.first_fence(0, 16), Ok(Some(9)));
    assert_eq!(join.write(6, &[5, 6, 7]), Ok(()));
    assert_eq!(low[5..], [0, 5, 6]);
    assert_eq!(high[..3], [7, 0, 0]);
}

#[test]
fn layers_over_dumps_read_as_over_memory() {
    for seed in 0..2_000 {
        let rng = &mut Rng::of_case(7, seed);
        let lengths = [rng.below(40), rng.below(40)];
        let [low, high] = lengths.map(|length| rng.bytes(length));
        let (offset, length) = (rng.below(50), rng.below(50));
        let mut dumps = Join::new(Window::new(Dump::new(&low), offset, length), Dump::new(&high));
        let (mut low, mut high) = (low.clone(), high.clone());
        let mut memories = Join::new(Window::new(Memory::new(&mut low), offset, length), Memory::new(&mut high));
        assert_eq!(dumps.size(), memories.size());
        for _ in 0..20 {
            let (start, count) = range(rng, dumps.size(), dumps.size() / 2);
            let mut buffers = [vec![0xA5; count], vec![0xA5; count]];
            let [ours, theirs] = &mut buffers;
            assert_eq!(dumps.read(start, ours), memories.read(start, theirs));
            assert_eq!(ours, theirs);
        }
    }
}

#[test]
fn a_dump_is_cut_at_the_most_cells() {
    let mut long = vec![0; MOST_CELLS + 10];
    long[MOST_CELLS - 1..MOST_CELLS + 1].copy_from_slice(&[1, 2]);
    let mut dump = Dump::new(&long);
    assert_eq!(dump.size(), MOST_CELLS);
    let mut two = [9; 2];
    assert_eq!(dump.read(MOST_CELLS - 1, &mut two), Err(Refusal::OutOfRange));
    assert_eq!(two, [9; 2]);
    assert_eq!(dump.read(MOST_CELLS - 2, &mut two), Ok(()));
    assert_eq!(two, [0, 1]);
    assert_eq!(dump.read(MOST_CELLS, &mut []), Ok(()));
    assert_eq!(dump.read(MOST_CELLS + 1, &mut []), Err(Refusal::OutOfRange));
}
