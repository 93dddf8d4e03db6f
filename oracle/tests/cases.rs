//! Cases worked out by hand. Each is tried on the model, and, with the feature `library`, on the library as well where
//! its C interface can express it.

use oracle::board::{Board, Cells, ChipImage, Memory, ReadBoard, Window};
use oracle::bus::ByteBus;
use oracle::chip::{ParkedChip, Sample};
use oracle::differential::{Outcome, agreed};
use oracle::driver::Driver;
use oracle::generate::{Case, Run, steps_before_fault};
use oracle::refusal::Refusal;
use oracle::script::{Numbers, Report};
use oracle::sheet::{Marks, Sheet, Stored};

const MB85RS64VY: Numbers = Numbers { t: 0x03, f: 0x02, drop: 0, sleep: 1, fast: 0, stored: 0 };
const MB85RS128TY: Numbers = Numbers { t: 0x04, f: 0x02, drop: 0, sleep: 1, fast: 0, stored: 0 };
const MB85RS256B: Numbers = Numbers { t: 0x05, f: 0x09, drop: 1, sleep: 0, fast: 1, stored: 0 };

const WREN: u8 = 0x06;
const WRDI: u8 = 0x04;
const RDSR: u8 = 0x05;
const WRSR: u8 = 0x01;
const READ: u8 = 0x03;
const WRITE: u8 = 0x02;
const RDID: u8 = 0x9F;
const FSTRD: u8 = 0x0B;
const SLEEP: u8 = 0xB9;

/// BP1 BP0 = 01: the upper quarter is protected.
const QUARTER: u8 = 0x04;

/// A run over a memory of zeros with an answer buffer that is just enough.
fn run(run: Run, numbers: Numbers, memory: usize, script: &[u8]) -> Outcome {
    let answers = vec![0xEE; 9 * steps_before_fault(run, script)];
    agreed(&Case { run, numbers, memory: vec![0; memory], script: script.to_vec(), answers })
}

fn cells(numbers: Numbers) -> usize {
    1 << (10 + (numbers.t & 0x1F))
}

/// The answers of a board run that is not refused.
fn board_answers(numbers: Numbers, script: &[u8]) -> Vec<u8> {
    let Outcome { report, mut answers, .. } = run(Run::Board, numbers, cells(numbers), script);
    assert_eq!(report.refusal, 0);
    answers.truncate(report.answer_bytes as usize);
    answers
}

/// A chip script that is written session by session, in mode 0.
struct Sessions {
    script: Vec<u8>,
    wp: u8,
    answer_bytes: usize,
    /// Of each session, where the levels of SO stand in the answers that are read at the rises.
    rises: Vec<Vec<usize>>,
}

impl Sessions {
    fn new() -> Self {
        Sessions { script: Vec::new(), wp: Sample::WP, answer_bytes: 0, rises: Vec::new() }
    }

    fn put(&mut self, pins: u8) {
        self.put_held(Sample::HOLD | pins);
    }

    /// A sample with HOLD low, unless the pins have it.
    fn put_held(&mut self, pins: u8) {
        self.script.extend([0x01, self.wp | pins]);
        self.answer_bytes += 2;
    }

    fn wp_low(mut self) -> Self {
        self.wp = 0;
        self
    }

    fn wp_high(mut self) -> Self {
        self.wp = Sample::WP;
        self
    }

    fn power_cycle(mut self) -> Self {
        self.script.push(0x02);
        self.answer_bytes += 1;
        self
    }

    /// CS falls with HOLD high, and a session begins.
    fn open(mut self) -> Self {
        self.put(0);
        self.rises.push(Vec::new());
        self
    }

    /// CS falls with HOLD low and SCK at a level; then it is released with SCK at a level.
    fn open_held(mut self, sck: u8, release: u8) -> Self {
        self.put_held(sck);
        self.rises.push(Vec::new());
        self.release(release)
    }

    /// The first so many bits of some bytes.
    fn clock(mut self, bytes: &[u8], bits: usize) -> Self {
        for i in 0..bits {
            let si = if bytes[i / 8] >> (7 - i % 8) & 1 != 0 { Sample::SI } else { 0 };
            self.rise(si);
            self.put(si);
        }
        self
    }

    /// SCK rises with SI as it is given.
    fn rise(&mut self, si: u8) {
        self.put(Sample::SCK | si);
        self.rises.last_mut().expect("a session").push(self.answer_bytes - 1);
    }

    /// HOLD is low with SCK at these levels in turn, the first in the sample in which it falls; then it is released with
    /// SCK at a level.
    fn hold(mut self, low: &[u8], release: u8) -> Self {
        for &sck in low {
            self.put_held(sck);
        }
        self.release(release)
    }

    /// HOLD is released with SCK at a level; then SCK is low.
    fn release(mut self, sck: u8) -> Self {
        self.put(sck);
        if sck != 0 {
            self.put(0);
        }
        self
    }

    /// CS rises, and the session ends.
    fn close(mut self) -> Self {
        self.put(Sample::CS);
        self
    }

    /// A session of the first so many bits of some bytes.
    fn bits(self, bytes: &[u8], bits: usize) -> Self {
        self.open().clock(bytes, bits).close()
    }

    fn bytes(self, bytes: &[u8]) -> Self {
        self.bits(bytes, 8 * bytes.len())
    }

    fn run(self, numbers: Numbers) -> Ran {
        self.run_over(numbers, vec![0; cells(numbers)])
    }

    fn run_over(self, numbers: Numbers, memory: Vec<u8>) -> Ran {
        let answers = vec![0; 9 * steps_before_fault(Run::Chip, &self.script)];
        let outcome = agreed(&Case { run: Run::Chip, numbers, memory, script: self.script, answers });
        assert_eq!(outcome.report.refusal, 0);
        Ran { outcome, rises: self.rises }
    }
}

struct Ran {
    outcome: Outcome,
    rises: Vec<Vec<usize>>,
}

impl Ran {
    /// The whole bytes that are read in a session, high-Z being read as 1.
    fn read(&self, session: usize) -> Vec<u8> {
        let bit = |&place: &usize| u8::from(self.outcome.answers[place] != 0);
        self.rises[session]
            .chunks_exact(8)
            .map(|places| places.iter().fold(0, |byte, place| byte << 1 | bit(place)))
            .collect()
    }

    fn last_read(&self) -> Vec<u8> {
        self.read(self.rises.len() - 1)
    }

    fn cell(&self, place: usize) -> u8 {
        self.outcome.memory[place]
    }

    fn stored(&self) -> u8 {
        self.outcome.report.stored
    }

    /// The places of the cells that are not zero.
    fn written(&self) -> Vec<usize> {
        (0..self.outcome.memory.len()).filter(|&place| self.cell(place) != 0).collect()
    }
}

fn protected(numbers: Numbers, stored: u8) -> Numbers {
    Numbers { stored, ..numbers }
}

// The trial cases.

#[test]
fn status_after_wrsr() {
    for (numbers, shown) in [(MB85RS64VY, 0x8E), (MB85RS128TY, 0x8E), (MB85RS256B, 0x8C)] {
        let ran = Sessions::new().bytes(&[WREN]).bytes(&[WRSR, 0x8C]).bytes(&[RDSR, 0]).run(numbers);
        assert_eq!(ran.last_read(), [0xFF, shown]);
        assert_eq!(ran.stored(), 0x8C);
    }
}

#[test]
fn a_write_rolls_over_at_the_last_cell() {
    let ran = Sessions::new().bytes(&[WREN]).bytes(&[WRITE, 0x1F, 0xFF, 0xAA, 0xBB]).run(MB85RS64VY);
    assert_eq!((ran.cell(0x1FFF), ran.cell(0)), (0xAA, 0xBB));
    assert_eq!(ran.written(), [0, 0x1FFF]);
}

#[test]
fn a_protected_cell_takes_no_byte() {
    let numbers = protected(MB85RS64VY, QUARTER);
    let ran = Sessions::new().bytes(&[WREN]).bytes(&[WRITE, 0x17, 0xFF, 0xAA, 0xBB]).run(numbers);
    assert_eq!(ran.cell(0x17FF), 0xAA);
    assert_eq!(ran.written(), [0x17FF]);
}

#[test]
fn fifteen_data_bits_change_one_cell() {
    let ran = Sessions::new().bytes(&[WREN]).bits(&[WRITE, 0x01, 0x23, 0xAA, 0xBB], 24 + 15).run(MB85RS64VY);
    assert_eq!(ran.cell(0x0123), 0xAA);
    assert_eq!(ran.written(), [0x0123]);
}

#[test]
fn seven_bits_of_wren_leave_the_latch() {
    let ran = Sessions::new().bits(&[WREN], 7).bytes(&[RDSR, 0]).run(MB85RS64VY);
    assert_eq!(ran.last_read(), [0xFF, 0x00]);
}

#[test]
fn sleep_with_nine_bits_does_not_sleep() {
    let ran = Sessions::new().bytes(&[WREN]).bits(&[SLEEP, 0], 9).bytes(&[RDSR, 0]).run(MB85RS64VY);
    assert_eq!(ran.last_read(), [0xFF, 0x02]);
}

#[test]
fn a_session_wakes_the_chip() {
    let asleep = || Sessions::new().bytes(&[WREN]).bytes(&[SLEEP]);
    let ran = asleep().bytes(&[RDSR, 0]).bytes(&[RDSR, 0]).run(MB85RS64VY);
    assert_eq!(ran.read(2), [0xFF, 0xFF]);
    assert_eq!(ran.read(3), [0xFF, 0x00]);
    // Power wakes it too.
    assert_eq!(asleep().power_cycle().bytes(&[RDSR, 0]).run(MB85RS64VY).last_read(), [0xFF, 0x00]);
    // A chip without the mark has no such command.
    assert_eq!(asleep().bytes(&[RDSR, 0]).run(MB85RS256B).last_read(), [0xFF, 0x02]);
}

#[test]
fn windows_have_the_cells_that_exist() {
    let mut eight = [1, 2, 3, 4, 5, 6, 7, 8];
    let mut window = Window::new(Memory::new(&mut eight), 5, 10);
    assert_eq!(window.size(), 3);
    let mut cells = [0; 3];
    assert_eq!(window.read(0, &mut cells), Ok(()));
    assert_eq!(cells, [6, 7, 8]);
    for offset in [8, 9, usize::MAX] {
        let mut window = Window::new(Memory::new(&mut eight), offset, 10);
        assert_eq!(window.size(), 0);
        assert_eq!(window.read(0, &mut []), Ok(()));
        assert_eq!(window.write(0, &[]), Ok(()));
        assert_eq!(window.first_fence(0, 0), Ok(None));
        assert_eq!(window.read(1, &mut []), Err(Refusal::OutOfRange));
        assert_eq!(window.write(0, &[1]), Err(Refusal::OutOfRange));
    }
}

/// Tries a case on the three boards that a chip's memory is shown as.
fn on_every_image(numbers: Numbers, check: impl Fn(&mut dyn Board)) {
    let marks = Marks { drop: numbers.drop != 0, sleep: numbers.sleep != 0, fast: numbers.fast != 0 };
    let sheet = Sheet::new(numbers.t, numbers.f, marks).unwrap();
    let stored = Stored::new(numbers.stored);
    let mut memory = vec![0; sheet.cells()];
    check(&mut Cells::of_chip(&memory, stored));
    check(&mut ChipImage::new(&mut memory, stored));
    let chip = ParkedChip::new(sheet, stored).power(&mut memory);
    check(&mut Driver::new(ByteBus::new(chip, true)));
}

#[test]
fn a_read_of_no_cells_lies_in_the_board_up_to_its_size() {
    on_every_image(MB85RS64VY, |board| {
        assert_eq!(board.size(), 8192);
        assert_eq!(board.read(8192, &mut []), Ok(()));
        assert_eq!(board.read(8193, &mut []), Err(Refusal::OutOfRange));
        assert_eq!(board.read(8190, &mut [0; 2]), Ok(()));
        let mut three = [1, 2, 3];
        assert_eq!(board.read(8190, &mut three), Err(Refusal::OutOfRange));
        assert_eq!(three, [1, 2, 3]);
        assert_eq!(board.read(usize::MAX, &mut three), Err(Refusal::OutOfRange));
    });
    // 8,184 and 8,185.
    assert_eq!(board_answers(MB85RS64VY, &[0x05, 0x00, 0x1F, 0xF8]), [0x85, 0, 0, 0, 0, 0, 0, 0, 0]);
    assert_eq!(board_answers(MB85RS64VY, &[0x05, 0x00, 0x1F, 0xF9]), [0x7F, 4]);
}

#[test]
fn a_write_of_no_cells_at_a_fenced_place_is_accepted() {
    on_every_image(protected(MB85RS64VY, QUARTER), |board| {
        assert_eq!(board.write(0x1800, &[]), Ok(()));
        assert_eq!(board.write(0x1FFF, &[]), Ok(()));
        assert_eq!(board.write(0x2000, &[]), Ok(()));
        assert_eq!(board.write(0x2001, &[]), Err(Refusal::OutOfRange));
        assert_eq!(board.write(0x1800, &[1]), Err(Refusal::Fenced));
        assert_eq!(board.first_fence(0x1800, 0), Ok(None));
        assert_eq!(board.first_fence(0x1000, 0x1000), Ok(Some(0x1800)));
    });
}

// False readings of the sheets.

#[test]
fn the_latch_falls_after_a_write_only_with_the_mark_drop() {
    let sessions = || {
        let first = Sessions::new().bytes(&[WREN]).bytes(&[WRITE, 0, 0, 0xAA]).bytes(&[RDSR, 0]);
        first.bytes(&[WRITE, 0, 1, 0xBB])
    };
    let stays = sessions().run(MB85RS64VY);
    assert_eq!(stays.read(2), [0xFF, 0x02]);
    assert_eq!(stays.written(), [0, 1]);
    let falls = sessions().run(MB85RS256B);
    assert_eq!(falls.read(2), [0xFF, 0x00]);
    assert_eq!(falls.written(), [0]);
    // It falls at the end of any session with the op-code, also of one that writes nothing.
    let falls = Sessions::new().bytes(&[WREN]).bytes(&[WRITE]).bytes(&[RDSR, 0]).run(MB85RS256B);
    assert_eq!(falls.last_read(), [0xFF, 0x00]);
    let stays = Sessions::new().bytes(&[WREN]).bits(&[WRITE], 7).bytes(&[RDSR, 0]).run(MB85RS256B);
    assert_eq!(stays.last_read(), [0xFF, 0x02]);
}

#[test]
fn a_protected_cell_still_counts() {
    let numbers = protected(MB85RS64VY, QUARTER);
    let ran = Sessions::new().bytes(&[WREN]).bytes(&[WRITE, 0x1F, 0xFE, 0xAA, 0xBB, 0xCC, 0xDD]).run(numbers);
    assert_eq!(ran.written(), [0, 1]);
    assert_eq!((ran.cell(0), ran.cell(1)), (0xCC, 0xDD));
}

#[test]
fn a_part_of_a_byte_is_not_written_at_the_end() {
    for bits in 0..8 {
        let ran = Sessions::new().bytes(&[WREN]).bits(&[WRITE, 0x01, 0x23, 0xFF], 24 + bits).run(MB85RS64VY);
        assert_eq!(ran.written(), []);
    }
}

#[test]
fn rdid_holds_its_last_bit() {
    let sessions = || Sessions::new().bytes(&[RDID, 0, 0, 0, 0, 0, 0, 0, 0]);
    let even = sessions().run(Numbers { f: 0x02, ..MB85RS64VY });
    assert_eq!(even.last_read(), [0xFF, 0x04, 0x7F, 0x03, 0x02, 0, 0, 0, 0]);
    let odd = sessions().run(Numbers { f: 0x81, t: 0xE3, ..MB85RS64VY });
    assert_eq!(odd.last_read(), [0xFF, 0x04, 0x7F, 0xE3, 0x81, 0xFF, 0xFF, 0xFF, 0xFF]);
}

#[test]
fn so_moves_on_a_fall_alone() {
    // RDSR of A8h: the last rise of the op-code leaves SO at high-Z, and each fall shows a bit that the rise after it
    // leaves.
    let select = [0x01, 0x18];
    let bit = |si: u8| [0x01, 0x1A | si << 2, 0x01, 0x18 | si << 2];
    let mut script = select.to_vec();
    script.extend((0..8).rev().flat_map(|i| bit(RDSR >> i & 1)));
    script.extend((0..8).flat_map(|_| bit(0)));
    let outcome = run(Run::Chip, protected(MB85RS64VY, 0xA8), 8192, &script);
    let levels: Vec<u8> = outcome.answers.chunks(2).map(|answer| answer[1]).take(33).collect();
    assert_eq!(levels[..17], [[2; 16].as_slice(), &[1]].concat());
    assert_eq!(levels[17..], [1, 0, 0, 1, 1, 0, 0, 1, 1, 0, 0, 0, 0, 0, 0, 1]);
}

// More of the rules, where a reading could go wrong.

#[test]
fn wpen_guards_the_stored_bits_while_wp_is_low() {
    let wpen = protected(MB85RS64VY, 0x80);
    let change = |sessions: Sessions| sessions.bytes(&[WREN]).bytes(&[WRSR, 0x0C]);
    assert_eq!(change(Sessions::new().wp_low()).run(wpen).stored(), 0x80);
    assert_eq!(change(Sessions::new()).run(wpen).stored(), 0x0C);
    assert_eq!(change(Sessions::new().wp_low()).run(MB85RS64VY).stored(), 0x0C);
    // WP does not guard the cells.
    let ran = Sessions::new().wp_low().bytes(&[WREN]).bytes(&[WRITE, 0, 5, 1]).run(wpen);
    assert_eq!(ran.written(), [5]);
    // Without the latch nothing is stored, and WRDI takes it.
    assert_eq!(Sessions::new().bytes(&[WRSR, 0x0C]).run(MB85RS64VY).stored(), 0);
    let ran = Sessions::new().bytes(&[WREN]).bytes(&[WRDI]).bytes(&[WRSR, 0x0C]).run(MB85RS64VY);
    assert_eq!(ran.stored(), 0);
    // Bits 6 to 4 are stored and read, bits 1 and 0 are not.
    let ran = Sessions::new().bytes(&[WREN]).bytes(&[WRSR, 0x73]).wp_high().bytes(&[RDSR, 0]).run(MB85RS64VY);
    assert_eq!((ran.stored(), ran.last_read()), (0x70, vec![0xFF, 0x72]));
    // One data byte counts.
    let ran = Sessions::new().bytes(&[WREN]).bytes(&[WRSR, 0x04, 0x08]).run(MB85RS64VY);
    assert_eq!(ran.stored(), 0x04);
}

#[test]
fn reads_roll_over_and_fstrd_has_one_byte_more() {
    let memory: Vec<u8> = (0..0x8000).map(|place: u32| (place * 7 + 3) as u8).collect();
    let (last, first) = (memory[0x7FFF], memory[0]);
    let read = Sessions::new().bytes(&[READ, 0x7F, 0xFF, 0, 0]).run_over(MB85RS256B, memory.clone());
    assert_eq!(read.last_read(), [0xFF, 0xFF, 0xFF, last, first]);
    let fast = Sessions::new().bytes(&[FSTRD, 0xFF, 0xFF, 0, 0, 0]).run_over(MB85RS256B, memory.clone());
    assert_eq!(fast.last_read(), [0xFF, 0xFF, 0xFF, 0xFF, last, first]);
    let none = Sessions::new().bytes(&[FSTRD, 0, 0, 0, 0, 0]).run_over(MB85RS64VY, memory[..0x2000].to_vec());
    assert_eq!(none.last_read(), [0xFF; 6]);
}

#[test]
fn a_whole_chip_is_written_and_read_in_one_session_each() {
    let numbers = Numbers { t: 0x01, ..MB85RS64VY };
    let data: Vec<u8> = (0..2048 + 16).map(|place: u32| (place * 11 + place / 256) as u8).collect();
    let write = [&[WRITE, 0x00, 0x00], data.as_slice()].concat();
    let read = [&[READ, 0x00, 0x10], vec![0; 2048].as_slice()].concat();
    let ran = Sessions::new().bytes(&[WREN]).bytes(&write).bytes(&read).run(numbers);
    assert_eq!(ran.last_read()[3..], data[16..]);
}

#[test]
fn a_session_longer_than_a_counter_of_sixteen_bits() {
    let numbers = Numbers { t: 0x01, ..MB85RS64VY };
    let memory: Vec<u8> = (0..2048).map(|place: u32| (place % 251) as u8).collect();
    let bytes = 9000;
    let read = [&[READ, 0x07, 0xF0], vec![0; bytes].as_slice()].concat();
    let ran = Sessions::new().bytes(&read).run_over(numbers, memory.clone());
    let cells = memory.iter().cycle().skip(0x7F0).take(bytes);
    assert!(ran.last_read()[3..].iter().eq(cells));
}

#[test]
fn hold_stops_the_clock() {
    // RDSR of 80h with HOLD low amid the op-code and SCK moving meanwhile: the bits are the same.
    let mut script = vec![0x01, 0x18];
    for i in (0..8).rev() {
        let si = (RDSR >> i & 1) << 2;
        script.extend([0x01, 0x1A | si, 0x01, 0x18 | si]);
        if i == 3 {
            // HOLD falls with a rise of SCK and is released with one; then SCK falls.
            script.extend([0x01, 0x0A, 0x01, 0x08, 0x01, 0x0A, 0x01, 0x08, 0x01, 0x1A, 0x01, 0x18]);
        }
    }
    let shown = script.len();
    // SO is at the highest bit; HOLD low hides it, and release, with a fall of SCK, shows it again.
    script.extend([0x01, 0x08, 0x01, 0x0A, 0x01, 0x18, 0x01, 0x1A, 0x01, 0x18]);
    let outcome = run(Run::Chip, protected(MB85RS64VY, 0x80), 8192, &script);
    let levels: Vec<u8> = outcome.answers[shown - 2..].chunks(2).map(|answer| answer[1]).take(6).collect();
    assert_eq!(levels, [1, 2, 2, 1, 1, 0]);
}

// HOLD released at the other level of SCK than that at which it fell.

const HIGH: u8 = Sample::SCK;

/// A level of SCK at which HOLD falls, and the other one.
const LEVELS: [(u8, u8); 2] = [(0, HIGH), (HIGH, 0)];

/// A session with a hold behind so many of its bits, which begins with SCK at one level and is released at another.
fn held(before: Sessions, bytes: &[u8], behind: usize, low: &[u8], release: u8) -> Sessions {
    let number = |bit: usize| bytes[bit / 8] >> (7 - bit % 8) & 1;
    let rest: Vec<u8> = (behind..8 * bytes.len()).map(|bit| number(bit) << 7).collect();
    let session = before.open().clock(bytes, behind).hold(low, release);
    rest.iter().fold(session, |session, &bit| session.clock(&[bit], 1)).close()
}

fn woken() -> Sessions {
    Sessions::new().bytes(&[WREN])
}

#[test]
fn a_hold_released_at_its_level_changes_nothing() {
    let data = [WRITE, 0x01, 0x23, 0xAA, 0xBB];
    for (fell, other) in LEVELS {
        // SCK may move in between, and an edge may fall into the first or the last sample of the hold.
        for low in [vec![fell], vec![fell, other], vec![fell, other, fell], vec![fell, other, other, fell, other]] {
            for behind in 0..40 {
                let ran = held(woken(), &data, behind, &low, fell).bytes(&[RDSR, 0]).run(MB85RS64VY);
                assert_eq!((ran.cell(0x0123), ran.cell(0x0124)), (0xAA, 0xBB), "{low:?} behind {behind} bits");
                assert_eq!(ran.last_read(), [0xFF, 0x02]);
                let ran = held(woken(), &[RDSR, 0, 0], behind % 24, &low, fell).run(MB85RS64VY);
                assert_eq!(ran.last_read(), [0xFF, 0x02, 0x02], "{low:?} behind {behind} bits");
            }
        }
    }
}

#[test]
fn a_session_is_spoiled_inside_its_op_code() {
    for (fell, other) in LEVELS {
        for behind in 0..8 {
            let ran = held(Sessions::new(), &[WREN], behind, &[fell], other).bytes(&[RDSR, 0]).run(MB85RS64VY);
            assert_eq!(ran.last_read(), [0xFF, 0x00], "behind {behind} bits");
            let ran = held(woken(), &[RDSR, 0], behind, &[fell], other).run(MB85RS64VY);
            assert_eq!(ran.last_read(), [0xFF, 0xFF], "behind {behind} bits");
        }
        // Behind the eighth bit the latch is set, and stays so.
        let ran = held(Sessions::new(), &[WREN, 0], 8, &[fell], other).bytes(&[RDSR, 0]).run(MB85RS64VY);
        assert_eq!(ran.last_read(), [0xFF, 0x02]);
        let ran = held(woken(), &[WRDI, 0], 8, &[fell], other).bytes(&[RDSR, 0]).run(MB85RS64VY);
        assert_eq!(ran.last_read(), [0xFF, 0x00]);
    }
}

#[test]
fn a_session_is_spoiled_inside_its_address() {
    for (fell, other) in LEVELS {
        for behind in 8..24 {
            let ran = held(woken(), &[WRITE, 0x01, 0x23, 0xAA], behind, &[fell], other).bytes(&[RDSR, 0]);
            let ran = ran.run(MB85RS64VY);
            assert_eq!(ran.written(), [], "behind {behind} bits");
            assert_eq!(ran.last_read(), [0xFF, 0x02]);
            let read = held(Sessions::new(), &[READ, 0x01, 0x23, 0, 0], behind, &[fell], other);
            assert_eq!(read.run(MB85RS64VY).last_read(), [0xFF; 5], "behind {behind} bits");
        }
    }
}

#[test]
fn a_session_is_spoiled_inside_a_data_byte() {
    for (fell, other) in LEVELS {
        for bits in 0..=24 {
            // The bytes that were whole before stand, and no other is written.
            let data = [WRITE, 0x01, 0x23, 0xAA, 0xBB, 0xCC, 0xDD];
            let ran = held(woken(), &data, 24 + bits, &[fell], other).bytes(&[RDSR, 0]).run(MB85RS64VY);
            let whole: Vec<usize> = (0x0123..0x0123 + bits / 8).collect();
            assert_eq!(ran.written(), whole, "behind {bits} bits of data");
            assert_eq!(ran.last_read(), [0xFF, 0x02]);
            // So of WRSR.
            let ran = held(woken(), &[WRSR, 0x0C, 0x00, 0x00], 8 + bits, &[fell], other).run(MB85RS64VY);
            assert_eq!(ran.stored(), if bits < 8 { 0x00 } else { 0x0C }, "behind {bits} bits of data");
        }
    }
}

#[test]
fn so_of_a_spoiled_session_is_high_z_to_its_end() {
    // RDSR of A8h at its second data bit, which is 0: what SO shows behind the op-code.
    let shown = |hold: &[u8]| {
        let mut script = Sessions::new().open().clock(&[RDSR, 0], 9).script;
        let from = script.len();
        script.extend(hold.iter().flat_map(|&pins| [0x01, 0x08 | pins]));
        let outcome = run(Run::Chip, protected(MB85RS64VY, 0xA8), 8192, &script);
        let levels = outcome.answers[from - 2..outcome.report.answer_bytes as usize].chunks(2);
        levels.map(|answer| answer[1]).collect::<Vec<u8>>()
    };
    let (low, high, low_held, high_held, cs) = (0x10, 0x12, 0x00, 0x02, 0x11);
    // The twin: HOLD is released at the level at which it fell, and the bits go on.
    assert_eq!(shown(&[low_held, high_held, low, high, low, high, low, cs]), [0, 2, 2, 0, 0, 1, 1, 0, 2]);
    assert_eq!(shown(&[high_held, low_held, high, low, high, low, cs]), [0, 2, 2, 0, 0, 0, 1, 2]);
    // Neither a rise nor a fall, nor a hold at one level, brings SO back.
    assert_eq!(shown(&[low_held, high, low, high, low, high, low, cs]), [0, 2, 2, 2, 2, 2, 2, 2, 2]);
    assert_eq!(shown(&[high_held, low, high, low, high, low, cs]), [0, 2, 2, 2, 2, 2, 2, 2]);
    assert_eq!(shown(&[low_held, high, low, low_held, low, high, low, cs]), [0, 2, 2, 2, 2, 2, 2, 2, 2]);
    assert_eq!(shown(&[high_held, low, high, high_held, high, low, high, low]), [0, 2, 2, 2, 2, 2, 2, 2, 2]);
}

#[test]
fn reads_are_spoiled_while_they_show() {
    let memory: Vec<u8> = (0..0x8000).map(|place: u32| (place * 7 + 3) as u8).collect();
    let cell = |place: usize| memory[place];
    let sessions: [(&[u8], Vec<u8>); 4] = [
        (&[RDSR, 0, 0], vec![0xFF, 0x00, 0x00]),
        (&[RDID, 0, 0, 0, 0, 0], vec![0xFF, 0x04, 0x7F, 0x05, 0x09, 0xFF]),
        (&[READ, 0x12, 0x34, 0, 0], vec![0xFF, 0xFF, 0xFF, cell(0x1234), cell(0x1235)]),
        (&[FSTRD, 0x12, 0x34, 0, 0, 0], vec![0xFF, 0xFF, 0xFF, 0xFF, cell(0x1234), cell(0x1235)]),
    ];
    for (bytes, shown) in sessions {
        for (fell, other) in LEVELS {
            for behind in 8..8 * bytes.len() {
                let twin = held(Sessions::new(), bytes, behind, &[fell, other], fell);
                assert_eq!(twin.run_over(MB85RS256B, memory.clone()).last_read(), shown);
                let ran = held(Sessions::new(), bytes, behind, &[fell, other], other);
                let ran = ran.bytes(bytes).run_over(MB85RS256B, memory.clone());
                // From the hold on every bit is read as 1; the session behind it is as ever.
                let mut read = shown.clone();
                read[behind / 8] |= 0xFF >> (behind % 8);
                read[behind / 8 + 1..].fill(0xFF);
                assert_eq!(ran.read(0), read, "{bytes:02X?} behind {behind} bits");
                assert_eq!(ran.read(1), shown);
            }
        }
    }
}

#[test]
fn a_spoiled_session_does_not_fall_asleep() {
    for (fell, other) in LEVELS {
        let sleep = |release: u8| woken().open().clock(&[SLEEP], 8).hold(&[fell], release).close();
        let twin = sleep(fell).bytes(&[RDSR, 0]).bytes(&[RDSR, 0]).run(MB85RS64VY);
        assert_eq!((twin.read(2), twin.read(3)), (vec![0xFF, 0xFF], vec![0xFF, 0x00]));
        // It stays awake, and its latch is as before.
        let ran = sleep(other).bytes(&[RDSR, 0]).run(MB85RS64VY);
        assert_eq!(ran.last_read(), [0xFF, 0x02]);
        // A ninth bit is not taken, and cancels nothing that is left.
        let ran = held(woken(), &[SLEEP, 0], 8, &[fell], other).bytes(&[RDSR, 0]).run(MB85RS64VY);
        assert_eq!(ran.last_read(), [0xFF, 0x02]);
    }
}

#[test]
fn a_spoiled_session_that_began_asleep_wakes() {
    for (fell, other) in LEVELS {
        for release in [fell, other] {
            for behind in 0..=16 {
                let ran = held(woken().bytes(&[SLEEP]), &[WREN, 0], behind, &[fell], release).bytes(&[RDSR, 0]);
                let ran = ran.run(MB85RS64VY);
                assert_eq!((ran.read(2), ran.read(3)), (vec![0xFF, 0xFF], vec![0xFF, 0x00]), "behind {behind} bits");
            }
        }
    }
}

#[test]
fn a_spoiled_session_does_not_drop_the_latch() {
    for (fell, other) in LEVELS {
        for bits in [8, 16, 24, 28, 32, 36] {
            let write = [WRITE, 0x01, 0x23, 0xAA, 0xBB];
            let twin = held(woken(), &write, bits, &[fell], fell).bytes(&[RDSR, 0]).run(MB85RS256B);
            assert_eq!((twin.written(), twin.last_read()), (vec![0x0123, 0x0124], vec![0xFF, 0x00]));
            let ran = held(woken(), &write, bits, &[fell], other).bytes(&[RDSR, 0]).run(MB85RS256B);
            let written = if bits < 32 { vec![] } else { vec![0x0123] };
            assert_eq!((ran.written(), ran.last_read()), (written, vec![0xFF, 0x02]), "behind {bits} bits");
        }
        for (bits, stored) in [(8, 0x00), (12, 0x00), (16, 0x0C)] {
            let ran = held(woken(), &[WRSR, 0x0C, 0], bits, &[fell], other).bytes(&[RDSR, 0]).run(MB85RS256B);
            assert_eq!((ran.stored(), ran.last_read()), (stored, vec![0xFF, 0x02 | stored]), "behind {bits} bits");
        }
    }
}

#[test]
fn a_session_whose_cs_falls_with_hold_low_remembers_its_sck() {
    for (fell, other) in LEVELS {
        let session = |release: u8| woken().open_held(fell, release).clock(&[RDSR, 0], 16).close();
        assert_eq!(session(fell).run(MB85RS64VY).last_read(), [0xFF, 0x02]);
        assert_eq!(session(other).run(MB85RS64VY).last_read(), [0xFF, 0xFF]);
        // HOLD fell before CS, at the other level: that counts for nothing.
        let session = |release: u8| {
            let mut before = woken();
            before.put_held(Sample::CS | other);
            before.open_held(fell, release).clock(&[RDSR, 0], 16).close()
        };
        assert_eq!(session(fell).run(MB85RS64VY).last_read(), [0xFF, 0x02]);
        assert_eq!(session(other).run(MB85RS64VY).last_read(), [0xFF, 0xFF]);
        // HOLD rises in the sample in which CS falls: the session is not held.
        let mut before = woken();
        before.put_held(Sample::CS | fell);
        before.put(other);
        before.rises.push(Vec::new());
        let ran = before.release(0).clock(&[RDSR, 0], 16).close().run(MB85RS64VY);
        assert_eq!(ran.last_read(), [0xFF, 0x02]);
    }
}

#[test]
fn cs_high_in_the_releasing_sample_ends_the_session_as_ever() {
    for (fell, other) in LEVELS {
        let end = |sessions: Sessions, bytes: &[u8], hold_and_cs: [u8; 2]| {
            let mut sessions = sessions.open().clock(bytes, 8 * bytes.len());
            sessions.put_held(fell);
            for pins in hold_and_cs {
                sessions.put_held(pins);
            }
            sessions
        };
        // CS rises with HOLD at the other level of SCK, or while HOLD is low, which is then released so.
        let (cs, released) = (Sample::CS, Sample::HOLD);
        for ways in [[other, cs | released | other], [cs | other, cs | released | other], [cs | fell, released | cs]] {
            let asleep = end(woken(), &[SLEEP], ways).bytes(&[RDSR, 0]).bytes(&[RDSR, 0]).run(MB85RS64VY);
            assert_eq!((asleep.read(2), asleep.read(3)), (vec![0xFF, 0xFF], vec![0xFF, 0x00]), "{ways:02X?}");
            let dropped = end(woken(), &[WRITE, 0, 5, 1], ways).bytes(&[RDSR, 0]).run(MB85RS256B);
            assert_eq!((dropped.written(), dropped.last_read()), (vec![5], vec![0xFF, 0x00]), "{ways:02X?}");
        }
    }
}

#[test]
fn the_level_of_the_fall_is_remembered_and_no_other() {
    // SCK in the samples with HOLD low, then in the one that releases it.
    for (low, release) in [
        (vec![0, HIGH], HIGH),
        (vec![0, HIGH, HIGH], HIGH),
        (vec![0, HIGH, 0], HIGH),
        (vec![0, 0], HIGH),
        (vec![HIGH, 0], 0),
        (vec![HIGH, 0, HIGH], 0),
        (vec![HIGH, HIGH, 0], 0),
    ] {
        let ran = held(woken(), &[RDSR, 0], 4, &low, release).run(MB85RS64VY);
        assert_eq!(ran.last_read(), [0xFF, 0xFF], "{low:?}, then {release}");
    }
    // SCK is high in the sample before HOLD falls, and that plays no part. Where SCK falls together with HOLD, its fall
    // does not count: SO is still at high-Z at the next rise.
    for (fell, release, shown) in [(HIGH, HIGH, 0x02), (0, 0, 0x82), (0, HIGH, 0xFF), (HIGH, 0, 0xFF)] {
        let mut session = woken().open().clock(&[RDSR], 7);
        session.rise(Sample::SI);
        let ran = session.hold(&[fell], release).clock(&[0], 8).close().run(MB85RS64VY);
        assert_eq!(ran.last_read(), [0xFF, shown], "fell at {fell}, back at {release}");
    }
}

#[test]
fn each_hold_of_a_session_is_judged_by_its_own_fall() {
    for (fell, other) in LEVELS {
        // One at each level, each released at its own: the bits go on.
        let session = woken().open().clock(&[RDSR], 3).hold(&[fell], fell).clock(&[RDSR << 3], 2);
        let session = session.hold(&[other], other).clock(&[RDSR << 5], 3).clock(&[0], 8).close();
        assert_eq!(session.run(MB85RS64VY).last_read(), [0xFF, 0x02]);
        // The second one spoils.
        let session = woken().open().clock(&[RDSR], 3).hold(&[fell], fell).clock(&[RDSR << 3], 2);
        let session = session.hold(&[other], fell).clock(&[RDSR << 5], 3).clock(&[0], 8).close();
        assert_eq!(session.run(MB85RS64VY).last_read(), [0xFF, 0xFF]);
        // The first one spoils, and no later one mends it: neither at its level nor at the other.
        for release in [fell, other] {
            let session = woken().open().clock(&[WRITE, 0x01, 0x23, 0xAA], 32).hold(&[fell], other);
            let session = session.hold(&[fell], release).clock(&[0xBB], 8).hold(&[fell], release).clock(&[0xCC], 8);
            let ran = session.close().bytes(&[RDSR, 0]).run(MB85RS64VY);
            assert_eq!((ran.written(), ran.last_read()), (vec![0x0123], vec![0xFF, 0x02]));
        }
    }
}

#[test]
fn power_ends_a_spoiled_session() {
    for (fell, other) in LEVELS {
        let spoiled = woken().open().clock(&[RDSR], 4).hold(&[fell], other).power_cycle();
        assert_eq!(spoiled.bytes(&[RDSR, 0]).run(MB85RS64VY).last_read(), [0xFF, 0x00]);
        // A power cycle amid a hold ends that too: what it remembered counts for nothing.
        let mut amid = woken().open().clock(&[RDSR], 4);
        amid.put_held(fell);
        let mut amid = amid.power_cycle();
        amid.put_held(other);
        amid.rises.push(Vec::new());
        let ran = amid.release(other).clock(&[RDSR, 0], 16).close().run(MB85RS64VY);
        assert_eq!(ran.last_read(), [0xFF, 0x00]);
    }
}

#[test]
fn a_refused_sample_counts_for_nothing() {
    // Between the two samples of a rise stand bytes that would deselect, hold or clock, were they samples.
    let mut script = vec![0x01, 0x18];
    for i in (0..8).rev() {
        let si = (RDSR >> i & 1) << 2;
        script.extend([0x01, 0x3F, 0x01, 0x1A | si, 0x01, 0x48, 0x01, 0x18 | si, 0x01, 0x9A]);
    }
    let outcome = run(Run::Chip, protected(MB85RS64VY, 0x80), 8192, &script);
    let answers = &outcome.answers[..outcome.report.answer_bytes as usize];
    assert_eq!(answers[answers.len() - 4..], [0x81, 1, 0x7F, 3]);
    assert_eq!(answers.chunks(2).filter(|answer| **answer == [0x7F, 3]).count(), 24);
}

#[test]
fn the_protected_cells_are_fenced() {
    for (numbers, size) in [(MB85RS64VY, 0x2000), (MB85RS128TY, 0x4000), (MB85RS256B, 0x8000)] {
        for (bits, first) in [(0x00, size), (0x04, size / 4 * 3), (0x08, size / 2), (0x0C, 0)] {
            on_every_image(protected(numbers, bits | 0xF0), |board| {
                assert_eq!(board.size(), size);
                let fence = (first < size).then_some(first);
                assert_eq!(board.first_fence(0, size), Ok(fence));
            });
        }
    }
}

// The examples of the formats and of the refusals.

#[test]
fn the_worked_script() {
    let outcome = run(Run::Chip, MB85RS64VY, 8192, &[0x01, 0x1F, 0x02, 0x01, 0x20]);
    assert_eq!(outcome.report, Report { refusal: 0, place: 0, steps: 3, answer_bytes: 5, stored: 0 });
    assert_eq!(outcome.answers[..5], [0x81, 0x02, 0x82, 0x7F, 0x03]);
    assert!(outcome.answers[5..].iter().all(|&byte| byte == 0xEE));
}

#[test]
fn the_answers_of_the_board_run() {
    let script = [
        [0x03].as_slice(),
        &[0x06, 0x00, 0x17, 0xF8, 1, 2, 3, 4, 5, 6, 7, 8],
        &[0x06, 0x00, 0x18, 0x00, 1, 2, 3, 4, 5, 6, 7, 8],
        &[0x06, 0x00, 0x17, 0xF9, 9, 9, 9, 9, 9, 9, 9, 9],
        &[0x07, 0x00, 0x17, 0xFF, 0x88],
        &[0x07, 0x00, 0x18, 0x00, 0x99],
        &[0x05, 0x00, 0x17, 0xF9],
        &[0x04, 0x00, 0x17, 0xF8],
        &[0x04, 0x00, 0x17, 0xF9],
        &[0x07, 0x00, 0x20, 0x00, 0x99],
        &[0x06, 0xFF, 0xFF, 0xFF, 1, 2, 3, 4, 5, 6, 7, 8],
    ]
    .concat();
    let answers = [
        [0x83, 0x00, 0x20, 0x00].as_slice(),
        &[0x86],
        &[0x7F, 5],
        &[0x7F, 5],
        &[0x86],
        &[0x7F, 5],
        &[0x85, 2, 3, 4, 5, 6, 7, 0x88, 0],
        &[0x84, 0xFF, 0xFF, 0xFF],
        &[0x84, 0x00, 0x18, 0x00],
        &[0x7F, 4],
        &[0x7F, 4],
    ]
    .concat();
    assert_eq!(board_answers(protected(MB85RS64VY, QUARTER), &script), answers);
}

#[test]
fn the_refusals_of_a_run() {
    let refused = |run_of: Run, numbers: Numbers, memory: usize, script: &[u8], refusal: u32, place: u64| {
        let outcome = run(run_of, numbers, memory, script);
        let stored = numbers.stored & 0xFC;
        assert_eq!(outcome.report, Report { refusal, place, steps: 0, answer_bytes: 0, stored });
        assert!(outcome.memory.iter().all(|&byte| byte == 0));
        assert!(outcome.answers.iter().all(|&byte| byte == 0xEE));
    };
    let stored = protected(MB85RS64VY, 0xAF);
    for run in [Run::Chip, Run::Board] {
        // 1 comes before 2, and both before the script.
        for t in [0x20, 0x00, 0x06, 0x1F, 0xFF] {
            refused(run, Numbers { t, ..stored }, 8191, &[0x09], 1, 0);
        }
        for length in [8191, 8193, 0, 4096, 16_384] {
            refused(run, stored, length, &[0x09], 2, 0);
        }
        refused(run, stored, 8192, &[0x09], 8, 0);
        refused(run, stored, 8192, &[0x00], 8, 0);
    }
    refused(Run::Chip, stored, 8192, &[0x03], 8, 0);
    refused(Run::Chip, stored, 8192, &[0x02, 0x01, 0x00, 0x07], 8, 3);
    refused(Run::Chip, stored, 8192, &[0x01], 9, 0);
    refused(Run::Chip, stored, 8192, &[0x02, 0x02, 0x01], 9, 2);
    refused(Run::Board, stored, 8192, &[0x05, 0x00], 9, 0);
    refused(Run::Board, stored, 8192, &[0x03, 0x06, 0, 0, 0, 1, 2, 3, 4, 5, 6, 7], 9, 1);
    refused(Run::Board, stored, 8192, &[0x03, 0x01, 0x1F], 8, 1);
    // The first fault decides.
    refused(Run::Board, stored, 8192, &[0x03, 0x09, 0x05], 8, 1);
}

#[test]
fn the_answer_buffer_is_checked_after_the_script() {
    let short = |run: Run, script: &[u8], answers: usize, refusal: u32| {
        let case = Case {
            run,
            numbers: MB85RS64VY,
            memory: vec![0; 8192],
            script: script.to_vec(),
            answers: vec![0xEE; answers],
        };
        let outcome = agreed(&case);
        assert_eq!(outcome.report.refusal, refusal);
        assert!(refusal == 0 || outcome.answers.iter().all(|&byte| byte == 0xEE));
    };
    for (run, step) in [(Run::Chip, 0x02), (Run::Board, 0x03)] {
        short(run, &[step], 8, 10);
        short(run, &[step], 0, 10);
        short(run, &[step], 9, 0);
        short(run, &[step, step], 17, 10);
        short(run, &[step, step], 18, 0);
        short(run, &[step, step], 1000, 0);
        short(run, &[], 0, 0);
        // A fault of the script comes first.
        short(run, &[step, 0x09], 0, 8);
    }
}

/// The runs may be called from several threads at once.
#[cfg(feature = "library")]
#[test]
fn runs_in_several_threads() {
    use oracle::differential::{Counts, compare};

    std::thread::scope(|scope| {
        for seed in 0..4 {
            scope.spawn(move || {
                compare(seed, 0..5000, &mut oracle::ffi::Library, &mut Counts::default())
                    .map_err(|f| f.to_string())
                    .unwrap();
            });
        }
    });
}
