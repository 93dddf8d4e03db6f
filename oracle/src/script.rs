//! The three script runs. A run reads the whole script, then checks the answer buffer, then carries out all steps.

use std::marker::PhantomData;

use crate::board::{Board, ChipImage, Dump, ReadBoard};
use crate::bus::ByteBus;
use crate::chip::{Chip, Level, ParkedChip};
use crate::driver::Driver;
use crate::refusal::Refusal;
use crate::sheet::{Marks, Sheet, Stored};

/// The numbers of a run: the third and fourth byte of the ID, the marks (any value but 0 is yes), the stored status
/// bits.
#[derive(Clone, Copy, Debug, Default, PartialEq, Eq)]
pub struct Numbers {
    pub t: u8,
    pub f: u8,
    pub drop: u8,
    pub sleep: u8,
    pub fast: u8,
    pub stored: u8,
}

impl Numbers {
    /// The chip over a memory of so many bytes; refused by 1, then by 2.
    pub fn parked(&self, memory: usize) -> Result<ParkedChip, Refusal> {
        let marks = Marks { drop: self.drop != 0, sleep: self.sleep != 0, fast: self.fast != 0 };
        let sheet = Sheet::new(self.t, self.f, marks)?;
        sheet.check_memory(memory)?;
        Ok(ParkedChip::new(sheet, Stored::new(self.stored)))
    }
}

/// What a run answers besides the answer bytes.
#[derive(Clone, Copy, Debug, Default, PartialEq, Eq)]
pub struct Report {
    pub refusal: u32,
    pub place: u64,
    pub steps: u64,
    pub answer_bytes: u64,
    pub stored: u8,
}

impl Report {
    fn refused(refusal: Refusal, stored: Stored) -> Self {
        Report {
            refusal: refusal.number().into(),
            place: refusal.place() as u64,
            steps: 0,
            answer_bytes: 0,
            stored: stored.byte(),
        }
    }
}

/// What a step is answered.
enum Answer {
    So(Level),
    Cycled,
    Size(usize),
    Place(Option<usize>),
    Cells([u8; 8]),
    Written,
    Refused(Refusal),
}

impl Answer {
    fn of<T>(result: Result<T, Refusal>, answer: impl FnOnce(T) -> Answer) -> Self {
        result.map_or_else(Answer::Refused, answer)
    }

    /// Puts the bytes of the answer to the front of the buffer, and answers how many they are.
    fn put(self, buffer: &mut [u8]) -> usize {
        let mut put = |bytes: &[u8]| {
            buffer[..bytes.len()].copy_from_slice(bytes);
            bytes.len()
        };
        match self {
            Answer::So(level) => put(&[0x81, level.number()]),
            Answer::Cycled => put(&[0x82]),
            Answer::Size(size) => put(&three_bytes(0x83, size)),
            Answer::Place(place) => put(&three_bytes(0x84, place.unwrap_or(0xFF_FFFF))),
            Answer::Cells([a, b, c, d, e, f, g, h]) => put(&[0x85, a, b, c, d, e, f, g, h]),
            Answer::Written => put(&[0x86]),
            Answer::Refused(refusal) => put(&[0x7F, refusal.number()]),
        }
    }
}

/// A code and a number of three bytes, the highest first.
fn three_bytes(code: u8, number: usize) -> [u8; 4] {
    [code, (number >> 16) as u8, (number >> 8) as u8, number as u8]
}

/// The steps of a run.
pub trait Step<'s>: Sized {
    /// The length of the body that a kind fixes, if the run knows the kind.
    fn body_length(kind: u8) -> Option<usize>;

    /// The step of a known kind with a body of its length.
    fn new(kind: u8, body: &'s [u8]) -> Self;
}

#[derive(Clone, Copy, Debug, PartialEq, Eq)]
pub enum ChipStep {
    Sample(u8),
    PowerCycle,
}

impl Step<'_> for ChipStep {
    fn body_length(kind: u8) -> Option<usize> {
        match kind {
            0x01 => Some(1),
            0x02 => Some(0),
            _ => None,
        }
    }

    fn new(_kind: u8, body: &[u8]) -> Self {
        body.first().map_or(ChipStep::PowerCycle, |&sample| ChipStep::Sample(sample))
    }
}

/// A number, the highest byte first.
fn number(bytes: &[u8]) -> usize {
    bytes.iter().fold(0, |number, &byte| number << 8 | usize::from(byte))
}

/// The steps that only read.
#[derive(Clone, Copy, Debug, PartialEq, Eq)]
pub enum ReadStep {
    Size,
    Read { start: usize },
}

impl Step<'_> for ReadStep {
    fn body_length(kind: u8) -> Option<usize> {
        match kind {
            0x03 => Some(0),
            0x05 => Some(3),
            _ => None,
        }
    }

    fn new(kind: u8, body: &[u8]) -> Self {
        match kind {
            0x03 => ReadStep::Size,
            _ => ReadStep::Read { start: number(body) },
        }
    }
}

/// The data bytes of a write stay a part of the script.
#[derive(Clone, Copy, Debug, PartialEq, Eq)]
pub enum BoardStep<'s> {
    Reading(ReadStep),
    FirstFence { start: usize },
    Write { start: usize, bytes: &'s [u8] },
}

impl<'s> Step<'s> for BoardStep<'s> {
    fn body_length(kind: u8) -> Option<usize> {
        match kind {
            0x04 => Some(3),
            0x06 => Some(11),
            0x07 => Some(4),
            _ => ReadStep::body_length(kind),
        }
    }

    fn new(kind: u8, body: &'s [u8]) -> Self {
        match kind {
            0x04 => BoardStep::FirstFence { start: number(body) },
            0x06 | 0x07 => BoardStep::Write { start: number(&body[..3]), bytes: &body[3..] },
            _ => BoardStep::Reading(ReadStep::new(kind, body)),
        }
    }
}

/// The steps of a script in order, or its first fault.
struct Steps<'s, S> {
    script: &'s [u8],
    place: usize,
    sort: PhantomData<S>,
}

impl<'s, S: Step<'s>> Steps<'s, S> {
    fn new(script: &'s [u8]) -> Self {
        Steps { script, place: 0, sort: PhantomData }
    }

    /// The kind of a step comes before its length.
    fn step(&self, kind: u8) -> Result<(S, usize), Refusal> {
        let place = self.place;
        let length = S::body_length(kind).ok_or(Refusal::UnknownKind { place })?;
        let end = place + 1 + length;
        let body = self.script.get(place + 1..end).ok_or(Refusal::ShortStep { place })?;
        Ok((S::new(kind, body), end))
    }
}

impl<'s, S: Step<'s>> Iterator for Steps<'s, S> {
    type Item = Result<S, Refusal>;

    fn next(&mut self) -> Option<Self::Item> {
        let kind = *self.script.get(self.place)?;
        match self.step(kind) {
            Ok((step, end)) => {
                self.place = end;
                Some(Ok(step))
            }
            Err(fault) => {
                self.place = self.script.len();
                Some(Err(fault))
            }
        }
    }
}

/// How many steps a script has, or its first fault.
pub fn count_steps<'s, S: Step<'s>>(script: &'s [u8]) -> Result<usize, Refusal> {
    Steps::<S>::new(script).try_fold(0, |count, step| step.map(|_| count + 1))
}

/// Counts of steps and of answer bytes.
struct Counts {
    steps: usize,
    answer_bytes: usize,
}

/// Reads the script, checks the buffer and carries out the steps. A refused step stops nothing.
fn carry_out<'s, S: Step<'s>>(
    script: &'s [u8],
    answers: &mut [u8],
    mut act: impl FnMut(S) -> Answer,
) -> Result<Counts, Refusal> {
    let steps = count_steps::<S>(script)?;
    if answers.len() < 9 * steps {
        return Err(Refusal::ShortBuffer);
    }
    let mut answer_bytes = 0;
    for step in Steps::new(script) {
        answer_bytes += act(step?).put(&mut answers[answer_bytes..]);
    }
    Ok(Counts { steps, answer_bytes })
}

fn report(numbers: &Numbers, run: Result<(Counts, Stored), Refusal>) -> Report {
    match run {
        Ok((counts, stored)) => Report {
            refusal: 0,
            place: 0,
            steps: counts.steps as u64,
            answer_bytes: counts.answer_bytes as u64,
            stored: stored.byte(),
        },
        Err(refusal) => Report::refused(refusal, Stored::new(numbers.stored)),
    }
}

/// The chip run: samples and power cycles, on the pins of the chip.
pub fn chip_run(numbers: &Numbers, memory: &mut [u8], script: &[u8], answers: &mut [u8]) -> Report {
    watched_chip_run(numbers, memory, script, answers, |_| {})
}

/// The chip run; the chip is shown to a watcher after each step.
pub fn watched_chip_run(
    numbers: &Numbers,
    memory: &mut [u8],
    script: &[u8],
    answers: &mut [u8],
    mut watch: impl FnMut(&Chip),
) -> Report {
    let run = numbers.parked(memory.len()).and_then(|parked| {
        let mut chip = parked.power(memory);
        let counts = carry_out(script, answers, |step| {
            let answer = match step {
                ChipStep::Sample(byte) => Answer::of(chip.put(byte), Answer::So),
                ChipStep::PowerCycle => {
                    chip.power_cycle();
                    Answer::Cycled
                }
            };
            watch(&chip);
            answer
        })?;
        Ok((counts, chip.power_off().stored()))
    });
    report(numbers, run)
}

/// Carries out one step that only reads, on any board that can be read.
fn read_step(board: &mut impl ReadBoard, step: ReadStep) -> Answer {
    match step {
        ReadStep::Size => Answer::Size(board.size()),
        ReadStep::Read { start } => {
            let mut cells = [0; 8];
            Answer::of(board.read(start, &mut cells), |()| Answer::Cells(cells))
        }
    }
}

/// Carries out one step on any board.
fn board_step(board: &mut impl Board, step: BoardStep) -> Answer {
    match step {
        BoardStep::Reading(step) => read_step(board, step),
        BoardStep::FirstFence { start } => Answer::of(board.first_fence(start, 8), Answer::Place),
        BoardStep::Write { start, bytes } => Answer::of(board.write(start, bytes), |()| Answer::Written),
    }
}

/// The board run, by the rule of a driver's image: no byte is exchanged, and the stored bits stay as they were.
pub fn board_run(numbers: &Numbers, memory: &mut [u8], script: &[u8], answers: &mut [u8]) -> Report {
    let run = numbers.parked(memory.len()).and_then(|parked| {
        let mut board = ChipImage::new(memory, parked.stored());
        let counts = carry_out(script, answers, |step| board_step(&mut board, step))?;
        Ok((counts, parked.stored()))
    });
    report(numbers, run)
}

/// The board run, by a driver over the chip stepped by bytes.
pub fn board_run_by_driver(numbers: &Numbers, memory: &mut [u8], script: &[u8], answers: &mut [u8]) -> Report {
    let run = numbers.parked(memory.len()).and_then(|parked| {
        let mut driver = Driver::new(ByteBus::new(parked.power(memory), true));
        let counts = carry_out(script, answers, |step| board_step(&mut driver, step))?;
        Ok((counts, driver.into_bus().into_chip().power_off().stored()))
    });
    report(numbers, run)
}

/// The dump run: size and read eight, on memory that is only read. There is no chip, so all its numbers are 0.
pub fn dump_run(memory: &[u8], script: &[u8], answers: &mut [u8]) -> Report {
    let mut dump = Dump::new(memory);
    let run = carry_out(script, answers, |step| read_step(&mut dump, step));
    report(&Numbers::default(), run.map(|counts| (counts, Stored::new(0))))
}
