//! Compares a subject with the model, case by case: the whole report, the whole memory, the whole answer buffer.

use std::fmt;
use std::ops::Range;
use std::time::{Duration, Instant};

use crate::board::MOST_CELLS;
use crate::chip::{Chip, Sample, Session};
use crate::generate::{Case, Run, case};
use crate::rng::Rng;
use crate::script::{Report, board_run, dump_run, watched_chip_run};
use crate::sheet::{Command, Stored};

/// The seed of the test run.
pub const SEED: u64 = 0x5EED_F4A3_0000_0001;

/// The report of a run and the buffers as they are after it.
#[derive(Clone, Debug, PartialEq, Eq)]
pub struct Outcome {
    pub report: Report,
    pub memory: Vec<u8>,
    pub answers: Vec<u8>,
}

/// What carries out runs.
pub trait Subject {
    /// Carries out a case on copies of its buffers; or says what it did besides.
    fn run(&mut self, case: &Case) -> Result<Outcome, String>;
}

pub struct Model;

impl Model {
    pub fn outcome(case: &Case) -> Outcome {
        Self::watched(case, |_| {})
    }

    /// Carries out a case, and shows the chip of a chip run to a watcher after each step.
    fn watched(case: &Case, watch: impl FnMut(&Chip)) -> Outcome {
        let mut memory = case.memory.clone();
        let mut answers = case.answers.clone();
        let report = match case.run {
            Run::Chip => watched_chip_run(&case.numbers, &mut memory, &case.script, &mut answers, watch),
            Run::Board => board_run(&case.numbers, &mut memory, &case.script, &mut answers),
            Run::Dump => dump_run(&memory, &case.script, &mut answers),
        };
        Outcome { report, memory, answers }
    }
}

impl Subject for Model {
    fn run(&mut self, case: &Case) -> Result<Outcome, String> {
        Ok(Self::outcome(case))
    }
}

/// What the model does in a case, which the library does too, where it is linked.
///
/// # Panics
///
/// Where the library does something else.
pub fn agreed(case: &Case) -> Outcome {
    let outcome = Model::outcome(case);
    #[cfg(feature = "library")]
    assert_eq!(crate::ffi::call(case).as_ref(), Ok(&outcome), "the library differs on {case:?}");
    outcome
}

/// Where two buffers differ first.
fn first_difference(name: &str, model: &[u8], subject: &[u8]) -> Option<String> {
    if model.len() != subject.len() {
        return Some(format!("{name}: {} bytes by the model, {} by the subject", model.len(), subject.len()));
    }
    let place = model.iter().zip(subject).position(|(a, b)| a != b)?;
    let end = (place + 16).min(model.len());
    Some(format!(
        "{name} from {place} on:\n  model   {:02X?}\n  subject {:02X?}",
        &model[place..end],
        &subject[place..end]
    ))
}

/// How the subject differs from the model on a case; none if it does not.
pub fn difference(case: &Case, subject: &mut impl Subject) -> Option<String> {
    judge(&Model::outcome(case), subject.run(case))
}

fn judge(model: &Outcome, subject: Result<Outcome, String>) -> Option<String> {
    let subject = match subject {
        Ok(outcome) => outcome,
        Err(damage) => return Some(damage),
    };
    if *model == subject {
        return None;
    }
    let report = (model.report != subject.report)
        .then(|| format!("reports:\n  model   {:?}\n  subject {:?}", model.report, subject.report));
    let memory = first_difference("memory", &model.memory, &subject.memory);
    let answers = first_difference("answers", &model.answers, &subject.answers);
    Some([report, memory, answers].into_iter().flatten().collect::<Vec<_>>().join("\n"))
}

/// A case on which the subject differs from the model.
#[derive(Debug)]
pub struct Failure {
    pub seed: u64,
    pub index: u64,
    /// The case with its script cut down as far as it still fails.
    pub case: Case,
    pub difference: String,
}

impl fmt::Display for Failure {
    fn fmt(&self, f: &mut fmt::Formatter) -> fmt::Result {
        let Case { run, numbers, memory, script, answers } = &self.case;
        writeln!(f, "case {} of seed {:#X} differs (its script cut down):", self.index, self.seed)?;
        writeln!(f, "{run:?} run, {numbers:02X?}")?;
        writeln!(f, "memory of {} bytes from {:02X?}", memory.len(), &memory[..memory.len().min(8)])?;
        writeln!(f, "answers of {} bytes from {:02X?}", answers.len(), &answers[..answers.len().min(8)])?;
        writeln!(f, "script of {} bytes: {script:02X?}", script.len())?;
        write!(f, "{}", self.difference)
    }
}

/// How long a failing script is cut down at most.
const CUTTING: Duration = Duration::from_secs(5);

/// Deletes parts of the script as long as the case still fails.
fn cut_down(mut case: Case, subject: &mut impl Subject) -> Case {
    let mut part = case.script.len() / 2;
    let end = Instant::now() + CUTTING;
    while part > 0 {
        let mut place = 0;
        while place + part <= case.script.len() && Instant::now() < end {
            let mut shorter = case.clone();
            shorter.script.drain(place..place + part);
            if difference(&shorter, subject).is_some() {
                case = shorter;
            } else {
                place += part;
            }
        }
        part /= 2;
    }
    case
}

/// Compares the cases of a range of indices, and counts what was reached.
pub fn compare(
    seed: u64,
    indices: Range<u64>,
    subject: &mut impl Subject,
    counts: &mut Counts,
) -> Result<(), Box<Failure>> {
    for index in indices {
        let case = case(&mut Rng::of_case(seed, index));
        let mut seen = Seen::at_power(&case);
        let model = Model::watched(&case, |chip| seen.step(chip, &mut counts.acts));
        if judge(&model, subject.run(&case)).is_some() {
            let case = cut_down(case, subject);
            let difference = difference(&case, subject).unwrap_or_else(|| "not the same at every call".to_string());
            return Err(Box::new(Failure { seed, index, case, difference }));
        }
        counts.add(&case, &model);
    }
    Ok(())
}

/// How many cases are compared between two lines of progress.
const PORTION: u64 = 100_000;

/// With fewer scripts, a class that is not reached says nothing.
const ENOUGH_TO_COUNT: u64 = 100_000;

/// Compares so many cases from an index on, and prints the seed, the progress and what was reached. Fails where the
/// subject differs from the model, and where a class was not reached often enough.
pub fn soak(seed: u64, first: u64, scripts: u64, subject: &mut impl Subject) -> Result<(), String> {
    println!("seed {seed:#X}, {scripts} scripts from case {first} on");
    let begin = Instant::now();
    let mut counts = Counts::default();
    let end = first + scripts;
    let mut next = first;
    while next < end {
        let portion = next..end.min(next + PORTION);
        next = portion.end;
        compare(seed, portion, subject, &mut counts).map_err(|failure| failure.to_string())?;
        println!("{} scripts compared, {:.1} s", next - first, begin.elapsed().as_secs_f64());
    }
    print!("{counts}");
    match counts.too_rare().as_slice() {
        rare @ [_, ..] if scripts >= ENOUGH_TO_COUNT => Err(format!("not reached often enough:\n{}", rare.join("\n"))),
        _ => Ok(()),
    }
}

/// What was reached, by the model.
#[derive(Clone, Debug, Default)]
pub struct Counts {
    chip: RunCounts,
    board: RunCounts,
    dump: RunCounts,
    /// SO low, high and high-Z.
    so: [u64; 3],
    cycles: u64,
    fences: u64,
    no_fences: u64,
    writes: u64,
    acts: Acts,
    dumps: Dumps,
}

/// The dumps by their length: none, too short for a read, as many cells as there may be, and more bytes than that.
#[derive(Clone, Debug, Default)]
struct Dumps {
    empty: u64,
    short: u64,
    most: u64,
    longer: u64,
}

impl Dumps {
    fn add(&mut self, length: usize) {
        self.empty += u64::from(length == 0);
        self.short += u64::from((1..8).contains(&length));
        self.most += u64::from(length == MOST_CELLS);
        self.longer += u64::from(length > MOST_CELLS);
    }
}

/// What chips did in the chip runs.
#[derive(Clone, Debug, Default)]
struct Acts {
    latch_set: u64,
    latch_cleared: u64,
    slept: u64,
    woke: u64,
    stored_changed: u64,
    /// Sessions of more than 47 bits, and of more than 65,535.
    long_sessions: u64,
    very_long_sessions: u64,
    holds: Holds,
}

/// Holds of sessions, and where sessions were spoiled.
#[derive(Clone, Debug, Default)]
struct Holds {
    /// Released at the level at which HOLD fell.
    same_level: u64,
    /// Scripts in which a session was spoiled.
    scripts: u64,
    op_code: u64,
    address: u64,
    data: u64,
    wrsr: u64,
    rdsr: u64,
    rdid: u64,
    read: u64,
    fstrd: u64,
    /// Behind the eighth bit of SLEEP.
    sleep: u64,
    asleep: u64,
    /// CS fell with HOLD low.
    from_the_first: u64,
    /// WEL was to fall at the end.
    drop: u64,
    /// HOLD falls once more in a spoiled session.
    again: u64,
    /// No session was spoiled, since CS rose in the sample that released HOLD at the other level.
    cs_high: u64,
}

impl Holds {
    /// A session was spoiled of which this was seen last.
    fn add(&mut self, last: &Seen, chip: &Chip) {
        let class = match (last.command, last.bits) {
            _ if last.asleep => Some(&mut self.asleep),
            (None, 0..8) => Some(&mut self.op_code),
            (Some(Command::Read | Command::Write | Command::Fstrd), 8..24) => Some(&mut self.address),
            (Some(Command::Write), _) => Some(&mut self.data),
            (Some(Command::Wrsr), _) => Some(&mut self.wrsr),
            (Some(Command::Rdsr), _) => Some(&mut self.rdsr),
            (Some(Command::Rdid), _) => Some(&mut self.rdid),
            (Some(Command::Read), _) => Some(&mut self.read),
            (Some(Command::Fstrd), 32..) => Some(&mut self.fstrd),
            (Some(Command::Sleep), 8) => Some(&mut self.sleep),
            _ => None,
        };
        if let Some(count) = class {
            *count += 1;
        }
        let drops = matches!(last.command, Some(Command::Wrsr | Command::Write)) && chip.sheet().marks().drop;
        self.drop += u64::from(drops && last.latch);
        self.from_the_first += u64::from(last.held_from_the_first);
    }
}

/// What a watcher of a chip saw last.
struct Seen {
    latch: bool,
    asleep: bool,
    stored: Stored,
    command: Option<Command>,
    bits: usize,
    selected: bool,
    held_at: Option<bool>,
    /// The session is held since CS fell.
    held_from_the_first: bool,
    spoiled: bool,
    /// A session was spoiled at any time before.
    ever_spoiled: bool,
}

impl Seen {
    fn at_power(case: &Case) -> Self {
        Seen {
            latch: false,
            asleep: false,
            stored: Stored::new(case.numbers.stored),
            command: None,
            bits: 0,
            selected: false,
            held_at: None,
            held_from_the_first: false,
            spoiled: false,
            ever_spoiled: false,
        }
    }

    fn step(&mut self, chip: &Chip, acts: &mut Acts) {
        let held_at = chip.held_at();
        let now = Seen {
            latch: chip.latch(),
            asleep: chip.asleep(),
            stored: chip.stored(),
            command: chip.command(),
            bits: chip.session().map_or(0, Session::taken),
            selected: chip.selected(),
            held_at,
            held_from_the_first: held_at.is_some() && (self.held_from_the_first || !self.selected),
            spoiled: chip.spoiled(),
            ever_spoiled: self.ever_spoiled || chip.spoiled(),
        };
        if !self.spoiled && now.spoiled {
            acts.holds.add(self, chip);
        }
        acts.holds.scripts += u64::from(!self.ever_spoiled && now.ever_spoiled);
        acts.holds.again += u64::from(self.spoiled && self.held_at.is_none() && held_at.is_some());
        if let Some(fell) = self.held_at
            && !self.spoiled
            && chip.last().has(Sample::HOLD)
        {
            let other = chip.last().has(Sample::SCK) != fell;
            acts.holds.same_level += u64::from(now.selected && !other);
            acts.holds.cs_high += u64::from(!now.selected && other);
        }
        acts.latch_set += u64::from(!self.latch && now.latch);
        acts.latch_cleared += u64::from(self.latch && !now.latch);
        acts.slept += u64::from(!self.asleep && now.asleep);
        acts.woke += u64::from(self.asleep && !now.asleep);
        acts.stored_changed += u64::from(self.stored != now.stored);
        acts.long_sessions += u64::from(self.bits == 47 && now.bits == 48);
        acts.very_long_sessions += u64::from(self.bits == 65_535 && now.bits == 65_536);
        *self = now;
    }
}

#[derive(Clone, Debug, Default)]
struct RunCounts {
    scripts: u64,
    steps: u64,
    /// By the number of the refusal; 0 for the runs that were not refused.
    refusals: [u64; 11],
    step_refusals: [u64; 11],
    sizes: u64,
    reads: u64,
    /// Runs that changed memory, and the bytes that they changed.
    memory_changed: u64,
    memory_bytes: u64,
}

impl Counts {
    fn add(&mut self, case: &Case, outcome: &Outcome) {
        let Outcome { report, memory, answers } = outcome;
        let changed = case.memory.iter().zip(memory).filter(|(before, after)| before != after).count() as u64;
        let run = match case.run {
            Run::Chip => &mut self.chip,
            Run::Board => &mut self.board,
            Run::Dump => {
                self.dumps.add(case.memory.len());
                &mut self.dump
            }
        };
        run.scripts += 1;
        run.steps += report.steps;
        run.refusals[report.refusal as usize] += 1;
        run.memory_changed += u64::from(changed > 0);
        run.memory_bytes += changed;
        let mut rest = &answers[..report.answer_bytes as usize];
        while let [code, body @ ..] = rest {
            let length = match *code {
                0x81 => {
                    self.so[usize::from(body[0])] += 1;
                    1
                }
                0x82 => {
                    self.cycles += 1;
                    0
                }
                0x83 => {
                    run.sizes += 1;
                    3
                }
                0x84 if body[..3] == [0xFF; 3] => {
                    self.no_fences += 1;
                    3
                }
                0x84 => {
                    self.fences += 1;
                    3
                }
                0x85 => {
                    run.reads += 1;
                    8
                }
                0x86 => {
                    self.writes += 1;
                    0
                }
                _ => {
                    run.step_refusals[usize::from(body[0])] += 1;
                    1
                }
            };
            rest = &body[length..];
        }
    }

    pub fn scripts(&self) -> u64 {
        self.chip.scripts + self.board.scripts + self.dump.scripts
    }

    /// Every class with its count, and in how many of 100,000 scripts it is to be reached at least.
    fn classes(&self) -> Vec<(String, u64, u64)> {
        let mut classes = Vec::new();
        for (name, run) in [("chip run", &self.chip), ("board run", &self.board)] {
            let mut class = |what: &str, count, least| classes.push((format!("{name}: {what}"), count, least));
            class("scripts", run.scripts, 40_000);
            class("not refused", run.refusals[0], 25_000);
            class("refused by 1", run.refusals[1], 500);
            class("refused by 2", run.refusals[2], 500);
            class("refused by 8", run.refusals[8], 500);
            class("refused by 9", run.refusals[9], 500);
            class("refused by 10", run.refusals[10], 500);
            class("steps", run.steps, 250_000);
            class("changed memory", run.memory_changed, 5000);
            class("memory bytes changed", run.memory_bytes, 25_000);
        }
        let mut class = |what: &str, count, least| classes.push((what.to_string(), count, least));
        class("write latch set", self.acts.latch_set, 25_000);
        class("write latch cleared", self.acts.latch_cleared, 5000);
        class("chip fell asleep", self.acts.slept, 2500);
        class("chip woke", self.acts.woke, 2500);
        class("stored bits changed", self.acts.stored_changed, 5000);
        class("sessions of more than 47 bits", self.acts.long_sessions, 25_000);
        class("sessions of more than 65,535 bits", self.acts.very_long_sessions, 3);
        let holds = &self.acts.holds;
        class("HOLD released at its level", holds.same_level, 100_000);
        class("scripts with a spoiled session", holds.scripts, 10_000);
        class("spoiled in the op-code", holds.op_code, 10_000);
        class("spoiled in the address", holds.address, 2500);
        class("spoiled in the data of WRITE", holds.data, 1500);
        class("spoiled in WRSR", holds.wrsr, 1000);
        class("spoiled in RDSR", holds.rdsr, 2000);
        class("spoiled in RDID", holds.rdid, 400);
        class("spoiled in READ", holds.read, 800);
        class("spoiled in FSTRD", holds.fstrd, 150);
        class("spoiled behind SLEEP", holds.sleep, 75);
        class("spoiled asleep", holds.asleep, 100);
        class("spoiled, CS fell with HOLD low", holds.from_the_first, 2500);
        class("spoiled before WEL was to fall", holds.drop, 1500);
        class("spoiled and held again", holds.again, 50_000);
        class("HOLD and CS rise at the other level", holds.cs_high, 2000);
        class("81h, SO low", self.so[0], 250_000);
        class("81h, SO high", self.so[1], 250_000);
        class("81h, SO high-Z", self.so[2], 1_000_000);
        class("82h", self.cycles, 5000);
        class("7Fh 03h", self.chip.step_refusals[3], 5000);
        class("83h", self.board.sizes, 25_000);
        class("84h, a place", self.fences, 10_000);
        class("84h, none", self.no_fences, 10_000);
        class("85h", self.board.reads, 25_000);
        class("86h", self.writes, 25_000);
        class("7Fh 04h", self.board.step_refusals[4], 25_000);
        class("7Fh 05h", self.board.step_refusals[5], 10_000);
        class("dump run: scripts", self.dump.scripts, 15_000);
        class("dump run: not refused", self.dump.refusals[0], 10_000);
        class("dump run: refused by 8", self.dump.refusals[8], 500);
        class("dump run: refused by 9", self.dump.refusals[9], 200);
        class("dump run: refused by 10", self.dump.refusals[10], 500);
        class("dump run: 83h", self.dump.sizes, 25_000);
        class("dump run: 85h", self.dump.reads, 25_000);
        class("dump run: 7Fh 04h", self.dump.step_refusals[4], 25_000);
        class("dumps of no cells", self.dumps.empty, 500);
        class("dumps of 1 to 7 cells", self.dumps.short, 500);
        class("dumps of 1,048,576 cells", self.dumps.most, 15);
        class("dumps of more bytes than cells", self.dumps.longer, 30);
        classes
    }

    /// The classes that were not reached often enough for so many scripts.
    pub fn too_rare(&self) -> Vec<String> {
        let least = |of_100_000: u64| of_100_000 * self.scripts() / 100_000;
        self.classes()
            .into_iter()
            .filter(|&(_, count, of_100_000)| count < least(of_100_000))
            .map(|(name, count, of_100_000)| format!("{name}: {count}, less than {}", least(of_100_000)))
            .collect()
    }
}

impl fmt::Display for Counts {
    fn fmt(&self, f: &mut fmt::Formatter) -> fmt::Result {
        writeln!(f, "{:>12}  scripts", self.scripts())?;
        for (name, count, _) in self.classes() {
            writeln!(f, "{count:>12}  {name}")?;
        }
        Ok(())
    }
}
