//! The comparison itself: it makes the same cases again, reaches every class, and finds faults of many sorts.

use std::mem;

use oracle::board::MOST_CELLS;
use oracle::chip::{Chip, Level, Sample};
use oracle::differential::{Counts, Model, Outcome, SEED, Subject, compare};
use oracle::generate::{Case, Run, case};
use oracle::refusal::Refusal;
use oracle::rng::Rng;
use oracle::script::Report;
use oracle::sheet::Command;

const SCRIPTS: u64 = 20_000;

/// The model with a fault: it may carry out another case, and alter what comes of it.
struct Faulty {
    name: &'static str,
    case: fn(&mut Case),
    outcome: fn(&Case, &mut Outcome),
}

impl Subject for Faulty {
    fn run(&mut self, case: &Case) -> Result<Outcome, String> {
        let mut other = case.clone();
        (self.case)(&mut other);
        let mut outcome = Model::outcome(&other);
        (self.outcome)(case, &mut outcome);
        Ok(outcome)
    }
}

fn same_case(_: &mut Case) {}

fn same_outcome(_: &Case, _: &mut Outcome) {}

/// So that a fault which carries out a dump run on another memory is found by what is answered.
fn memory_of_dump_as_before(case: &Case, outcome: &mut Outcome) {
    if case.run == Run::Dump {
        outcome.memory.clone_from(&case.memory);
    }
}

const FAULTS: &[Faulty] = &[
    Faulty {
        name: "a mark is yes at 1 alone",
        case: |case| case.numbers.drop = u8::from(case.numbers.drop == 1),
        outcome: same_outcome,
    },
    Faulty { name: "a mark is its lowest bit", case: |case| case.numbers.sleep &= 1, outcome: same_outcome },
    Faulty { name: "the upper bits of t are lost", case: |case| case.numbers.t &= 0x1F, outcome: same_outcome },
    Faulty {
        name: "bits 1 and 0 of the stored bits stay",
        case: same_case,
        outcome: |case, outcome| outcome.report.stored |= case.numbers.stored & 3,
    },
    Faulty {
        name: "bits 1 and 0 of the stored bits stay in a refused run",
        case: same_case,
        outcome: |case, outcome| {
            if outcome.report.refusal != 0 {
                outcome.report.stored = case.numbers.stored;
            }
        },
    },
    Faulty {
        name: "the place is that of the step behind",
        case: same_case,
        outcome: |_, outcome| outcome.report.place += u64::from(outcome.report.refusal == 9),
    },
    Faulty {
        name: "the answer buffer is cleared past the answers",
        case: same_case,
        outcome: |_, outcome| outcome.answers[outcome.report.answer_bytes as usize..].fill(0),
    },
    Faulty {
        name: "the last byte of the answer buffer is written",
        case: same_case,
        outcome: |_, outcome| {
            if let Some(last) = outcome.answers.last_mut() {
                *last = 0x42;
            }
        },
    },
    Faulty {
        name: "the last cell is lost",
        case: same_case,
        outcome: |case, outcome| {
            if let (Some(last), Some(before)) = (outcome.memory.last_mut(), case.memory.last()) {
                *last = *before;
            }
        },
    },
    Faulty {
        name: "8 answer bytes for each step are enough",
        case: |case| {
            if case.run == Run::Board && case.answers.len() % 9 == 8 {
                case.answers.push(0);
            }
        },
        outcome: |case, outcome| outcome.answers.truncate(case.answers.len()),
    },
    Faulty {
        name: "a script that ends inside its last step runs without it",
        case: |case| {
            if case.script.ends_with(&[0x01]) {
                case.script.pop();
            }
        },
        outcome: same_outcome,
    },
    Faulty {
        name: "one step too many is counted",
        case: same_case,
        outcome: |_, outcome| outcome.report.steps += u64::from(outcome.report.steps > 100),
    },
    Faulty {
        name: "the dump run is a board run",
        case: |case| {
            if case.run == Run::Dump && case.memory.len() == 8192 {
                case.run = Run::Board;
                case.numbers.t = 3;
            }
        },
        outcome: same_outcome,
    },
    Faulty {
        name: "a dump has one cell less than the most",
        case: |case| {
            if case.run == Run::Dump {
                case.memory.truncate(MOST_CELLS - 1);
            }
        },
        outcome: memory_of_dump_as_before,
    },
    Faulty {
        name: "the last byte of a longer dump is its last cell",
        case: |case| {
            if case.run == Run::Dump && case.memory.len() > MOST_CELLS {
                case.memory.drain(MOST_CELLS - 1..case.memory.len() - 1);
            }
        },
        outcome: memory_of_dump_as_before,
    },
    Faulty {
        name: "a dump that is too short for a read has no cells",
        case: |case| {
            if case.run == Run::Dump && case.memory.len() < 8 {
                case.memory.clear();
            }
        },
        outcome: memory_of_dump_as_before,
    },
    Faulty {
        name: "an empty dump is refused by 2",
        case: same_case,
        outcome: |case, outcome| {
            if case.run == Run::Dump && case.memory.is_empty() {
                outcome.report = Report { refusal: 2, ..Report::default() };
            }
        },
    },
    Faulty {
        name: "the report of a dump has stored bits",
        case: same_case,
        outcome: |case, outcome| outcome.report.stored |= u8::from(case.run == Run::Dump) << 7,
    },
];

/// A fault in what HOLD does.
#[derive(Clone, Copy, Debug, PartialEq, Eq)]
enum HoldFault {
    /// The level of the releasing sample is remembered, so that none is ever the other one.
    ReleaseRemembered,
    /// The level of the sample before HOLD became low is remembered.
    SampleBeforeRemembered,
    /// The level is remembered anew in each sample with HOLD low.
    RememberedAnew,
    /// Where CS falls with HOLD low, no level is remembered.
    FallOfCsForgotten,
    /// A release at the other level spoils also where CS rises in that sample.
    SpoiledByCsHigh,
    /// The end of a spoiled session drops WEL as that of its command does.
    EndDropsWel,
    /// The end of a spoiled session of SLEEP falls asleep.
    EndSleeps,
    /// The end of a spoiled session leaves a sleeping chip asleep.
    EndDoesNotWake,
    /// A second hold that is released at its level mends the session.
    MendedBySecondHold,
    /// SO shows in a spoiled session what it showed before the hold.
    SoShown,
    /// Bits are taken in a spoiled session.
    BitsCounted,
    /// The sessions behind a spoiled one are spoiled too.
    NextSessionsToo,
}

const HOLD_FAULTS: [HoldFault; 12] = [
    HoldFault::ReleaseRemembered,
    HoldFault::SampleBeforeRemembered,
    HoldFault::RememberedAnew,
    HoldFault::FallOfCsForgotten,
    HoldFault::SpoiledByCsHigh,
    HoldFault::EndDropsWel,
    HoldFault::EndSleeps,
    HoldFault::EndDoesNotWake,
    HoldFault::MendedBySecondHold,
    HoldFault::SoShown,
    HoldFault::BitsCounted,
    HoldFault::NextSessionsToo,
];

/// A fitted chip whose holds are judged by what stands before it, with a fault or none. The chip is told of a hold at
/// its end alone, by a sample with HOLD low at the level of SCK that makes of its session what was judged.
struct Front<'m> {
    chip: Chip<'m>,
    fault: Option<HoldFault>,
    last: u8,
    remembered: u8,
    spoiled: bool,
}

impl<'m> Front<'m> {
    fn new(chip: Chip<'m>, fault: Option<HoldFault>) -> Self {
        Front { chip, fault, last: 0x1F, remembered: 0, spoiled: false }
    }

    fn has(&self, fault: HoldFault) -> bool {
        self.fault == Some(fault)
    }

    fn power_cycle(&mut self) {
        self.chip.power_cycle();
        self.last = 0x1F;
        self.spoiled = false;
    }

    fn put(&mut self, byte: u8) -> Result<Level, Refusal> {
        if byte > 0x1F {
            return self.chip.put(byte);
        }
        let last = mem::replace(&mut self.last, byte);
        let high = |pin: u8| (last & pin != 0, byte & pin != 0);
        match (high(Sample::CS), high(Sample::HOLD)) {
            ((true, true), _) => {}
            ((true, false), _) => self.begin(byte),
            ((false, true), _) => self.end(last, byte),
            (_, (true, false)) if self.has(HoldFault::SampleBeforeRemembered) => self.remembered = last & Sample::SCK,
            (_, (true, false)) => self.remembered = byte & Sample::SCK,
            (_, (false, false)) if self.has(HoldFault::RememberedAnew) => self.remembered = byte & Sample::SCK,
            (_, (false, false)) => {}
            (_, (false, true)) => self.release(byte),
            (_, (true, true)) => self.pass(&[byte]),
        }
        Ok(self.so())
    }

    /// Samples for the chip, unless its session is spoiled.
    fn pass(&mut self, samples: &[u8]) {
        if !self.spoiled || self.has(HoldFault::BitsCounted) {
            self.tell(samples);
        }
    }

    fn tell(&mut self, samples: &[u8]) {
        for &sample in samples {
            self.chip.put(sample).expect("a sample");
        }
    }

    fn so(&self) -> Level {
        let hidden = self.last & Sample::CS != 0 || self.last & Sample::HOLD == 0;
        let silent = self.spoiled && !self.has(HoldFault::SoShown);
        if hidden || silent { Level::HighZ } else { self.chip.so() }
    }

    fn begin(&mut self, byte: u8) {
        self.spoiled &= self.has(HoldFault::NextSessionsToo);
        if !self.has(HoldFault::FallOfCsForgotten) {
            self.remembered = byte & Sample::SCK;
        }
        self.tell(&[byte | Sample::HOLD]);
    }

    fn release(&mut self, byte: u8) {
        let other = !self.has(HoldFault::ReleaseRemembered) && byte & Sample::SCK != self.remembered;
        let mended = self.has(HoldFault::MendedBySecondHold) && !other;
        self.spoiled = (self.spoiled && !mended) || other;
        self.pass(&[byte & !Sample::HOLD, byte]);
    }

    fn end(&mut self, last: u8, byte: u8) {
        let released = last & Sample::HOLD == 0 && byte & Sample::HOLD != 0;
        let other = byte & Sample::SCK != self.remembered;
        let spoiled = self.spoiled || (self.has(HoldFault::SpoiledByCsHigh) && released && other);
        if spoiled && self.chip.asleep() && self.has(HoldFault::EndDoesNotWake) {
            return;
        }
        let as_ever = match self.chip.command() {
            Some(Command::Wrsr | Command::Write) => self.has(HoldFault::EndDropsWel),
            Some(Command::Sleep) => self.has(HoldFault::EndSleeps),
            _ => false,
        };
        if spoiled && !as_ever {
            let low = byte & !Sample::CS & !Sample::HOLD;
            self.tell(&[low ^ Sample::SCK, low | Sample::HOLD]);
        }
        self.tell(&[byte]);
    }
}

/// The model, whose chip runs go through a front.
struct Fronted(Option<HoldFault>);

impl Subject for Fronted {
    fn run(&mut self, case: &Case) -> Result<Outcome, String> {
        let Outcome { mut report, mut memory, mut answers } = Model::outcome(case);
        if case.run == Run::Chip && report.refusal == 0 {
            memory.clone_from(&case.memory);
            let parked = case.numbers.parked(memory.len()).expect("the run is not refused");
            let mut front = Front::new(parked.power(&mut memory), self.0);
            let mut script = case.script.as_slice();
            let mut place = 0;
            while let [kind, body @ ..] = script {
                let (answer, rest) = match body {
                    [byte, rest @ ..] if *kind == 0x01 => match front.put(*byte) {
                        Ok(level) => (vec![0x81, level.number()], rest),
                        Err(refusal) => (vec![0x7F, refusal.number()], rest),
                    },
                    _ => {
                        front.power_cycle();
                        (vec![0x82], body)
                    }
                };
                answers[place..place + answer.len()].copy_from_slice(&answer);
                place += answer.len();
                script = rest;
            }
            report.stored = front.chip.power_off().stored().byte();
        }
        Ok(Outcome { report, memory, answers })
    }
}

fn assert_found(name: &str, subject: &mut impl Subject) {
    let failure = compare(SEED, 0..SCRIPTS, subject, &mut Counts::default());
    let failure = failure.err().unwrap_or_else(|| panic!("not found: {name}"));
    println!("case {}: {name}", failure.index);
    assert_ne!(failure.difference, "");
}

#[test]
fn faults_are_found() {
    for &Faulty { name, case, outcome } in FAULTS {
        assert_found(name, &mut Faulty { name, case, outcome });
    }
}

#[test]
fn faults_in_what_hold_does_are_found() {
    for fault in HOLD_FAULTS {
        assert_found(&format!("{fault:?}"), &mut Fronted(Some(fault)));
    }
}

#[test]
fn a_front_without_a_fault_does_what_the_model_does() {
    let compared = compare(SEED, 0..SCRIPTS, &mut Fronted(None), &mut Counts::default());
    compared.map_err(|failure| failure.to_string()).unwrap();
}

#[test]
fn damage_is_told() {
    struct Damaging;
    impl Subject for Damaging {
        fn run(&mut self, _: &Case) -> Result<Outcome, String> {
            Err("bytes before the memory were changed".to_string())
        }
    }
    let failure = compare(SEED, 0..1, &mut Damaging, &mut Counts::default()).unwrap_err();
    assert!(failure.to_string().ends_with("bytes before the memory were changed"));
}

#[test]
fn every_class_is_reached_and_the_model_agrees_with_itself() {
    let mut counts = Counts::default();
    compare(SEED, 0..SCRIPTS, &mut Model, &mut counts).unwrap();
    assert_eq!(counts.scripts(), SCRIPTS);
    assert_eq!(counts.too_rare(), [""; 0]);
}

#[test]
fn a_case_is_made_again_from_seed_and_index() {
    for index in [0, 1, 1000, u64::MAX] {
        assert_eq!(case(&mut Rng::of_case(SEED, index)), case(&mut Rng::of_case(SEED, index)));
    }
    assert_ne!(case(&mut Rng::of_case(SEED, 0)), case(&mut Rng::of_case(SEED, 1)));
    assert_ne!(case(&mut Rng::of_case(SEED, 0)), case(&mut Rng::of_case(SEED + 1, 0)));
}
