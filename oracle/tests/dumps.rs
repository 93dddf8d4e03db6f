//! The dump run: cases worked out by hand, and beside the board run. Each is tried on the model, and, with the feature
//! `library`, on the library as well.

use oracle::board::MOST_CELLS;
use oracle::differential::{Outcome, agreed};
use oracle::generate::{Case, Run, steps_before_fault};
use oracle::rng::Rng;
use oracle::script::{Numbers, Report};
use oracle::sheet;

/// A dump run with an answer buffer that is just enough.
fn run(memory: &[u8], script: &[u8]) -> Outcome {
    let answers = 9 * steps_before_fault(Run::Dump, script);
    run_into(memory, script, answers)
}

/// A dump run with an answer buffer of so many bytes.
fn run_into(memory: &[u8], script: &[u8], answers: usize) -> Outcome {
    let outcome = agreed(&Case {
        run: Run::Dump,
        numbers: Numbers::default(),
        memory: memory.to_vec(),
        script: script.to_vec(),
        answers: vec![0xEE; answers],
    });
    assert!(outcome.memory == memory);
    outcome
}

/// The answers of a dump run that is not refused.
fn answers(memory: &[u8], script: &[u8]) -> Vec<u8> {
    let Outcome { report, mut answers, .. } = run(memory, script);
    let steps = steps_before_fault(Run::Dump, script) as u64;
    assert_eq!(report, Report { steps, answer_bytes: report.answer_bytes, ..Report::default() });
    let past = answers.split_off(report.answer_bytes as usize);
    assert!(past.iter().all(|&byte| byte == 0xEE));
    answers
}

/// Read eight from a start.
fn read(start: usize) -> [u8; 4] {
    let [.., a, b, c] = start.to_be_bytes();
    [0x05, a, b, c]
}

#[test]
fn size_and_reads() {
    let memory = [0x27, 0x9C, 1, 2, 3, 4, 5, 6, 7];
    let script = [&[0x03], &read(0)[..], &read(1), &read(2), &read(9), &[0x03]].concat();
    let wanted = [
        [0x83, 0x00, 0x00, 0x09].as_slice(),
        &[0x85, 0x27, 0x9C, 1, 2, 3, 4, 5, 6],
        &[0x85, 0x9C, 1, 2, 3, 4, 5, 6, 7],
        &[0x7F, 4],
        &[0x7F, 4],
        &[0x83, 0x00, 0x00, 0x09],
    ]
    .concat();
    assert_eq!(answers(&memory, &script), wanted);
    assert_eq!(answers(&memory, &[]), []);
}

#[test]
fn a_dump_of_fewer_than_eight_bytes_has_a_size_and_no_read() {
    for length in 0..8 {
        let script = [&[0x03], &read(0)[..], &read(length), &read(0xFF_FFFF)].concat();
        let wanted = [0x83, 0x00, 0x00, length as u8, 0x7F, 4, 0x7F, 4, 0x7F, 4];
        assert_eq!(answers(&vec![0x11; length], &script), wanted);
    }
}

#[test]
fn the_first_1_048_576_bytes_are_cells() {
    let memory: Vec<u8> = (0..MOST_CELLS + 9).map(|place| (place * 7 + place / 256) as u8).collect();
    let shown = |start: usize| [&[0x85], &memory[start..start + 8]].concat();
    let last = MOST_CELLS - 8;
    let script = [&[0x03], &read(last - 1)[..], &read(last), &read(last + 1), &read(MOST_CELLS)].concat();
    let refused = [0x7F, 4];
    for (length, size, last_read) in [
        (MOST_CELLS - 1, [0x83, 0x0F, 0xFF, 0xFF], refused.to_vec()),
        (MOST_CELLS, [0x83, 0x10, 0x00, 0x00], shown(last)),
        (MOST_CELLS + 1, [0x83, 0x10, 0x00, 0x00], shown(last)),
        (MOST_CELLS + 9, [0x83, 0x10, 0x00, 0x00], shown(last)),
    ] {
        let wanted = [&size, &shown(last - 1)[..], &last_read[..], &refused, &refused].concat();
        assert_eq!(answers(&memory[..length], &script), wanted);
    }
}

#[test]
fn the_refusals_of_a_run() {
    let refused = |script: &[u8], refusal: u32, place: u64| {
        for length in [0, 8191, 8192] {
            let outcome = run(&vec![0x5A; length], script);
            assert_eq!(outcome.report, Report { refusal, place, ..Report::default() });
            assert!(outcome.answers.iter().all(|&byte| byte == 0xEE));
        }
    };
    for kind in (0x00..=0xFF).filter(|kind| ![0x03, 0x05].contains(kind)) {
        // Alone, and with a body that such a step has.
        refused(&[kind], 8, 0);
        refused(&[kind, 0, 0, 0, 1, 2, 3, 4, 5, 6, 7, 8], 8, 0);
        refused(&[&[0x03], &read(0)[..], &[kind]].concat(), 8, 5);
    }
    for length in 1..4 {
        refused(&read(0)[..length], 9, 0);
        refused(&[&[0x03], &read(0)[..], &read(0)[..length]].concat(), 9, 5);
    }
    // The first fault decides.
    refused(&[0x03, 0x04, 0x05], 8, 1);
}

#[test]
fn the_answer_buffer_is_checked_after_the_script() {
    for (script, room, refusal) in [
        (&[0x03][..], 8, 10),
        (&[0x03], 0, 10),
        (&[0x03], 9, 0),
        (&[0x03, 0x03], 17, 10),
        (&[0x03, 0x03], 18, 0),
        (&[0x03, 0x03], 1000, 0),
        (&[], 0, 0),
        (&[0x03, 0x04], 0, 8),
        (&[0x03, 0x05], 0, 9),
    ] {
        let outcome = run_into(&[0x5A; 8], script, room);
        assert_eq!(outcome.report.refusal, refusal);
        assert!(refusal == 0 || outcome.answers.iter().all(|&byte| byte == 0xEE));
    }
}

/// A script of sizes and reads, which may end inside its last step.
fn reading_script(rng: &mut Rng, size: usize) -> Vec<u8> {
    let mut script = Vec::new();
    for _ in 0..rng.below(30) {
        if rng.chance(250) {
            script.push(0x03);
        } else {
            let start = rng.pick(&[0, 1, size - 9, size - 8, size - 7, size, 0xFF_FFFF]);
            let anywhere = rng.below(size);
            script.extend(read(if rng.flip() { start } else { anywhere }));
        }
    }
    if rng.chance(100) {
        script.pop();
    }
    script
}

/// A dump of a chip's memory is answered as the board over that chip is, and refused where it is.
#[test]
fn a_dump_of_a_chip_answers_as_its_board() {
    let mut refused = [0u64; 11];
    for index in 0..5000 {
        let rng = &mut Rng::of_case(6, index);
        let d = rng.from_to(1, 5) as u8;
        let [drop, sleep, fast] = [(); 3].map(|()| u8::from(rng.flip()));
        let numbers = Numbers { t: d | rng.byte() & 0xE0, f: rng.byte(), drop, sleep, fast, stored: rng.byte() };
        let memory = rng.bytes(sheet::cells(d));
        let script = reading_script(rng, memory.len());
        let answers = vec![0xEE; (9 * steps_before_fault(Run::Dump, &script)).saturating_sub(rng.pick(&[0, 0, 0, 1]))];
        let [board, dump] = [(Run::Board, numbers), (Run::Dump, Numbers::default())].map(|(run, numbers)| {
            agreed(&Case { run, numbers, memory: memory.clone(), script: script.clone(), answers: answers.clone() })
        });
        assert_eq!(dump.report, Report { stored: 0, ..board.report }, "case {index}");
        assert!(dump.answers == board.answers && dump.memory == memory && board.memory == memory, "case {index}");
        refused[dump.report.refusal as usize] += 1;
    }
    assert!([0, 9, 10].iter().all(|&refusal: &usize| refused[refusal] >= 100), "{refused:?}");
}

/// What is only read may be shared: by threads, and a script may be the dump as well.
#[cfg(feature = "library")]
#[test]
fn what_is_only_read_may_be_shared() {
    let script = (0..200).flat_map(|place| [&[0x03], &read(place)[..]].concat()).collect::<Vec<u8>>();
    let wanted = run(&script, &script);
    assert_eq!(wanted.report.steps, 400);
    std::thread::scope(|scope| {
        for _ in 0..4 {
            scope.spawn(|| {
                for _ in 0..500 {
                    let mut answers = vec![0xEE; wanted.answers.len()];
                    let report = oracle::ffi::dump_run(&script, &script, &mut answers);
                    assert!(report == wanted.report && answers == wanted.answers);
                }
            });
        }
    });
}
