//! The library through its C interface: its three runs, its transfers and its read of plain memory, each buffer
//! between pages that cannot be touched, and in pages that cannot be written where it is only to be read.

use crate::bus::Mode;
use crate::differential::{Outcome, Subject};
use crate::generate::{Case, Run};
use crate::guarded::{Guarded, ReadOnly, Side};
use crate::script::{Numbers, Report};
use crate::transfer::{Order, Transfer, Way};

/// The report as C has it.
#[repr(C)]
struct FramReport {
    refusal: u32,
    place: u64,
    steps: u64,
    answer_bytes: u64,
    stored: u8,
}

impl From<FramReport> for Report {
    fn from(report: FramReport) -> Self {
        Report {
            refusal: report.refusal,
            place: report.place,
            steps: report.steps,
            answer_bytes: report.answer_bytes,
            stored: report.stored,
        }
    }
}

/// The type of the runs on a chip.
type FramRun = unsafe extern "C" fn(
    t: u8,
    f: u8,
    drop: u8,
    sleep: u8,
    fast: u8,
    stored: u8,
    memory: *mut u8,
    memory_len: usize,
    script: *const u8,
    script_len: usize,
    answers: *mut u8,
    answers_len: usize,
) -> FramReport;

unsafe extern "C" {
    fn fram_chip_run(
        t: u8,
        f: u8,
        drop: u8,
        sleep: u8,
        fast: u8,
        stored: u8,
        memory: *mut u8,
        memory_len: usize,
        script: *const u8,
        script_len: usize,
        answers: *mut u8,
        answers_len: usize,
    ) -> FramReport;

    fn fram_board_run(
        t: u8,
        f: u8,
        drop: u8,
        sleep: u8,
        fast: u8,
        stored: u8,
        memory: *mut u8,
        memory_len: usize,
        script: *const u8,
        script_len: usize,
        answers: *mut u8,
        answers_len: usize,
    ) -> FramReport;

    fn fram_dump_run(
        memory: *const u8,
        memory_len: usize,
        script: *const u8,
        script_len: usize,
        answers: *mut u8,
        answers_len: usize,
    ) -> FramReport;
}

/// A transfer as C has it.
#[repr(C)]
struct TestbedTransfer {
    refusal: u32,
    written: u32,
    read: u32,
    stored: u8,
}

unsafe extern "C" {
    fn testbed_transfer(
        t: u8,
        f: u8,
        drop: u8,
        sleep: u8,
        fast: u8,
        stored: u8,
        memory: *mut u8,
        memory_len: usize,
        before: *const u8,
        before_len: usize,
        way: u8,
        held: u8,
        start: usize,
        bytes: *const u8,
        bytes_len: usize,
        buffer: *mut u8,
        buffer_len: usize,
    ) -> TestbedTransfer;

    fn testbed_read_plain(memory: *mut u8, memory_len: usize, start: usize, buffer: *mut u8, buffer_len: usize) -> u32;
}

/// Calls one of the library's runs on these very buffers.
pub fn run(run: Run, numbers: &Numbers, memory: &mut [u8], script: &[u8], answers: &mut [u8]) -> Report {
    let run: FramRun = match run {
        Run::Chip => fram_chip_run,
        Run::Board => fram_board_run,
        Run::Dump => return dump_run(memory, script, answers),
    };
    let n = numbers;
    // SAFETY: slices are good for their lengths, not NULL, and apart from each other.
    let report = unsafe {
        run(
            n.t,
            n.f,
            n.drop,
            n.sleep,
            n.fast,
            n.stored,
            memory.as_mut_ptr(),
            memory.len(),
            script.as_ptr(),
            script.len(),
            answers.as_mut_ptr(),
            answers.len(),
        )
    };
    report.into()
}

/// Calls the library's dump run on these very buffers.
pub fn dump_run(memory: &[u8], script: &[u8], answers: &mut [u8]) -> Report {
    // SAFETY: slices are good for their lengths and not NULL, and the answers are apart from the others.
    let report = unsafe {
        fram_dump_run(memory.as_ptr(), memory.len(), script.as_ptr(), script.len(), answers.as_mut_ptr(), answers.len())
    };
    report.into()
}

/// On which side buffers lie against a page: now the one, now the other.
fn side(length: usize) -> Side {
    if length.is_multiple_of(3) { Side::First } else { Side::Last }
}

/// Carries out a case between guards, which must stay as they are.
pub fn call(case: &Case) -> Result<Outcome, String> {
    let side = side(case.script.len());
    let script = ReadOnly::new(&case.script, side);
    let mut answers = Guarded::new(&case.answers, side);
    let (report, memory) = match case.run {
        Run::Chip | Run::Board => {
            let mut memory = Guarded::new(&case.memory, side);
            let report = run(case.run, &case.numbers, memory.content_mut(), script.content(), answers.content_mut());
            memory.check("memory")?;
            (report, memory.content().to_vec())
        }
        Run::Dump => {
            let memory = ReadOnly::new(&case.memory, side);
            let report = dump_run(memory.content(), script.content(), answers.content_mut());
            (report, memory.content().to_vec())
        }
    };
    answers.check("answers")?;
    Ok(Outcome { report, memory, answers: answers.content().to_vec() })
}

/// The codes of a way: the bus, and the held samples of a line.
fn codes(way: Way) -> (u8, u8) {
    match way {
        Way::Bytes => (0, 0),
        Way::Line(Mode::Zero, held) => (1, held),
        Way::Line(Mode::Three, held) => (2, held),
    }
}

/// Calls the library's transfer on these very buffers.
pub fn transfer(numbers: &Numbers, memory: &mut [u8], way: Way, order: Order, buffer: &mut [u8]) -> Transfer {
    let n = numbers;
    let (code, held) = codes(way);
    // SAFETY: slices are good for their lengths, not NULL, and apart from each other.
    let transfer = unsafe {
        testbed_transfer(
            n.t,
            n.f,
            n.drop,
            n.sleep,
            n.fast,
            n.stored,
            memory.as_mut_ptr(),
            memory.len(),
            order.before.as_ptr(),
            order.before.len(),
            code,
            held,
            order.start,
            order.bytes.as_ptr(),
            order.bytes.len(),
            buffer.as_mut_ptr(),
            buffer.len(),
        )
    };
    Transfer { refusal: transfer.refusal, written: transfer.written, read: transfer.read, stored: transfer.stored }
}

/// The same between guards, which must stay as they are; memory and buffer are changed as the library changed them.
pub fn guarded_transfer(
    numbers: &Numbers,
    memory: &mut [u8],
    way: Way,
    order: Order,
    buffer: &mut [u8],
) -> Result<Transfer, String> {
    let side = side(order.bytes.len() + buffer.len());
    let [before, bytes] = [order.before, order.bytes].map(|content| ReadOnly::new(content, side));
    let mut between = [&*memory, &*buffer].map(|content| Guarded::new(content, side));
    let [m, b] = &mut between;
    let guarded = Order { before: before.content(), start: order.start, bytes: bytes.content() };
    let done = transfer(numbers, m.content_mut(), way, guarded, b.content_mut());
    for (guarded, name) in between.iter().zip(["memory", "buffer"]) {
        guarded.check(name)?;
    }
    let [m, b] = &between;
    memory.copy_from_slice(m.content());
    buffer.copy_from_slice(b.content());
    Ok(done)
}

/// Calls the library's read of plain memory on these very buffers.
pub fn read_plain(memory: &mut [u8], start: usize, buffer: &mut [u8]) -> u32 {
    // SAFETY: slices are good for their lengths, not NULL, and apart from each other.
    unsafe { testbed_read_plain(memory.as_mut_ptr(), memory.len(), start, buffer.as_mut_ptr(), buffer.len()) }
}

/// The library that is linked.
pub struct Library;

impl Subject for Library {
    fn run(&mut self, case: &Case) -> Result<Outcome, String> {
        call(case)
    }
}
