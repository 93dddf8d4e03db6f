//! Makes the cases of the comparison: the numbers and buffers of one call of a run.

use crate::board::MOST_CELLS;
use crate::bus::Mode;
use crate::chip::Sample;
use crate::rng::Rng;
use crate::script::{BoardStep, ChipStep, Numbers, ReadStep, count_steps};
use crate::sheet;
use crate::transfer::Way;

#[derive(Clone, Copy, Debug, PartialEq, Eq)]
pub enum Run {
    Chip,
    Board,
    Dump,
}

/// One call of a run; the buffers are as they are before it. A dump run takes no numbers, and those of its case are 0.
#[derive(Clone, Debug, PartialEq, Eq)]
pub struct Case {
    pub run: Run,
    pub numbers: Numbers,
    pub memory: Vec<u8>,
    pub script: Vec<u8>,
    pub answers: Vec<u8>,
}

/// The number of steps before the end or the first fault.
pub fn steps_before_fault(run: Run, script: &[u8]) -> usize {
    let count = |script| match run {
        Run::Chip => count_steps::<ChipStep>(script),
        Run::Board => count_steps::<BoardStep>(script),
        Run::Dump => count_steps::<ReadStep>(script),
    };
    match count(script) {
        Ok(steps) => steps,
        Err(fault) => count(&script[..fault.place()]).unwrap_or(0),
    }
}

/// Makes the case of a generator.
pub fn case(rng: &mut Rng) -> Case {
    let run = if rng.below(6) == 0 { Run::Dump } else { rng.pick(&[Run::Chip, Run::Board]) };
    let (numbers, cells, length) = match run {
        Run::Chip | Run::Board => {
            let numbers = numbers(rng);
            let cells = sheet::density(numbers.t).map_or(2048, sheet::cells);
            (numbers, cells, memory_length(rng, numbers.t))
        }
        Run::Dump => {
            let length = dump_length(rng);
            (Numbers::default(), length.min(MOST_CELLS), length)
        }
    };
    let script = script(rng, run, cells);
    let steps = steps_before_fault(run, &script);
    let memory = content(rng, length);
    let length = answers_length(rng, 9 * steps);
    let answers = content(rng, length);
    Case { run, numbers, memory, script, answers }
}

/// What a write and a read through a driver are tried with.
#[derive(Clone, Debug)]
pub struct TransferCase {
    pub numbers: Numbers,
    pub memory: Vec<u8>,
    /// The samples that are put before, some of which may be none.
    pub before: Vec<u8>,
    pub way: Way,
    pub start: usize,
    pub bytes: Vec<u8>,
    pub buffer: Vec<u8>,
}

pub fn transfer_case(rng: &mut Rng) -> TransferCase {
    let numbers = numbers(rng);
    let cells = sheet::density(numbers.t).map_or(2048, sheet::cells);
    let before: Vec<u8> = if rng.flip() {
        let script = chip_script(rng, cells);
        let end = rng.below(script.len() + 1);
        script[..end].iter().copied().filter(|&byte| byte != 0x01 || rng.chance(100)).collect()
    } else {
        Vec::new()
    };
    let way = match rng.below(4) {
        0..=1 => Way::Bytes,
        2 => Way::Line(Mode::Zero, rng.pick(&[0, 0, 1, 2, 7, 8, 255])),
        _ => Way::Line(Mode::Three, rng.pick(&[0, 0, 1, 2, 7, 8, 255])),
    };
    let start = match rng.below(20) {
        0 => usize::MAX - rng.below(20),
        1 => rng.next_u64() as usize,
        2..=3 => cells + rng.below(2),
        _ => start(rng, cells),
    };
    let room = cells.saturating_sub(start);
    let length = transfer_length(rng, room);
    let bytes = content(rng, length);
    let length = transfer_length(rng, room);
    let buffer = content(rng, length);
    let length = memory_length(rng, numbers.t);
    TransferCase { numbers, memory: content(rng, length), before, way, start, bytes, buffer }
}

/// Few bytes mostly, and around the room that there is.
fn transfer_length(rng: &mut Rng, room: usize) -> usize {
    match rng.below(20) {
        0..=2 => 0,
        3 => room,
        4 => room + 1,
        5 => room.saturating_sub(1),
        6 => rng.below(room + 1),
        _ => rng.from_to(1, 20),
    }
}

/// Random bytes, or one byte throughout.
fn content(rng: &mut Rng, length: usize) -> Vec<u8> {
    match rng.below(8) {
        0 => vec![0x00; length],
        1 => vec![0xFF; length],
        2 => vec![rng.byte(); length],
        _ => rng.bytes(length),
    }
}

/// A mark as a byte: no at 0 and yes at any other value.
fn mark(rng: &mut Rng) -> u8 {
    match rng.below(10) {
        0..=3 => 0,
        4..=7 => 1,
        8 => rng.pick(&[2, 0x80, 0xFE, 0xFF]),
        _ => rng.byte(),
    }
}

fn numbers(rng: &mut Rng) -> Numbers {
    let density = match rng.below(100) {
        0..=49 => 1,
        50..=69 => 2,
        70..=83 => 3,
        84..=90 => 4,
        91..=95 => 5,
        96 => rng.pick(&[0, 6, 0x1F]),
        _ => rng.byte() & 0x1F,
    };
    let upper = if rng.flip() { 0 } else { rng.byte() & 0xE0 };
    let (drop, sleep, fast) = match rng.below(6) {
        0 => (0, 1, 0),
        1 => (1, 0, 1),
        _ => (mark(rng), mark(rng), mark(rng)),
    };
    let stored = match rng.below(8) {
        0 => 0x00,
        1 => rng.byte() & 0x0C,
        // No cell protected.
        2..=3 => rng.byte() & 0xF3,
        _ => rng.byte(),
    };
    Numbers { t: density | upper, f: rng.byte(), drop, sleep, fast, stored }
}

/// As many bytes as the chip has cells, or a length that is wrong.
fn memory_length(rng: &mut Rng, t: u8) -> usize {
    // Other densities are refused before the length; 2^(10 + d) may be what they would need, where that is small.
    let right = match t & 0x1F {
        d @ 0..=6 => sheet::cells(d),
        _ => sheet::cells(rng.from_to(0, 5) as u8),
    };
    if !rng.chance(60) {
        return right;
    }
    match rng.below(6) {
        0 => right - 1,
        1 => right + 1,
        2 => 0,
        3 => right / 2,
        4 => right * 2,
        _ => rng.below(4 * 1024),
    }
}

/// Few bytes, as many as a chip has cells, about these, or, seldom since it takes long, about the most cells of a board.
fn dump_length(rng: &mut Rng) -> usize {
    match rng.below(1000) {
        0..=7 => rng.pick(&[MOST_CELLS - 1, MOST_CELLS, MOST_CELLS + 1, MOST_CELLS + 1]),
        8..=9 => rng.from_to(MOST_CELLS - 20, MOST_CELLS + 5000),
        10..=109 => 0,
        110..=209 => rng.from_to(1, 7),
        210..=309 => rng.from_to(8, 9),
        310..=499 => rng.from_to(10, 600),
        500..=699 => sheet::cells(rng.from_to(1, 5) as u8),
        700..=849 => rng.from_to(8192 - 9, 8192 + 9),
        _ => rng.below(20_000),
    }
}

/// Around the least length that is enough.
fn answers_length(rng: &mut Rng, enough: usize) -> usize {
    match rng.below(100) {
        0..=2 => enough.saturating_sub(1),
        3 => 0,
        4 => rng.below(enough + 1),
        5 => enough.saturating_sub(9),
        // What would be enough for fewer bytes a step.
        6 => enough / 9 * rng.from_to(1, 8),
        7..=39 => enough + rng.from_to(1, 40),
        40 => enough + rng.from_to(1, 2000),
        _ => enough,
    }
}

fn script(rng: &mut Rng, run: Run, cells: usize) -> Vec<u8> {
    if rng.chance(20) {
        return noise(rng);
    }
    let mut script = match run {
        Run::Chip => chip_script(rng, cells),
        Run::Board | Run::Dump => board_script(rng, run, cells),
    };
    if rng.chance(130) {
        damage(rng, &mut script);
    }
    script
}

/// No script in particular: random bytes, or kinds alone, or nothing.
fn noise(rng: &mut Rng) -> Vec<u8> {
    let length = rng.pick(&[0, 1, 1, 2, 2, 3, 5, 13, 40]);
    match rng.below(3) {
        0 => rng.bytes(length),
        1 => (0..length).map(|_| rng.below(10) as u8).collect(),
        _ => (0..length).map(|_| rng.pick(&[1, 1, 2, 3, 6])).collect(),
    }
}

/// Changes, deletes or inserts a byte, or cuts the end off.
fn damage(rng: &mut Rng, script: &mut Vec<u8>) {
    for _ in 0..rng.pick(&[1, 1, 1, 2, 3]) {
        let place = rng.below(script.len() + 1);
        match rng.below(7) {
            0 if place < script.len() => script[place] = rng.byte(),
            1 if place < script.len() => script[place] ^= 1 << rng.below(8),
            2 if place < script.len() => {
                script.remove(place);
            }
            3 => script.insert(place, rng.byte()),
            4 => script.insert(place, rng.below(10) as u8),
            _ => {
                // Near the end more often, so that the last step alone is short.
                let cut = match rng.below(4) {
                    0 => place,
                    1 => rng.from_to(2, 12),
                    _ => 1,
                };
                script.truncate(script.len().saturating_sub(cut));
            }
        }
    }
}

// The board run and the dump run.

/// A kind that the run knows; in a dump run now and then one that it does not.
fn board_kind(rng: &mut Rng, run: Run) -> u8 {
    match (run, rng.below(10)) {
        (Run::Dump, _) if rng.chance(8) => rng.pick(&[0x01, 0x02, 0x04, 0x06, 0x07]),
        (Run::Dump, 0..=2) => 0x03,
        (Run::Dump, _) => 0x05,
        (_, 0) => 0x03,
        (_, 1..=2) => 0x04,
        (_, 3..=5) => 0x05,
        (_, 6..=7) => 0x06,
        _ => 0x07,
    }
}

fn board_script(rng: &mut Rng, run: Run, size: usize) -> Vec<u8> {
    let steps = match rng.below(100) {
        0..=2 => rng.below(2),
        3..=89 => rng.from_to(1, 24),
        90..=98 => rng.from_to(25, 150),
        _ => rng.from_to(151, 900),
    };
    let mut script = Vec::new();
    let mut near = start(rng, size);
    for _ in 0..steps {
        if rng.chance(600) {
            near = start(rng, size);
        }
        // Often near the last place, so that a read shows what was written.
        let place = match rng.below(4) {
            0 => near.wrapping_add(rng.below(17)).wrapping_sub(8) & 0xFF_FFFF,
            _ => near,
        };
        let start = [(place >> 16) as u8, (place >> 8) as u8, place as u8];
        let kind = board_kind(rng, run);
        script.push(kind);
        if kind > 0x03 {
            script.extend(start);
        }
        let bytes = match kind {
            0x01 | 0x07 => 1,
            0x06 => 8,
            _ => 0,
        };
        script.extend(rng.bytes(bytes));
    }
    script
}

/// A start, at the edges more often.
fn start(rng: &mut Rng, size: usize) -> usize {
    let edge = rng.pick(&[0, 0, 1, size / 4, size / 2, size / 2, size - size / 4, size - size / 4, size, size, size]);
    let place = match rng.below(20) {
        0..=7 => edge.wrapping_add(rng.below(19)).wrapping_sub(9),
        8..=9 => edge.wrapping_sub(8),
        10 => edge.wrapping_sub(7),
        11 => edge,
        12 => rng.pick(&[2 * size, 0xFFFF, 0x1_0000, 0x10_0000, 0xFF_FFFF, 0xFF_FFF8, 0xFF_FFF7]),
        13 => rng.next_u64() as usize,
        // A place in the board, were the upper byte or the upper bits not looked at.
        14 => rng.from_to(1, 255) << 16 | rng.below(size.max(1)),
        15 => size * rng.from_to(1, 255) + rng.below(size.max(1)),
        _ => rng.below(size.max(1)),
    };
    place & 0xFF_FFFF
}

// The chip run.

/// In so many of a thousand chip scripts, HOLD is released at either level of SCK; in the others at that at which it
/// fell. Five scripts in twelve are chip scripts, so it is one script in four.
const EITHER_LEVEL: usize = 600;

/// A script of sessions that mostly make sense, with power cycles between them, and some samples changed afterwards.
fn chip_script(rng: &mut Rng, cells: usize) -> Vec<u8> {
    let acts = match rng.below(100) {
        0 => 0,
        1..=79 => rng.from_to(1, 4),
        80..=97 => rng.from_to(5, 10),
        _ => rng.from_to(11, 40),
    };
    let either_level = rng.chance(EITHER_LEVEL);
    let mut clock = Clock { rng, cells, pins: 0x1F, script: Vec::new(), style: Style::default(), either_level };
    for _ in 0..acts {
        clock.act();
    }
    let mut script = clock.script;
    if rng.chance(120) {
        change_samples(rng, &mut script);
    }
    script
}

/// Flips a pin, or deletes, doubles or inserts a whole sample: the script stays a script.
fn change_samples(rng: &mut Rng, script: &mut Vec<u8>) {
    for _ in 0..rng.pick(&[1, 1, 1, 2, 3, 8]) {
        let samples: Vec<usize> = sample_places(script);
        if samples.is_empty() {
            return;
        }
        let place = rng.pick(&samples);
        match rng.below(6) {
            0..=2 => script[place + 1] ^= 1 << rng.below(5),
            3 => {
                script.drain(place..place + 2);
            }
            4 => {
                let double = [0x01, script[place + 1]];
                script.splice(place..place, double);
            }
            _ => {
                let sample = [0x01, rng.byte() & 0x1F];
                script.splice(place..place, sample);
            }
        }
    }
}

/// Where the samples of a valid chip script stand.
fn sample_places(script: &[u8]) -> Vec<usize> {
    let mut places = Vec::new();
    let mut place = 0;
    while place < script.len() {
        if script[place] == 0x01 {
            places.push(place);
            place += 1;
        }
        place += 1;
    }
    places
}

#[derive(Clone, Copy, Debug, Default)]
enum Wp {
    #[default]
    High,
    Low,
    Random,
}

/// How the pins are moved in a session.
#[derive(Clone, Copy, Debug, Default)]
struct Style {
    /// SCK rests high.
    mode_3: bool,
    wp: Wp,
    /// In so many of a thousand samples, HOLD is pulled low after it, and SCK moves meanwhile.
    hold: usize,
    /// In so many of a thousand samples, something stands after it that counts for nothing or breaks the session.
    stray: usize,
}

/// Clocks sessions into a script.
struct Clock<'r> {
    rng: &'r mut Rng,
    cells: usize,
    /// The last sample.
    pins: u8,
    script: Vec<u8>,
    style: Style,
    /// HOLD is released at either level of SCK.
    either_level: bool,
}

impl Clock<'_> {
    fn put(&mut self, sample: u8) {
        self.script.extend([0x01, sample]);
        self.pins = sample;
    }

    /// Puts a sample with some pins set or cleared and WP as the style has it.
    fn set(&mut self, pin: u8, high: bool) {
        let wp = match self.style.wp {
            Wp::High => true,
            Wp::Low => false,
            Wp::Random => self.rng.flip(),
        };
        let pins = if high { self.pins | pin } else { self.pins & !pin };
        self.put(if wp { pins | Sample::WP } else { pins & !Sample::WP });
        if self.rng.chance(self.style.hold) {
            self.hold();
        }
        if self.rng.chance(self.style.stray) {
            self.stray();
        }
    }

    /// HOLD is low for some samples, and is released; SCK may move in each of these.
    fn hold(&mut self) {
        let fell = self.hold_low();
        let release = if self.either_level { self.rng.byte() & Sample::SCK } else { fell };
        self.put((self.pins & !Sample::SCK) | Sample::HOLD | release);
    }

    /// HOLD is low for some samples with SCK at random. Answers SCK of the first of them.
    fn hold_low(&mut self) -> u8 {
        let moving = Sample::SCK | Sample::SI;
        let still = self.pins & !(Sample::HOLD | moving);
        let first = self.rng.byte() & moving;
        self.put(still | first);
        for _ in 0..self.rng.below(4) {
            let random = self.rng.byte() & moving;
            self.put(still | random);
        }
        first & Sample::SCK
    }

    /// Whether HOLD is to be low at a place in a session where it is seldom so by chance.
    fn holds_here(&mut self) -> bool {
        self.style.hold > 0 && self.rng.chance(120)
    }

    /// CS falls with HOLD low, or in the sample that releases HOLD.
    fn begin_held(&mut self) {
        let before = self.rng.below(3);
        if before > 0 {
            self.put(self.pins & !Sample::HOLD);
        }
        self.pins &= !Sample::CS;
        if before > 1 {
            let random = self.rng.byte() & Sample::SCK;
            self.put((self.pins & !Sample::SCK) | Sample::HOLD | random);
        } else {
            self.hold();
        }
    }

    /// CS rises with HOLD low, or in the sample that releases HOLD, at either level of SCK.
    fn end_held(&mut self) {
        self.hold_low();
        let random = self.rng.byte() & Sample::SCK;
        let end = (self.pins & !Sample::SCK) | Sample::CS | random;
        if self.rng.flip() {
            self.put(end);
        }
        self.put(end | Sample::HOLD);
    }

    fn stray(&mut self) {
        match self.rng.below(8) {
            // No sample: refused, and counts for nothing.
            0..=2 => {
                let byte = self.rng.byte() | 0x20 << self.rng.below(3);
                self.script.extend([0x01, byte]);
            }
            // SI moves with SCK still.
            3..=4 => self.put(self.pins ^ Sample::SI),
            5 => self.put(self.pins),
            6 => self.cycle(),
            _ => self.put(self.pins ^ Sample::CS),
        }
    }

    fn cycle(&mut self) {
        self.script.push(0x02);
    }

    /// Takes one bit, from whichever level SCK has.
    fn bit(&mut self, si: bool) {
        if self.style.mode_3 || self.pins & Sample::SCK != 0 {
            self.set(Sample::SCK, false);
        }
        self.pins = if si { self.pins | Sample::SI } else { self.pins & !Sample::SI };
        self.set(Sample::SCK, true);
        if !self.style.mode_3 {
            self.set(Sample::SCK, false);
        }
    }

    /// One session that takes the first so many bits of some bytes.
    fn session(&mut self, bytes: &[u8], bits: usize) {
        if self.rng.chance(300) {
            self.restyle();
        }
        let hold = self.style.hold;
        if bits > 10_000 && self.rng.chance(600) {
            // A hold would spoil most long sessions long before their end.
            self.style.hold = 0;
        }
        if self.pins & Sample::CS == 0 && !self.rng.chance(50) {
            self.set(Sample::CS, true);
        }
        // SCK may move together with CS: the edge does not count.
        let rest = if self.rng.chance(900) { self.style.mode_3 } else { self.rng.flip() };
        self.pins = if rest { self.pins | Sample::SCK } else { self.pins & !Sample::SCK };
        if self.holds_here() {
            self.begin_held();
        } else {
            self.set(Sample::CS, false);
        }
        for i in 0..bits {
            self.bit(bytes[i / 8] >> (7 - i % 8) & 1 != 0);
        }
        if self.holds_here() {
            self.hold();
        }
        if self.rng.chance(950) {
            if self.rng.chance(100) {
                self.pins ^= Sample::SCK;
            }
            if self.holds_here() {
                self.end_held();
            } else {
                self.set(Sample::CS, true);
            }
        }
        if self.rng.chance(20) {
            self.cycle();
        }
        self.style.hold = hold;
    }

    /// A session of whole bytes, with some bits more or fewer now and then.
    fn bytes(&mut self, bytes: &[u8]) {
        let mut bytes = bytes.to_vec();
        let mut bits = 8 * bytes.len();
        match self.rng.below(100) {
            0..=4 => bits = self.rng.below(bits + 1),
            5..=8 => bits = bits.saturating_sub(1),
            9..=14 => {
                bytes.push(self.rng.byte());
                bits += self.rng.from_to(1, 8);
            }
            _ => {}
        }
        self.session(&bytes, bits);
    }

    fn restyle(&mut self) {
        self.style = Style {
            mode_3: self.rng.flip(),
            wp: self.rng.pick(&[Wp::High, Wp::High, Wp::Low, Wp::Random]),
            hold: if self.either_level {
                self.rng.pick(&[0, 2, 5, 10, 20, 100])
            } else {
                self.rng.pick(&[0, 0, 0, 10, 50, 200])
            },
            stray: self.rng.pick(&[0, 0, 0, 0, 2, 10]),
        };
    }

    /// Filler or data of so many bytes behind an op-code, and behind an address if there is one.
    fn command(&mut self, op_code: u8, address: Option<u16>, more: usize) {
        let mut bytes = vec![op_code];
        bytes.extend(address.into_iter().flat_map(u16::to_be_bytes));
        bytes.extend(self.rng.bytes(more));
        self.bytes(&bytes);
    }

    /// An address, at the edges more often; the upper bits that the chip lacks are set now and then.
    fn address(&mut self) -> u16 {
        let cells = self.cells;
        let edge = self.rng.pick(&[0, cells / 4, cells / 2, cells - cells / 4, cells, cells]);
        let place = match self.rng.below(4) {
            0..=2 => edge.wrapping_add(self.rng.below(9)).wrapping_sub(6),
            _ => self.rng.next_u64() as usize,
        } % cells;
        let above = if self.rng.chance(300) { self.rng.below(0x1_0000 / cells) * cells } else { 0 };
        (place + above) as u16
    }

    /// How many bytes are read or written: few, rarely many.
    fn length(&mut self) -> usize {
        match self.rng.below(20_000) {
            0..=16_999 => self.rng.from_to(0, 6),
            17_000..=19_899 => self.rng.from_to(7, 24),
            19_900..=19_988 => self.rng.from_to(25, 200),
            19_989..=19_993 => self.rng.from_to(200, 2500),
            // More bits than a counter of sixteen bits counts.
            _ => self.rng.from_to(8200, 9000),
        }
    }

    fn wren(&mut self) {
        match self.rng.below(20) {
            0 => {}
            1 => self.session(&[0x06], 7),
            2 => self.command(0x06, None, 1),
            _ => self.command(0x06, None, 0),
        }
    }

    /// Reads some cells, as any sheet can or as only one with the mark can.
    fn read(&mut self, address: u16) {
        let length = self.length();
        if self.rng.chance(700) {
            self.command(0x03, Some(address), length);
        } else {
            self.command(0x0B, Some(address), length + 1);
        }
    }

    /// A step or a few that belong together.
    fn act(&mut self) {
        if self.script.is_empty() {
            self.restyle();
        }
        match self.rng.below(100) {
            0..=27 => self.write_and_read(),
            28..=45 => self.status(),
            46..=57 => self.sleep(),
            58..=67 => {
                let address = self.address();
                self.read(address);
            }
            68..=73 => {
                let length = self.rng.from_to(0, 9);
                self.command(0x9F, None, length);
            }
            74..=78 => {
                let length = self.rng.from_to(0, 4);
                self.command(0x05, None, length);
            }
            79..=82 => {
                self.wren();
                self.command(0x04, None, 0);
                self.command(0x05, None, 1);
            }
            83..=88 => {
                let op_code = self.rng.byte();
                let length = self.rng.from_to(0, 7);
                self.command(op_code, None, length);
            }
            89..=92 => self.near_command(),
            93..=95 => self.soup(),
            96..=98 => self.cycle(),
            // No bits.
            _ => self.session(&[], 0),
        }
    }

    /// WREN, WRITE and a look at what was written; each may be missing.
    fn write_and_read(&mut self) {
        let address = self.address();
        self.wren();
        for _ in 0..self.rng.pick(&[1, 1, 1, 2]) {
            let length = self.length();
            self.command(0x02, Some(address), length);
        }
        match self.rng.below(4) {
            0 => self.command(0x05, None, 1),
            1..=2 => {
                let near = address.wrapping_sub(self.rng.below(3) as u16);
                self.read(near);
            }
            _ => {}
        }
    }

    /// WREN, WRSR and RDSR; each may be missing.
    fn status(&mut self) {
        self.wren();
        let more = self.rng.pick(&[0, 1, 1, 1, 1, 1, 2, 3]);
        self.command(0x01, None, more);
        if self.rng.chance(700) {
            let length = self.rng.from_to(1, 3);
            self.command(0x05, None, length);
        }
        if self.rng.chance(400) {
            // Once more, with the latch as it is now.
            self.command(0x01, None, 1);
        }
    }

    /// SLEEP, and sessions that wake the chip.
    fn sleep(&mut self) {
        if self.rng.flip() {
            self.wren();
        }
        match self.rng.below(10) {
            0 => self.session(&[0xB9], 7),
            1 => self.session(&[0xB9, 0x00], 9),
            2 => self.command(0xB9, None, 1),
            _ => self.command(0xB9, None, 0),
        }
        match self.rng.below(4) {
            0 => self.command(0x06, None, 0),
            1 => self.session(&[], 0),
            2 => self.cycle(),
            _ => self.command(0x05, None, 1),
        }
        self.command(0x05, None, 2);
    }

    /// An op-code that differs from a known one in a bit.
    fn near_command(&mut self) {
        let known = self.rng.pick(&[0x06, 0x04, 0x05, 0x01, 0x03, 0x02, 0x9F, 0x0B, 0xB9]);
        let op_code = known ^ 1 << self.rng.below(8);
        let length = self.rng.from_to(0, 5);
        self.wren();
        self.command(op_code, None, length);
        self.command(0x05, None, 1);
    }

    /// Samples at random, with CS low and HOLD high more often.
    fn soup(&mut self) {
        for _ in 0..self.rng.from_to(1, 150) {
            let mut sample = self.rng.byte() & 0x1F;
            if !self.rng.chance(50) {
                sample &= !Sample::CS;
            }
            if !self.rng.chance(100) {
                sample |= Sample::HOLD;
            }
            self.put(sample);
        }
    }
}
