//! The chip at its pins, by the rules over the full list of a session's bits.

use std::mem;

use crate::refusal::Refusal;
use crate::sheet::{Command, Sheet, Stored};

/// What SO shows.
#[derive(Clone, Copy, Debug, PartialEq, Eq)]
pub enum Level {
    Low,
    High,
    HighZ,
}

impl Level {
    pub fn number(self) -> u8 {
        match self {
            Level::Low => 0,
            Level::High => 1,
            Level::HighZ => 2,
        }
    }

    /// SO read as a bit: high-Z is read as 1.
    pub fn bit(self) -> bool {
        self != Level::Low
    }
}

impl From<bool> for Level {
    fn from(bit: bool) -> Self {
        if bit { Level::High } else { Level::Low }
    }
}

/// One reading of the five input pins; 1 is high.
#[derive(Clone, Copy, Debug, PartialEq, Eq)]
pub struct Sample(u8);

impl Sample {
    pub const CS: u8 = 0x01;
    pub const SCK: u8 = 0x02;
    pub const SI: u8 = 0x04;
    pub const WP: u8 = 0x08;
    pub const HOLD: u8 = 0x10;

    /// What counts as the sample before the first one: CS is high.
    const BEFORE_THE_FIRST: Sample = Sample(0x1F);

    /// Whether a pin is high.
    pub fn has(self, pin: u8) -> bool {
        self.0 & pin != 0
    }
}

impl TryFrom<u8> for Sample {
    type Error = Refusal;

    /// A byte with a bit 5, 6 or 7 is no sample.
    fn try_from(byte: u8) -> Result<Self, Refusal> {
        if byte < 0x20 { Ok(Sample(byte)) } else { Err(Refusal::NotASample) }
    }
}

/// What a new sample means after the last one.
enum Event {
    /// Still deselected, or no clock edge that counts.
    Nothing,
    Begin,
    End,
    /// HOLD becomes low while CS is low.
    Hold,
    /// HOLD becomes high again while CS is low.
    Release,
    Rise {
        si: bool,
        wp: bool,
    },
    Fall,
}

impl Event {
    fn between(last: Sample, now: Sample) -> Self {
        match (last.has(Sample::CS), now.has(Sample::CS)) {
            (true, true) => Event::Nothing,
            (true, false) => Event::Begin,
            (false, true) => Event::End,
            (false, false) => match (last.has(Sample::HOLD), now.has(Sample::HOLD)) {
                (true, false) => Event::Hold,
                (false, false) => Event::Nothing,
                (false, true) => Event::Release,
                (true, true) => match (last.has(Sample::SCK), now.has(Sample::SCK)) {
                    (false, true) => Event::Rise { si: now.has(Sample::SI), wp: now.has(Sample::WP) },
                    (true, false) => Event::Fall,
                    _ => Event::Nothing,
                },
            },
        }
    }
}

/// The full list of the bits taken in a session, the first one first.
#[derive(Clone, Debug, Default, PartialEq, Eq)]
pub struct Session {
    bits: Vec<bool>,
}

impl Session {
    /// The number n of bits taken so far.
    pub fn taken(&self) -> usize {
        self.bits.len()
    }

    /// Some bits as a number, the highest first.
    fn number(bits: &[bool]) -> usize {
        bits.iter().fold(0, |number, &bit| 2 * number + usize::from(bit))
    }

    /// Bits 1 to 8.
    fn op_code(&self) -> Option<u8> {
        self.bits.get(..8).map(|bits| Self::number(bits) as u8)
    }

    /// Bits 9 to 24 modulo the number of cells.
    fn address(&self, cells: usize) -> usize {
        Self::number(&self.bits[8..24]) % cells
    }

    /// The byte that the last bit completes.
    fn last_byte(&self) -> u8 {
        Self::number(&self.bits[self.taken() - 8..]) as u8
    }
}

/// Whether a session is open, and of which sort.
#[derive(Clone, Copy, Debug, PartialEq, Eq)]
enum Selection {
    Deselected,
    /// An open session.
    Open,
    /// An open session that began asleep: nothing is taken or driven in it.
    Asleep,
    /// An open session in which HOLD came back at the other level of SCK: from then on nothing is taken or driven in
    /// it, and it ends as one of no command.
    Spoiled,
}

/// A chip without power. It takes no samples; powering uses it up.
#[derive(Debug, PartialEq, Eq)]
pub struct ParkedChip {
    sheet: Sheet,
    stored: Stored,
}

impl ParkedChip {
    pub fn new(sheet: Sheet, stored: Stored) -> Self {
        ParkedChip { sheet, stored }
    }

    pub fn sheet(&self) -> Sheet {
        self.sheet
    }

    pub fn stored(&self) -> Stored {
        self.stored
    }

    /// Joins the chip to lent memory: write latch and sleep mark are 0, and the chip is deselected.
    pub fn power(self, memory: &mut [u8]) -> Chip<'_> {
        Chip {
            sheet: self.sheet,
            stored: self.stored,
            memory,
            latch: false,
            asleep: false,
            last: Sample::BEFORE_THE_FIRST,
            held_at: false,
            selection: Selection::Deselected,
            session: Session::default(),
            driven: Level::HighZ,
        }
    }
}

/// A powered chip: fitted, or blank if the memory has another number of bytes than the chip has cells.
#[derive(Debug)]
pub struct Chip<'m> {
    sheet: Sheet,
    stored: Stored,
    memory: &'m mut [u8],
    /// WEL.
    latch: bool,
    /// The sleep mark.
    asleep: bool,
    last: Sample,
    /// SCK of the sample in which HOLD became low, or in which CS fell with HOLD low; it counts while HOLD is low.
    held_at: bool,
    selection: Selection,
    /// The bits of the open session; what it holds while none is open, or one that began asleep or is spoiled, counts
    /// for nothing.
    session: Session,
    /// What SO shows while HOLD is high.
    driven: Level,
}

impl<'m> Chip<'m> {
    pub fn sheet(&self) -> Sheet {
        self.sheet
    }

    pub fn stored(&self) -> Stored {
        self.stored
    }

    pub fn memory(&self) -> &[u8] {
        self.memory
    }

    pub fn latch(&self) -> bool {
        self.latch
    }

    pub fn asleep(&self) -> bool {
        self.asleep
    }

    pub fn fitted(&self) -> bool {
        self.memory.len() == self.sheet.cells()
    }

    /// A session is open while CS is low.
    pub fn selected(&self) -> bool {
        !self.last.has(Sample::CS)
    }

    /// The bits of the open session; none if none is open, it began asleep or it is spoiled.
    pub fn session(&self) -> Option<&Session> {
        match self.selection {
            Selection::Open => Some(&self.session),
            Selection::Deselected | Selection::Asleep | Selection::Spoiled => None,
        }
    }

    /// The last sample; before the first one all pins are high.
    pub fn last(&self) -> Sample {
        self.last
    }

    /// The level of SCK that an open session is held at, high or not; none while it is not held.
    pub fn held_at(&self) -> Option<bool> {
        (self.selected() && !self.last.has(Sample::HOLD)).then_some(self.held_at)
    }

    /// Whether the open session is spoiled.
    pub fn spoiled(&self) -> bool {
        self.selection == Selection::Spoiled
    }

    /// What SO shows: high-Z while HOLD is low, and at release what it showed before.
    pub fn so(&self) -> Level {
        if self.last.has(Sample::HOLD) { self.driven } else { Level::HighZ }
    }

    /// Takes power away; the memory keeps its bytes.
    pub fn power_off(self) -> ParkedChip {
        ParkedChip { sheet: self.sheet, stored: self.stored }
    }

    /// Takes power away and gives it back over the same memory.
    pub fn power_cycle(&mut self) {
        let parked = ParkedChip { sheet: self.sheet, stored: self.stored };
        *self = parked.power(mem::take(&mut self.memory));
    }

    /// Takes a sample, and answers what SO shows after it. A byte that is no sample counts for nothing.
    pub fn put(&mut self, byte: u8) -> Result<Level, Refusal> {
        let now = Sample::try_from(byte)?;
        let last = mem::replace(&mut self.last, now);
        // A blank chip's SO is always high-Z, and it changes nothing.
        if self.fitted() {
            match Event::between(last, now) {
                Event::Nothing => {}
                Event::Begin => {
                    self.held_at = now.has(Sample::SCK);
                    self.begin();
                }
                Event::End => self.end(),
                Event::Hold => self.held_at = now.has(Sample::SCK),
                Event::Release if now.has(Sample::SCK) != self.held_at => self.spoil(),
                Event::Release => {}
                Event::Rise { si, wp } => self.rise(si, wp),
                Event::Fall => self.fall(),
            }
        }
        Ok(self.so())
    }

    /// The status byte is the stored bits, then WEL as bit 1, then 0.
    pub fn status(&self) -> u8 {
        self.stored.byte() | u8::from(self.latch) << 1
    }

    fn begin(&mut self) {
        self.driven = Level::HighZ;
        self.session.bits.clear();
        self.selection = if self.asleep { Selection::Asleep } else { Selection::Open };
    }

    /// HOLD came back at the other level of SCK. What was done before stands, and only its end mends the session.
    fn spoil(&mut self) {
        self.driven = Level::HighZ;
        self.selection = Selection::Spoiled;
    }

    fn end(&mut self) {
        match self.selection {
            Selection::Deselected => {}
            // The end of a session that began asleep, or that is spoiled, clears the sleep mark, and does no more.
            Selection::Asleep | Selection::Spoiled => self.asleep = false,
            Selection::Open => match self.command() {
                // With the mark drop, a session with the op-code WRSR or WRITE clears WEL.
                Some(Command::Wrsr | Command::Write) if self.sheet.marks().drop => self.latch = false,
                // SLEEP with exactly 8 bits sets the sleep mark and clears WEL.
                Some(Command::Sleep) if self.session.taken() == 8 => {
                    self.asleep = true;
                    self.latch = false;
                }
                _ => {}
            },
        }
        self.driven = Level::HighZ;
        self.selection = Selection::Deselected;
    }

    /// The command of the open session. One of fewer than 8 bits has none, nor has one that began asleep or is spoiled.
    pub fn command(&self) -> Option<Command> {
        self.sheet.command(self.session()?.op_code()?)
    }

    /// A rise of SCK takes SI as the next bit and leaves SO.
    fn rise(&mut self, si: bool, wp: bool) {
        if self.selection == Selection::Open {
            self.session.bits.push(si);
            self.taken(wp);
        }
    }

    /// What the bit that was just taken does to the record.
    fn taken(&mut self, wp: bool) {
        match (self.command(), self.session.taken()) {
            (Some(Command::Wren), 8) => self.latch = true,
            (Some(Command::Wrdi), 8) => self.latch = false,
            // Stored if WEL is 1 and not both WPEN is 1 and WP is low in that sample.
            (Some(Command::Wrsr), 16) if self.latch && (wp || !self.stored.wpen()) => {
                self.stored = Stored::new(self.session.last_byte());
            }
            // Data byte k is complete. A protected cell takes no byte and still counts.
            (Some(Command::Write), n) if n >= 32 && n % 8 == 0 && self.latch => {
                let k = (n - 32) / 8;
                let cells = self.sheet.cells();
                let cell = (self.session.address(cells) + k) % cells;
                if cell < self.stored.first_protected(cells) {
                    self.memory[cell] = self.session.last_byte();
                }
            }
            _ => {}
        }
    }

    /// A fall of SCK sets SO and takes nothing.
    fn fall(&mut self) {
        self.driven = match self.selection {
            Selection::Open => self.falls_to(),
            // Nothing is driven in a session that began asleep or is spoiled.
            Selection::Deselected | Selection::Asleep | Selection::Spoiled => Level::HighZ,
        };
    }

    /// What a fall sets SO to, by the number n of bits taken so far.
    fn falls_to(&self) -> Level {
        match (self.command(), self.session.taken()) {
            // It repeats.
            (Some(Command::Rdsr), n) => Self::bit_of(self.status(), n - 8),
            // The last bit is held.
            (Some(Command::Rdid), n) => {
                let bit = (n - 8).min(31);
                Self::bit_of(self.sheet.id()[bit / 8], bit)
            }
            (Some(Command::Read), n) if n >= 24 => Self::bit_of(self.cell_read(n - 24), n - 24),
            (Some(Command::Fstrd), n) if n >= 32 => Self::bit_of(self.cell_read(n - 32), n - 32),
            _ => Level::HighZ,
        }
    }

    /// Bit number i modulo 8 of a byte, the highest being number 0.
    fn bit_of(byte: u8, i: usize) -> Level {
        Level::from(byte >> (7 - i % 8) & 1 != 0)
    }

    /// The cell that a read shows after so many of its bits, rolling over at the last cell.
    fn cell_read(&self, bits: usize) -> u8 {
        let cells = self.sheet.cells();
        self.memory[(self.session.address(cells) + bits / 8) % cells]
    }

    /// Takes a byte at once, where the open session has a whole number of bytes and the pins are at rest in mode 0, and
    /// answers the byte that is read; high-Z is read as 1.
    pub(crate) fn exchange(&mut self, byte: u8, wp: bool) -> u8 {
        // A session that began asleep or is spoiled takes and drives nothing, and a blank chip has none.
        if self.selection != Selection::Open {
            return 0xFF;
        }
        let read = self.byte_shown();
        self.session.bits.extend((0..8).rev().map(|i| byte >> i & 1 != 0));
        // Only the last bit of a byte changes the record.
        self.taken(wp);
        self.fall();
        read
    }

    /// The byte that the falls show from here on, which is settled before its first bit.
    fn byte_shown(&self) -> u8 {
        match (self.command(), self.session.taken()) {
            (Some(Command::Rdsr), _) => self.status(),
            (Some(Command::Rdid), n) => match self.sheet.id().get(n / 8 - 1) {
                Some(&byte) => byte,
                None if self.sheet.id()[3] & 1 != 0 => 0xFF,
                None => 0x00,
            },
            (Some(Command::Read), n) if n >= 24 => self.cell_read(n - 24),
            (Some(Command::Fstrd), n) if n >= 32 => self.cell_read(n - 32),
            _ => 0xFF,
        }
    }
}
