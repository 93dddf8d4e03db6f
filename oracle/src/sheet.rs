//! Sheets, commands and the stored status bits.

use crate::refusal::Refusal;

/// The marks of a sheet.
#[derive(Clone, Copy, Debug, Default, PartialEq, Eq)]
pub struct Marks {
    /// The write latch falls at the end of a WRSR or WRITE session.
    pub drop: bool,
    /// The chip has the command SLEEP.
    pub sleep: bool,
    /// The chip has the command FSTRD.
    pub fast: bool,
}

impl Marks {
    pub const MB85RS64VY: Marks = Marks { drop: false, sleep: true, fast: false };
    pub const MB85RS128TY: Marks = Marks { drop: false, sleep: true, fast: false };
    pub const MB85RS256B: Marks = Marks { drop: true, sleep: false, fast: true };
}

#[derive(Clone, Copy, Debug, PartialEq, Eq)]
pub enum Command {
    Wren,
    Wrdi,
    Rdsr,
    Wrsr,
    Read,
    Write,
    Rdid,
    Fstrd,
    Sleep,
}

/// One kind of chip.
#[derive(Clone, Copy, Debug, PartialEq, Eq)]
pub struct Sheet {
    t: u8,
    f: u8,
    marks: Marks,
}

/// The density in the third byte of an ID: its low five bits, which a known chip has from 1 to 5.
pub fn density(t: u8) -> Option<u8> {
    let d = t & 0x1F;
    (1..=5).contains(&d).then_some(d)
}

/// A chip of density d has 2^(10 + d) cells.
pub fn cells(d: u8) -> usize {
    1 << (10 + d)
}

impl Sheet {
    pub fn new(t: u8, f: u8, marks: Marks) -> Result<Self, Refusal> {
        density(t).map(|_| Sheet { t, f, marks }).ok_or(Refusal::NoSheet)
    }

    pub fn density(&self) -> u8 {
        self.t & 0x1F
    }

    pub fn cells(&self) -> usize {
        cells(self.density())
    }

    pub fn id(&self) -> [u8; 4] {
        [0x04, 0x7F, self.t, self.f]
    }

    pub fn marks(&self) -> Marks {
        self.marks
    }

    pub fn check_memory(&self, length: usize) -> Result<(), Refusal> {
        if length == self.cells() { Ok(()) } else { Err(Refusal::MemoryLength) }
    }

    /// The command of an op-code. One that the sheet lacks counts as no command.
    pub fn command(&self, op_code: u8) -> Option<Command> {
        match op_code {
            0x06 => Some(Command::Wren),
            0x04 => Some(Command::Wrdi),
            0x05 => Some(Command::Rdsr),
            0x01 => Some(Command::Wrsr),
            0x03 => Some(Command::Read),
            0x02 => Some(Command::Write),
            0x9F => Some(Command::Rdid),
            0x0B if self.marks.fast => Some(Command::Fstrd),
            0xB9 if self.marks.sleep => Some(Command::Sleep),
            _ => None,
        }
    }
}

/// The stored status bits 7 to 2. Bits 1 and 0 of a given byte are dropped.
#[derive(Clone, Copy, Debug, Default, PartialEq, Eq)]
pub struct Stored(u8);

impl Stored {
    pub fn new(byte: u8) -> Self {
        Stored(byte & 0xFC)
    }

    pub fn byte(self) -> u8 {
        self.0
    }

    /// Bit 7: with WP low, the stored bits cannot be changed.
    pub fn wpen(self) -> bool {
        self.0 & 0x80 != 0
    }

    /// The first protected one of so many cells; all from there on are protected. BP1 BP0 = 00 protects none, 01 the
    /// upper quarter, 10 the upper half, 11 all.
    pub fn first_protected(self, cells: usize) -> usize {
        match (self.0 & 0x08 != 0, self.0 & 0x04 != 0) {
            (false, false) => cells,
            (false, true) => cells - cells / 4,
            (true, false) => cells - cells / 2,
            (true, true) => 0,
        }
    }
}
