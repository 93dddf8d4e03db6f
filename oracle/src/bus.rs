//! Buses: what sends and reads bytes. A bus means one chip and a fixed level of WP; making it ends any session of its
//! chip.

use crate::chip::{Chip, Level, Sample};

pub trait Bus {
    /// Begins a session if none is open.
    fn select(&mut self);

    /// Sends a byte, the highest bit first, and answers the bits of SO that are read at the rises; high-Z is read as 1.
    /// With no open session it answers FFh and changes nothing.
    fn exchange(&mut self, byte: u8) -> u8;

    /// Ends the session if there is one.
    fn deselect(&mut self);
}

/// The rest level of SCK.
#[derive(Clone, Copy, Debug, PartialEq, Eq)]
pub enum Mode {
    /// SCK rests low.
    Zero,
    /// SCK rests high.
    Three,
}

/// A line: it reaches its chip by samples alone.
#[derive(Debug)]
pub struct Line<'m> {
    chip: Chip<'m>,
    mode: Mode,
    /// Held samples before every bit, 0 to 7.
    held: u8,
    wp: bool,
    open: bool,
}

/// The pins that a line moves by itself; WP has the level of the bus.
struct Pins {
    cs: bool,
    sck: bool,
    si: bool,
    hold: bool,
}

impl<'m> Line<'m> {
    /// More than 7 held samples count as 7.
    pub fn new(chip: Chip<'m>, mode: Mode, held: u8, wp: bool) -> Self {
        let mut line = Line { chip, mode, held: held.min(7), wp, open: false };
        line.move_cs(true);
        line
    }

    pub fn chip(&self) -> &Chip<'m> {
        &self.chip
    }

    pub fn into_chip(self) -> Chip<'m> {
        self.chip
    }

    fn rest(&self) -> bool {
        self.mode == Mode::Three
    }

    fn put(&mut self, pins: Pins) -> Level {
        let sample = [
            (pins.cs, Sample::CS),
            (pins.sck, Sample::SCK),
            (pins.si, Sample::SI),
            (self.wp, Sample::WP),
            (pins.hold, Sample::HOLD),
        ]
        .iter()
        .fold(0, |sample, &(high, pin)| if high { sample | pin } else { sample });
        self.chip.put(sample).expect("five pins are a sample")
    }

    /// Moves CS with SI low, HOLD high and SCK at rest.
    fn move_cs(&mut self, cs: bool) {
        self.put(Pins { cs, sck: self.rest(), si: false, hold: true });
        self.open = !cs;
    }

    /// Sends one bit and answers the one that is read.
    fn bit(&mut self, si: bool) -> bool {
        let rest = self.rest();
        for _ in 0..self.held {
            self.put(Pins { cs: false, sck: rest, si, hold: false });
        }
        if self.held > 0 {
            self.put(Pins { cs: false, sck: rest, si, hold: true });
        }
        // A rise and a fall in mode 0, a fall and a rise in mode 3; SO is read in the sample in which SCK rises.
        let first = self.put(Pins { cs: false, sck: !rest, si, hold: true });
        let second = self.put(Pins { cs: false, sck: rest, si, hold: true });
        match self.mode {
            Mode::Zero => first.bit(),
            Mode::Three => second.bit(),
        }
    }
}

impl Bus for Line<'_> {
    fn select(&mut self) {
        if !self.open {
            self.move_cs(false);
        }
    }

    fn exchange(&mut self, byte: u8) -> u8 {
        if !self.open {
            return 0xFF;
        }
        (0..8).rev().fold(0, |read, i| read << 1 | u8::from(self.bit(byte >> i & 1 != 0)))
    }

    fn deselect(&mut self) {
        if self.open {
            self.move_cs(true);
        }
    }
}

/// The chip stepped by bytes: only CS moves, and a byte is taken at once. The chip is left as a line in mode 0 with no
/// held samples would leave it.
#[derive(Debug)]
pub struct ByteBus<'m> {
    chip: Chip<'m>,
    wp: bool,
}

impl<'m> ByteBus<'m> {
    pub fn new(chip: Chip<'m>, wp: bool) -> Self {
        let mut bus = ByteBus { chip, wp };
        bus.move_cs(true);
        bus
    }

    pub fn chip(&self) -> &Chip<'m> {
        &self.chip
    }

    pub fn into_chip(self) -> Chip<'m> {
        self.chip
    }

    /// The sample that moves CS: SCK and SI low, HOLD high.
    fn move_cs(&mut self, cs: bool) {
        let sample = Sample::HOLD | if cs { Sample::CS } else { 0 } | if self.wp { Sample::WP } else { 0 };
        self.chip.put(sample).expect("five pins are a sample");
    }
}

impl Bus for ByteBus<'_> {
    fn select(&mut self) {
        if !self.chip.selected() {
            self.move_cs(false);
        }
    }

    fn exchange(&mut self, byte: u8) -> u8 {
        if self.chip.selected() { self.chip.exchange(byte, self.wp) } else { 0xFF }
    }

    fn deselect(&mut self) {
        if self.chip.selected() {
            self.move_cs(true);
        }
    }
}
