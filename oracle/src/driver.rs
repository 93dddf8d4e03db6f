//! A driver makes a board of any bus. It holds no cells: each call reads the chip anew.

use crate::board::{Board, ReadBoard, check_range};
use crate::bus::Bus;
use crate::refusal::Refusal;
use crate::sheet::{self, Stored};

const WREN: u8 = 0x06;
const WRDI: u8 = 0x04;
const RDSR: u8 = 0x05;
const READ: u8 = 0x03;
const WRITE: u8 = 0x02;
const RDID: u8 = 0x9F;

/// What is sent where only the byte that is read counts.
const FILLER: u8 = 0x00;

#[derive(Debug)]
pub struct Driver<B> {
    bus: B,
}

impl<B: Bus> Driver<B> {
    pub fn new(bus: B) -> Self {
        let mut driver = Driver { bus };
        driver.open();
        driver
    }

    pub fn bus(&self) -> &B {
        &self.bus
    }

    pub fn into_bus(self) -> B {
        self.bus
    }

    /// The density of the chip.
    pub fn probe(&mut self) -> Result<u8, Refusal> {
        self.open().ok_or(Refusal::UnknownId)
    }

    /// What each call begins with: ends any session, wakes the chip, sets its write latch to 0 and reads its ID.
    /// Answers the density, if the ID is known.
    fn open(&mut self) -> Option<u8> {
        self.bus.deselect();
        // The end of a session that began asleep wakes the chip; awake, a session of no bits does nothing.
        self.session(&[], &mut []);
        self.session(&[WRDI], &mut []);
        let mut id = [0; 4];
        self.session(&[RDID], &mut id);
        match id {
            [0x04, 0x7F, t, _] => sheet::density(t),
            _ => None,
        }
    }

    /// One session: sends some bytes, then reads some.
    fn session(&mut self, sent: &[u8], read: &mut [u8]) {
        self.bus.select();
        for &byte in sent {
            self.bus.exchange(byte);
        }
        for byte in read {
            *byte = self.bus.exchange(FILLER);
        }
        self.bus.deselect();
    }

    /// The bytes that a session at an address begins with.
    fn at(command: u8, start: usize) -> [u8; 3] {
        [command, (start >> 8) as u8, start as u8]
    }

    /// The first fenced place of a range in a chip of so many cells.
    fn fence(&mut self, size: usize, start: usize, count: usize) -> Option<usize> {
        let mut status = [0];
        self.session(&[RDSR], &mut status);
        let first = Stored::new(status[0]).first_protected(size).max(start);
        (first < start + count).then_some(first)
    }
}

impl<B: Bus> ReadBoard for Driver<B> {
    fn size(&mut self) -> usize {
        self.open().map_or(0, sheet::cells)
    }

    /// One READ session.
    fn read(&mut self, start: usize, buffer: &mut [u8]) -> Result<(), Refusal> {
        let size = self.size();
        check_range(size, start, buffer.len())?;
        if !buffer.is_empty() {
            self.session(&Self::at(READ, start), buffer);
        }
        Ok(())
    }
}

impl<B: Bus> Board for Driver<B> {
    fn first_fence(&mut self, start: usize, count: usize) -> Result<Option<usize>, Refusal> {
        let size = self.size();
        check_range(size, start, count)?;
        Ok(if count == 0 { None } else { self.fence(size, start, count) })
    }

    /// One WRITE session, between one of WREN and one of WRDI.
    fn write(&mut self, start: usize, bytes: &[u8]) -> Result<(), Refusal> {
        match self.first_fence(start, bytes.len())? {
            Some(_) => Err(Refusal::Fenced),
            None if bytes.is_empty() => Ok(()),
            None => {
                self.session(&[WREN], &mut []);
                self.bus.select();
                for &byte in Self::at(WRITE, start).iter().chain(bytes) {
                    self.bus.exchange(byte);
                }
                self.bus.deselect();
                self.session(&[WRDI], &mut []);
                Ok(())
            }
        }
    }
}
