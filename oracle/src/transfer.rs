//! A write and a read from the same start through a driver, over either bus, and a read of plain memory.

use crate::board::{Board, ChipImage, Memory, ReadBoard};
use crate::bus::{ByteBus, Line, Mode};
use crate::chip::{Chip, Sample};
use crate::driver::Driver;
use crate::refusal::Refusal;
use crate::script::Numbers;
use crate::sheet::Stored;

/// How a chip is reached. WP is high.
#[derive(Clone, Copy, Debug, PartialEq, Eq)]
pub enum Way {
    Bytes,
    Line(Mode, u8),
}

/// What a write and the read behind it came to, each as 0 or the number of its refusal.
#[derive(Clone, Copy, Debug, Default, PartialEq, Eq)]
pub struct Transfer {
    pub refusal: u32,
    pub written: u32,
    pub read: u32,
    pub stored: u8,
}

fn number_of(outcome: Result<(), Refusal>) -> u32 {
    outcome.map_or_else(|refusal| refusal.number().into(), |()| 0)
}

/// What a transfer takes besides the chip, which was just powered: the samples that are put before it, the start, and the
/// bytes to write.
#[derive(Clone, Copy, Debug)]
pub struct Order<'a> {
    pub before: &'a [u8],
    pub start: usize,
    pub bytes: &'a [u8],
}

/// The chip, just powered over this memory and left by samples; or the refusal.
fn left<'m>(numbers: &Numbers, memory: &'m mut [u8], before: &[u8]) -> Result<Chip<'m>, Transfer> {
    let parked = numbers.parked(memory.len()).map_err(|refusal| Transfer {
        refusal: refusal.number().into(),
        stored: Stored::new(numbers.stored).byte(),
        ..Transfer::default()
    })?;
    let mut chip = parked.power(memory);
    for &byte in before {
        // A byte that is no sample counts for nothing.
        let _ = chip.put(byte);
    }
    Ok(chip)
}

fn write_and_read(board: &mut impl Board, order: Order, buffer: &mut [u8]) -> (u32, u32) {
    let written = number_of(board.write(order.start, order.bytes));
    let read = number_of(board.read(order.start, buffer));
    (written, read)
}

/// A write of bytes, then a read into the buffer.
pub fn transfer(numbers: &Numbers, memory: &mut [u8], way: Way, order: Order, buffer: &mut [u8]) -> Transfer {
    let chip = match left(numbers, memory, order.before) {
        Ok(chip) => chip,
        Err(refused) => return refused,
    };
    let ((written, read), chip) = match way {
        Way::Bytes => {
            let mut driver = Driver::new(ByteBus::new(chip, true));
            (write_and_read(&mut driver, order, buffer), driver.into_bus().into_chip())
        }
        Way::Line(mode, held) => {
            let mut driver = Driver::new(Line::new(chip, mode, held, true));
            (write_and_read(&mut driver, order, buffer), driver.into_bus().into_chip())
        }
    };
    Transfer { refusal: 0, written, read, stored: chip.power_off().stored().byte() }
}

/// The same by the rule of a driver's image, with no byte exchanged.
pub fn transfer_by_image(numbers: &Numbers, memory: &mut [u8], order: Order, buffer: &mut [u8]) -> Transfer {
    let mut chip = match left(numbers, &mut *memory, order.before) {
        Ok(chip) => chip,
        Err(refused) => return refused,
    };
    // CS high ends any session.
    let _ = chip.put(Sample::CS | Sample::HOLD);
    let stored = chip.power_off().stored();
    let (written, read) = write_and_read(&mut ChipImage::new(memory, stored), order, buffer);
    Transfer { refusal: 0, written, read, stored: stored.byte() }
}

/// A read of plain memory: 0, or the number of its refusal.
pub fn read_plain(memory: &mut [u8], start: usize, buffer: &mut [u8]) -> u32 {
    number_of(Memory::new(memory).read(start, buffer))
}
