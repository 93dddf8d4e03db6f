//! Boards and their layers. A board is an image: its cells in order, each a byte that is free or fenced.

use crate::refusal::Refusal;
use crate::sheet::Stored;

/// A board has at most so many cells.
pub const MOST_CELLS: usize = 1 << 20;

/// The calls of a board that is only read. They leave the image as it is.
pub trait ReadBoard {
    fn size(&mut self) -> usize;

    /// As many cells from the start on as the buffer has room for. A refused read leaves the buffer.
    fn read(&mut self, start: usize, buffer: &mut [u8]) -> Result<(), Refusal>;
}

/// The calls of a board besides those. The fence question and every refused call leave the image as it is.
pub trait Board: ReadBoard {
    /// The first fenced place among so many from the start on.
    fn first_fence(&mut self, start: usize, count: usize) -> Result<Option<usize>, Refusal>;

    /// Puts all of the bytes into the cells from the start on, or none.
    fn write(&mut self, start: usize, bytes: &[u8]) -> Result<(), Refusal>;
}

/// A range of no cells lies in a board if its start is at most the size.
pub fn check_range(size: usize, start: usize, count: usize) -> Result<(), Refusal> {
    match start.checked_add(count) {
        Some(end) if end <= size => Ok(()),
        _ => Err(Refusal::OutOfRange),
    }
}

fn check_free(fence: Option<usize>) -> Result<(), Refusal> {
    match fence {
        None => Ok(()),
        Some(_) => Err(Refusal::Fenced),
    }
}

/// Reads bytes that are all cells.
fn read_bytes(cells: &[u8], start: usize, buffer: &mut [u8]) -> Result<(), Refusal> {
    check_range(cells.len(), start, buffer.len())?;
    buffer.copy_from_slice(&cells[start..start + buffer.len()]);
    Ok(())
}

/// The first place that is in both of two ranges, each from a start up to an end.
fn first_common((start, end): (usize, usize), (other_start, other_end): (usize, usize)) -> Option<usize> {
    let first = start.max(other_start);
    (first < end.min(other_end)).then_some(first)
}

#[derive(Clone, Copy, Debug, PartialEq, Eq)]
pub struct Cell {
    pub byte: u8,
    pub fenced: bool,
}

/// An image, written out as a plain list of cells.
#[derive(Clone, Debug, PartialEq, Eq)]
pub struct Cells(Vec<Cell>);

impl Cells {
    /// At most so many cells as a board may have; the others are cut off.
    pub fn new(mut cells: Vec<Cell>) -> Self {
        cells.truncate(MOST_CELLS);
        Cells(cells)
    }

    /// The image of a chip's memory.
    pub fn of_chip(memory: &[u8], stored: Stored) -> Self {
        let first = stored.first_protected(memory.len());
        Self::new(memory.iter().enumerate().map(|(place, &byte)| Cell { byte, fenced: place >= first }).collect())
    }

    pub fn list(&self) -> &[Cell] {
        &self.0
    }
}

impl ReadBoard for Cells {
    fn size(&mut self) -> usize {
        self.0.len()
    }

    fn read(&mut self, start: usize, buffer: &mut [u8]) -> Result<(), Refusal> {
        check_range(self.size(), start, buffer.len())?;
        for (byte, cell) in buffer.iter_mut().zip(&self.0[start..]) {
            *byte = cell.byte;
        }
        Ok(())
    }
}

impl Board for Cells {
    fn first_fence(&mut self, start: usize, count: usize) -> Result<Option<usize>, Refusal> {
        check_range(self.size(), start, count)?;
        Ok((start..start + count).find(|&place| self.0[place].fenced))
    }

    fn write(&mut self, start: usize, bytes: &[u8]) -> Result<(), Refusal> {
        check_free(self.first_fence(start, bytes.len())?)?;
        for (cell, &byte) in self.0[start..].iter_mut().zip(bytes) {
            cell.byte = byte;
        }
        Ok(())
    }
}

/// What the image of a driver over a fitted chip is by the rules: the memory in order, fenced from the first protected
/// cell on.
#[derive(Debug)]
pub struct ChipImage<'m> {
    memory: &'m mut [u8],
    first_protected: usize,
}

impl<'m> ChipImage<'m> {
    pub fn new(memory: &'m mut [u8], stored: Stored) -> Self {
        let first_protected = stored.first_protected(memory.len());
        ChipImage { memory, first_protected }
    }
}

impl ReadBoard for ChipImage<'_> {
    fn size(&mut self) -> usize {
        self.memory.len()
    }

    fn read(&mut self, start: usize, buffer: &mut [u8]) -> Result<(), Refusal> {
        read_bytes(self.memory, start, buffer)
    }
}

impl Board for ChipImage<'_> {
    fn first_fence(&mut self, start: usize, count: usize) -> Result<Option<usize>, Refusal> {
        check_range(self.size(), start, count)?;
        Ok(first_common((start, start + count), (self.first_protected, self.memory.len())))
    }

    fn write(&mut self, start: usize, bytes: &[u8]) -> Result<(), Refusal> {
        check_free(self.first_fence(start, bytes.len())?)?;
        self.memory[start..start + bytes.len()].copy_from_slice(bytes);
        Ok(())
    }
}

/// Plain memory: the first 1,048,576 bytes of lent memory, all free.
#[derive(Debug)]
pub struct Memory<'m>(&'m mut [u8]);

impl<'m> Memory<'m> {
    pub fn new(memory: &'m mut [u8]) -> Self {
        let size = memory.len().min(MOST_CELLS);
        Memory(&mut memory[..size])
    }
}

impl ReadBoard for Memory<'_> {
    fn size(&mut self) -> usize {
        self.0.len()
    }

    fn read(&mut self, start: usize, buffer: &mut [u8]) -> Result<(), Refusal> {
        read_bytes(self.0, start, buffer)
    }
}

impl Board for Memory<'_> {
    fn first_fence(&mut self, start: usize, count: usize) -> Result<Option<usize>, Refusal> {
        check_range(self.size(), start, count).map(|()| None)
    }

    fn write(&mut self, start: usize, bytes: &[u8]) -> Result<(), Refusal> {
        check_range(self.size(), start, bytes.len())?;
        self.0[start..start + bytes.len()].copy_from_slice(bytes);
        Ok(())
    }
}

/// A dump: the first 1,048,576 bytes of memory that nobody may write.
#[derive(Debug)]
pub struct Dump<'m>(&'m [u8]);

impl<'m> Dump<'m> {
    pub fn new(memory: &'m [u8]) -> Self {
        Dump(&memory[..memory.len().min(MOST_CELLS)])
    }
}

impl ReadBoard for Dump<'_> {
    fn size(&mut self) -> usize {
        self.0.len()
    }

    fn read(&mut self, start: usize, buffer: &mut [u8]) -> Result<(), Refusal> {
        read_bytes(self.0, start, buffer)
    }
}

/// The cells below that exist from the offset on, at most so many as the length.
#[derive(Debug)]
pub struct Window<B> {
    below: B,
    offset: usize,
    length: usize,
}

impl<B: ReadBoard> Window<B> {
    pub fn new(below: B, offset: usize, length: usize) -> Self {
        Window { below, offset, length }
    }

    /// Where a range of the window starts below. An offset past the end has no place there, but then only an empty
    /// range at 0 lies in the window, and the end below stands for it.
    fn start_below(&mut self, start: usize, count: usize) -> Result<usize, Refusal> {
        check_range(self.size(), start, count)?;
        Ok(self.offset.min(self.below.size()) + start)
    }
}

impl<B: ReadBoard> ReadBoard for Window<B> {
    fn size(&mut self) -> usize {
        self.below.size().saturating_sub(self.offset).min(self.length)
    }

    fn read(&mut self, start: usize, buffer: &mut [u8]) -> Result<(), Refusal> {
        let below = self.start_below(start, buffer.len())?;
        self.below.read(below, buffer)
    }
}

impl<B: Board> Board for Window<B> {
    fn first_fence(&mut self, start: usize, count: usize) -> Result<Option<usize>, Refusal> {
        let below = self.start_below(start, count)?;
        Ok(self.below.first_fence(below, count)?.map(|place| place - below + start))
    }

    fn write(&mut self, start: usize, bytes: &[u8]) -> Result<(), Refusal> {
        let below = self.start_below(start, bytes.len())?;
        self.below.write(below, bytes)
    }
}

/// The cells of the first board, then those of the second, cut at 1,048,576.
#[derive(Debug)]
pub struct Join<A, B> {
    first: A,
    second: B,
}

/// A range of a join in two: its start and count in the first board, and in the second.
struct Parts {
    first: (usize, usize),
    second: (usize, usize),
}

impl<A: ReadBoard, B: ReadBoard> Join<A, B> {
    pub fn new(first: A, second: B) -> Self {
        Join { first, second }
    }

    fn parts(&mut self, start: usize, count: usize) -> Result<Parts, Refusal> {
        check_range(self.size(), start, count)?;
        let seam = self.first.size();
        let in_first = count.min(seam.saturating_sub(start));
        Ok(Parts { first: (start.min(seam), in_first), second: (start.saturating_sub(seam), count - in_first) })
    }
}

impl<A: ReadBoard, B: ReadBoard> ReadBoard for Join<A, B> {
    fn size(&mut self) -> usize {
        (self.first.size() + self.second.size()).min(MOST_CELLS)
    }

    fn read(&mut self, start: usize, buffer: &mut [u8]) -> Result<(), Refusal> {
        let parts = self.parts(start, buffer.len())?;
        let (first, second) = buffer.split_at_mut(parts.first.1);
        self.first.read(parts.first.0, first)?;
        self.second.read(parts.second.0, second)
    }
}

impl<A: Board, B: Board> Board for Join<A, B> {
    fn first_fence(&mut self, start: usize, count: usize) -> Result<Option<usize>, Refusal> {
        let parts = self.parts(start, count)?;
        if let Some(place) = self.first.first_fence(parts.first.0, parts.first.1)? {
            return Ok(Some(place));
        }
        let seam = self.first.size();
        Ok(self.second.first_fence(parts.second.0, parts.second.1)?.map(|place| seam + place))
    }

    /// A write over the seam puts all its bytes or none, also where only one side is fenced.
    fn write(&mut self, start: usize, bytes: &[u8]) -> Result<(), Refusal> {
        let parts = self.parts(start, bytes.len())?;
        check_free(self.first_fence(start, bytes.len())?)?;
        let (first, second) = bytes.split_at(parts.first.1);
        self.first.write(parts.first.0, first)?;
        self.second.write(parts.second.0, second)
    }
}

/// The cells below, those in the ranges fenced besides those that are fenced below.
#[derive(Debug)]
pub struct Shield<B> {
    below: B,
    ranges: Vec<ShieldRange>,
}

#[derive(Clone, Copy, Debug)]
struct ShieldRange {
    start: usize,
    count: usize,
}

impl<B: Board> Shield<B> {
    pub const MOST_RANGES: usize = 8;

    pub fn new(below: B) -> Self {
        Shield { below, ranges: Vec::new() }
    }

    /// A range may be empty, or lie past the size. A ninth is refused.
    pub fn add(&mut self, start: usize, count: usize) -> Result<(), Refusal> {
        if self.ranges.len() == Self::MOST_RANGES {
            return Err(Refusal::ShieldFull);
        }
        self.ranges.push(ShieldRange { start, count });
        Ok(())
    }

    /// Adds to the count of range i, counted from 0; it stops at 1,048,576.
    pub fn widen(&mut self, i: usize, by: usize) -> Result<(), Refusal> {
        let range = self.ranges.get_mut(i).ok_or(Refusal::OutOfRange)?;
        range.count = range.count.saturating_add(by).min(MOST_CELLS);
        Ok(())
    }
}

impl<B: ReadBoard> ReadBoard for Shield<B> {
    fn size(&mut self) -> usize {
        self.below.size()
    }

    fn read(&mut self, start: usize, buffer: &mut [u8]) -> Result<(), Refusal> {
        self.below.read(start, buffer)
    }
}

impl<B: Board> Board for Shield<B> {
    fn first_fence(&mut self, start: usize, count: usize) -> Result<Option<usize>, Refusal> {
        let below = self.below.first_fence(start, count)?;
        let shielded = |range: &ShieldRange| {
            first_common((start, start + count), (range.start, range.start.saturating_add(range.count)))
        };
        Ok(self.ranges.iter().filter_map(shielded).chain(below).min())
    }

    fn write(&mut self, start: usize, bytes: &[u8]) -> Result<(), Refusal> {
        check_free(self.first_fence(start, bytes.len())?)?;
        self.below.write(start, bytes)
    }
}

impl<B: ReadBoard + ?Sized> ReadBoard for Box<B> {
    fn size(&mut self) -> usize {
        (**self).size()
    }

    fn read(&mut self, start: usize, buffer: &mut [u8]) -> Result<(), Refusal> {
        (**self).read(start, buffer)
    }
}

impl<B: Board + ?Sized> Board for Box<B> {
    fn first_fence(&mut self, start: usize, count: usize) -> Result<Option<usize>, Refusal> {
        (**self).first_fence(start, count)
    }

    fn write(&mut self, start: usize, bytes: &[u8]) -> Result<(), Refusal> {
        (**self).write(start, bytes)
    }
}
