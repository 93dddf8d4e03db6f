//! The refusals and their numbers.

/// Why a call, a step or a run was refused. A refusal leaves everything as it was.
#[derive(Clone, Copy, Debug, PartialEq, Eq)]
pub enum Refusal {
    /// The density is not from 1 to 5.
    NoSheet,
    /// The memory has not exactly as many bytes as the chip has cells.
    MemoryLength,
    /// A sample has a bit 5, 6 or 7.
    NotASample,
    /// Start and count reach past the size of a board, or a shield has no such range.
    OutOfRange,
    /// The range of a write holds a fenced cell.
    Fenced,
    /// The ID that a driver read is not known.
    UnknownId,
    /// A shield has eight ranges already.
    ShieldFull,
    /// The run does not know the kind of the step at this place.
    UnknownKind { place: usize },
    /// The script ends inside the step at this place.
    ShortStep { place: usize },
    /// The answer buffer has fewer than 9 bytes for each step.
    ShortBuffer,
}

impl Refusal {
    pub fn number(self) -> u8 {
        match self {
            Refusal::NoSheet => 1,
            Refusal::MemoryLength => 2,
            Refusal::NotASample => 3,
            Refusal::OutOfRange => 4,
            Refusal::Fenced => 5,
            Refusal::UnknownId => 6,
            Refusal::ShieldFull => 7,
            Refusal::UnknownKind { .. } => 8,
            Refusal::ShortStep { .. } => 9,
            Refusal::ShortBuffer => 10,
        }
    }

    /// The place of the kind byte of the step at fault; 0 for the refusals that have none.
    pub fn place(self) -> usize {
        match self {
            Refusal::UnknownKind { place } | Refusal::ShortStep { place } => place,
            _ => 0,
        }
    }
}
