//! What an I/O asks for, before anything of it is judged.

#[derive(Clone, Copy, Debug, PartialEq, Eq)]
pub enum Direction {
    Read,
    Write,
}

impl Direction {
    pub const BOTH: [Direction; 2] = [Direction::Read, Direction::Write];

    /// The name of such a request in a line of answers.
    pub fn name(self) -> &'static str {
        match self {
            Direction::Read => "read-at",
            Direction::Write => "write-at",
        }
    }
}

/// A read or write of some bytes of the file.
#[derive(Clone, Copy, Debug, PartialEq, Eq)]
pub struct IoRequest {
    pub direction: Direction,
    pub offset: u64,
    pub length: u64,
}

impl IoRequest {
    pub fn read(offset: u64, length: u64) -> Self {
        IoRequest { direction: Direction::Read, offset, length }
    }

    pub fn write(offset: u64, length: u64) -> Self {
        IoRequest { direction: Direction::Write, offset, length }
    }
}
