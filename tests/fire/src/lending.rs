//! What a call is lent beside the trace's bytes: how long each piece is, where
//! it lies, and what it holds.

use crate::dirt::Dirt;
use second::limits::{PIECE, PIECES};
use second::random::Random;
use std::fmt;
use std::ops::Range;

/// The memories of a call by number, in its order: the trace, the report and the
/// pieces of working room.
pub const TRACE: usize = 0;
pub const REPORT: usize = 1;
pub const FIRST_PIECE: usize = 2;
pub const MEMORIES: usize = FIRST_PIECE + PIECES;

pub const NAMES: [&str; MEMORIES] = [
    "trace",
    "report",
    "heads",
    "links",
    "events",
    "procedures",
    "sets",
    "starts",
    "joins",
];

/// Of how many bytes the numbers of each memory are.
pub const WIDTHS: [usize; MEMORIES] = [1, 4, 4, 4, 4, 4, 8, 4, 4];

/// Where lent numbers lie.
#[derive(Clone, Copy, PartialEq, Eq, Debug)]
pub enum Place {
    /// They begin right after a protected page.
    After,
    /// They end right before a protected page.
    Before,
    /// The pointer is NULL, and the length 0.
    Null,
}

pub const ENDS: [Place; 2] = [Place::After, Place::Before];

/// So many numbers at a place.
#[derive(Clone, Copy, PartialEq, Eq, Debug)]
pub struct Lent {
    pub length: usize,
    pub place: Place,
}

impl Lent {
    pub const NULL: Lent = Lent {
        length: 0,
        place: Place::Null,
    };

    /// Which bytes these are in a memory of so many, with numbers of this width.
    pub fn range(&self, memory: usize, width: usize) -> Range<usize> {
        let bytes = self.length * width;
        let first = match self.place {
            Place::After => 0,
            Place::Before => memory - bytes,
            Place::Null => {
                assert_eq!(bytes, 0, "NULL leads to nothing");
                0
            }
        };
        first..first + bytes
    }
}

impl fmt::Display for Lent {
    fn fmt(&self, to: &mut fmt::Formatter) -> fmt::Result {
        match self.place {
            Place::After => write!(to, "{} after a protected page", self.length),
            Place::Before => write!(to, "{} before a protected page", self.length),
            Place::Null => write!(to, "NULL"),
        }
    }
}

#[derive(Clone, PartialEq, Eq, Debug)]
pub struct Lending {
    /// Where the trace lies; NULL is for a trace of no bytes.
    pub trace: Place,
    pub report: Lent,
    pub pieces: [Lent; PIECES],
    pub dirt: Dirt,
    /// Chooses the marks, and the dirt where it is random.
    pub seed: u64,
    /// Nothing that is lent may be read or written at all: for codes 1 and 2,
    /// after which "nothing at all is touched".
    pub closed: bool,
}

impl Lending {
    /// Pieces of just the right sizes and a report of so many numbers, each
    /// right before a protected page, all full of random numbers.
    pub fn exact(report_length: usize) -> Lending {
        let lent = |length| Lent {
            length,
            place: Place::Before,
        };
        Lending {
            trace: Place::Before,
            report: lent(report_length),
            pieces: [lent(PIECE); PIECES],
            dirt: Dirt::Random,
            seed: 0,
            closed: false,
        }
    }

    /// Room enough, at random ends of random pages with random dirt, pieces
    /// often longer than they have to be, and any report.
    pub fn any(random: &mut Random) -> Lending {
        let most = random.pick(&[1, 4, 40, 400, 4_000]);
        let report_length = random.below(most) as usize;
        let mut lending = Lending::exact(report_length);
        lending.trace = random.pick(&ENDS);
        lending.report.place = random.pick(&ENDS);
        for piece in &mut lending.pieces {
            piece.place = random.pick(&ENDS);
            piece.length += random.pick(&[0, 0, 1, 2, 1_000]);
        }
        lending.dirt = random.pick(&Dirt::ALL);
        lending.seed = random.next_number();
        lending
    }

    pub fn lengths(&self) -> [usize; PIECES] {
        self.pieces.map(|piece| piece.length)
    }

    /// Lays one memory at a place.
    pub fn lay(&mut self, memory: usize, place: Place) {
        match memory {
            TRACE => self.trace = place,
            REPORT => self.report.place = place,
            piece => self.pieces[piece - FIRST_PIECE].place = place,
        }
    }

    /// What is lent of each memory, with a trace of so many bytes.
    pub fn memories(&self, trace_length: usize) -> [Lent; MEMORIES] {
        let trace = Lent {
            length: trace_length,
            place: self.trace,
        };
        std::array::from_fn(|memory| match memory {
            TRACE => trace,
            REPORT => self.report,
            piece => self.pieces[piece - FIRST_PIECE],
        })
    }
}

impl fmt::Display for Lending {
    fn fmt(&self, to: &mut fmt::Formatter) -> fmt::Result {
        let pages = if self.closed { "closed" } else { "open" };
        let (dirt, seed) = (self.dirt, self.seed);
        write!(to, "pages {pages}, dirt {dirt:?} of seed {seed}")?;
        write!(to, ", trace {:?}, report {}", self.trace, self.report)?;
        for (name, piece) in NAMES[FIRST_PIECE..].iter().zip(&self.pieces) {
            write!(to, ", {name} {piece}")?;
        }
        Ok(())
    }
}
