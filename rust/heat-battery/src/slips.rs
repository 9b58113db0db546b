//! What is wrong in a text.

use crate::refusal::Refusal;
use std::fmt;

/// One thing wrong in a text.
#[derive(Clone, Debug, PartialEq, Eq)]
pub struct Slip {
    /// The line of the text, from 1; None for the whole text.
    pub line: Option<usize>,
    /// What is wrong.
    pub words: String,
    /// The refusal of a number that is out of range; None where the text can't be read.
    pub refusal: Option<Refusal>,
}

impl fmt::Display for Slip {
    fn fmt(&self, f: &mut fmt::Formatter<'_>) -> fmt::Result {
        if let Some(line) = self.line {
            write!(f, "line {line}: ")?;
        }
        f.write_str(&self.words)?;
        match self.refusal {
            Some(refusal) => write!(f, " (refusal {})", refusal.number()),
            None => Ok(()),
        }
    }
}

/// The most slips that are kept; the others are counted.
const MOST_SLIPS: usize = 20;

/// What is wrong in a text, in the order in which it was found.
#[derive(Clone, Debug, Default, PartialEq, Eq)]
pub struct Slips {
    /// The first twenty.
    pub first: Vec<Slip>,
    /// How many there are besides.
    pub more: usize,
    unread: usize,
    /// The refusal of the lowest number, which is the one that is tested first.
    refusal: Option<Refusal>,
}

impl Slips {
    pub(crate) fn add(&mut self, slip: Slip) {
        self.unread += usize::from(slip.refusal.is_none());
        self.refusal = self.refusal.into_iter().chain(slip.refusal).min_by_key(Refusal::number);
        match self.first.len() < MOST_SLIPS {
            true => self.first.push(slip),
            false => self.more += 1,
        }
    }

    pub(crate) fn is_empty(&self) -> bool {
        self.first.is_empty()
    }

    /// The refusal that a card is given where its text can be read and what stands there is refused;
    /// None where something can't be read.
    pub fn refusal(&self) -> Option<Refusal> {
        self.refusal.filter(|_| self.unread == 0)
    }
}

/// A slip on each line.
impl fmt::Display for Slips {
    fn fmt(&self, f: &mut fmt::Formatter<'_>) -> fmt::Result {
        for (at, slip) in self.first.iter().enumerate() {
            let gap = if at == 0 { "" } else { "\n" };
            write!(f, "{gap}{slip}")?;
        }
        match self.more {
            0 => Ok(()),
            more => write!(f, "\nand {more} more"),
        }
    }
}

impl std::error::Error for Slips {}
