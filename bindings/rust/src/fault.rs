//! What can stop a call.

use std::error::Error;
use std::fmt;

/// The sixteen ways to be refused. `docs/refusals.md` says which has which condition.
#[derive(Clone, Copy, Debug, PartialEq, Eq, Hash)]
#[repr(u8)]
pub enum Refusal {
    /// The file is empty or too long, or ends within its table.
    Contents = 1,
    /// An entry's kind is wrong, or the bodies do not follow one another.
    Entry = 2,
    /// A body's length is none of its kind.
    Body = 3,
    /// The scale's base or length is not one of its kind.
    Numbers = 4,
    /// The number of heads or of counters is out of bounds.
    Shape = 5,
    /// A width is 0 or greater than the scale's length.
    Width = 6,
    /// The mark or the layout is not the one in use.
    Mark = 7,
    /// The caller's list is too short.
    List = 8,
    /// A tie's target is no counter of a head.
    Target = 9,
    /// A term's head or counter does not exist.
    Absent = 10,
    /// A term does not stand above the one before it.
    Order = 11,
    /// A factor or the right side is no code.
    NoCode = 12,
    /// A factor's level plus its counter's width is less than the target's width.
    Coarse = 13,
    /// There stand 64 ties already.
    Full = 14,
    /// No assignment meets this tie and all those before it.
    Contradiction = 15,
    /// There is no tie to withdraw.
    Nothing = 16,
}

const ALL: [Refusal; 16] = [
    Refusal::Contents,
    Refusal::Entry,
    Refusal::Body,
    Refusal::Numbers,
    Refusal::Shape,
    Refusal::Width,
    Refusal::Mark,
    Refusal::List,
    Refusal::Target,
    Refusal::Absent,
    Refusal::Order,
    Refusal::NoCode,
    Refusal::Coarse,
    Refusal::Full,
    Refusal::Contradiction,
    Refusal::Nothing,
];

impl Refusal {
    /// The refusal's number, 1 to 16.
    #[must_use]
    pub const fn number(self) -> u8 {
        self as u8
    }

    /// The refusal of a number, where it is 1 to 16.
    #[must_use]
    pub fn from_number(number: u8) -> Option<Refusal> {
        ALL.into_iter().find(|refusal| refusal.number() == number)
    }

    /// Whether the refusal is of a tie of the file.
    #[must_use]
    pub const fn names_tie(self) -> bool {
        9 <= self.number() && self.number() <= 15
    }

    /// Whether the refusal names a term of the tie.
    #[must_use]
    pub const fn names_term(self) -> bool {
        10 <= self.number() && self.number() <= 13
    }
}

/// What stopped a call.
#[derive(Clone, Copy, Debug, PartialEq, Eq)]
pub enum Fault {
    /// It was refused.
    Refused {
        /// Why.
        refusal: Refusal,
        /// The tie at fault, from 0, where the refusal is a tie's.
        tie: Option<usize>,
        /// The term at fault, from 0, where the refusal is a term's. In [`Refusal::NoCode`] the number of terms stands
        /// for the right side.
        place: Option<usize>,
    },
    /// There was no memory for a book.
    Memory,
}

impl Fault {
    pub(crate) fn refused(refusal: Refusal, tie: usize, place: usize) -> Fault {
        Fault::Refused {
            refusal,
            tie: refusal.names_tie().then_some(tie),
            place: refusal.names_term().then_some(place),
        }
    }
}

impl fmt::Display for Fault {
    fn fmt(&self, f: &mut fmt::Formatter<'_>) -> fmt::Result {
        let Fault::Refused {
            refusal,
            tie,
            place,
        } = self
        else {
            return write!(f, "no memory for the book");
        };
        write!(f, "refused {}", refusal.number())?;
        for number in [tie, place].into_iter().flatten() {
            write!(f, " {number}")?;
        }
        Ok(())
    }
}

impl Error for Fault {}
