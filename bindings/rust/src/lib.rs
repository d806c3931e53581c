//! Ties between wrapping counters: the report on a tie file, its sheet, the multipliers of its contradiction, and the
//! check of multipliers. The work is done by a static library whose functions are proved to meet their contracts; this
//! crate is not proved, and says in Rust's types what comes out of it.
//!
//! Each function takes the bytes of a whole tie file and works by the scale that the file's own mark names. None asks
//! anything of the bytes.

mod fault;
mod foreign;

pub use fault::{Fault, Refusal};

use foreign::{Spot, Summary};

/// A longer file is refused with [`Refusal::Contents`].
pub const MOST_BYTES: usize = 16_384;

/// What the report says of a file.
#[derive(Clone, Debug, PartialEq, Eq)]
pub struct Report {
    /// So many ties stand, the first ones of the file.
    pub standing: usize,
    /// So many digits are free: there are as many assignments that meet the ties as ways to choose these.
    pub free: u16,
    /// The tie that was refused, where one was.
    pub stop: Option<Stop>,
    /// The number of heads.
    pub heads: usize,
    /// The number of counters on each head.
    pub counters: usize,
    /// How many digits of each counter's code are settled, in the order head, then counter.
    pub settled: Vec<u8>,
}

/// A tie of the file that was refused by those before it.
#[derive(Clone, Copy, Debug, PartialEq, Eq)]
pub struct Stop {
    /// The tie, from 0.
    pub tie: usize,
    /// Why it was refused.
    pub refusal: Refusal,
    /// The term at fault, from 0, where the refusal names one.
    pub place: Option<usize>,
}

/// All start values that meet the ties that stand: the point plus multiples of the generators, and no others.
#[derive(Clone, Debug, PartialEq, Eq)]
pub struct Sheet {
    /// The number of free digits.
    pub free: u16,
    /// One code for each counter, in the order head, then counter.
    pub point: Vec<u32>,
    /// As many generators as counters, each with one code for each counter.
    pub generators: Vec<Vec<u32>>,
}

/// A tie that no assignment meets beside those before it.
#[derive(Clone, Debug, PartialEq, Eq)]
pub struct Contradiction {
    /// The tie, from 0.
    pub tie: usize,
    /// Multipliers that show it, one for each tie up to this one.
    pub multipliers: Vec<u32>,
}

/// The report on a file: its ties are posted in order until one is refused.
///
/// # Errors
///
/// A file, a mark or a layout that is refused, or want of memory.
pub fn report(file: &[u8]) -> Result<Report, Fault> {
    let mut summary = Summary::default();
    done(foreign::report(file, &mut summary), Spot::default())?;
    let places = usize::from(summary.heads) * usize::from(summary.counters);
    Ok(Report {
        standing: summary.standing,
        free: summary.free,
        stop: stop_in(&summary),
        heads: summary.heads.into(),
        counters: summary.counters.into(),
        settled: summary.settled[..places].to_vec(),
    })
}

fn stop_in(summary: &Summary) -> Option<Stop> {
    let refusal = Refusal::from_number(summary.stopped)?;
    Some(Stop {
        tie: summary.stopped_at.tie,
        refusal,
        place: refusal.names_term().then_some(summary.stopped_at.place),
    })
}

/// The sheet of the ties that stand, by the report.
///
/// # Errors
///
/// As for [`report`].
pub fn sheet(file: &[u8]) -> Result<Sheet, Fault> {
    let told = report(file)?;
    let places = told.heads * told.counters;
    let mut list = vec![0; places * (places + 1)];
    let mut free = 0;
    done(foreign::sheet(file, &mut list, &mut free), Spot::default())?;
    let mut rows = list.chunks_exact(places).map(<[u32]>::to_vec);
    Ok(Sheet {
        free,
        point: rows.next().unwrap_or_default(),
        generators: rows.collect(),
    })
}

/// The contradiction among the ties of a file, where posting them in order meets one; `None` where all of them stand.
///
/// # Errors
///
/// As for [`report`], and a tie that is refused for a fault of its own.
pub fn contradiction(file: &[u8]) -> Result<Option<Contradiction>, Fault> {
    let mut list = [0; foreign::MULTIPLIERS];
    let mut spot = Spot::default();
    let status = foreign::multipliers(file, &mut list, &mut spot);
    if status != Refusal::Contradiction.number() {
        return done(status, spot).map(|()| None);
    }
    Ok(Some(Contradiction {
        tie: spot.tie,
        multipliers: list[..=spot.tie].to_vec(),
    }))
}

/// Whether multipliers, one for each tie of the file in order, show that its ties contradict each other. Where they do,
/// no assignment meets all ties of the file.
///
/// # Errors
///
/// A file, a mark or a layout that is refused, fewer multipliers than ties, or a tie with a fault of its own.
pub fn check(file: &[u8], multipliers: &[u32]) -> Result<bool, Fault> {
    let mut yes = 0;
    let mut spot = Spot::default();
    done(foreign::check(file, multipliers, &mut yes, &mut spot), spot)?;
    Ok(yes == 1)
}

/// What a status says, with the place at which a call was refused.
fn done(status: u8, spot: Spot) -> Result<(), Fault> {
    if status == foreign::DONE {
        return Ok(());
    }
    Err(match Refusal::from_number(status) {
        Some(refusal) => Fault::refused(refusal, spot.tie, spot.place),
        None => Fault::Memory,
    })
}
