//! The proved library behind its C interface, on buffers of its own. Every figure that is shown comes from here.

use crate::season;

pub use season_calls::{Move, Reply};

/// The four buffers that are lent to each call.
#[derive(Clone, PartialEq, Eq, Debug)]
pub struct Books {
    season: Vec<u8>,
    sheet: Vec<u8>,
    pub(crate) ledger: Vec<u32>,
    pub(crate) tally: Vec<u64>,
}

impl Books {
    /// Opens a season with a sheet.
    pub fn open(season: &[u8], sheet: &[u8]) -> (Books, Reply) {
        let constraints = season::sizes(season).map_or(0, |[_, _, _, constraints]| constraints);
        let mut books = Books {
            season: season.to_vec(),
            sheet: sheet.to_vec(),
            ledger: vec![0; season::deviations(season)],
            tally: vec![0; constraints + 2],
        };
        let reply = season_calls::open(&books.season, &books.sheet, &mut books.ledger, &mut books.tally);
        (books, reply)
    }

    /// Makes a move.
    pub fn make(&mut self, step: Move) -> Reply {
        season_calls::make(step, &self.season, &mut self.sheet, &mut self.ledger, &mut self.tally)
    }

    pub fn season(&self) -> &[u8] {
        &self.season
    }

    pub fn sheet(&self) -> &[u8] {
        &self.sheet
    }

    pub fn ledger(&self) -> &[u32] {
        &self.ledger
    }

    /// The penalties, then the two totals.
    pub fn tally(&self) -> &[u64] {
        &self.tally
    }

    pub fn infeasibility(&self) -> u64 {
        self.tally[self.tally.len() - 2]
    }

    pub fn objective(&self) -> u64 {
        self.tally[self.tally.len() - 1]
    }
}
