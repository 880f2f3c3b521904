//! The library's calls, on buffers with a margin on both sides that has to stay as it is.

use reference::{Buffers, Call, Reply};
use season_calls::Move;

const MARGIN: usize = 16;

/// Items between two margins.
struct Guarded<T> {
    all: Vec<T>,
    mark: T,
}

impl<T: Copy + PartialEq> Guarded<T> {
    fn new(items: &[T], mark: T) -> Guarded<T> {
        let margin = vec![mark; MARGIN];
        Guarded { all: [&margin, items, &margin].concat(), mark }
    }

    fn items(&self) -> &[T] {
        &self.all[MARGIN..self.all.len() - MARGIN]
    }

    fn items_mut(&mut self) -> &mut [T] {
        let end = self.all.len() - MARGIN;
        &mut self.all[MARGIN..end]
    }

    fn is_intact(&self) -> bool {
        let end = self.all.len() - MARGIN;
        self.all[..MARGIN].iter().chain(&self.all[end..]).all(|&item| item == self.mark)
    }
}

/// The four buffers as they are lent to the library.
pub struct Lent {
    season: Guarded<u8>,
    sheet: Guarded<u8>,
    ledger: Guarded<u32>,
    tally: Guarded<u64>,
}

impl Lent {
    pub fn new(season: &[u8], buffers: &Buffers) -> Lent {
        Lent {
            season: Guarded::new(season, 0xa5),
            sheet: Guarded::new(&buffers.sheet, 0xa5),
            ledger: Guarded::new(&buffers.ledger, 0xa5a5a5a5),
            tally: Guarded::new(&buffers.tally, 0xa5a5a5a5a5a5a5a5),
        }
    }

    /// Puts other contents of the same lengths into the buffers.
    pub fn refill(&mut self, buffers: &Buffers) {
        self.sheet.items_mut().copy_from_slice(&buffers.sheet);
        self.ledger.items_mut().copy_from_slice(&buffers.ledger);
        self.tally.items_mut().copy_from_slice(&buffers.tally);
    }

    /// Makes a call of the library.
    pub fn call(&mut self, call: Call) -> Reply {
        let (season, sheet) = (self.season.items(), self.sheet.items_mut());
        let (ledger, tally) = (self.ledger.items_mut(), self.tally.items_mut());
        plain(match call {
            Call::Open => season_calls::open(season, sheet, ledger, tally),
            Call::Set { game, slot } => season_calls::make(Move::Set { game, slot }, season, sheet, ledger, tally),
            Call::Exchange { game, other } => season_calls::make(Move::Exchange { game, other }, season, sheet, ledger, tally),
        })
    }

    pub fn season(&self) -> &[u8] {
        self.season.items()
    }

    pub fn sheet(&self) -> &[u8] {
        self.sheet.items()
    }

    pub fn ledger(&self) -> &[u32] {
        self.ledger.items()
    }

    pub fn tally(&self) -> &[u64] {
        self.tally.items()
    }

    /// The name of a buffer around which something was written.
    pub fn overrun(&self) -> Option<&'static str> {
        let intact = [
            (self.season.is_intact(), "season"),
            (self.sheet.is_intact(), "sheet"),
            (self.ledger.is_intact(), "ledger"),
            (self.tally.is_intact(), "tally"),
        ];
        intact.iter().find(|(good, _)| !good).map(|&(_, name)| name)
    }
}

/// The library's reply as the independent checker has it.
pub(crate) fn plain(reply: season_calls::Reply) -> Reply {
    Reply { declined: reply.declined, number: reply.number, infeasibility: reply.infeasibility, objective: reply.objective }
}
