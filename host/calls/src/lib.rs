//! The calls of the proved library (include/season_checker.h) on slices.

/// What a call answers.
#[derive(Clone, Copy, PartialEq, Eq, Debug)]
pub struct Reply {
    pub declined: bool,
    /// The refusal if declined, else the verdict.
    pub number: u8,
    pub infeasibility: i64,
    pub objective: i64,
}

/// The reply as C has it.
#[repr(C)]
pub struct RawReply {
    declined: u8,
    number: u8,
    infeasibility: i64,
    objective: i64,
}

impl RawReply {
    /// The first byte has to be 0 or 1.
    pub fn reply(self) -> Reply {
        assert!(self.declined <= 1, "the reply's first byte is {}", self.declined);
        Reply { declined: self.declined == 1, number: self.number, infeasibility: self.infeasibility, objective: self.objective }
    }
}

extern "C" {
    fn season_open(
        season: *const u8,
        season_len: usize,
        sheet: *const u8,
        sheet_len: usize,
        ledger: *mut u32,
        ledger_len: usize,
        tally: *mut u64,
        tally_len: usize,
    ) -> RawReply;
    fn season_set(
        season: *const u8,
        season_len: usize,
        sheet: *mut u8,
        sheet_len: usize,
        ledger: *mut u32,
        ledger_len: usize,
        tally: *mut u64,
        tally_len: usize,
        game: u64,
        slot: u64,
    ) -> RawReply;
    fn season_exchange(
        season: *const u8,
        season_len: usize,
        sheet: *mut u8,
        sheet_len: usize,
        ledger: *mut u32,
        ledger_len: usize,
        tally: *mut u64,
        tally_len: usize,
        game: u64,
        other: u64,
    ) -> RawReply;
}

/// A call that changes the sheet.
#[derive(Clone, Copy, PartialEq, Eq, Debug)]
pub enum Move {
    Set { game: u64, slot: u64 },
    Exchange { game: u64, other: u64 },
}

// The pointers are those of slices, with their true lengths; slices that are written overlap no other.

/// Opens a season with a sheet.
pub fn open(season: &[u8], sheet: &[u8], ledger: &mut [u32], tally: &mut [u64]) -> Reply {
    let (season, season_len) = (season.as_ptr(), season.len());
    let (sheet, sheet_len) = (sheet.as_ptr(), sheet.len());
    let (ledger, ledger_len) = (ledger.as_mut_ptr(), ledger.len());
    let (tally, tally_len) = (tally.as_mut_ptr(), tally.len());
    unsafe { season_open(season, season_len, sheet, sheet_len, ledger, ledger_len, tally, tally_len) }.reply()
}

/// Makes a move.
pub fn make(step: Move, season: &[u8], sheet: &mut [u8], ledger: &mut [u32], tally: &mut [u64]) -> Reply {
    let (season, season_len) = (season.as_ptr(), season.len());
    let (sheet, sheet_len) = (sheet.as_mut_ptr(), sheet.len());
    let (ledger, ledger_len) = (ledger.as_mut_ptr(), ledger.len());
    let (tally, tally_len) = (tally.as_mut_ptr(), tally.len());
    let raw = unsafe {
        match step {
            Move::Set { game, slot } => {
                season_set(season, season_len, sheet, sheet_len, ledger, ledger_len, tally, tally_len, game, slot)
            }
            Move::Exchange { game, other } => {
                season_exchange(season, season_len, sheet, sheet_len, ledger, ledger_len, tally, tally_len, game, other)
            }
        }
    };
    raw.reply()
}
