//! An independent checker. It is written from docs/FORMAT.md and the formulas of section 3.2 of the RobinX paper, straight and slow, and
//! shares nothing with the proved crates: the tests hold the proved library against it.
//!
//! A sheet is turned into a diary for each team (who, where, in each slot), and every count walks diaries or the list of games.

mod calls;
mod figures;
mod season;
mod touch;

pub use calls::{call, fresh, plain_step, report, work_out, Books, Buffers, Call, Reply};
pub use figures::{deviations, penalty, Diaries};
pub use season::{read, sheet_is_valid, Constraint, Game, Season};
pub use touch::touched;
