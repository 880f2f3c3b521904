//! The readable form of a season and its sheet (docs/TEXT.md): text to bytes and back, names, reports in words, a page, lists of moves.

mod colours;
mod decode;
mod encode;
mod explain;
mod faults;
mod kinds;
mod library;
mod names;
mod page;
mod phrases;
mod play;
mod refusals;
mod report;
mod round_robin;
mod season;
mod words;

pub use decode::{decode, decode_named};
pub use encode::{encode, Encoded};
pub use faults::{Fault, Faults, SHOWN};
pub use library::{Books, Move, Reply};
pub use names::Names;
pub use page::page;
pub use play::{differences, line, make, moves};
pub use report::{report, verdict, Opened, Refused};
pub use season::{end, sizes};
