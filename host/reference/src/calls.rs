//! Open, set and exchange on the four buffers, the plain sheet, and the report program's printout.

use crate::figures::{deviations, penalty, Diaries};
use crate::season::{read, sheet_is_valid, Season};
use crate::touch::touched;
use std::fmt;

#[derive(Clone, Copy, PartialEq, Eq, Debug)]
pub struct Reply {
    pub declined: bool,
    pub number: u8,
    pub infeasibility: i64,
    pub objective: i64,
}

#[derive(Clone, Copy, PartialEq, Eq, Debug)]
pub enum Call {
    Open,
    Set { game: u64, slot: u64 },
    Exchange { game: u64, other: u64 },
}

impl fmt::Display for Call {
    fn fmt(&self, f: &mut fmt::Formatter) -> fmt::Result {
        match self {
            Call::Open => write!(f, "open"),
            Call::Set { game, slot } => write!(f, "set {game} {slot}"),
            Call::Exchange { game, other } => write!(f, "exchange {game} {other}"),
        }
    }
}

impl fmt::Display for Reply {
    fn fmt(&self, f: &mut fmt::Formatter) -> fmt::Result {
        let what = if self.declined { "refused" } else { "accepted" };
        write!(f, "{what}, {}, changes {:+} {:+}", self.number, self.infeasibility, self.objective)
    }
}

/// The buffers that a call may write.
#[derive(Clone, PartialEq, Eq, Debug)]
pub struct Buffers {
    pub sheet: Vec<u8>,
    pub ledger: Vec<u32>,
    pub tally: Vec<u64>,
}

/// All figures of a valid sheet, worked out anew.
pub struct Books {
    pub ledger: Vec<u32>,
    pub tally: Vec<u64>,
    pub verdict: u8,
}

impl Reply {
    fn refused(number: u8) -> Reply {
        Reply { declined: true, number, infeasibility: 0, objective: 0 }
    }
}

fn verdict(sheet: &[u8], infeasibility: u64) -> u8 {
    if sheet.contains(&0) {
        1
    } else if infeasibility > 0 {
        2
    } else {
        0
    }
}

/// The books of a valid sheet.
pub fn fresh(season: &Season, sheet: &[u8]) -> Books {
    let diaries = Diaries::new(season, sheet);
    let (mut ledger, mut tally) = (Vec::new(), Vec::new());
    let (mut hard, mut soft) = (0, 0);
    for c in &season.constraints {
        let found = deviations(season, &diaries, c);
        let cost = penalty(c, &found);
        *(if c.hard { &mut hard } else { &mut soft }) += cost;
        ledger.extend(found);
        tally.push(cost);
    }
    tally.extend([hard, soft]);
    Books { ledger, tally, verdict: verdict(sheet, hard) }
}

/// One step of the plain sheet: the sheet after the call, or the number of the first of sentences 9 to 13 that is true.
pub fn plain_step(season: &Season, sheet: &[u8], call: Call) -> Result<Vec<u8>, u8> {
    let games = season.games.len() as u64;
    let mut after = sheet.to_vec();
    match call {
        Call::Open => return Ok(after),
        Call::Set { game, .. } if game >= games => return Err(9),
        Call::Set { slot, .. } if slot > season.slots as u64 => return Err(10),
        Call::Set { game, slot } => after[game as usize] = slot as u8,
        Call::Exchange { game, other } if game >= games || other >= games => return Err(9),
        Call::Exchange { game, other } if game == other => return Err(11),
        Call::Exchange { game, other } => {
            if sheet[game as usize] == 0 || sheet[other as usize] == 0 {
                return Err(12);
            }
            after.swap(game as usize, other as usize);
        }
    }
    if sheet_is_valid(season, &after) {
        Ok(after)
    } else {
        Err(13)
    }
}

/// The season and the sheet after the call, or the number of the first sentence that is true.
fn judge(bytes: &[u8], sheet: &[u8], ledger: usize, tally: usize, call: Call) -> Result<(Season, Vec<u8>), u8> {
    let season = read(bytes)?;
    if sheet.len() != season.games.len() || ledger != season.entries() || tally != season.constraints.len() + 2 {
        return Err(7);
    }
    if !sheet_is_valid(&season, sheet) {
        return Err(8);
    }
    let after = plain_step(&season, sheet, call)?;
    Ok((season, after))
}

/// A call on any buffers: the figures of touched constraints are reworked, all others are kept as they are found.
pub fn call(bytes: &[u8], buffers: &mut Buffers, call: Call) -> Reply {
    let judged = judge(bytes, &buffers.sheet, buffers.ledger.len(), buffers.tally.len(), call);
    let (season, after) = match judged {
        Ok(accepted) => accepted,
        Err(number) => return Reply::refused(number),
    };
    if call == Call::Open {
        let books = fresh(&season, &after);
        let count = season.constraints.len();
        let reply = Reply {
            declined: false,
            number: books.verdict,
            infeasibility: books.tally[count] as i64,
            objective: books.tally[count + 1] as i64,
        };
        (buffers.ledger, buffers.tally) = (books.ledger, books.tally);
        return reply;
    }

    let diaries = Diaries::new(&season, &after);
    let mut changes = [0u64, 0u64];
    let mut at = 0;
    for (index, c) in season.constraints.iter().enumerate() {
        let moved = |(g, game): (usize, &_)| touched(c, *game, buffers.sheet[g], after[g]);
        if season.games.iter().enumerate().any(moved) {
            let found = deviations(&season, &diaries, c);
            let new = penalty(c, &found);
            let change = &mut changes[usize::from(!c.hard)];
            *change = change.wrapping_add(new).wrapping_sub(buffers.tally[index]);
            buffers.tally[index] = new;
            buffers.ledger[at..at + found.len()].copy_from_slice(&found);
        }
        at += c.entries();
    }
    let totals = &mut buffers.tally[season.constraints.len()..];
    totals[0] = totals[0].wrapping_add(changes[0]);
    totals[1] = totals[1].wrapping_add(changes[1]);
    let infeasibility = totals[0];
    buffers.sheet = after;
    Reply {
        declined: false,
        number: verdict(&buffers.sheet, infeasibility),
        infeasibility: changes[0] as i64,
        objective: changes[1] as i64,
    }
}

/// The same for correct books, working everything out: what a call costs that keeps nothing.
pub fn work_out(bytes: &[u8], sheet: &mut [u8], ledger: &mut [u32], tally: &mut [u64], call: Call) -> Reply {
    let (season, after) = match judge(bytes, sheet, ledger.len(), tally.len(), call) {
        Ok(accepted) => accepted,
        Err(number) => return Reply::refused(number),
    };
    let books = fresh(&season, &after);
    let count = season.constraints.len();
    let old = if call == Call::Open { [0, 0] } else { [tally[count], tally[count + 1]] };
    sheet.copy_from_slice(&after);
    ledger.copy_from_slice(&books.ledger);
    tally.copy_from_slice(&books.tally);
    Reply {
        declined: false,
        number: books.verdict,
        infeasibility: tally[count].wrapping_sub(old[0]) as i64,
        objective: tally[count + 1].wrapping_sub(old[1]) as i64,
    }
}

/// What the report program prints for an input.
pub fn report(input: &[u8]) -> String {
    let input = &input[..input.len().min(27655)];
    match report_of(input) {
        Ok(lines) => lines,
        Err(number) => format!("refused {number}\n"),
    }
}

fn report_of(input: &[u8]) -> Result<String, u8> {
    let length = match input {
        [_, _, g, gg, c, cc, ..] => {
            let (games, constraints) = (usize::from(*g) + 256 * usize::from(*gg), usize::from(*c) + 256 * usize::from(*cc));
            6 + 2 * games + 24 * constraints
        }
        _ => return Err(1),
    };
    let (bytes, sheet) = input.split_at(length.min(input.len()));
    let season = read(bytes)?;
    if season.entries() > 6000 {
        return Err(6);
    }
    if sheet.len() != season.games.len() {
        return Err(7);
    }
    if !sheet_is_valid(&season, sheet) {
        return Err(8);
    }
    let books = fresh(&season, sheet);
    let count = season.constraints.len();
    let mut lines = format!("{} {} {}\n", books.verdict, books.tally[count], books.tally[count + 1]);
    for (index, c) in season.constraints.iter().enumerate() {
        if books.tally[index] > 0 {
            lines += &format!("{index} {} {}\n", c.kind, books.tally[index]);
        }
    }
    Ok(lines)
}
