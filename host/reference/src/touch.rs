//! Which constraints a change of one game touches.

use crate::season::{unknown, Constraint, Game};

/// Whether the game's change from slot a to slot b (0: unplaced) touches the constraint.
pub fn touched(c: &Constraint, game: Game, a: u8, b: u8) -> bool {
    if a == b {
        return false;
    }
    let Game { home: i, away: j } = game;
    let last = c.s.iter().rposition(|&in_it| in_it).unwrap_or(0);
    let within_s = [a, b].iter().any(|&slot| c.s[slot as usize]);
    let up_to_last = [a, b].iter().any(|&slot| slot != 0 && slot as usize <= last);
    let one_in_t1 = c.t1[i] || c.t1[j];
    let both_in_t1 = c.t1[i] && c.t1[j];
    let t1_meets_t2 = (c.t1[i] && c.t2[j]) || (c.t1[j] && c.t2[i]);
    match c.kind {
        11 => one_in_t1 && within_s,
        12 | 14 => t1_meets_t2 && within_s,
        13 => t1_meets_t2,
        15 | 34 => one_in_t1,
        21 => c.t1[i] && c.t2[j] && within_s,
        31 | 32 => one_in_t1 && up_to_last,
        41 | 42 => both_in_t1 && up_to_last,
        51 => both_in_t1,
        kind => unknown(kind),
    }
}
