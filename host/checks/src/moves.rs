//! Random calls on a sheet: mostly moves that a person could make, with refused ones and numbers out of range among them.

use crate::Random;
use reference::{plain_step, Call, Season};

pub struct Mover {
    /// A few games that are moved again and again.
    favourites: Vec<usize>,
}

impl Mover {
    pub fn new(random: &mut Random, season: &Season) -> Mover {
        let games = season.games.len();
        let favourites = (0..4).filter(|_| games > 0).map(|_| random.below(games)).collect();
        Mover { favourites }
    }

    pub fn call(&self, random: &mut Random, season: &Season, sheet: &[u8]) -> Call {
        let games = season.games.len();
        if games == 0 || random.chance(12) {
            return out_of_range(random, games, season.slots);
        }
        let game = if random.chance(30) { random.one_of(&self.favourites) } else { random.below(games) };
        let placed: Vec<usize> = (0..games).filter(|&g| sheet[g] > 0).collect();
        match random.below(20) {
            0..=8 => legal_set(random, season, sheet, game),
            9 | 10 => Call::Set { game: game as u64, slot: 0 },
            11 | 12 => Call::Set { game: game as u64, slot: random.within(0, season.slots) as u64 },
            13 => Call::Set { game: game as u64, slot: sheet[game].into() },
            14..=16 if !placed.is_empty() => {
                // one that is accepted, if a few tries find it
                let mut call = Call::Exchange { game: 0, other: 0 };
                for _ in 0..6 {
                    call = Call::Exchange { game: random.one_of(&placed) as u64, other: random.one_of(&placed) as u64 };
                    if plain_step(season, sheet, call).is_ok() {
                        break;
                    }
                }
                call
            }
            17 | 18 => {
                // the game of the same pair with home and away the other way round
                let mirrored = |&other: &usize| {
                    season.games[other].home == season.games[game].away && season.games[other].away == season.games[game].home
                };
                let other = (0..games).find(mirrored).unwrap_or(random.below(games));
                Call::Exchange { game: game as u64, other: other as u64 }
            }
            _ => Call::Exchange { game: game as u64, other: random.below(games) as u64 },
        }
    }
}

/// A set that is accepted, if there is one for the game beside taking it off.
fn legal_set(random: &mut Random, season: &Season, sheet: &[u8], game: usize) -> Call {
    let first = random.below(season.slots);
    for k in 0..season.slots {
        let call = Call::Set { game: game as u64, slot: ((first + k) % season.slots + 1) as u64 };
        if call != (Call::Set { game: game as u64, slot: sheet[game].into() }) && plain_step(season, sheet, call).is_ok() {
            return call;
        }
    }
    Call::Set { game: game as u64, slot: 0 }
}

/// Numbers at and beyond the limits, also such that fit again when their high bits are dropped.
fn out_of_range(random: &mut Random, games: usize, slots: usize) -> Call {
    let (games, slots) = (games as u64, slots as u64);
    let low = random.bits() % (games + 1);
    let slot = random.bits() % (slots + 1);
    let large = random.one_of(&[
        games,
        games + 1,
        games.saturating_sub(1),
        1024,
        1025,
        (1 << 16) + low,
        (1 << 32) + low,
        (1 << 63) + low,
        u64::MAX,
        u64::MAX - low,
        random.clone().bits(),
    ]);
    let high_slot = random.one_of(&[
        slots,
        slots + 1,
        64,
        65,
        255,
        256 + slot,
        (1 << 16) + slot,
        (1 << 32) + slot,
        (1 << 63) + slot,
        u64::MAX,
        u64::MAX - slot,
    ]);
    match random.below(5) {
        0 => Call::Set { game: large, slot },
        1 => Call::Set { game: low, slot: high_slot },
        2 => Call::Set { game: large, slot: high_slot },
        3 => Call::Exchange { game: large, other: low },
        _ => Call::Exchange { game: low, other: if random.chance(20) { low } else { large } },
    }
}
