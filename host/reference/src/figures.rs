//! What each kind counts, and the penalty.

use crate::season::{unknown, Constraint, Season};

/// One game as a team sees it.
#[derive(Clone, Copy, PartialEq, Eq, Debug)]
pub struct Entry {
    pub opponent: usize,
    pub at_home: bool,
}

/// What each team does in each slot, and each placed game with its slot.
pub struct Diaries {
    /// `of[t][s]`: the game of team t in slot s, if it has one.
    pub of: Vec<Vec<Option<Entry>>>,
    /// (home, away, slot)
    pub placed: Vec<(usize, usize, usize)>,
}

impl Diaries {
    /// The diaries of a valid sheet.
    pub fn new(season: &Season, sheet: &[u8]) -> Diaries {
        let mut of = vec![vec![None; season.slots + 1]; season.teams];
        let mut placed = Vec::new();
        for (game, &slot) in season.games.iter().zip(sheet) {
            let slot = slot as usize;
            if slot > 0 {
                of[game.home][slot] = Some(Entry { opponent: game.away, at_home: true });
                of[game.away][slot] = Some(Entry { opponent: game.home, at_home: false });
                placed.push((game.home, game.away, slot));
            }
        }
        Diaries { of, placed }
    }
}

/// Whether a mode asks for home games (for away games, if `at_home` is false).
fn asks(mode: u8, at_home: bool) -> bool {
    match mode {
        1 | 4 => at_home,
        2 | 5 => !at_home,
        3 | 6 => true,
        _ => panic!("no mode has the number {mode}"),
    }
}

/// How far a count is outside kmin..kmax.
fn outside(c: &Constraint, count: i64) -> i64 {
    (c.kmin - count).max(count - c.kmax).max(0)
}

/// The deviations of a constraint, in the order of the ledger.
pub fn deviations(season: &Season, diaries: &Diaries, c: &Constraint) -> Vec<u32> {
    let teams: Vec<usize> = (0..season.teams).filter(|&t| c.t1[t]).collect();
    let slots: Vec<usize> = (1..=season.slots).filter(|&s| c.s[s]).collect();
    let mut pairs = Vec::new();
    for (at, &i) in teams.iter().enumerate() {
        for &j in &teams[at + 1..] {
            pairs.push((i, j));
        }
    }

    let found: Vec<i64> = match c.kind {
        11 => teams.iter().map(|&t| outside(c, games(diaries, c.mode, t, None, slots.iter().copied()))).collect(),
        12 => teams.iter().map(|&t| outside(c, games(diaries, c.mode, t, Some(&c.t2), slots.iter().copied()))).collect(),
        13 => teams.iter().map(|&t| runs(season, diaries, c, t)).collect(),
        14 if c.mode > 3 => slots.iter().map(|&s| outside(c, between(diaries, c, |slot| slot == s))).collect(),
        14 => vec![outside(c, between(diaries, c, |slot| c.s[slot]))],
        15 => teams.iter().map(|&t| games_on_trips(c, &trips(season, diaries, c, t))).collect(),
        21 => {
            let fits = |&&(home, away, slot): &&(usize, usize, usize)| c.t1[home] && c.t2[away] && c.s[slot];
            vec![outside(c, diaries.placed.iter().filter(fits).count() as i64)]
        }
        31 => teams.iter().map(|&t| too_many_breaks(c, breaks(season, diaries, c, t))).collect(),
        32 => vec![too_many_breaks(c, teams.iter().map(|&t| breaks(season, diaries, c, t)).sum())],
        34 => teams.iter().map(|&t| (c.kmin - trips(season, diaries, c, t).len() as i64).max(0)).collect(),
        41 => teams.iter().map(|&t| home_away_gap(season, diaries, c, t)).collect(),
        42 => pairs.iter().map(|&(i, j)| games_gap(season, diaries, c, i, j)).collect(),
        51 => pairs.iter().map(|&(i, j)| closeness(season, diaries, c, i, j)).collect(),
        kind => unknown(kind),
    };
    found.into_iter().map(|d| d as u32).collect()
}

/// Games of team t on the mode's side, against a group if one is named, in the slots.
fn games(diaries: &Diaries, mode: u8, t: usize, against: Option<&[bool]>, slots: impl Iterator<Item = usize>) -> i64 {
    let mut count = 0;
    for s in slots {
        if let Some(entry) = diaries.of[t][s] {
            if asks(mode, entry.at_home) && against.is_none_or(|group| group[entry.opponent]) {
                count += 1;
            }
        }
    }
    count
}

/// CA3: the deviations of all runs of w slots, added up.
fn runs(season: &Season, diaries: &Diaries, c: &Constraint, t: usize) -> i64 {
    let w = c.w as usize;
    let mut sum = 0;
    let mut first = 1;
    while first + w - 1 <= season.slots {
        sum += outside(c, games(diaries, c.mode, t, Some(&c.t2), first..first + w));
        first += 1;
    }
    sum
}

/// CA4: games with a team of T1 on the mode's side and a team of T2 on the other.
fn between(diaries: &Diaries, c: &Constraint, counts: impl Fn(usize) -> bool) -> i64 {
    let mut count = 0;
    for &(home, away, slot) in &diaries.placed {
        let as_home = asks(c.mode, true) && c.t1[home] && c.t2[away];
        let as_away = asks(c.mode, false) && c.t1[away] && c.t2[home];
        if counts(slot) && (as_home || as_away) {
            count += 1;
        }
    }
    count
}

/// Breaks of team t of the mode's side in S.
fn breaks(season: &Season, diaries: &Diaries, c: &Constraint, t: usize) -> i64 {
    let mut count = 0;
    let mut last_at_home = None;
    for s in 1..=season.slots {
        if let Some(entry) = diaries.of[t][s] {
            if last_at_home == Some(entry.at_home) && asks(c.mode, entry.at_home) && c.s[s] {
                count += 1;
            }
            last_at_home = Some(entry.at_home);
        }
    }
    count
}

/// BR1 and BR2: "no more than" for modes 1 to 3, "exactly" for 4 to 6.
fn too_many_breaks(c: &Constraint, count: i64) -> i64 {
    if c.mode > 3 {
        (c.kmax - count).abs()
    } else {
        (count - c.kmax).max(0)
    }
}

/// Away games of a team: slot and opponent of each, in the order of the slots.
type AwayGames = Vec<(usize, usize)>;

/// The trips of team t that count: away games up to the next home game, two or more of them, the first and the last one in S.
fn trips(season: &Season, diaries: &Diaries, c: &Constraint, t: usize) -> Vec<AwayGames> {
    let mut found: Vec<AwayGames> = Vec::new();
    let mut was_away = false;
    for s in 1..=season.slots {
        let Some(entry) = diaries.of[t][s] else { continue };
        if !entry.at_home {
            if !was_away {
                found.push(Vec::new());
            }
            found.last_mut().unwrap().push((s, entry.opponent));
        }
        was_away = !entry.at_home;
    }
    found.retain(|games| games.len() >= 2 && c.s[games[0].0] && c.s[games[games.len() - 1].0]);
    found
}

/// CA5: for each trip the games against T2, also those outside S, and how far that is outside kmin..kmax; added up.
fn games_on_trips(c: &Constraint, trips: &[AwayGames]) -> i64 {
    let against_t2 = |games: &AwayGames| games.iter().filter(|&&(_, opponent)| c.t2[opponent]).count() as i64;
    trips.iter().map(|games| outside(c, against_t2(games))).sum()
}

/// FA1: the largest |home - away| above kmax after a slot of S, games against T1 only.
fn home_away_gap(season: &Season, diaries: &Diaries, c: &Constraint, t: usize) -> i64 {
    let mut largest = 0;
    let mut difference: i64 = 0;
    for s in 1..=season.slots {
        if let Some(entry) = diaries.of[t][s] {
            if c.t1[entry.opponent] {
                difference += if entry.at_home { 1 } else { -1 };
            }
        }
        if c.s[s] {
            largest = largest.max(difference.abs() - c.kmax);
        }
    }
    largest
}

/// FA2: the largest difference in games of the mode above kmax after a slot of S, games against T1 only.
fn games_gap(season: &Season, diaries: &Diaries, c: &Constraint, i: usize, j: usize) -> i64 {
    let mut largest = 0;
    let mut difference: i64 = 0;
    for s in 1..=season.slots {
        difference += games(diaries, c.mode, i, Some(&c.t1), s..s + 1);
        difference -= games(diaries, c.mode, j, Some(&c.t1), s..s + 1);
        if c.s[s] {
            largest = largest.max(difference.abs() - c.kmax);
        }
    }
    largest
}

/// SE1: how many slots fewer than w lie between consecutive mutual games, added up.
fn closeness(season: &Season, diaries: &Diaries, c: &Constraint, i: usize, j: usize) -> i64 {
    let mutual = |s: &usize| diaries.of[i][*s].is_some_and(|entry| entry.opponent == j);
    let slots: Vec<usize> = (1..=season.slots).filter(mutual).collect();
    slots.windows(2).map(|two| (c.w - (two[0] + 1..two[1]).count() as i64).max(0)).sum()
}

/// Weight times the function of the deviations.
pub fn penalty(c: &Constraint, deviations: &[u32]) -> u64 {
    let wide = || deviations.iter().map(|&d| u64::from(d));
    let of_all = match c.function {
        1 => wide().sum(),
        2 => wide().sum::<u64>().pow(2),
        3 => wide().map(|d| d * d).sum(),
        4 => wide().min().unwrap_or(0),
        5 => wide().max().unwrap_or(0),
        other => panic!("no function has the number {other}"),
    };
    c.weight * of_all
}
