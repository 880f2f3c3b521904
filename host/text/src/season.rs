//! A season that has been read from bytes which the checker accepts.

use crate::kinds::{kind_by_number, Kind, Per};
use std::ops::RangeInclusive;

/// The sizes that a season may have, and how often two teams may meet.
pub const TEAMS: RangeInclusive<usize> = 2..=32;
pub const SLOTS: RangeInclusive<usize> = 1..=64;
pub const GAMES: RangeInclusive<usize> = 0..=1024;
pub const CONSTRAINTS: RangeInclusive<usize> = 0..=1024;
pub const MEETINGS: usize = 8;

pub struct Constraint {
    pub kind: &'static Kind,
    pub mode: u8,
    pub hard: bool,
    /// 1 to 5.
    pub function: u8,
    pub weight: u64,
    pub kmin: i64,
    pub kmax: i64,
    pub w: usize,
    /// Bit t is team t.
    pub t1: u64,
    pub t2: u64,
    /// Bit s - 1 is slot s.
    pub s: u64,
}

pub struct Season {
    pub teams: usize,
    pub slots: usize,
    /// (home, away)
    pub games: Vec<(usize, usize)>,
    pub constraints: Vec<Constraint>,
}

/// The sizes that six bytes give: teams, slots, games, constraints.
pub fn sizes(bytes: &[u8]) -> Option<[usize; 4]> {
    match *bytes {
        [teams, slots, g, gg, c, cc, ..] => {
            let number = |low, high| usize::from(u16::from_le_bytes([low, high]));
            Some([teams.into(), slots.into(), number(g, gg), number(c, cc)])
        }
        _ => None,
    }
}

/// Where the season ends and its sheet begins.
pub fn end(bytes: &[u8]) -> usize {
    sizes(bytes).map_or(bytes.len(), |[_, _, games, constraints]| (6 + 2 * games + 24 * constraints).min(bytes.len()))
}

/// The 8 bytes of a head and the 16 of a body of each constraint of a season of the right length.
pub fn heads_and_bodies(season: &[u8]) -> Vec<(&[u8], &[u8])> {
    let Some([_, _, games, constraints]) = sizes(season) else { return Vec::new() };
    if season.len() != 6 + 2 * games + 24 * constraints {
        return Vec::new();
    }
    let (heads, bodies) = season[6 + 2 * games..].split_at(8 * constraints);
    heads.chunks(8).zip(bodies.chunks(16)).collect()
}

/// E, how many deviations the constraints have; what a wrong constraint adds does not matter, since it is refused.
pub fn deviations(season: &[u8]) -> usize {
    let ones = |bytes: &[u8]| bytes.iter().map(|byte| byte.count_ones() as usize).sum();
    let of_one = |(head, body): (&[u8], &[u8])| {
        kind_by_number(head[0]).map_or(0, |kind| kind.deviations(head[1], ones(&body[..4]), ones(&body[8..])))
    };
    heads_and_bodies(season).into_iter().map(of_one).sum()
}

impl Season {
    /// Reads a season that the checker has accepted.
    pub fn read(bytes: &[u8]) -> Option<Season> {
        let [teams, slots, games, _] = sizes(bytes)?;
        let (homes, rest) = bytes[6..].split_at(games);
        let pair = |(&home, &away): (&u8, &u8)| (usize::from(home), usize::from(away));
        let constraints = heads_and_bodies(bytes).into_iter().map(|(head, body)| constraint(head, body)).collect::<Option<_>>()?;
        Some(Season { teams, slots, games: homes.iter().zip(rest).map(pair).collect(), constraints })
    }
}

fn constraint(head: &[u8], body: &[u8]) -> Option<Constraint> {
    let number = |bytes: &[u8]| bytes.iter().rev().fold(0, |value, &byte| value << 8 | u64::from(byte));
    Some(Constraint {
        kind: kind_by_number(head[0])?,
        mode: head[1],
        hard: head[2] == 1,
        function: head[3],
        weight: head[4].into(),
        kmin: head[5].into(),
        kmax: head[6].into(),
        w: head[7].into(),
        t1: number(&body[..4]),
        t2: number(&body[4..8]),
        s: number(&body[8..]),
    })
}

/// The numbers of the bits that are set.
pub fn bits(group: u64) -> impl Iterator<Item = usize> + Clone {
    (0..64).filter(move |k| group >> k & 1 == 1)
}

impl Constraint {
    pub fn has_team(&self, team: usize) -> bool {
        self.t1 >> team & 1 == 1
    }

    pub fn has_opponent(&self, team: usize) -> bool {
        self.t2 >> team & 1 == 1
    }

    pub fn has_slot(&self, slot: usize) -> bool {
        self.s >> (slot - 1) & 1 == 1
    }

    pub fn slots(&self) -> impl Iterator<Item = usize> + Clone {
        bits(self.s).map(|bit| bit + 1)
    }

    pub fn per(&self) -> Per {
        self.kind.per[usize::from(self.mode > 3)]
    }

    pub fn deviations(&self) -> usize {
        self.kind.deviations(self.mode, self.t1.count_ones() as usize, self.s.count_ones() as usize)
    }
}
