//! Reading a season: sentences 1 to 5 of the list of refusals, and the validity of a sheet.

/// Two teams of a game.
#[derive(Clone, Copy, PartialEq, Eq, Debug)]
pub struct Game {
    pub home: usize,
    pub away: usize,
}

/// A group of teams or slots: `group[k]` says whether k is in it. Slots count from 1, so a group of slots leaves place 0 empty.
pub type Group = Vec<bool>;

#[derive(Clone, Debug)]
pub struct Constraint {
    pub kind: u8,
    pub mode: u8,
    pub hard: bool,
    pub function: u8,
    pub weight: u64,
    pub kmin: i64,
    pub kmax: i64,
    pub w: i64,
    pub t1: Group,
    pub t2: Group,
    pub s: Group,
}

#[derive(Clone, Debug)]
pub struct Season {
    pub teams: usize,
    pub slots: usize,
    pub games: Vec<Game>,
    pub constraints: Vec<Constraint>,
}

/// How many members a group has.
pub fn size(group: &Group) -> usize {
    group.iter().filter(|&&in_it| in_it).count()
}

impl Constraint {
    /// How many deviations the constraint has.
    pub fn entries(&self) -> usize {
        let teams = size(&self.t1);
        match self.kind {
            11 | 12 | 13 | 15 | 31 | 34 | 41 => teams,
            14 if self.mode > 3 => size(&self.s),
            14 | 21 | 32 => 1,
            42 | 51 => teams * (teams - 1) / 2,
            kind => unknown(kind),
        }
    }
}

/// Every kind is named wherever kinds differ; `read` lets no other one through.
pub(crate) fn unknown(kind: u8) -> ! {
    panic!("no kind has the number {kind}")
}

impl Season {
    /// E: how many deviations all constraints have together.
    pub fn entries(&self) -> usize {
        self.constraints.iter().map(Constraint::entries).sum()
    }
}

/// The season that the bytes stand for, or the number of the first of sentences 1 to 5 that is true of them.
pub fn read(bytes: &[u8]) -> Result<Season, u8> {
    if bytes.len() < 6 {
        return Err(1);
    }
    let teams = bytes[0] as usize;
    let slots = bytes[1] as usize;
    let game_count = bytes[2] as usize + 256 * bytes[3] as usize;
    let constraint_count = bytes[4] as usize + 256 * bytes[5] as usize;
    if !(2..=32).contains(&teams) || !(1..=64).contains(&slots) || game_count > 1024 || constraint_count > 1024 {
        return Err(2);
    }
    if bytes.len() != 6 + 2 * game_count + 24 * constraint_count {
        return Err(3);
    }

    let (homes, rest) = bytes[6..].split_at(game_count);
    let (aways, rest) = rest.split_at(game_count);
    let (heads, bodies) = rest.split_at(8 * constraint_count);

    let mut games = Vec::new();
    let mut meetings = vec![vec![0; teams]; teams];
    for (&home, &away) in homes.iter().zip(aways) {
        let game = Game { home: home as usize, away: away as usize };
        if game.home >= teams || game.away >= teams || game.home == game.away {
            return Err(4);
        }
        meetings[game.home.min(game.away)][game.home.max(game.away)] += 1;
        games.push(game);
    }
    if meetings.iter().flatten().any(|&met| met > 8) {
        return Err(4);
    }

    let mut constraints = Vec::new();
    for (head, body) in heads.chunks(8).zip(bodies.chunks(16)) {
        constraints.push(read_constraint(head, body, teams, slots).ok_or(5)?);
    }
    Ok(Season { teams, slots, games, constraints })
}

/// The members of a group, lowest bit first; none if a bit from `limit` on is set.
fn members(bytes: &[u8], limit: usize) -> Option<Group> {
    let bit = |k: usize| bytes[k / 8] >> (k % 8) & 1 == 1;
    if (limit..8 * bytes.len()).any(bit) {
        return None;
    }
    Some((0..limit).map(bit).collect())
}

/// A constraint that keeps the rules of its kind, or none.
fn read_constraint(head: &[u8], body: &[u8], teams: usize, slots: usize) -> Option<Constraint> {
    let t1 = members(&body[0..4], teams)?;
    let t2 = members(&body[4..8], teams)?;
    let mut s = members(&body[8..16], slots)?;
    s.insert(0, false);
    let (kind, mode, hard, function, weight) = (head[0], head[1], head[2], head[3], head[4]);
    let (kmin, kmax, w) = (head[5], head[6], head[7]);
    let (in_t1, in_t2, in_s) = (size(&t1), size(&t2), size(&s));

    let mode_is_allowed = match kind {
        11 | 12 | 13 | 42 => (1..=3).contains(&mode),
        14 | 31 | 32 => (1..=6).contains(&mode),
        15 | 34 => mode == 2,
        21 | 41 | 51 => mode == 1,
        _ => return None,
    };
    let enough_teams = match kind {
        11 | 13 | 15 | 21 | 31 | 34 | 41 => in_t1 >= 1,
        12 => in_t1 >= 1 && (in_t1 > 1 || in_t2 > 1),
        14 | 32 | 42 | 51 => in_t1 > 1,
        _ => return None,
    };
    let t2_fits = match kind {
        12 | 13 | 14 | 15 | 21 => in_t2 >= 1,
        11 | 31 | 32 | 34 | 41 | 42 | 51 => in_t2 == 0,
        _ => return None,
    };
    let s_fits = match kind {
        11 | 12 | 14 | 15 | 21 | 31 | 32 | 34 | 41 | 42 => in_s >= 1,
        13 | 51 => in_s == 0,
        _ => return None,
    };
    let kmin_fits = match kind {
        11 | 12 | 13 | 14 | 15 | 21 => kmin <= kmax,
        31 | 32 | 41 | 42 | 51 => kmin == 0,
        34 => true,
        _ => return None,
    };
    let kmax_fits = match kind {
        11 | 12 | 13 | 14 | 15 | 21 | 31 | 41 | 42 => true,
        32 => kmax > 0,
        34 | 51 => kmax == 0,
        _ => return None,
    };
    let w_fits = match kind {
        13 | 51 => w >= 1,
        11 | 12 | 14 | 15 | 21 | 31 | 32 | 34 | 41 | 42 => w == 0,
        _ => return None,
    };
    let head_fits = hard <= 1 && (1..=5).contains(&function) && weight >= 1;

    let keeps = mode_is_allowed && enough_teams && t2_fits && s_fits && kmin_fits && kmax_fits && w_fits && head_fits;
    keeps.then_some(Constraint {
        kind,
        mode,
        hard: hard == 1,
        function,
        weight: weight.into(),
        kmin: kmin.into(),
        kmax: kmax.into(),
        w: w.into(),
        t1,
        t2,
        s,
    })
}

/// No slot above P, and no team twice in one slot.
pub fn sheet_is_valid(season: &Season, sheet: &[u8]) -> bool {
    let mut busy = vec![vec![false; season.slots + 1]; season.teams];
    for (game, &slot) in season.games.iter().zip(sheet) {
        let slot = slot as usize;
        if slot > season.slots {
            return false;
        }
        for team in [game.home, game.away] {
            if slot > 0 && busy[team][slot] {
                return false;
            }
            busy[team][slot] = true;
        }
    }
    true
}
