//! Random seasons: every kind, mode and function, sizes and fields at their corners.

use crate::Random;

/// Every kind with its lowest and its highest mode.
pub const KIND_MODES: [(u8, u8, u8); 12] = [
    (11, 1, 3),
    (12, 1, 3),
    (13, 1, 3),
    (14, 1, 6),
    (15, 2, 2),
    (21, 1, 1),
    (31, 1, 6),
    (32, 1, 6),
    (34, 2, 2),
    (41, 1, 1),
    (42, 1, 3),
    (51, 1, 1),
];

/// How large a season may become.
#[derive(Clone, Copy)]
pub struct Shape {
    pub teams: usize,
    pub slots: usize,
    pub games: usize,
    pub constraints: usize,
}

impl Shape {
    pub const SMALL: Shape = Shape { teams: 6, slots: 9, games: 30, constraints: 40 };
    pub const MIDDLE: Shape = Shape { teams: 14, slots: 30, games: 182, constraints: 60 };
    pub const LARGEST: Shape = Shape { teams: 32, slots: 64, games: 1024, constraints: 120 };
}

/// A season and a sheet in the making.
#[derive(Clone)]
pub struct Draft {
    pub teams: usize,
    pub slots: usize,
    /// (home, away)
    pub games: Vec<(u8, u8)>,
    /// head and body
    pub constraints: Vec<([u8; 8], [u8; 16])>,
    pub sheet: Vec<u8>,
}

impl Draft {
    /// The season's bytes.
    pub fn bytes(&self) -> Vec<u8> {
        let mut bytes = vec![self.teams as u8, self.slots as u8];
        bytes.extend((self.games.len() as u16).to_le_bytes());
        bytes.extend((self.constraints.len() as u16).to_le_bytes());
        bytes.extend(self.games.iter().map(|game| game.0));
        bytes.extend(self.games.iter().map(|game| game.1));
        bytes.extend(self.constraints.iter().flat_map(|c| c.0));
        bytes.extend(self.constraints.iter().flat_map(|c| c.1));
        bytes
    }

    /// A random valid season with a random valid sheet.
    pub fn random(random: &mut Random, shape: Shape) -> Draft {
        let teams = corner(random, 2, shape.teams, &[2, 3]);
        let slots = corner(random, 1, shape.slots, &[1, 2]);
        let mut draft = Draft { teams, slots, games: Vec::new(), constraints: Vec::new(), sheet: Vec::new() };
        draft.draw_games(random, shape.games);
        draft.draw_sheet(random);
        let constraints = match random.below(20) {
            0 => 0,
            1 => 1,
            _ => random.within(1, shape.constraints),
        };
        for _ in 0..constraints {
            let (kind, lowest, highest) = random.one_of(&KIND_MODES);
            let mode = random.within(lowest.into(), highest.into()) as u8;
            draft.add_constraint(random, kind, mode);
        }
        draft
    }

    /// Round robins, single pairs with many meetings, or games at random; at most 8 meetings of a pair.
    pub fn draw_games(&mut self, random: &mut Random, most: usize) {
        let teams = self.teams as u8;
        let mut games = Vec::new();
        match random.below(6) {
            0 => {
                // one or two pairs that meet often
                for _ in 0..2 {
                    let home = random.below(self.teams) as u8;
                    let away = (home + 1 + random.below(self.teams - 1) as u8) % teams;
                    for _ in 0..random.within(1, 8) {
                        games.push(if random.chance(50) { (home, away) } else { (away, home) });
                    }
                }
            }
            1..=3 => {
                let rounds = random.within(1, 2);
                for i in 0..teams {
                    for j in (0..teams).filter(|&j| j != i && (rounds == 2 || i < j)) {
                        games.push(if rounds == 1 && random.chance(50) { (j, i) } else { (i, j) });
                    }
                }
            }
            4 => {
                for _ in 0..random.within(0, most) {
                    let home = random.below(self.teams) as u8;
                    games.push((home, (home + 1 + random.below(self.teams - 1) as u8) % teams));
                }
            }
            _ => {
                // as many as there may be
                for i in 0..teams {
                    for j in (0..teams).filter(|&j| j != i) {
                        games.extend([(i, j); 4]);
                    }
                }
            }
        }
        if random.chance(70) {
            random.shuffle(&mut games);
        }
        let mut met = std::collections::HashMap::new();
        games.retain(|&(i, j)| {
            let count = met.entry((i.min(j), i.max(j))).or_insert(0);
            *count += 1;
            *count <= 8
        });
        games.truncate(most);
        self.games = games;
    }

    /// Places games at random, from none to as many as find a slot.
    pub fn draw_sheet(&mut self, random: &mut Random) {
        let share = random.one_of(&[0, 30, 70, 90, 100, 100, 100]);
        let mut busy = vec![[false; 65]; self.teams];
        let mut order: Vec<usize> = (0..self.games.len()).collect();
        random.shuffle(&mut order);
        self.sheet = vec![0; self.games.len()];
        for game in order {
            if !random.chance(share) {
                continue;
            }
            let (home, away) = self.games[game];
            let first = random.below(self.slots);
            let free = |&slot: &usize| !busy[home as usize][slot] && !busy[away as usize][slot];
            let slot = (0..self.slots).map(|k| (first + k) % self.slots + 1).find(free);
            if let Some(slot) = slot {
                busy[home as usize][slot] = true;
                busy[away as usize][slot] = true;
                self.sheet[game] = slot as u8;
            }
        }
    }

    /// Adds a random constraint of a kind and mode that keeps the rules.
    pub fn add_constraint(&mut self, random: &mut Random, kind: u8, mode: u8) {
        let hard = random.below(2) as u8;
        let function = random.within(1, 5) as u8;
        let weight = match random.below(6) {
            0 => 255,
            1 | 2 => 1,
            _ => random.within(1, 255) as u8,
        };
        // whether kmin, kmax, w and T2 are used, and the fewest teams of T1; S is used where w is not
        let (uses_kmin, uses_kmax, needs_w, uses_t2, fewest) = match kind {
            11 => (true, true, false, false, 1),
            12 => (true, true, false, true, 1),
            13 => (true, true, true, true, 1),
            14 => (true, true, false, true, 2),
            15 => (true, true, false, true, 1),
            21 => (true, true, false, true, 1),
            31 | 41 => (false, true, false, false, 1),
            32 | 42 => (false, true, false, false, 2),
            34 => (true, false, false, false, 1),
            51 => (false, false, true, false, 2),
            _ => panic!("no kind has the number {kind}"),
        };
        let w = if needs_w { corner(random, 1, 255.min(self.slots + 2), &[1, self.slots, self.slots + 1, 255]) as u8 } else { 0 };
        let mut kmax = if random.chance(8) { random.one_of(&[64, 128, 254, 255]) } else { random.one_of(&[0u8, 0, 1, 1, 2, 3, 5]) };
        let mut kmin = if random.chance(40) { random.within(0, kmax.into()) as u8 } else { 0 };
        if random.chance(15) {
            kmin = kmax;
        }
        if !uses_kmin {
            kmin = 0;
        }
        if !uses_kmax {
            kmax = 0;
        }
        if kind == 32 {
            kmax = kmax.max(1);
        }
        if kind == 34 && random.chance(70) {
            // About as many trips as a team has; otherwise what was drawn, with kmax 0 below it.
            kmin = random.within(1, 4) as u8;
        }
        let t1 = group(random, self.teams, fewest);
        let t2 = match uses_t2 {
            true if kind == 12 && t1.count_ones() == 1 => group(random, self.teams, 2),
            true => group(random, self.teams, 1),
            false => 0,
        };
        let s = match kind {
            // A trip has two slots in S, and games after S can lengthen it.
            15 | 34 if self.slots > 1 && random.chance(60) => run_that_ends_early(random, self.slots),
            _ if needs_w => 0,
            _ => group(random, self.slots, 1),
        };
        let mut body = [0; 16];
        body[0..4].copy_from_slice(&(t1 as u32).to_le_bytes());
        body[4..8].copy_from_slice(&(t2 as u32).to_le_bytes());
        body[8..16].copy_from_slice(&s.to_le_bytes());
        self.constraints.push(([kind, mode, hard, function, weight, kmin, kmax, w], body));
    }
}

/// A size from `least` to `most`, with the ends and some others more often.
fn corner(random: &mut Random, least: usize, most: usize, often: &[usize]) -> usize {
    match random.below(10) {
        0 | 1 => most,
        2 | 3 => random.one_of(often).clamp(least, 255),
        _ => random.within(least, most),
    }
}

/// A run of slots before the last one, half of the time from the first.
fn run_that_ends_early(random: &mut Random, slots: usize) -> u64 {
    let last = random.within(1, slots - 1);
    let first = if random.chance(50) { 1 } else { random.within(1, last) };
    (u64::MAX >> (64 - last)) & (u64::MAX << (first - 1))
}

/// A group of at least `fewest` of `size` members.
fn group(random: &mut Random, size: usize, fewest: u32) -> u64 {
    let all = u64::MAX >> (64 - size);
    loop {
        let bits = match random.below(8) {
            0 | 1 => all,
            2 => 1 << random.below(size),
            3 => 1 | 1 << (size - 1),
            4 => {
                // a run
                let (a, b) = (random.below(size), random.below(size));
                (u64::MAX >> (63 - a.max(b))) & (u64::MAX << a.min(b))
            }
            5 => random.bits() & random.bits() & all,
            _ => random.bits() & all,
        };
        if bits.count_ones() >= fewest {
            return bits;
        }
    }
}
