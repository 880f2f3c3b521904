//! What a refused opening or move is about. The number is the library's; here it is said which game, constraint, buffer or team is at
//! fault.

use crate::decode::constraint_faults;
use crate::library::Move;
use crate::names::Names;
use crate::season::{end, heads_and_bodies, sizes, Season, CONSTRAINTS, GAMES, MEETINGS, SLOTS, TEAMS};
use std::collections::HashMap;

/// What is at fault in a season with its sheet that the library refuses to open with this number; everything, not the first only.
pub fn of_open(bytes: &[u8], number: u8, names: &Names) -> Vec<String> {
    let (season, sheet) = bytes.split_at(end(bytes));
    let Some([teams, slots, games, constraints]) = sizes(season) else {
        return vec![format!("the season has {} bytes, and its sizes alone have 6", season.len())];
    };
    match number {
        2 => {
            let ranges = [
                ("teams", teams, TEAMS),
                ("slots", slots, SLOTS),
                ("games", games, GAMES),
                ("constraints", constraints, CONSTRAINTS),
            ];
            let wrong = ranges.iter().filter(|(_, size, range)| !range.contains(size));
            wrong
                .map(|(what, size, range)| format!("{size} {what}, and {} to {} are possible", range.start(), range.end()))
                .collect()
        }
        3 => {
            let length = 6 + 2 * games + 24 * constraints;
            vec![format!(
                "with {games} games and {constraints} constraints a season has {length} bytes, and there are {}",
                season.len()
            )]
        }
        4 => of_games(&season[6..], teams, games, names),
        5 => heads_and_bodies(season)
            .iter()
            .enumerate()
            .flat_map(|(at, (head, body))| {
                let name = names.constraint(at);
                constraint_faults(head, body, teams, slots).into_iter().map(move |fault| format!("{name}: {fault}"))
            })
            .collect(),
        7 if sheet.len() == games => vec!["the ledger or the tally has another length than the library wants".into()],
        7 => vec![format!("the sheet has {} items, and there are {games} games", sheet.len())],
        8 => Season::read(season).map_or(Vec::new(), |season| of_sheet(&season, sheet, names)),
        _ => Vec::new(),
    }
}

/// Sentence 4: teams that do not exist, a team against itself, more than 8 meetings.
fn of_games(bytes: &[u8], teams: usize, games: usize, names: &Names) -> Vec<String> {
    let mut met: HashMap<(usize, usize), usize> = HashMap::new();
    let mut found = Vec::new();
    for game in 0..games {
        let (home, away) = (usize::from(bytes[game]), usize::from(bytes[games + game]));
        let name = format!("game {game} ({})", names.fixture((home, away)));
        for team in [home, away].into_iter().filter(|&team| team >= teams) {
            found.push(format!("{name}: there is no team {team}; teams are 0 to {}", teams - 1));
        }
        if home == away {
            found.push(format!("{name}: a team cannot play against itself"));
        }
        let count = met.entry((home.min(away), home.max(away))).or_default();
        *count += 1;
        if *count > MEETINGS {
            found.push(format!("{name}: the pair's game number {count}, and at most {MEETINGS} are possible"));
        }
    }
    found
}

/// Sentence 8: slots that do not exist, a team twice in a slot.
fn of_sheet(season: &Season, sheet: &[u8], names: &Names) -> Vec<String> {
    let mut busy: HashMap<(usize, usize), usize> = HashMap::new();
    let mut found = Vec::new();
    for (game, &slot) in sheet.iter().enumerate() {
        let slot = usize::from(slot);
        let name = |game: usize| format!("game {game} ({})", names.fixture(season.games[game]));
        if slot > season.slots {
            found.push(format!("{}: there is no slot {slot}; slots are 1 to {}", name(game), season.slots));
        }
        let (home, away) = season.games[game];
        for team in [home, away].into_iter().filter(|_| slot > 0) {
            if let Some(&earlier) = busy.get(&(team, slot)) {
                let (team, slot) = (names.team(team), names.slot(slot));
                found.push(format!("{team} has two games in {slot}: {} and {}", name(earlier), name(game)));
            }
            busy.insert((team, slot), game);
        }
    }
    found
}

/// What is at fault in a move that the library refuses with this number on the given sheet.
pub fn of_move(season: &Season, sheet: &[u8], names: &Names, step: Move, number: u8) -> String {
    let games = season.games.len() as u64;
    let named = |game: u64| format!("game {game} ({})", names.fixture(season.games[game as usize]));
    let of_step = match step {
        Move::Set { game, .. } => vec![game],
        Move::Exchange { game, other } => vec![game, other],
    };
    match (number, step) {
        (9, _) => {
            let missing: Vec<String> = of_step.iter().filter(|&&game| game >= games).map(u64::to_string).collect();
            let range = if games == 0 { "there are no games".into() } else { format!("games are 0 to {}", games - 1) };
            format!("there is no game {}; {range}", missing.join(" and no game "))
        }
        (10, Move::Set { slot, .. }) => format!("there is no slot {slot}; slots are 1 to {}", season.slots),
        (11, Move::Exchange { game, .. }) => format!("both games are {}", named(game)),
        (12, _) => {
            let unplaced: Vec<String> = of_step.into_iter().filter(|&game| sheet[game as usize] == 0).map(named).collect();
            format!("{} {} unplaced", unplaced.join(" and "), if unplaced.len() == 1 { "is" } else { "are" })
        }
        (13, _) => clashes(season, sheet, names, step).join("; "),
        _ => String::new(),
    }
}

/// Which teams of the moved games already play in their new slots.
fn clashes(season: &Season, sheet: &[u8], names: &Names, step: Move) -> Vec<String> {
    let slot_of = |game: u64| u64::from(sheet[game as usize]);
    let moved = match step {
        Move::Set { game, slot } => vec![(game, slot)],
        Move::Exchange { game, other } => vec![(game, slot_of(other)), (other, slot_of(game))],
    };
    let mut found = Vec::new();
    for &(game, slot) in &moved {
        let (home, away) = season.games[game as usize];
        for (other, &(i, j)) in season.games.iter().enumerate() {
            let stays = moved.iter().all(|&(game, _)| game != other as u64);
            if !stays || slot == 0 || slot_of(other as u64) != slot {
                continue;
            }
            // One sentence a game, also where it is between the same two teams.
            if let Some(team) = [home, away].into_iter().find(|&team| team == i || team == j) {
                let opponent = names.team(if team == i { j } else { i });
                found.push(format!(
                    "{} already plays {opponent} in {} (game {other})",
                    names.team(team),
                    names.slot(slot as usize)
                ));
            }
        }
    }
    found
}
