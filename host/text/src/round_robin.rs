//! Notes on fixtures that stand twice or are missing. A season need not be a round robin, so these are no faults.

use crate::faults::Fault;
use crate::names::Names;
use std::collections::HashMap;

/// The games between teams i and j in the two directions, by line.
type Meetings = [Vec<usize>; 2];

/// What does not fit the round robin that most pairs of teams play; without one, which fixtures stand twice.
pub fn notes(teams: usize, games: &[(usize, usize)], lines: &[usize], names: &Names) -> Vec<Fault> {
    let mut meetings: HashMap<(usize, usize), Meetings> = HashMap::new();
    for (&(home, away), &line) in games.iter().zip(lines) {
        meetings.entry((home.min(away), home.max(away))).or_default()[usize::from(home > away)].push(line);
    }
    let pairs = (0..teams).flat_map(|i| (i + 1..teams).map(move |j| (i, j)));
    let each: Vec<((usize, usize), Meetings)> = pairs.map(|pair| (pair, meetings.remove(&pair).unwrap_or_default())).collect();
    let rounds = rounds(&each);
    let mut notes: Vec<Fault> = each.iter().flat_map(|(pair, lines)| of_pair(*pair, lines, rounds, names)).collect();
    notes.sort_by_key(|note| note.line);
    notes
}

fn count(meetings: &Meetings) -> usize {
    meetings[0].len() + meetings[1].len()
}

/// How often each pair meets, if more than half of all pairs meet equally often.
fn rounds(each: &[((usize, usize), Meetings)]) -> Option<usize> {
    (1..=8).find(|&rounds| 2 * each.iter().filter(|(_, lines)| count(lines) == rounds).count() > each.len())
}

fn of_pair((i, j): (usize, usize), lines: &Meetings, rounds: Option<usize>, names: &Names) -> Vec<Fault> {
    let mut notes = Vec::new();
    let fixtures = [(i, j), (j, i)];
    let most = rounds.map_or(1, |rounds| rounds.div_ceil(2));
    for (fixture, lines) in fixtures.iter().zip(lines) {
        if lines.len() > most {
            let (last, earlier) = lines.split_last().expect("more than one line");
            let earlier: Vec<String> = earlier.iter().map(usize::to_string).collect();
            let message = format!(
                "{} stands {} ({} {})",
                names.fixture(*fixture),
                times(lines.len()),
                if earlier.len() == 1 { "also in line" } else { "also in lines" },
                earlier.join(", ")
            );
            notes.push(Fault { line: *last, message });
        }
    }
    let Some(rounds) = rounds else { return notes };
    let met = count(lines);
    if rounds % 2 == 0 {
        for (fixture, lines) in fixtures.iter().zip(lines) {
            if lines.len() < rounds / 2 {
                let message = format!("{} is missing; most pairs of teams {}", names.fixture(*fixture), meet(rounds));
                notes.push(Fault::whole(message));
            }
        }
    } else if met < rounds {
        notes.push(Fault::whole(other_count(names, (i, j), met, rounds)));
    }
    if met > rounds && notes.is_empty() {
        let last = lines.iter().flatten().max().copied().unwrap_or(0);
        notes.push(Fault { line: last, message: other_count(names, (i, j), met, rounds) });
    }
    notes
}

fn other_count(names: &Names, (i, j): (usize, usize), met: usize, rounds: usize) -> String {
    format!("{} and {} {}; most pairs of teams {}", names.team(i), names.team(j), meet(met), meet(rounds))
}

fn meet(count: usize) -> String {
    match count {
        0 => "never meet".into(),
        count => format!("meet {}", times(count)),
    }
}

fn times(count: usize) -> String {
    match count {
        1 => "once".into(),
        2 => "twice".into(),
        count => format!("{count} times"),
    }
}
