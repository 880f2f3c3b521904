//! Small seasons, every valid sheet, every call on it: nothing is left to chance but the constraints.

use checks::{seed, times, Check, Draft, Outcome, Random, KIND_MODES};
use reference::{fresh, plain_step, read, sheet_is_valid, Buffers, Call, Reply, Season};
use std::collections::HashMap;

/// All valid sheets of a season.
fn sheets(season: &Season) -> Vec<Vec<u8>> {
    let mut found = vec![Vec::new()];
    for _ in &season.games {
        let longer = found.iter().flat_map(|sheet| {
            (0..=season.slots as u8).map(|slot| {
                let mut sheet: Vec<u8> = sheet.clone();
                sheet.push(slot);
                sheet
            })
        });
        found = longer.filter(|sheet| sheet_is_valid(season, sheet)).collect();
    }
    found
}

/// Every call with numbers up to one beyond the last.
fn calls(season: &Season) -> Vec<Call> {
    let (games, slots) = (season.games.len() as u64, season.slots as u64);
    let mut all = vec![Call::Open];
    for game in 0..=games {
        all.extend((0..=slots + 1).map(|slot| Call::Set { game, slot }));
        all.extend((0..=games).map(|other| Call::Exchange { game, other }));
    }
    all
}

/// Makes every call on every sheet, and compares it with fresh books of the plain sheet.
fn every_call(name: &str, draft: &Draft) -> u64 {
    let bytes = draft.bytes();
    let season = read(&bytes).unwrap();
    let sheets = sheets(&season);
    let mut books = HashMap::new();
    for sheet in &sheets {
        let fresh = fresh(&season, sheet);
        let buffers = Buffers { sheet: sheet.clone(), ledger: fresh.ledger, tally: fresh.tally };
        books.insert(sheet.clone(), (buffers, fresh.verdict));
    }
    let count = season.constraints.len();
    let calls = calls(&season);
    let mut check = Check::new(name.into(), &bytes, books[&sheets[0]].0.clone());
    for sheet in &sheets {
        let before = &books[sheet].0;
        for &call in &calls {
            let wanted = match plain_step(&season, sheet, call) {
                Err(number) => {
                    Outcome { reply: Reply { declined: true, number, infeasibility: 0, objective: 0 }, buffers: before.clone() }
                }
                Ok(after) => {
                    let (buffers, number) = books[&after].clone();
                    let change = |at: usize| {
                        let old = if call == Call::Open { 0 } else { before.tally[at] as i64 };
                        buffers.tally[at] as i64 - old
                    };
                    let (infeasibility, objective) = (change(count), change(count + 1));
                    Outcome { reply: Reply { declined: false, number, infeasibility, objective }, buffers }
                }
            };
            check.overwrite(before.clone());
            check.compare(call, wanted);
        }
    }
    println!("{name}: {} sheets, {} calls each", sheets.len(), calls.len());
    check.calls
}

/// A season with every kind and mode several times.
fn with_all_kinds(random: &mut Random, teams: usize, slots: usize, games: &[(u8, u8)], each: usize) -> Draft {
    let mut draft = Draft { teams, slots, games: games.to_vec(), constraints: Vec::new(), sheet: vec![0; games.len()] };
    for (kind, lowest, highest) in KIND_MODES {
        for mode in lowest..=highest {
            for _ in 0..each {
                draft.add_constraint(random, kind, mode);
            }
        }
    }
    draft
}

#[test]
fn season_a_games() {
    for case in 0..2 * times() {
        let seed = seed(21);
        let mut random = Random::new(seed, case);
        let games = [(0, 1), (2, 3), (1, 2), (3, 0), (0, 2), (3, 1)];
        every_call(
            &format!("every call, games of season A: HOST_SEED={seed}, season {case}"),
            &with_all_kinds(&mut random, 4, 3, &games, 3),
        );
    }
}

#[test]
fn one_pair_in_many_slots() {
    for case in 0..2 * times() {
        let seed = seed(22);
        let mut random = Random::new(seed, case);
        let games = [(0, 1), (1, 0), (0, 1), (1, 0)];
        every_call(
            &format!("every call, one pair: HOST_SEED={seed}, season {case}"),
            &with_all_kinds(&mut random, 2, 6, &games, 3),
        );
    }
}

#[test]
fn three_teams_twice() {
    for case in 0..2 * times() {
        let seed = seed(23);
        let mut random = Random::new(seed, case);
        let games = [(0, 1), (1, 0), (0, 2), (2, 0), (1, 2), (2, 1)];
        every_call(
            &format!("every call, three teams: HOST_SEED={seed}, season {case}"),
            &with_all_kinds(&mut random, 3, 4, &games, 3),
        );
    }
}

#[test]
fn four_teams_five_slots() {
    let seed = seed(24);
    let mut random = Random::new(seed, 0);
    let games = [(0, 1), (2, 3), (1, 2), (3, 0), (0, 2)];
    every_call(&format!("every call, four teams: HOST_SEED={seed}"), &with_all_kinds(&mut random, 4, 5, &games, 2));
}
