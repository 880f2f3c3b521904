//! docs/KINDS.md: its constraints are those of examples/kinds.txt in the same order, and its table and its figures are the library's.

use checks::{example_season, Check};
use reference::{read, Season};

fn document() -> String {
    let path = concat!(env!("CARGO_MANIFEST_DIR"), "/../../docs/KINDS.md");
    std::fs::read_to_string(path).unwrap_or_else(|error| panic!("{path}: {error}"))
}

/// The constraint lines of fenced blocks, each with the line of figures below it.
fn shown() -> Vec<(String, String)> {
    let text = document();
    let mut found = Vec::new();
    for block in text.split("```").skip(1).step_by(2).filter(|block| !block.contains("\n$ ")) {
        let lines: Vec<&str> = block.trim().lines().collect();
        assert!(lines.len() % 2 == 0, "{block}");
        found.extend(lines.chunks(2).map(|two| (two[0].to_string(), two[1].to_string())));
    }
    found
}

#[test]
fn the_constraints_and_their_figures() {
    let (bytes, sheet) = example_season("kinds.txt");
    let season = read(&bytes).unwrap();
    let mut check = Check::new("kinds".into(), &bytes, Check::buffers_for(&bytes, &sheet));
    assert!(!check.open().declined);
    let shown = shown();
    assert_eq!(shown.len(), season.constraints.len());
    let mut first = 0;
    for (index, ((line, figures), c)) in shown.iter().zip(&season.constraints).enumerate() {
        let alone = season_text::encode(&format!("teams {}\nslots {}\n{line}\n", season.teams, season.slots)).unwrap().season;
        let head = 6 + 2 * season.games.len() + 8 * index;
        let body = 6 + 2 * season.games.len() + 8 * season.constraints.len() + 16 * index;
        assert_eq!(alone[6..], [&bytes[head..head + 8], &bytes[body..body + 16]].concat(), "{line}");
        let stretch = &check.lent.ledger()[first..first + c.entries()];
        let deviations: Vec<String> = stretch.iter().map(u32::to_string).collect();
        assert_eq!(*figures, format!("deviations {}, penalty {}", deviations.join(" "), check.lent.tally()[index]), "{line}");
        first += c.entries();
    }
}

#[test]
fn the_table_is_the_sheet() {
    let (bytes, sheet) = example_season("kinds.txt");
    let Season { teams, slots, games, .. } = read(&bytes).unwrap();
    let text = document();
    for team in 0..teams {
        let mut row = vec![".".to_string(); slots];
        for (game, &slot) in games.iter().zip(&sheet) {
            if game.home == team {
                row[slot as usize - 1] = format!("H {}", game.away);
            } else if game.away == team {
                row[slot as usize - 1] = format!("A {}", game.home);
            }
        }
        let wanted = format!("\n| {team} | {} |\n", row.join(" | "));
        assert!(text.contains(&wanted), "{wanted}");
    }
}
