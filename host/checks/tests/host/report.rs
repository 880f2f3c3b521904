//! The program season-report: its printout is the independent checker's.

use checks::{example, example_season, seed, times, Draft, Random, Shape};
use std::io::Write;
use std::path::PathBuf;
use std::process::{Command, Stdio};

/// The program: SEASON_REPORT, or target/bin/season_report; none where its crate is not there either.
fn program() -> Option<PathBuf> {
    let root = PathBuf::from(concat!(env!("CARGO_MANIFEST_DIR"), "/../.."));
    let program = std::env::var("SEASON_REPORT").map_or(root.join("target/bin/season_report"), PathBuf::from);
    if !program.exists() && !root.join("crates/season_report").exists() {
        println!("there is no season-report; its tests are left out");
        return None;
    }
    assert!(program.exists(), "{} is not built: make report", program.display());
    Some(program)
}

fn compare(program: &PathBuf, name: &str, input: &[u8]) -> String {
    let mut child = Command::new(program).stdin(Stdio::piped()).stdout(Stdio::piped()).spawn().unwrap();
    let mut pipe = child.stdin.take().unwrap();
    // The program may stop reading before the end.
    let _ = pipe.write_all(input);
    drop(pipe);
    let output = child.wait_with_output().unwrap();
    let printed = String::from_utf8(output.stdout).unwrap();
    let wanted = reference::report(input);
    if printed != wanted {
        let text = season_text::decode(input).unwrap_or_else(|why| format!("({why})\n{input:02x?}\n"));
        panic!("\n==== {name}\n==== printed\n{printed}==== expected\n{wanted}==== season\n{text}");
    }
    printed
}

#[test]
fn samples() {
    let Some(program) = program() else { return };
    let season_a = example("season-a.bin");
    assert_eq!(compare(&program, "season A", &season_a), "2 10 8\n0 11 10\n1 32 5\n3 13 3\n");
    for length in 0..season_a.len() {
        compare(&program, "season A, cut", &season_a[..length]);
    }
    assert_eq!(compare(&program, "season A, cut", &season_a[..5]), "refused 1\n");
    compare(&program, "season A, longer", &[&season_a[..], &[0]].concat());
    for name in ["league18", "largest32", "mixed32", "trips20", "robinx-table1"] {
        let (season, sheet) = example_season(&format!("{name}.txt"));
        compare(&program, name, &[season, sheet].concat());
    }
}

#[test]
fn limits() {
    let Some(program) = program() else { return };
    // FA2 of 32 teams has 496 deviations, CA1 as many as its group: 12 * 496 + 32 + 16 is 6000.
    for (last, first_line) in [("0-15", "1"), ("0-16", "refused 6")] {
        let text = format!(
            "teams 32\nslots 64\ngame 0 1 -\n{}CA1 any hard sum weight=1 kmax=0 T1=all S=all\nCA1 any hard sum weight=1 kmax=0 T1={last} S=all\n",
            "FA2 any soft sum weight=1 kmax=0 T1=all S=all\n".repeat(12)
        );
        let encoded = season_text::encode(&text).unwrap();
        let printed = compare(&program, "6000 deviations", &[encoded.season, encoded.sheet].concat());
        assert!(printed.starts_with(first_line), "{printed}");
    }
    // The longest input, and bytes beyond it.
    let mut random = Random::new(seed(51), 0);
    let mut draft = Draft::random(&mut random, Shape::SMALL);
    (draft.teams, draft.slots) = (32, 64);
    draft.games = (0..1024).map(|k| (k / 32 % 32, (k / 32 + 1 + k % 31) % 32)).map(|(i, j)| (i as u8, j as u8)).collect();
    draft.draw_sheet(&mut random);
    draft.constraints.clear();
    (0..1024).for_each(|_| draft.add_constraint(&mut random, 21, 1));
    let longest = [draft.bytes(), draft.sheet.clone()].concat();
    assert_eq!(longest.len(), 27654);
    compare(&program, "longest", &longest);
    for more in [1, 2, 5000] {
        compare(&program, "longest and more", &[&longest[..], &vec![0; more]].concat());
    }
}

#[test]
fn random_inputs() {
    let Some(program) = program() else { return };
    let seed = seed(52);
    for case in 0..400 * times() {
        let mut random = Random::new(seed, case);
        let draft = Draft::random(&mut random, if case % 10 == 0 { Shape::LARGEST } else { Shape::SMALL });
        let mut input = [draft.bytes(), draft.sheet.clone()].concat();
        if random.chance(40) {
            for _ in 0..random.within(1, 3) {
                let at = random.below(input.len());
                input[at] = random.one_of(&[0, 1, 2, 255, random.clone().bits() as u8]);
            }
        }
        if random.chance(10) {
            input.truncate(random.below(input.len()));
        }
        compare(&program, &format!("report: HOST_SEED={seed}, season {case}"), &input);
    }
}
