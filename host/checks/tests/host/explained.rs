//! The games that a report shows behind a deviation add up to the library's figure, for every kind and mode.

use checks::{example, example_season, seed, times, Check, Draft, Mover, Random, Shape};
use reference::Call;
use season_text::{encode, line, make, page, report, Move, Names, Opened};

fn compare(name: &str, bytes: &[u8]) {
    let opened = Opened::new(bytes, Names::default()).unwrap_or_else(|refused| panic!("{name}: {refused:?}"));
    let view = opened.view();
    let explained: Vec<i64> = opened.explained(&view);
    let ledger: Vec<i64> = opened.books.ledger().iter().map(|&word| word.into()).collect();
    if let Some(at) = explained.iter().zip(&ledger).position(|(shown, word)| shown != word) {
        let text = report(name, &opened);
        panic!("{name}: word {at} of the ledger is {}, and the games shown make {}\n{text}", ledger[at], explained[at]);
    }
    assert_eq!(explained.len(), ledger.len(), "{name}");
}

#[test]
fn samples() {
    for name in ["season-a", "robinx-table1", "named8", "kinds", "league18", "largest32", "mixed32", "trips20"] {
        let (season, sheet) = example_season(&format!("{name}.txt"));
        compare(name, &[season, sheet].concat());
    }
}

#[test]
fn random_seasons() {
    let seed = seed(61);
    for case in 0..1500 * times() {
        let mut random = Random::new(seed, case);
        let draft = Draft::random(&mut random, if case % 50 == 0 { Shape::LARGEST } else { Shape::SMALL });
        let bytes = [draft.bytes(), draft.sheet.clone()].concat();
        compare(&format!("explained: HOST_SEED={seed}, season {case}"), &bytes);
    }
}

/// Reports and pages of any season are made, also of one without games, constraints or broken ones.
#[test]
fn reports_and_pages() {
    let seed = seed(62);
    for case in 0..100 * times() {
        let mut random = Random::new(seed, case);
        let draft = Draft::random(&mut random, Shape::SMALL);
        let bytes = [draft.bytes(), draft.sheet.clone()].concat();
        let opened = Opened::new(&bytes, Names::default()).unwrap();
        let broken = opened.books.tally()[..draft.constraints.len()].iter().filter(|&&penalty| penalty > 0).count();
        let text = report("season", &opened);
        assert_eq!(text.lines().filter(|line| line.starts_with("constraint ")).count(), broken, "{text}");
        assert!(!page("season", &opened).contains("<script"));
    }
}

/// Damaged bytes: the library's number, and something that is at fault for it.
#[test]
fn damaged_bytes() {
    let seed = seed(63);
    let mut numbers = std::collections::BTreeMap::new();
    for case in 0..6000 * times() {
        let mut random = Random::new(seed, case);
        let draft = Draft::random(&mut random, Shape::SMALL);
        let mut bytes = [draft.bytes(), draft.sheet.clone()].concat();
        for _ in 0..random.within(1, 3) {
            let at = random.below(bytes.len());
            bytes[at] = random.one_of(&[0, 1, 2, 255, random.clone().bits() as u8]);
        }
        if random.chance(20) {
            bytes.truncate(random.below(bytes.len()));
        }
        let (season, sheet) = bytes.split_at(season_text::end(&bytes));
        let wanted = Check::new(String::new(), season, Check::buffers_for(season, sheet)).open();
        match Opened::new(&bytes, Names::default()) {
            Ok(opened) => assert!(!wanted.declined && opened.reply.number == wanted.number),
            Err(refused) => {
                assert_eq!((wanted.declined, wanted.number), (true, refused.number), "HOST_SEED={seed}, season {case}");
                assert!(!refused.lines.is_empty(), "HOST_SEED={seed}, season {case}: refusal {}", refused.number);
                *numbers.entry(refused.number).or_insert(0) += 1;
            }
        }
    }
    println!("damaged bytes, explained: {numbers:?}");
}

/// Moves: the library's reply, and for a refused one what is at fault.
#[test]
fn moves() {
    let seed = seed(64);
    for case in 0..100 * times() {
        let mut random = Random::new(seed, case);
        let draft = Draft::random(&mut random, Shape::SMALL);
        let bytes = [draft.bytes(), draft.sheet.clone()].concat();
        let mut opened = Opened::new(&bytes, Names::default()).unwrap();
        let season = reference::read(&draft.bytes()).unwrap();
        let mover = Mover::new(&mut random, &season);
        for _ in 0..60 {
            let step = match mover.call(&mut random, &season, opened.books.sheet()) {
                Call::Set { game, slot } => Move::Set { game, slot },
                Call::Exchange { game, other } => Move::Exchange { game, other },
                Call::Open => continue,
            };
            let before = opened.books.clone();
            let reply = make(&mut opened, step);
            let said = line(&opened, before.sheet(), step, reply);
            if reply.declined {
                let why = said.split_once(&format!(": refused {}: ", reply.number)).expect(&said).1;
                assert!(why.contains("game") || why.contains("slot"), "HOST_SEED={seed}, season {case}: {said}");
            }
            assert!(season_text::differences(&opened, &before, reply).is_empty(), "HOST_SEED={seed}, season {case}: {said}");
        }
    }
}

/// Damaged text is told, or is a season that the library opens.
#[test]
fn damaged_text() {
    let seed = seed(65);
    let text = String::from_utf8(example("named8.txt")).unwrap();
    let (mut good, mut bad) = (0, 0);
    for case in 0..3000 * times() {
        let mut random = Random::new(seed, case);
        let mut chars: Vec<char> = text.chars().collect();
        for _ in 0..random.within(1, 4) {
            let at = random.below(chars.len());
            match random.below(3) {
                0 => drop(chars.remove(at)),
                1 => chars.insert(at, random.one_of(&['"', '#', ' ', '\n', '9', '-', ',', '=', 'x', '\\', 'é'])),
                _ => chars[at] = random.one_of(&['"', ' ', '0', '7', '\n', 'A', '-']),
            }
        }
        let damaged: String = chars.into_iter().collect();
        match encode(&damaged) {
            Ok(encoded) => {
                let bytes = [encoded.season, encoded.sheet].concat();
                let opened = Opened::new(&bytes, encoded.names).unwrap_or_else(|refused| panic!("{refused:?}\n{damaged}"));
                assert!(season_text::decode_named(&bytes, &opened.names).is_ok());
                good += 1;
            }
            Err(faults) => {
                assert!(!faults.0.is_empty() && faults.0.iter().all(|fault| fault.line <= damaged.lines().count()));
                bad += 1;
            }
        }
    }
    println!("damaged text, all faults: {good} still seasons, {bad} not");
}
