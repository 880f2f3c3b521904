//! The helpers of the header against the independent checker.

use checks::{expected, helpers, seed, times, Check, Draft, Mover, Outcome, Random, Shape, KIND_MODES};
use reference::{read, Buffers, Call, Reply};
use std::collections::HashSet;

fn draft(seed: u64, case: u64) -> Draft {
    let shape = match case % 20 {
        0 => Shape::LARGEST,
        1..=4 => Shape::MIDDLE,
        _ => Shape::SMALL,
    };
    Draft::random(&mut Random::new(seed, case), shape)
}

#[test]
fn lengths_and_stretches() {
    let seed = seed(71);
    for case in 0..1000 * times() {
        let draft = draft(seed, case);
        let bytes = draft.bytes();
        let whole = [&bytes[..], &draft.sheet].concat();
        let season = read(&bytes).unwrap();
        let name = format!("HOST_SEED={seed}, season {case}");
        assert_eq!(helpers::end(&whole), bytes.len(), "{name}");
        assert_eq!(helpers::sheet_items(&bytes), season.games.len(), "{name}");
        assert_eq!(helpers::ledger_items(&bytes), season.entries(), "{name}");
        assert_eq!(helpers::tally_items(&bytes), season.constraints.len() + 2, "{name}");
        let mut first = 0;
        for (index, c) in season.constraints.iter().enumerate() {
            let (head, body) = draft.constraints[index];
            let at = helpers::head(&bytes, index).unwrap();
            assert_eq!(bytes[at..at + 8], head, "{name}, constraint {index}");
            let at = helpers::body(&bytes, index).unwrap();
            assert_eq!(bytes[at..at + 16], body, "{name}, constraint {index}");
            assert_eq!(helpers::deviations(&bytes, index), c.entries(), "{name}, constraint {index}");
            assert_eq!(helpers::ledger_first(&bytes, index), first, "{name}, constraint {index}");
            let members = |group: &[bool]| group.iter().filter(|&&member| member).count();
            let sizes = [&body[..4], &body[4..8], &body[8..]].map(helpers::group_size);
            assert_eq!(sizes, [members(&c.t1), members(&c.t2), members(&c.s)], "{name}, constraint {index}");
            first += c.entries();
        }
        let count = season.constraints.len();
        assert_eq!(helpers::ledger_first(&bytes, count), season.entries(), "{name}");
        assert_eq!(helpers::ledger_first(&bytes, usize::MAX), season.entries(), "{name}");
        for none in [count, count + 1, usize::MAX] {
            assert_eq!((helpers::head(&bytes, none), helpers::body(&bytes, none)), (None, None), "{name}");
            assert_eq!(helpers::deviations(&bytes, none), 0, "{name}");
        }
    }
}

/// In an opened ledger the stretch of a constraint has the deviations that the independent checker finds for it alone.
#[test]
fn a_stretch_holds_the_deviations_of_its_constraint() {
    let seed = seed(72);
    for case in 0..300 * times() {
        let draft = draft(seed, case);
        let bytes = draft.bytes();
        let season = read(&bytes).unwrap();
        let mut check =
            Check::new(format!("stretch: HOST_SEED={seed}, season {case}"), &bytes, Check::buffers_for(&bytes, &draft.sheet));
        assert!(!check.open().declined);
        let diaries = reference::Diaries::new(&season, &draft.sheet);
        for (index, c) in season.constraints.iter().enumerate() {
            let first = helpers::ledger_first(&bytes, index);
            let stretch = &check.lent.ledger()[first..first + helpers::deviations(&bytes, index)];
            assert_eq!(stretch, reference::deviations(&season, &diaries, c), "HOST_SEED={seed}, season {case}, constraint {index}");
        }
    }
}

/// Damaged bytes: E is right wherever open reads the season, and 0 where a kind or mode is not known.
#[test]
fn damaged_seasons() {
    let seed = seed(73);
    let (mut good, mut bad) = (0, 0);
    for case in 0..4000 * times() {
        let mut random = Random::new(seed, case);
        let mut bytes = Draft::random(&mut random, Shape::SMALL).bytes();
        let at = random.below(bytes.len());
        bytes[at] = random.one_of(&[0, 1, 6, 7, 255, random.clone().bits() as u8]);
        if random.chance(10) {
            bytes.truncate(random.below(bytes.len() + 1));
        }
        assert!(helpers::end(&bytes) <= bytes.len());
        match read(&bytes) {
            Ok(season) => {
                assert_eq!(helpers::ledger_items(&bytes), season.entries(), "HOST_SEED={seed}, season {case}");
                good += 1;
            }
            Err(number) => {
                let heads = (0..).map_while(|c| helpers::head(&bytes, c));
                let unknown = heads.filter(|&at| helpers::kind_row(bytes[at].into(), bytes[at + 1].into()).is_none()).count();
                if number == 1 || number == 3 || unknown > 0 {
                    assert_eq!(helpers::ledger_items(&bytes), 0, "HOST_SEED={seed}, season {case}");
                }
                bad += 1;
            }
        }
    }
    println!("helpers on damaged seasons: {good} still seasons, {bad} not");
}

#[test]
fn the_table_has_every_kind_and_no_other() {
    for kind in 0..=300u32 {
        let known = KIND_MODES.iter().find(|&&(known, _, _)| u32::from(known) == kind);
        let has = |mode: u32| known.is_some_and(|&(_, lowest, highest)| u32::from(lowest) <= mode && mode <= highest.into());
        for mode in 0..=300u32 {
            match helpers::kind_row(kind, mode) {
                Some(row) => {
                    assert!(has(mode) && u32::from(row.kind) == kind, "kind {kind}, mode {mode}");
                    assert!((u32::from(row.first_mode)..=u32::from(row.last_mode)).contains(&mode));
                    let name = std::str::from_utf8(&row.name[..3]).unwrap();
                    assert_eq!(row.name[3], 0);
                    assert_eq!(season_number(name), kind, "{name}");
                }
                None => assert!(!has(mode), "kind {kind}, mode {mode}"),
            }
        }
    }
}

/// The number of a kind, as the text form writes it.
fn season_number(name: &str) -> u32 {
    let fields = match name {
        "CA1" => "home kmax=1 S=all",
        "CA2" | "CA4" => "home kmax=1 T2=all S=all",
        "CA3" => "home kmax=1 w=1 T2=all",
        "CA5" => "away kmax=1 T2=all S=all",
        "GA1" => "kmax=1 T2=all S=all",
        "BR1" | "BR2" | "FA2" => "home kmax=1 S=all",
        "BR4" => "away kmin=1 S=all",
        "FA1" => "kmax=1 S=all",
        "SE1" => "w=1",
        _ => panic!("{name}"),
    };
    season_text::encode(&format!("teams 2\nslots 1\n{name} hard sum weight=1 T1=all {fields}\n")).unwrap().season[6].into()
}

#[test]
fn every_refusal_has_its_words() {
    let texts: HashSet<&str> = (1..=13).map(helpers::refusal_text).collect();
    assert_eq!(texts.len(), 13);
    for number in [0, 14, 255, 256, u32::MAX] {
        assert_eq!(helpers::refusal_text(number), "no refusal has this number");
    }
}

/// The calls by way of the struct of buffers do what the calls do, refused ones too.
#[test]
fn calls_on_the_struct_of_buffers() {
    let seed = seed(74);
    for case in 0..300 * times() {
        let mut random = Random::new(seed, case);
        let draft = Draft::random(&mut random, Shape::SMALL);
        let bytes = draft.bytes();
        let season = read(&bytes).unwrap();
        let mover = Mover::new(&mut random, &season);
        let mut buffers = Check::buffers_for(&bytes, &draft.sheet);
        let mut call = Call::Open;
        for _ in 0..20 {
            let wanted = expected(&bytes, &buffers, call);
            let reply = helpers::call(&bytes, &mut buffers, call);
            assert!(wanted == Outcome { reply, buffers: buffers.clone() }, "HOST_SEED={seed}, season {case}: {call}");
            call = mover.call(&mut random, &season, &buffers.sheet);
        }
    }
}

/// A buffer without items may be lent as null: `helpers::call` does so.
#[test]
fn null_where_the_length_is_0() {
    let empty = || Buffers { sheet: vec![], ledger: vec![], tally: vec![] };
    let calls = [Call::Open, Call::Set { game: 0, slot: 0 }, Call::Exchange { game: 0, other: 1 }];
    for call in calls {
        let refused = |number| Reply { declined: true, number, infeasibility: 0, objective: 0 };
        // no season, and a season whose tally is missing
        assert_eq!(helpers::call(&[], &mut empty(), call), refused(1));
        assert_eq!(helpers::call(&[2, 1, 0, 0, 0, 0], &mut empty(), call), refused(7));
        // a sheet and a ledger of no items are what this season asks for
        let mut buffers = Buffers { tally: vec![7, 7], ..empty() };
        let reply = helpers::call(&[2, 1, 0, 0, 0, 0], &mut buffers, call);
        match call {
            Call::Open => assert_eq!((reply.declined, reply.number, &buffers.tally[..]), (false, 0, &[0, 0][..])),
            _ => assert_eq!((reply, &buffers.tally[..]), (refused(9), &[7, 7][..])),
        }
        // buffers of another length: each of the three as null in turn
        let draft = Draft { constraints: vec![([11, 3, 1, 1, 1, 0, 0, 0], group())], ..one_game() };
        for missing in 0..3 {
            let mut buffers = Buffers { sheet: vec![1], ledger: vec![7; 2], tally: vec![7; 3] };
            match missing {
                0 => buffers.sheet.clear(),
                1 => buffers.ledger.clear(),
                _ => buffers.tally.clear(),
            }
            assert_eq!(helpers::call(&draft.bytes(), &mut buffers, call), refused(7));
        }
        // no constraint: a ledger of no items beside a sheet of one
        let mut buffers = Buffers { sheet: vec![1], ledger: vec![], tally: vec![0, 0] };
        let wanted = expected(&one_game().bytes(), &buffers, call);
        let reply = helpers::call(&one_game().bytes(), &mut buffers, call);
        assert_eq!(Outcome { reply, buffers }, wanted, "{call}");
    }
    assert_eq!((helpers::end(&[]), helpers::sheet_items(&[]), helpers::ledger_items(&[]), helpers::tally_items(&[])), (0, 0, 0, 2));
}

fn one_game() -> Draft {
    Draft { teams: 2, slots: 1, games: vec![(0, 1)], constraints: vec![], sheet: vec![1] }
}

/// T1 both teams, S slot 1.
fn group() -> [u8; 16] {
    [3, 0, 0, 0, 0, 0, 0, 0, 1, 0, 0, 0, 0, 0, 0, 0]
}
