//! CA5 and BR4: trips with figures that were worked out by hand, after opening and after moves, and which moves touch them.

use checks::{example_season, Check, Draft};
use reference::Buffers;

use crate::by_hand::{after, exchange, opened, set};

/// The deviations of the constraints on a sheet of 4 teams and 9 slots.
fn figures(games: &str, constraints: &str) -> Vec<u32> {
    opened(&format!("teams 4\nslots 9\n{games}{constraints}")).lent.ledger().to_vec()
}

/// BR4 for team 0, with S and kmin.
fn trips(slots: &str, kmin: u8) -> String {
    format!("BR4 away soft sum weight=1 kmin={kmin} T1=0 S={slots}\n")
}

/// CA5 for team 0, with S, T2, kmin and kmax.
fn games(slots: &str, t2: &str, kmin: u8, kmax: u8) -> String {
    format!("CA5 away soft sum weight=1 kmin={kmin} kmax={kmax} T1=0 T2={t2} S={slots}\n")
}

#[test]
fn a_trip_goes_on_over_free_slots() {
    // Team 0: A1 . A2 H3 . A3, so one trip in slots 1 and 3. The away game in slot 6 is alone.
    let sheet = "game 1 0 1\ngame 2 0 3\ngame 0 3 4\ngame 3 0 6\n";
    let lines = [trips("all", 0), trips("all", 1), trips("all", 2), trips("all", 255)].concat();
    assert_eq!(figures(sheet, &lines), [0, 0, 1, 254]);
    let lines = [games("all", "1", 0, 0), games("all", "3", 0, 0), games("all", "1,2", 0, 1), games("all", "3", 2, 2)].concat();
    assert_eq!(figures(sheet, &lines), [1, 0, 1, 2]);
}

#[test]
fn a_single_away_game_is_no_trip() {
    // H A H A, and the same with free slots around the away games.
    for sheet in [
        "game 0 1 1\ngame 2 0 2\ngame 0 3 3\ngame 1 0 4\n",
        "game 0 1 1\ngame 2 0 3\ngame 0 3 6\ngame 1 0 9\n",
        "game 2 0 1\ngame 0 1 2\ngame 0 3 3\ngame 1 0 9\n",
    ] {
        let lines = trips("all", 1) + &games("all", "all", 5, 5);
        assert_eq!(figures(sheet, &lines), [1, 0], "{sheet}");
    }
}

#[test]
fn the_first_and_the_last_slot_are_in_s() {
    // Team 0 is away in slots 2, 4 and 7, and then at home.
    let sheet = "game 1 0 2\ngame 2 0 4\ngame 3 0 7\ngame 0 1 8\n";
    for (slots, missing) in [
        ("all", 0),
        ("2-7", 0),
        ("2,7", 0),
        ("1,2,7,9", 0),
        ("2-6", 1),
        ("2,4", 1),
        ("3-7", 1),
        ("4,7", 1),
        ("4", 1),
        ("1-6,8,9", 1),
        ("8,9", 1),
    ] {
        assert_eq!(figures(sheet, &trips(slots, 1)), [missing], "S={slots}");
        // CA5 wants five games on the trip and finds three, if the trip counts.
        assert_eq!(figures(sheet, &games(slots, "all", 5, 5)), [2 * (1 - missing)], "S={slots}");
    }
}

#[test]
fn games_between_count_outside_s_too() {
    // One trip in slots 1 to 3, against teams 1, 2, 3; slot 2 is not in S.
    let sheet = "game 1 0 1\ngame 2 0 2\ngame 3 0 3\n";
    let lines = [games("1,3", "2", 0, 0), games("1,3", "1,2", 0, 0), games("1,3", "all", 0, 0)].concat();
    assert_eq!(figures(sheet, &lines), [1, 2, 3]);
    let lines = [games("1,3", "2", 2, 2), games("1,3", "1,2", 2, 2), games("1,3", "all", 2, 2), games("1,3", "0", 2, 9)].concat();
    assert_eq!(figures(sheet, &lines), [1, 0, 1, 2]);
}

#[test]
fn a_game_after_s_takes_a_trip_out_of_it() {
    // Team 0 is away in slots 1 and 2. Games 2 (team 3 - team 0) and 3 (team 0 - team 1) are unplaced.
    let text = "teams 4\nslots 9\ngame 1 0 1\ngame 2 0 2\ngame 3 0 -\ngame 0 1 -\n".to_string();
    let mut check = opened(&(text + &trips("1-3", 1) + &games("1-3", "3", 1, 1)));
    assert_eq!(check.lent.ledger(), [0, 1]);
    // In slot 6 game 2 is the last one of the trip, which now ends after S.
    assert_eq!(after(&mut check, set(2, 6)), [1, 0]);
    // A home game in slot 4 ends the trip in slot 2, and in slot 9 it does not.
    assert_eq!(after(&mut check, set(3, 4)), [0, 1]);
    assert_eq!(after(&mut check, set(3, 9)), [1, 0]);
    // In slot 3 game 2 belongs to the trip within S.
    assert_eq!(after(&mut check, set(2, 3)), [0, 0]);
    assert_eq!(after(&mut check, set(2, 0)), [0, 1]);
    assert_eq!(after(&mut check, set(1, 0)), [1, 0]);
}

#[test]
fn two_trips_of_a_season() {
    // A A H A A in slots 1 to 5: the trips of slots 1, 2 and 4, 5. Game 5 is the return game of game 2.
    let text = "teams 4\nslots 9\ngame 1 0 1\ngame 2 0 2\ngame 0 3 3\ngame 1 0 4\ngame 2 0 5\ngame 3 0 9\n".to_string();
    let lines = [trips("all", 3), trips("4-9", 1), games("all", "all", 0, 1), games("1-5", "2", 0, 0)].concat();
    let mut check = opened(&(text + &lines));
    // The second trip is in slots 4, 5 and 9.
    assert_eq!(check.lent.ledger(), [1, 0, 1 + 2, 1]);
    // Home and away swapped: slots 1 to 5 are one trip, and slot 9 is at home.
    assert_eq!(after(&mut check, exchange(2, 5)), [2, 1, 4, 2]);
    assert_eq!(after(&mut check, exchange(5, 2)), [1, 0, 3, 1]);
    // Without the home game there is one trip, in slots 1 to 9.
    assert_eq!(after(&mut check, set(2, 0)), [2, 1, 4, 0]);
    // With it in slot 7 there is one too, in slots 1 to 5, and the away game in slot 9 is alone.
    assert_eq!(after(&mut check, set(2, 7)), [2, 1, 3, 2]);
}

#[test]
fn a_deviation_for_each_team_of_t1() {
    // Team 0: A A; team 1: H A; team 2: . H; team 3: no game.
    let sheet = "game 1 0 1\ngame 2 1 2\ngame 2 0 3\n";
    let lines = "BR4 away soft sum weight=3 kmin=1 T1=all S=all\nCA5 away hard max weight=7 kmax=0 T1=0,3 T2=1,2 S=all\n";
    let check = opened(&format!("teams 4\nslots 9\n{sheet}{lines}"));
    assert_eq!(check.lent.ledger(), [0, 1, 1, 1, 2, 0]);
    assert_eq!(check.lent.tally(), [9, 14, 14, 9]);
}

#[test]
fn without_a_game_there_is_no_trip() {
    let lines = "BR4 away hard sum weight=2 kmin=255 T1=all S=all\nBR4 away soft sum weight=1 kmin=0 T1=all S=1\n\
                 BR4 away soft sq-sum weight=1 kmin=1 T1=1,2 S=2\nCA5 away hard sum weight=9 kmin=1 kmax=1 T1=all T2=all S=all\n";
    for games in ["", "game 1 0 -\ngame 2 0 -\n"] {
        let check = opened(&format!("teams 3\nslots 2\n{games}{lines}"));
        assert_eq!(check.lent.ledger(), [255, 255, 255, 0, 0, 0, 1, 1, 0, 0, 0]);
        assert_eq!(check.lent.tally(), [2 * 765, 0, 4, 0, 2 * 765, 4]);
    }
    // The two games make a trip of team 0, which CA5 then finds to have one game too many.
    let mut check = opened(&format!("teams 3\nslots 2\ngame 1 0 -\ngame 2 0 -\n{lines}"));
    assert_eq!(after(&mut check, set(0, 1)), [255, 255, 255, 0, 0, 0, 1, 1, 0, 0, 0]);
    assert_eq!(after(&mut check, set(1, 2)), [254, 255, 255, 0, 0, 0, 1, 1, 1, 0, 0]);
}

#[test]
fn slots_1_and_64() {
    let sheet = "teams 3\nslots 64\ngame 1 0 1\ngame 2 0 64\n";
    for (slots, missing) in [("all", 0), ("1,64", 0), ("1-63", 1), ("2-64", 1), ("64", 1), ("1", 1)] {
        assert_eq!(opened(&format!("{sheet}{}", trips(slots, 1))).lent.ledger(), [missing], "S={slots}");
    }
    let mut check = opened(&format!("{sheet}{}{}", trips("63,64", 1), games("63,64", "1", 0, 0)));
    assert_eq!(check.lent.ledger(), [1, 0]);
    assert_eq!(after(&mut check, set(0, 63)), [0, 1]);
    assert_eq!(after(&mut check, set(0, 2)), [1, 0]);
}

/// 21 trips of two games each, with a home game after each, are the most that 64 slots have.
#[test]
fn the_most_trips() {
    let mut draft = Draft { teams: 32, slots: 64, games: Vec::new(), constraints: Vec::new(), sheet: Vec::new() };
    for slot in 1..=63u8 {
        let other = slot % 31 + 1;
        draft.games.push(if slot % 3 == 0 { (0, other) } else { (other, 0) });
        draft.sheet.push(slot);
    }
    let body = |t2: u8| [1, 0, 0, 0, t2, 0, 0, 0, 255, 255, 255, 255, 255, 255, 255, 255];
    for kmin in [20, 21, 22, 255] {
        draft.constraints.push(([34, 2, 0, 1, 1, kmin, 0, 0], body(0)));
    }
    // No opponent of team 0 is team 0 itself, so all of kmin is missing on each trip.
    draft.constraints.push(([15, 2, 0, 2, 255, 255, 255, 0], body(1)));
    let bytes = draft.bytes();
    let mut check = Check::new("the most trips".into(), &bytes, Check::buffers_for(&bytes, &draft.sheet));
    assert!(!check.open().declined);
    assert_eq!(check.lent.ledger(), [0, 0, 1, 234, 21 * 255]);
    assert_eq!(check.lent.tally()[4], 255 * (21 * 255) * (21 * 255));
    // Without the home game in slot 3 two trips become one; without the away game in slot 4 the one in slot 5 is alone.
    assert_eq!(after(&mut check, set(2, 0)), [0, 1, 2, 235, 20 * 255]);
    assert_eq!(after(&mut check, set(2, 3)), [0, 0, 1, 234, 21 * 255]);
    assert_eq!(after(&mut check, set(3, 0)), [0, 1, 2, 235, 20 * 255]);
}

/// docs/FORMAT.md, section 7.5.
#[test]
fn the_cases_of_the_format() {
    let text = |slots: [&str; 6], line: &str| {
        let teams = ["1 0", "2 0", "3 0", "1 0", "0 1", "0 2"];
        let games: String = teams.iter().zip(slots).map(|(teams, slot)| format!("game {teams} {slot}\n")).collect();
        format!("teams 4\nslots 7\n{games}{line}")
    };
    for (slots, s, missing) in [
        (["1", "3", "-", "-", "5", "-"], "all", 1),
        (["1", "-", "-", "-", "2", "-"], "all", 2),
        (["1", "3", "-", "-", "2", "-"], "all", 2),
        (["1", "3", "-", "-", "5", "-"], "1,2", 2),
        (["1", "3", "-", "-", "5", "-"], "2,3", 2),
        (["1", "2", "3", "-", "4", "-"], "1,3", 1),
        (["1", "2", "6", "7", "4", "-"], "all", 0),
        (["1", "2", "6", "7", "-", "-"], "all", 1),
        (["-"; 6], "all", 2),
    ] {
        assert_eq!(opened(&text(slots, &trips(s, 2))).lent.ledger(), [missing], "{slots:?} S={s}");
    }
    let lines = [games("all", "1,2", 0, 1), games("all", "1,2", 2, 2), games("all", "1,2", 3, 9)].concat();
    assert_eq!(opened(&text(["1", "2", "6", "7", "4", "-"], &lines)).lent.ledger(), [1, 1, 3]);
    let mut check = opened(&text(["1", "2", "-", "-", "-", "-"], &trips("1,2", 1)));
    assert_eq!(check.lent.ledger(), [0]);
    assert_eq!(after(&mut check, set(2, 5)), [1]);
}

/// What docs/KINDS.md says of BR4: without its game in slot 6, the trip of team 0 ends in slot 4 and counts.
#[test]
fn a_move_in_the_examples_of_the_kinds() {
    let (season, sheet) = example_season("kinds.txt");
    let mut check = Check::new("kinds".into(), &season, Check::buffers_for(&season, &sheet));
    assert!(!check.open().declined);
    let deviations = |ledger: &[u32], kind: u8| -> Vec<u32> {
        let at = season[6 + 2 * 12..].chunks(8).position(|head| head[0] == kind).unwrap();
        let first = checks::helpers::ledger_first(&season, at);
        ledger[first..first + checks::helpers::deviations(&season, at)].to_vec()
    };
    let opened = check.before.ledger.clone();
    assert_eq!((deviations(&opened, 15), deviations(&opened, 34)), (vec![1, 0], vec![1, 0, 0, 1]));
    let moved = after(&mut check, set(8, 0));
    assert_eq!((deviations(&moved, 15), deviations(&moved, 34)), (vec![0, 0], vec![0, 0, 0, 1]));
}

/// Which moves touch CA5 and BR4: spoilt words stay where a move does not touch them, and come out right where it does.
#[test]
fn what_is_touched() {
    // Team 0 is away in slots 1 and 2. T2 plays no part in what touches CA5.
    let text = "teams 6\nslots 9\ngame 1 0 1\ngame 2 0 2\ngame 0 3 -\ngame 4 5 -\ngame 1 2 6\ngame 3 4 5\n".to_string();
    let mut check = opened(&(text + &trips("1-3", 2) + &games("1-3", "1", 0, 0)));
    assert_eq!(check.lent.ledger(), [1, 1]);
    let right = check.before.clone();
    let cases = [
        // a game without team 0, whether in S or not, and against T2
        (set(3, 1), None),
        (set(3, 9), None),
        (set(4, 3), None),
        (set(4, 0), None),
        (exchange(4, 5), None),
        // the slot that it has
        (set(0, 1), None),
        // a game with team 0, home or away, in S, after S, and out of the sheet
        (set(2, 9), Some([1, 1])),
        (set(2, 3), Some([1, 1])),
        (set(1, 9), Some([2, 0])),
        (set(1, 0), Some([2, 0])),
        (set(0, 3), Some([1, 1])),
        (exchange(0, 1), Some([1, 1])),
        (exchange(1, 5), Some([2, 0])),
    ];
    for (call, touched) in cases {
        check.overwrite(Buffers { ledger: vec![777; 2], tally: vec![50, 60, 70, 80], ..right.clone() });
        let reply = check.make(call);
        assert!(!reply.declined, "{call}: {reply}");
        match touched {
            None => {
                assert_eq!(check.lent.ledger(), [777; 2], "{call}");
                assert_eq!(check.lent.tally(), [50, 60, 70, 80], "{call}");
            }
            Some([trips, games]) => {
                assert_eq!(check.lent.ledger(), [trips, games], "{call}");
                let changes = u64::from(trips + games).wrapping_sub(110);
                let tally = [trips.into(), games.into(), 70, changes.wrapping_add(80)];
                assert_eq!(check.lent.tally(), tally, "{call}");
            }
        }
    }
}
