//! Table 1 of the RobinX paper: a mirrored double round robin of six teams, with what the paper says about it.

use checks::{example_season, Check};
use reference::Call;

/// Adds constraints in text form to the example and opens it; the deviations.
fn ledger_with(constraints: &str) -> Vec<u32> {
    let text = String::from_utf8(checks::example("robinx-table1.txt")).unwrap();
    let games: String = text.lines().filter(|line| !line.starts_with(char::is_uppercase)).map(|line| format!("{line}\n")).collect();
    let encoded = season_text::encode(&format!("{games}{constraints}")).unwrap();
    let mut check = Check::new("Table 1".into(), &encoded.season, Check::buffers_for(&encoded.season, &encoded.sheet));
    let reply = check.open();
    assert!(!reply.declined);
    check.lent.ledger().to_vec()
}

#[test]
fn team_2_has_home_breaks_in_slots_3_and_4_only() {
    let lines: String = (1..=10).map(|s| format!("BR1 home soft sum weight=1 kmax=0 T1=1 S={s}\n")).collect();
    assert_eq!(ledger_with(&lines), [0, 0, 1, 1, 0, 0, 0, 0, 0, 0]);
}

#[test]
fn team_2_has_away_breaks_in_slots_8_and_9_only() {
    let lines: String = (1..=10).map(|s| format!("BR1 away soft sum weight=1 kmax=0 T1=1 S={s}\n")).collect();
    assert_eq!(ledger_with(&lines), [0, 0, 0, 0, 0, 0, 0, 1, 1, 0]);
}

#[test]
fn breaks_of_each_team() {
    assert_eq!(ledger_with("BR1 any soft sum weight=1 kmax=0 T1=all S=all\n"), [0, 4, 7, 3, 3, 3]);
}

#[test]
fn it_is_compact_and_a_double_round_robin() {
    // Each team plays in each slot, and each team is at home once against each other one.
    let each_slot: String = (1..=10).map(|s| format!("CA1 any hard sum weight=1 kmin=1 kmax=1 T1=all S={s}\n")).collect();
    let each_pair: String = (0..6)
        .flat_map(|i| {
            (0..6).filter(move |&j| j != i).map(move |j| format!("GA1 hard sum weight=1 kmin=1 kmax=1 T1={i} T2={j} S=all\n"))
        })
        .collect();
    assert!(ledger_with(&(each_slot + &each_pair)).iter().all(|&d| d == 0));
}

#[test]
fn it_is_mirrored() {
    // Return games follow five slots after the first ones: four slots lie between, not five.
    assert_eq!(ledger_with("SE1 hard sum weight=1 w=4 T1=all\n"), [0; 15]);
    assert_eq!(ledger_with("SE1 hard sum weight=1 w=5 T1=all\n"), [1; 15]);
}

#[test]
fn it_is_the_stored_season() {
    let (season, sheet) = example_season("robinx-table1.txt");
    let mut check = Check::new("Table 1".into(), &season, Check::buffers_for(&season, &sheet));
    let reply = check.open();
    assert_eq!((reply.declined, reply.number), (false, 2));
    assert_eq!(check.lent.tally(), [15, 0, 2, 15, 2]);
    // The paper's home stand of team 2 from slot 2 to 4 ends when its game against team 4 moves out of slot 3.
    let game = season[6..36].iter().zip(&season[36..66]).position(|game| game == (&1, &3)).unwrap();
    let reply = check.make_fresh(Call::Set { game: game as u64, slot: 0 });
    assert_eq!((reply.declined, reply.number), (false, 1));
    check.make_fresh(Call::Set { game: game as u64, slot: 3 });
}
