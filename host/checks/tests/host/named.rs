//! Cases with figures that were worked out by hand: docs/FORMAT.md section 7, and errors that would be easy to make.

use checks::{example, Check, Lent};
use reference::{Buffers, Call, Reply};

use crate::by_hand::{exchange, set};

const fn accepted(number: u8, infeasibility: i64, objective: i64) -> Reply {
    Reply { declined: false, number, infeasibility, objective }
}

const fn refused(number: u8) -> Reply {
    Reply { declined: true, number, infeasibility: 0, objective: 0 }
}

/// Buffers of the library, with books of the given lengths.
fn lend(season: &[u8], sheet: &[u8], ledger: usize, tally: usize) -> Lent {
    Lent::new(season, &Buffers { sheet: sheet.to_vec(), ledger: vec![7; ledger], tally: vec![7; tally] })
}

/// The season and the buffers for a text, opened.
fn opened(text: &str) -> Lent {
    let encoded = season_text::encode(text).unwrap();
    let constraints = usize::from(encoded.season[4]) + 256 * usize::from(encoded.season[5]);
    let mut lent = lend(&encoded.season, &encoded.sheet, encoded.deviations, constraints + 2);
    let reply = lent.call(Call::Open);
    assert!(!reply.declined, "{reply:?}\n{text}");
    lent
}

fn season_a() -> Lent {
    let bytes = example("season-a.bin");
    let (season, sheet) = bytes.split_at(114);
    lend(season, sheet, 12, 6)
}

#[test]
fn season_a_opens() {
    let mut lent = season_a();
    assert_eq!(lent.call(Call::Open), accepted(2, 10, 8));
    assert_eq!(lent.ledger(), [1, 1, 0, 0, 0, 0, 0, 0, 0, 0, 1, 0]);
    assert_eq!(lent.tally(), [10, 5, 0, 3, 10, 8]);
    assert_eq!(lent.sheet(), [1, 1, 2, 2, 3, 3]);
}

#[test]
fn season_a_each_call() {
    let cases: [(Call, Reply, &[u32], &[u64]); 7] = [
        (set(0, 0), accepted(1, -10, 0), &[0, 1, 0, 0, 0, 0, 0, 0, 0, 0, 1, 0], &[0, 5, 0, 3, 0, 8]),
        (set(2, 0), accepted(1, 0, 1), &[1, 1, 1, 0, 0, 0, 1, 0, 0, 0, 0, 0], &[10, 5, 4, 0, 10, 9]),
        (set(0, 1), accepted(2, 0, 0), &[1, 1, 0, 0, 0, 0, 0, 0, 0, 0, 1, 0], &[10, 5, 0, 3, 10, 8]),
        (set(0, 2), refused(13), &[1, 1, 0, 0, 0, 0, 0, 0, 0, 0, 1, 0], &[10, 5, 0, 3, 10, 8]),
        (set(0, 4), refused(10), &[1, 1, 0, 0, 0, 0, 0, 0, 0, 0, 1, 0], &[10, 5, 0, 3, 10, 8]),
        (exchange(0, 0), refused(11), &[1, 1, 0, 0, 0, 0, 0, 0, 0, 0, 1, 0], &[10, 5, 0, 3, 10, 8]),
        (exchange(0, 1), accepted(2, 0, 0), &[1, 1, 0, 0, 0, 0, 0, 0, 0, 0, 1, 0], &[10, 5, 0, 3, 10, 8]),
    ];
    for (call, reply, ledger, tally) in cases {
        let mut lent = season_a();
        lent.call(Call::Open);
        assert_eq!(lent.call(call), reply, "{call:?}");
        assert_eq!(lent.ledger(), ledger, "{call:?}");
        assert_eq!(lent.tally(), tally, "{call:?}");
    }
}

#[test]
fn an_empty_season_is_feasible() {
    let mut lent = lend(&[2, 1, 0, 0, 0, 0], &[], 0, 2);
    assert_eq!(lent.call(Call::Open), accepted(0, 0, 0));
    assert_eq!(lent.tally(), [0, 0]);
    assert_eq!(lent.call(set(0, 0)), refused(9));
    assert_eq!(lent.call(exchange(0, 0)), refused(9));
}

#[test]
fn each_function_of_1_0_2() {
    // Home games: team 0 one, team 1 none, team 2 two.
    for (function, value) in [("sum", 3), ("sq-sum", 9), ("sum-sq", 5), ("min", 0), ("max", 2)] {
        let text = format!(
            "teams 4\nslots 3\ngame 0 1 1\ngame 2 1 2\ngame 2 3 3\n\
             CA1 home soft {function} weight=7 kmax=0 T1=0-2 S=all\n"
        );
        let lent = opened(&text);
        assert_eq!(lent.ledger(), [1, 0, 2]);
        assert_eq!(lent.tally(), [7 * value, 0, 7 * value], "{function}");
    }
}

#[test]
fn mutual_games_with_a_slot_between() {
    let lent = opened(
        "teams 2\nslots 3\ngame 0 1 1\ngame 1 0 3\n\
         SE1 soft sum weight=1 w=3 T1=all\nSE1 soft sum weight=1 w=2 T1=all\nSE1 hard sum weight=1 w=255 T1=all\n",
    );
    assert_eq!(lent.ledger(), [2, 1, 254]);
    assert_eq!(lent.tally(), [2, 1, 254, 254, 3]);
}

#[test]
fn a_break_constraint_follows_a_move_before_its_slots() {
    // Season A: team 1 is at home in slot 2 and away in slots 1 and 3. When game 2 leaves slot 2, slot 3 becomes a break.
    let text = "teams 4\nslots 3\ngame 0 1 1\ngame 2 3 1\ngame 1 2 2\ngame 3 0 2\ngame 0 2 3\ngame 3 1 3\n\
                BR1 any soft sum weight=1 kmax=0 T1=1 S=3\n";
    let mut lent = opened(text);
    assert_eq!(lent.ledger(), [0]);
    assert_eq!(lent.call(set(2, 0)), accepted(1, 0, 1));
    assert_eq!(lent.ledger(), [1]);
    assert_eq!(lent.call(set(2, 2)), accepted(0, 0, -1));
    assert_eq!(lent.tally(), [0, 0, 0]);
}

#[test]
fn a_break_is_kept_over_free_slots() {
    let lent = opened("teams 3\nslots 9\ngame 0 1 1\ngame 0 2 9\nBR1 home hard sum weight=1 kmax=0 T1=all S=all\n");
    assert_eq!(lent.ledger(), [1, 0, 0]);
}

#[test]
fn the_first_game_is_no_break() {
    let lent = opened("teams 2\nslots 1\ngame 0 1 1\nBR1 any hard sum weight=1 kmax=0 T1=all S=all\n");
    assert_eq!(lent.ledger(), [0, 0]);
}

#[test]
fn any_side_counts_a_game_once() {
    // Both ways round each game fits where T1 is T2.
    let lent = opened(
        "teams 4\nslots 2\ngame 0 1 1\ngame 2 3 1\ngame 1 0 2\n\
         CA4 any soft sum weight=1 kmax=0 T1=all T2=all S=all\nCA4 each any soft sum weight=1 kmax=0 T1=all T2=all S=all\n",
    );
    assert_eq!(lent.ledger(), [3, 2, 1]);
}

#[test]
fn home_and_away_balance_is_within_the_group() {
    // Team 0 is at home twice, once against the group.
    let lent = opened("teams 3\nslots 2\ngame 0 1 1\ngame 0 2 2\nFA1 soft sum weight=1 kmax=0 T1=0,1 S=all\n");
    assert_eq!(lent.ledger(), [1, 1]);
}

#[test]
fn exactly_so_many_breaks() {
    let lent = opened(
        "teams 2\nslots 3\ngame 0 1 1\ngame 0 1 2\ngame 0 1 3\n\
         BR1 exactly home soft sum weight=1 kmax=5 T1=all S=all\nBR2 exactly any soft sum weight=1 kmax=1 T1=all S=2,3\n",
    );
    // Team 0 has two home breaks, team 1 two away breaks.
    assert_eq!(lent.ledger(), [3, 5, 3]);
}

#[test]
fn a_run_longer_than_the_season_counts_nothing() {
    let text = |w: u8| format!("teams 2\nslots 4\ngame 0 1 2\nCA3 any soft sum weight=1 kmin=2 kmax=2 w={w} T1=all T2=all\n");
    assert_eq!(opened(&text(4)).ledger(), [1, 1]);
    assert_eq!(opened(&text(5)).ledger(), [0, 0]);
    assert_eq!(opened(&text(255)).ledger(), [0, 0]);
    // three runs of two slots, of which two have the game
    assert_eq!(opened(&text(2)).ledger(), [4, 4]);
}

#[test]
fn the_largest_figures_fit() {
    // No game: each of 64 runs of one slot lacks 255 games, for each of 32 teams.
    let line = "CA3 any hard sq-sum weight=255 kmin=255 kmax=255 w=1 T1=all T2=all\n";
    let soft = line.replace("hard", "soft");
    let lent = opened(&format!("teams 32\nslots 64\n{}{}", line.repeat(512), soft.repeat(512)));
    let penalty = 255 * (32 * 64 * 255u64).pow(2);
    assert!(lent.ledger().iter().all(|&d| d == 64 * 255));
    assert!(lent.tally()[..1024].iter().all(|&p| p == penalty));
    assert_eq!(lent.tally()[1024..], [512 * penalty; 2]);
}

#[test]
fn limits_of_the_sizes() {
    let open = |season: &[u8], sheet: usize| lend(season, &vec![0; sheet], 0, 2).call(Call::Open);
    assert_eq!(open(&[1, 1, 0, 0, 0, 0], 0), refused(2));
    assert_eq!(open(&[2, 64, 0, 0, 0, 0], 0), accepted(0, 0, 0));
    assert_eq!(open(&[2, 65, 0, 0, 0, 0], 0), refused(2));
    assert_eq!(open(&[32, 64, 0, 0, 0, 0], 0), accepted(0, 0, 0));
    assert_eq!(open(&[33, 64, 0, 0, 0, 0], 0), refused(2));
    for meetings in 7..=10u8 {
        let mut season = vec![2, 9, meetings, 0, 0, 0];
        season.extend((0..meetings).map(|k| k % 2));
        season.extend((0..meetings).map(|k| 1 - k % 2));
        let reply = open(&season, meetings.into());
        assert_eq!(reply, if meetings <= 8 { accepted(1, 0, 0) } else { refused(4) }, "{meetings} meetings");
    }
}

#[test]
fn spoilt_totals_move_modulo_two_to_the_64() {
    let mut lent = season_a();
    lent.call(Call::Open);
    // Constraint 0 held 2^64 - 1 and the infeasibility 0: the change is 0 - (2^64 - 1), that is +1.
    let books = Buffers { sheet: lent.sheet().to_vec(), ledger: vec![u32::MAX; 12], tally: vec![u64::MAX, 5, 0, 3, 0, u64::MAX] };
    lent.refill(&books);
    assert_eq!(lent.call(set(0, 0)), accepted(1, 1, 0));
    assert_eq!(lent.tally()[0], 0);
    assert_eq!(lent.tally()[4], 1);
    // The soft constraints come out as the tally had them, so the spoilt objective stays.
    assert_eq!(lent.tally()[5], u64::MAX);
    assert_eq!(lent.ledger(), [0, 1, 0, 0, 0, 0, 0, 0, 0, 0, 1, 0]);
}

#[test]
fn the_independent_checker_agrees_on_season_a() {
    let bytes = example("season-a.bin");
    let (season, sheet) = bytes.split_at(114);
    for call in [set(0, 0), set(2, 0), set(0, 1), set(0, 2), set(0, 4), exchange(0, 0), exchange(0, 1)] {
        let mut check = Check::new("season A".into(), season, Check::buffers_for(season, sheet));
        check.open();
        check.make_fresh(call);
    }
}
