//! SE1: the slots between two games of a pair, worked out by hand, after opening and after moves.

use crate::by_hand::{after, exchange, opened, set};

/// SE1 on all teams with each of these widths, soft, with weight 1.
fn widths(widths: &[u8]) -> String {
    widths.iter().map(|w| format!("SE1 soft sum weight=1 w={w} T1=all\n")).collect()
}

/// The deviations of a pair that meets in these slots of 64, in turn at home, with each of the widths.
fn deviations(slots: &[u8], w: &[u8]) -> Vec<u32> {
    let game = |(number, slot): (usize, &u8)| format!("game {} {} {slot}\n", number % 2, 1 - number % 2);
    let games: String = slots.iter().enumerate().map(game).collect();
    opened(&format!("teams 2\nslots 64\n{games}{}", widths(w))).lent.ledger().to_vec()
}

#[test]
fn the_slots_between_count() {
    assert_eq!(deviations(&[1, 3], &[1, 2, 3, 255]), [0, 1, 2, 254]);
    assert_eq!(deviations(&[1, 2], &[1, 2, 3, 255]), [1, 2, 3, 255]);
    assert_eq!(deviations(&[63, 64], &[1, 2, 3, 255]), [1, 2, 3, 255]);
    // the later game first in the list of games
    assert_eq!(deviations(&[9, 4], &[4, 5, 6]), [0, 1, 2]);
    assert_eq!(deviations(&[1, 64], &[61, 62, 63, 255]), [0, 0, 1, 193]);
}

#[test]
fn one_game_has_none_to_be_close_to() {
    assert_eq!(deviations(&[1], &[1, 64, 255]), [0, 0, 0]);
    assert_eq!(deviations(&[64], &[1, 64, 255]), [0, 0, 0]);
}

#[test]
fn only_consecutive_games_are_compared() {
    // 1 and 2 slots between; the 4 between the first and the last game do not count.
    assert_eq!(deviations(&[1, 3, 6], &[1, 2, 3, 5]), [0, 1, 3, 7]);
}

#[test]
fn many_meetings_and_the_largest_width() {
    let in_a_row = [1, 2, 3, 4, 5, 6, 7, 8];
    assert_eq!(deviations(&in_a_row, &[1, 255]), [7, 7 * 255]);
    assert_eq!(deviations(&in_a_row.map(|slot| slot + 56), &[1, 255]), [7, 7 * 255]);
    assert_eq!(deviations(&[1, 10, 19, 28, 37, 46, 55, 64], &[8, 9, 255]), [0, 7, 7 * 247]);
    let games = "game 0 1 1\ngame 1 0 2\ngame 0 1 3\ngame 1 0 4\ngame 0 1 5\ngame 1 0 6\ngame 0 1 7\ngame 1 0 8\n";
    let check = opened(&format!("teams 2\nslots 64\n{games}SE1 hard sq-sum weight=255 w=255 T1=all\n"));
    assert_eq!(check.lent.tally(), [812_487_375, 812_487_375, 0]);
}

#[test]
fn games_against_others_lie_between_too() {
    // Teams 0 and 1 play teams 2 and 3 in slot 2, or have no game there.
    for between in ["game 0 2 2\ngame 3 1 2\n", ""] {
        let check = opened(&format!("teams 4\nslots 3\ngame 0 1 1\ngame 1 0 3\n{between}SE1 soft sum weight=1 w=2 T1=0,1\n"));
        assert_eq!(check.lent.ledger(), [1]);
    }
}

#[test]
fn a_set_brings_two_games_next_to_each_other() {
    let mut check = opened(&format!("teams 2\nslots 5\ngame 0 1 1\ngame 1 0 5\n{}", widths(&[1, 2, 3, 4])));
    assert_eq!(check.lent.ledger(), [0, 0, 0, 1]);
    assert_eq!(after(&mut check, set(1, 3)), [0, 1, 2, 3]);
    assert_eq!(after(&mut check, set(1, 2)), [1, 2, 3, 4]);
    assert_eq!(after(&mut check, set(0, 3)), [1, 2, 3, 4]);
    assert_eq!(after(&mut check, set(0, 0)), [0, 0, 0, 0]);
    assert_eq!(after(&mut check, set(0, 5)), [0, 0, 1, 2]);
}

#[test]
fn a_set_between_two_games_splits_them() {
    // 1 . 3 . . 6: the game of slot 3 leaves, and comes back beside the last one.
    let mut check = opened(&format!("teams 2\nslots 6\ngame 0 1 1\ngame 1 0 3\ngame 0 1 6\n{}", widths(&[2, 5])));
    assert_eq!(check.lent.ledger(), [1, 4 + 3]);
    assert_eq!(after(&mut check, set(1, 0)), [0, 1]);
    assert_eq!(after(&mut check, set(1, 5)), [2, 2 + 5]);
}

#[test]
fn an_exchange_brings_two_games_next_to_each_other() {
    let games = "game 0 1 1\ngame 1 0 3\ngame 2 3 2\n";
    let mut check = opened(&format!("teams 4\nslots 3\n{games}SE1 hard sum weight=1 w=1 T1=0,1\n"));
    assert_eq!(check.lent.ledger(), [0]);
    assert_eq!(after(&mut check, exchange(1, 2)), [1]);
    assert_eq!(after(&mut check, exchange(0, 2)), [1]);
    assert_eq!(after(&mut check, exchange(0, 1)), [1]);
    assert_eq!(after(&mut check, exchange(0, 2)), [0]);
}
