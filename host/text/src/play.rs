//! A list of moves made through the library, a line each, and each compared with a fresh opening if that is asked.

use crate::encode::whole;
use crate::faults::{Fault, Faults};
use crate::library::{Books, Move, Reply};
use crate::refusals::of_move;
use crate::report::{verdict, Opened};
use crate::season::Constraint;

/// How a move is written, for messages.
const FORM: &str = "a move is 'set GAME SLOT' ('-' or 0 for SLOT takes the game off the sheet) or 'exchange GAME GAME'";

/// The moves of a list, or all its faults.
pub fn moves(text: &str) -> Result<Vec<Move>, Faults> {
    let (mut moves, mut faults) = (Vec::new(), Faults::default());
    for (at, line) in text.trim_start_matches('\u{feff}').lines().enumerate() {
        let words: Vec<&str> = line.split('#').next().unwrap_or("").split_whitespace().collect();
        if words.is_empty() {
            continue;
        }
        match one_move(&words) {
            Some(step) => moves.push(step),
            None => faults.0.push(Fault { line: at + 1, message: format!("'{}': {FORM}", words.join(" ")) }),
        }
    }
    if faults.0.is_empty() {
        Ok(moves)
    } else {
        Err(faults)
    }
}

fn one_move(words: &[&str]) -> Option<Move> {
    // Whether a number exists on the season is for the library to say.
    let number = |word: &str| whole(word).and_then(|number| u64::try_from(number).ok());
    match *words {
        ["set", game, "-"] => Some(Move::Set { game: number(game)?, slot: 0 }),
        ["set", game, slot] => Some(Move::Set { game: number(game)?, slot: number(slot)? }),
        ["exchange", game, other] => Some(Move::Exchange { game: number(game)?, other: number(other)? }),
        _ => None,
    }
}

/// The line of a move and its reply, for the sheet before it.
pub fn line(opened: &Opened, before: &[u8], step: Move, reply: Reply) -> String {
    if reply.declined {
        let why = of_move(&opened.season, before, &opened.names, step, reply.number);
        return format!("{}: refused {}: {why}", written(step), reply.number);
    }
    let books = &opened.books;
    format!(
        "{}: {}; {}, infeasibility {} ({:+}), objective {} ({:+})",
        written(step),
        in_words(opened, before, step),
        verdict(reply.number),
        books.infeasibility(),
        reply.infeasibility,
        books.objective(),
        reply.objective
    )
}

fn written(step: Move) -> String {
    match step {
        Move::Set { game, slot } => format!("set {game} {slot}"),
        Move::Exchange { game, other } => format!("exchange {game} {other}"),
    }
}

/// What an accepted move does: `Elm - Oak from slot 3 to slot 4`.
fn in_words(opened: &Opened, before: &[u8], step: Move) -> String {
    let names = &opened.names;
    let fixture = |game: u64| names.fixture(opened.season.games[game as usize]);
    let slot_of = |game: u64| usize::from(before[game as usize]);
    match step {
        Move::Set { game, slot } => match (slot_of(game), slot as usize) {
            (a, b) if a == b => format!("{} stays", fixture(game)),
            (0, b) => format!("{} into {}", fixture(game), names.slot(b)),
            (a, 0) => format!("{} out of {}", fixture(game), names.slot(a)),
            (a, b) => format!("{} from {} to {}", fixture(game), names.slot(a), names.slot(b)),
        },
        Move::Exchange { game, other } if slot_of(game) == slot_of(other) => {
            format!("{} and {} stay in {}", fixture(game), fixture(other), names.slot(slot_of(game)))
        }
        Move::Exchange { game, other } => {
            let (game_to, other_to) = (names.slot(slot_of(other)), names.slot(slot_of(game)));
            format!("{} to {game_to}, {} to {other_to}", fixture(game), fixture(other))
        }
    }
}

/// Makes a move; the opened season then shows the new books.
pub fn make(opened: &mut Opened, step: Move) -> Reply {
    let reply = opened.books.make(step);
    if !reply.declined {
        opened.reply = reply;
    }
    reply
}

/// Where the books and the reply differ from those of a fresh opening: every word is compared.
pub fn differences(opened: &Opened, before: &Books, reply: Reply) -> Vec<String> {
    let books = &opened.books;
    if reply.declined {
        let kept = books == before && (reply.infeasibility, reply.objective) == (0, 0);
        return if kept { Vec::new() } else { vec!["a refused move has changed a buffer or a total".into()] };
    }
    let (fresh, opening) = Books::open(books.season(), books.sheet());
    if opening.declined {
        return vec![format!("the sheet does not open afresh: refused {}", opening.number)];
    }
    let mut found = Vec::new();
    if reply.number != opening.number {
        found.push(format!("the verdict is {}, a fresh opening says {}", verdict(reply.number), verdict(opening.number)));
    }
    for (what, change, new, old) in [
        ("infeasibility", reply.infeasibility, fresh.infeasibility(), before.infeasibility()),
        ("objective", reply.objective, fresh.objective(), before.objective()),
    ] {
        let exact = i128::from(new) - i128::from(old);
        if i128::from(change) != exact {
            found.push(format!("the change of the {what} is {change}, a fresh opening says {exact}"));
        }
    }
    let words = books.ledger().iter().zip(fresh.ledger()).enumerate();
    for (at, (kept, fresh)) in words.filter(|(_, (kept, fresh))| kept != fresh) {
        found.push(format!("{}: kept {kept}, fresh {fresh}", place_in_ledger(&opened.season.constraints, at)));
    }
    let words = books.tally().iter().zip(fresh.tally()).enumerate();
    for (at, (kept, fresh)) in words.filter(|(_, (kept, fresh))| kept != fresh) {
        found.push(format!("{}: kept {kept}, fresh {fresh}", place_in_tally(opened.season.constraints.len(), at)));
    }
    found
}

fn place_in_ledger(constraints: &[Constraint], at: usize) -> String {
    let mut from = 0;
    for (number, c) in constraints.iter().enumerate() {
        if at < from + c.deviations() {
            return format!("constraint {number}, {}, its deviation {}", c.kind.word, at - from);
        }
        from += c.deviations();
    }
    format!("word {at} of the ledger")
}

fn place_in_tally(constraints: usize, at: usize) -> String {
    match at.checked_sub(constraints) {
        None => format!("penalty of constraint {at}"),
        Some(0) => "infeasibility".into(),
        Some(_) => "objective".into(),
    }
}

#[cfg(test)]
mod tests {
    use super::*;
    use crate::encode::encode;

    /// The check is no good if it overlooks a wrong word, so each sort of word is made wrong once.
    #[test]
    fn a_wrong_word_is_found() {
        let text = "teams 4\nslots 3\ngame 0 1 1\ngame 2 3 1\ngame 0 2 -\n\
                    CA1 home hard sum weight=2 kmax=0 T1=all S=all\nBR1 any soft sum weight=1 kmax=0 T1=all S=all\n";
        let encoded = encode(text).unwrap();
        let mut opened = Opened::new(&[encoded.season, encoded.sheet].concat(), encoded.names).unwrap();
        let before = opened.books.clone();
        let reply = make(&mut opened, Move::Set { game: 2, slot: 2 });
        assert_eq!((reply.declined, reply.infeasibility, reply.objective), (false, 2, 1));
        assert!(differences(&opened, &before, reply).is_empty());
        let right = opened.books.clone();

        opened.books.ledger[5] += 1;
        assert_eq!(differences(&opened, &before, reply), ["constraint 1, BR1, its deviation 1: kept 1, fresh 0"]);
        for (at, told) in [
            (1, "penalty of constraint 1: kept 0, fresh 1"),
            (2, "infeasibility: kept 5, fresh 6"),
            (3, "objective: kept 0, fresh 1"),
        ] {
            opened.books = right.clone();
            opened.books.tally[at] -= 1;
            assert_eq!(differences(&opened, &before, reply), [told]);
        }
        opened.books = right.clone();
        assert_eq!(
            differences(&opened, &before, Reply { number: 0, infeasibility: 3, objective: -1, ..reply }),
            [
                "the verdict is feasible, a fresh opening says infeasible",
                "the change of the infeasibility is 3, a fresh opening says 2",
                "the change of the objective is -1, a fresh opening says 1"
            ]
        );
        let refused = make(&mut opened, Move::Set { game: 2, slot: 1 });
        assert!(refused.declined && differences(&opened, &right, refused).is_empty());
        opened.books.ledger[0] += 1;
        assert_eq!(differences(&opened, &right, refused), ["a refused move has changed a buffer or a total"]);
    }
}
