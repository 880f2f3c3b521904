//! The kinds of constraints, a row each: what may stand on a line, what a deviation belongs to, and how it is put into words.

use crate::explain::{self, Findings, Subject, View};
use crate::season::Constraint;

/// What a constraint has one deviation for.
#[derive(Clone, Copy, PartialEq, Eq, Debug)]
pub enum Per {
    /// Each team of T1.
    Team,
    /// Each pair of T1.
    Pair,
    /// Each slot of S.
    Slot,
    /// The constraint as a whole.
    Whole,
}

/// A kind: its word and number, what may stand on its line, and its sentences.
pub struct Kind {
    pub word: &'static str,
    pub number: u8,
    /// What it is about, in a few words.
    pub title: &'static str,
    /// The sides that may be named, of `SIDES`. Without one the mode is 1.
    pub sides: &'static [&'static str],
    /// The word for modes 4 to 6, if the kind has them.
    pub second: Option<&'static str>,
    pub kmin: bool,
    /// The least kmax, if the kind has one. Where it has, kmin is at most kmax.
    pub kmax: Option<u8>,
    pub w: bool,
    /// The fewest teams of T1.
    pub fewest: usize,
    /// Whether T1 and T2 may have one team each.
    pub one_each: bool,
    pub t2: bool,
    pub s: bool,
    /// What it has a deviation for in modes 1 to 3 and in modes 4 to 6.
    pub per: [Per; 2],
    /// What a constraint of the kind asks, as a sentence.
    pub asks: fn(&View, &Constraint) -> String,
    /// What stands behind one of its deviations.
    pub finds: fn(&View, &Constraint, Subject) -> Findings,
}

impl Kind {
    /// How many deviations a constraint of the kind has, for groups of these sizes.
    pub fn deviations(&self, mode: u8, teams: usize, slots: usize) -> usize {
        match self.per[usize::from(mode > 3)] {
            Per::Team => teams,
            Per::Pair => teams * teams.saturating_sub(1) / 2,
            Per::Slot => slots,
            Per::Whole => 1,
        }
    }
}

const PLAIN: Kind = Kind {
    word: "",
    number: 0,
    title: "",
    sides: &SIDES,
    second: None,
    kmin: false,
    kmax: Some(0),
    w: false,
    fewest: 1,
    one_each: true,
    t2: false,
    s: true,
    per: [Per::Team; 2],
    asks: explain::asks_games,
    finds: explain::finds_games,
};

pub const KINDS: [Kind; 12] = [
    Kind { word: "CA1", number: 11, title: "games of a team", kmin: true, ..PLAIN },
    Kind { word: "CA2", number: 12, title: "games of a team against a group", kmin: true, t2: true, one_each: false, ..PLAIN },
    Kind {
        word: "CA3",
        number: 13,
        title: "games of a team in successive slots",
        kmin: true,
        t2: true,
        s: false,
        w: true,
        asks: explain::asks_runs,
        finds: explain::finds_runs,
        ..PLAIN
    },
    Kind {
        word: "CA4",
        number: 14,
        title: "games between two groups",
        kmin: true,
        t2: true,
        second: Some("each"),
        fewest: 2,
        per: [Per::Whole, Per::Slot],
        asks: explain::asks_between,
        finds: explain::finds_between,
        ..PLAIN
    },
    Kind {
        word: "CA5",
        number: 15,
        title: "away games of a team on each trip",
        sides: &["away"],
        kmin: true,
        t2: true,
        asks: explain::asks_games_on_trips,
        finds: explain::finds_games_on_trips,
        ..PLAIN
    },
    Kind {
        word: "GA1",
        number: 21,
        title: "fixtures in given slots",
        kmin: true,
        t2: true,
        sides: &[],
        per: [Per::Whole; 2],
        asks: explain::asks_between,
        finds: explain::finds_between,
        ..PLAIN
    },
    Kind {
        word: "BR1",
        number: 31,
        title: "breaks of a team",
        second: Some("exactly"),
        asks: explain::asks_breaks,
        finds: explain::finds_breaks,
        ..PLAIN
    },
    Kind {
        word: "BR2",
        number: 32,
        title: "breaks of all teams together",
        second: Some("exactly"),
        kmax: Some(1),
        fewest: 2,
        per: [Per::Whole; 2],
        asks: explain::asks_breaks,
        finds: explain::finds_breaks,
        ..PLAIN
    },
    Kind {
        word: "BR4",
        number: 34,
        title: "trips of a team",
        sides: &["away"],
        kmin: true,
        kmax: None,
        asks: explain::asks_trips,
        finds: explain::finds_trips,
        ..PLAIN
    },
    Kind {
        word: "FA1",
        number: 41,
        title: "home and away games of a team in balance",
        sides: &[],
        asks: explain::asks_balance,
        finds: explain::finds_balance,
        ..PLAIN
    },
    Kind {
        word: "FA2",
        number: 42,
        title: "games of two teams in balance",
        fewest: 2,
        per: [Per::Pair; 2],
        asks: explain::asks_difference,
        finds: explain::finds_difference,
        ..PLAIN
    },
    Kind {
        word: "SE1",
        number: 51,
        title: "slots between two games of a pair",
        sides: &[],
        kmax: None,
        w: true,
        fewest: 2,
        s: false,
        per: [Per::Pair; 2],
        asks: explain::asks_separation,
        finds: explain::finds_separation,
        ..PLAIN
    },
];

/// Modes 1 to 3.
pub const SIDES: [&str; 3] = ["home", "away", "any"];

/// Functions 1 to 5.
pub const FUNCTIONS: [&str; 5] = ["sum", "sq-sum", "sum-sq", "min", "max"];

/// Functions 1 to 5 in words.
pub const FUNCTION_WORDS: [&str; 5] = ["the sum", "the square of the sum", "the sum of the squares", "the smallest", "the largest"];

/// The groups, their place in the body of a constraint and their length.
pub const GROUPS: [(&str, usize, usize); 3] = [("T1", 0, 4), ("T2", 4, 4), ("S", 8, 8)];

pub fn kind_by_word(word: &str) -> Option<&'static Kind> {
    KINDS.iter().find(|kind| kind.word == word)
}

pub fn kind_by_number(number: u8) -> Option<&'static Kind> {
    KINDS.iter().find(|kind| kind.number == number)
}
