//! A season with its books, and the report of it in words.

use crate::explain::{Finding, Subject, View};
use crate::kinds::FUNCTION_WORDS;
use crate::library::{Books, Reply};
use crate::names::Names;
use crate::phrases::count_of;
use crate::refusals;
use crate::season::{end, Constraint, Season};
use std::fmt::Write;

/// A season that the library has opened.
pub struct Opened {
    pub season: Season,
    pub names: Names,
    pub books: Books,
    pub reply: Reply,
}

/// A deviation above 0.
pub struct Deviation {
    pub subject: Subject,
    /// The word of the ledger.
    pub by: u32,
    pub findings: Vec<Finding>,
}

/// A constraint with a penalty above 0.
pub struct Broken {
    pub number: usize,
    pub penalty: u64,
    pub deviations: Vec<Deviation>,
}

/// Why the library does not open a season: its number, and a line for each thing at fault.
#[derive(Debug)]
pub struct Refused {
    pub number: u8,
    pub lines: Vec<String>,
}

impl Opened {
    /// Opens a season that is followed by its sheet.
    pub fn new(bytes: &[u8], names: Names) -> Result<Opened, Refused> {
        let (season, sheet) = bytes.split_at(end(bytes));
        let (books, reply) = Books::open(season, sheet);
        if reply.declined {
            return Err(Refused { number: reply.number, lines: refusals::of_open(bytes, reply.number, &names) });
        }
        let season = Season::read(season).expect("the library has accepted the season");
        Ok(Opened { season, names, books, reply })
    }

    pub fn view(&self) -> View<'_> {
        View::new(&self.season, self.books.sheet(), &self.names)
    }

    /// The broken constraints: hard before soft, the highest penalty first.
    pub fn broken(&self, view: &View) -> Vec<Broken> {
        let mut broken = Vec::new();
        let mut rest = self.books.ledger();
        for (number, c) in self.season.constraints.iter().enumerate() {
            let (own, after) = rest.split_at(c.deviations());
            rest = after;
            let penalty = self.books.tally()[number];
            if penalty > 0 {
                broken.push(Broken { number, penalty, deviations: deviations(view, c, own) });
            }
        }
        broken.sort_by_key(|b| (!self.season.constraints[b.number].hard, std::cmp::Reverse(b.penalty), b.number));
        broken
    }

    /// What the findings behind each deviation add up to, in the order of the ledger; the tests hold it against the ledger.
    pub fn explained(&self, view: &View) -> Vec<i64> {
        let of_one = |c: &Constraint| -> Vec<i64> {
            let finds = |subject| (c.kind.finds)(view, c, subject).iter().map(|finding| finding.by).sum();
            view.subjects(c).into_iter().map(finds).collect()
        };
        self.season.constraints.iter().flat_map(of_one).collect()
    }

    /// How many constraints are hard (or soft).
    fn count(&self, hard: bool) -> usize {
        self.season.constraints.iter().filter(|c| c.hard == hard).count()
    }

    /// How many of them are broken.
    fn count_broken(&self, hard: bool) -> usize {
        self.season.constraints.iter().zip(self.books.tally()).filter(|(c, &penalty)| c.hard == hard && penalty > 0).count()
    }

    /// `4 teams, 3 slots, 6 games, 4 constraints`
    pub fn sizes(&self) -> String {
        let season = &self.season;
        [
            count_of(season.teams, "team"),
            count_of(season.slots, "slot"),
            count_of(season.games.len(), "game"),
            count_of(season.constraints.len(), "constraint"),
        ]
        .join(", ")
    }

    /// The verdict in one word.
    pub fn verdict(&self) -> &'static str {
        verdict(self.reply.number)
    }

    /// The verdict in a sentence.
    pub fn verdict_sentence(&self) -> String {
        let unplaced = self.books.sheet().iter().filter(|&&slot| slot == 0).count();
        let hard = self.count_broken(true);
        let broken = match hard {
            0 => "no hard constraint is broken".to_string(),
            1 => "1 hard constraint is broken".into(),
            hard => format!("{hard} hard constraints are broken"),
        };
        match (self.reply.number, unplaced) {
            (1, 1) => format!("1 game has no slot, and {broken}"),
            (1, _) => format!("{unplaced} games have no slot, and {broken}"),
            _ => format!("every game has a slot, and {broken}"),
        }
    }

    /// `1 of 2 hard constraints broken`
    pub fn share(&self, hard: bool) -> String {
        let word = if hard { "hard constraint" } else { "soft constraint" };
        match self.count(hard) {
            0 => format!("there is no {word}"),
            count => format!("{} of {} broken", self.count_broken(hard), count_of(count, word)),
        }
    }
}

pub fn verdict(number: u8) -> &'static str {
    match number {
        0 => "feasible",
        1 => "incomplete",
        _ => "infeasible",
    }
}

fn deviations(view: &View, c: &Constraint, ledger: &[u32]) -> Vec<Deviation> {
    let subjects = view.subjects(c);
    let above = subjects.into_iter().zip(ledger).filter(|(_, &by)| by > 0);
    above.map(|(subject, &by)| Deviation { subject, by, findings: (c.kind.finds)(view, c, subject) }).collect()
}

impl Deviation {
    /// Whether what was found adds up to the ledger's figure. It always should; a report says so where it does not.
    pub fn is_explained(&self) -> bool {
        self.findings.iter().map(|finding| finding.by).sum::<i64>() == i64::from(self.by)
    }
}

/// Weight and function in words.
pub fn reckoning(c: &Constraint) -> String {
    format!("weight {} times {} of the deviations", c.weight, FUNCTION_WORDS[usize::from(c.function) - 1])
}

/// The report in words.
pub fn report(file: &str, opened: &Opened) -> String {
    let view = opened.view();
    let mut text = format!("{file}: {}\n\n", opened.sizes());
    let _ = writeln!(text, "Verdict: {}: {}", opened.verdict(), opened.verdict_sentence());
    let _ = writeln!(text, "Infeasibility: {} ({})", opened.books.infeasibility(), opened.share(true));
    let _ = writeln!(text, "Objective: {} ({})", opened.books.objective(), opened.share(false));
    if !view.unplaced.is_empty() {
        let _ = writeln!(text, "\nUnplaced games: {}", view.unplaced.len());
        for &game in &view.unplaced {
            let _ = writeln!(text, "  game {game}: {}", opened.names.fixture(opened.season.games[game]));
        }
    }
    let broken = opened.broken(&view);
    for hard in [true, false] {
        let of_both: Vec<&Broken> = broken.iter().filter(|b| opened.season.constraints[b.number].hard == hard).collect();
        if !of_both.is_empty() {
            let _ = writeln!(text, "\nBroken {} constraints: {}", if hard { "hard" } else { "soft" }, of_both.len());
        }
        of_both.into_iter().for_each(|b| write_broken(&mut text, opened, &view, b));
    }
    text
}

fn write_broken(text: &mut String, opened: &Opened, view: &View, broken: &Broken) {
    let c = &opened.season.constraints[broken.number];
    let hardness = if c.hard { "hard" } else { "soft" };
    let name = opened.names.constraint(broken.number);
    let _ = writeln!(text, "\n{name}, {} ({}), {hardness}: penalty {}", c.kind.word, c.kind.title, broken.penalty);
    let _ = writeln!(text, "  asks: {}", (c.kind.asks)(view, c));
    let _ = writeln!(text, "  penalty: {}", reckoning(c));
    for deviation in &broken.deviations {
        for (at, finding) in deviation.findings.iter().enumerate() {
            let by = if at == 0 { format!("by {}", deviation.by) } else { String::new() };
            let _ = writeln!(text, "  {by:>6}  {}", finding.text());
        }
        if !deviation.is_explained() {
            let _ = writeln!(text, "  by {}: {}", deviation.by, unexplained(opened, deviation));
        }
    }
}

/// For a deviation that the games found do not add up to.
pub fn unexplained(opened: &Opened, deviation: &Deviation) -> String {
    let names = &opened.names;
    let subject = match deviation.subject {
        Subject::Team(team) => names.team(team),
        Subject::Pair(i, j) => format!("{} and {}", names.team(i), names.team(j)),
        Subject::Slot(slot) => names.slot(slot),
        Subject::Whole => "as a whole".into(),
    };
    format!("{subject} (the games behind this figure are not shown in full)")
}
