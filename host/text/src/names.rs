//! The names of teams, slots and constraints. The bytes have none, so they are kept in a file of their own beside the bytes.

use crate::encode::{one_slot, team, whole};
use crate::faults::{Fault, Faults};
use crate::words::{quote, split, Word};
use std::collections::BTreeMap;

/// Names by number; what is left out has none.
#[derive(Clone, Default, PartialEq, Eq, Debug)]
pub struct Names {
    pub teams: BTreeMap<usize, String>,
    pub slots: BTreeMap<usize, String>,
    pub constraints: BTreeMap<usize, String>,
}

impl Names {
    pub fn is_empty(&self) -> bool {
        self.teams.is_empty() && self.slots.is_empty() && self.constraints.is_empty()
    }

    /// `Elm`, or `team 3`.
    pub fn team(&self, team: usize) -> String {
        self.teams.get(&team).cloned().unwrap_or_else(|| format!("team {team}"))
    }

    /// `9 (14 March)`, or `9`.
    pub fn slot_number(&self, slot: usize) -> String {
        self.slots.get(&slot).map_or(slot.to_string(), |name| format!("{slot} ({name})"))
    }

    /// `slot 9 (14 March)`, or `slot 9`.
    pub fn slot(&self, slot: usize) -> String {
        format!("slot {}", self.slot_number(slot))
    }

    /// `Elm - Oak`: the home team first.
    pub fn fixture(&self, (home, away): (usize, usize)) -> String {
        format!("{} - {}", self.team(home), self.team(away))
    }

    /// `constraint 4 "Derby"`, or `constraint 4`.
    pub fn constraint(&self, constraint: usize) -> String {
        match self.constraints.get(&constraint) {
            Some(name) => format!("constraint {constraint} {}", quote(name)),
            None => format!("constraint {constraint}"),
        }
    }

    /// The lines of teams and slots, as they stand in the text form and in a file of names.
    pub fn team_and_slot_lines(&self) -> String {
        lines("team", &self.teams) + &lines("slot", &self.slots)
    }

    /// The contents of a file of names.
    pub fn file(&self) -> String {
        format!(
            "# Names for the season in the file beside this one; decode, report, page and play of season-text read them.\n{}{}",
            self.team_and_slot_lines(),
            lines("constraint", &self.constraints)
        )
    }

    /// Reads a file of names for a season of these sizes.
    pub fn read(text: &str, teams: usize, slots: usize, constraints: usize) -> Result<Names, Faults> {
        let mut names = Names::default();
        let mut faults = Faults::default();
        for (at, line) in text.trim_start_matches('\u{feff}').lines().enumerate() {
            if let Err(message) = split(line).and_then(|words| names.take(&words, teams, slots, constraints)) {
                faults.0.push(Fault { line: at + 1, message });
            }
        }
        if faults.0.is_empty() {
            Ok(names)
        } else {
            Err(faults)
        }
    }

    fn take(&mut self, words: &[Word], teams: usize, slots: usize, constraints: usize) -> Result<(), String> {
        match words {
            [] => Ok(()),
            [Word::Plain("team"), rest @ ..] => take(&mut self.teams, "team", rest, |word| team(word, teams)),
            [Word::Plain("slot"), rest @ ..] => take(&mut self.slots, "slot", rest, |word| one_slot(word, slots)),
            [Word::Plain("constraint"), rest @ ..] => take(&mut self.constraints, "constraint", rest, |word| match whole(word) {
                Some(number) if number < constraints => Ok(number),
                _ => Err(format!("'{word}' is not a constraint; there are {constraints}, numbered from 0")),
            }),
            _ => Err("a line of names begins with team, slot or constraint".into()),
        }
    }
}

/// Takes `N "NAME"`, the rest of a line that gives a name.
pub fn take(
    names: &mut BTreeMap<usize, String>,
    what: &str,
    rest: &[Word],
    number: impl Fn(&str) -> Result<usize, String>,
) -> Result<(), String> {
    match rest {
        [Word::Plain(word), Word::Name(name)] => {
            let number = number(word)?;
            match names.insert(number, name.clone()) {
                Some(earlier) => Err(format!("{what} {number} already has the name {}", quote(&earlier))),
                None => Ok(()),
            }
        }
        [Word::Plain(word), Word::Plain(name), ..] => Err(format!("a name stands in quotes: {what} {word} \"{name}\"")),
        _ => Err(format!("a name is given as '{what} N \"NAME\"'")),
    }
}

fn lines(what: &str, names: &BTreeMap<usize, String>) -> String {
    names.iter().map(|(number, name)| format!("{what} {number} {}\n", quote(name))).collect()
}
