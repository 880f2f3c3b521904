//! Text to bytes. What is encoded is always a season and a sheet that the checker opens.

use crate::faults::{Fault, Faults};
use crate::kinds::{kind_by_word, Kind, FUNCTIONS, KINDS, SIDES};
use crate::names::{self, Names};
use crate::round_robin;
use crate::season::{CONSTRAINTS, GAMES, MEETINGS, SLOTS, TEAMS};
use crate::words::{quote, split, Word};
use std::collections::HashMap;
use std::ops::RangeInclusive;

#[derive(Clone, PartialEq, Eq, Debug)]
pub struct Encoded {
    pub season: Vec<u8>,
    pub sheet: Vec<u8>,
    /// How many words the ledger has.
    pub deviations: usize,
    pub names: Names,
    /// What is allowed, and may be a slip all the same.
    pub notes: Vec<Fault>,
}

/// The season and the sheet that the text describes, or all its faults.
pub fn encode(text: &str) -> Result<Encoded, Faults> {
    let mut draft = Draft::default();
    let text = match text.strip_prefix('\u{feff}') {
        Some(rest) => {
            draft.note(1, "the file begins with a byte order mark (BOM), which is passed over");
            rest
        }
        None => text,
    };
    for (at, line) in text.lines().enumerate() {
        draft.line = at + 1;
        match split(line) {
            Ok(words) if words.is_empty() => (),
            Ok(words) => draft.take(&words),
            Err(message) => draft.fault(message),
        }
    }
    draft.finish()
}

/// A number of teams or slots.
#[derive(Default)]
struct Size {
    value: Option<usize>,
    /// Whether its line was there, right or wrong. Without one a guess is used, so that one fault is not told once for each line.
    said: bool,
}

/// What has been read so far.
#[derive(Default)]
struct Draft {
    line: usize,
    teams: Size,
    slots: Size,
    home: Vec<u8>,
    away: Vec<u8>,
    sheet: Vec<u8>,
    heads: Vec<u8>,
    bodies: Vec<u8>,
    deviations: usize,
    names: Names,
    /// The line of each game.
    lines: Vec<usize>,
    /// The line of the game that a team has in a slot.
    busy: HashMap<(usize, usize), usize>,
    faults: Faults,
    notes: Vec<Fault>,
}

impl Draft {
    fn fault(&mut self, message: impl Into<String>) {
        self.faults.0.push(Fault { line: self.line, message: message.into() });
    }

    fn note(&mut self, line: usize, message: impl Into<String>) {
        self.notes.push(Fault { line, message: message.into() });
    }

    fn take(&mut self, words: &[Word]) {
        let Word::Plain(first) = &words[0] else {
            return self
                .fault("a line does not begin with a name; it begins with teams, slots, team, slot, game or a kind such as CA1");
        };
        let known = in_right_case(first, &["teams", "slots", "team", "slot", "game"]).or_else(|| {
            let kinds = KINDS.map(|kind| kind.word);
            in_right_case(first, &kinds)
        });
        let Some(word) = known else {
            return self.fault(format!(
                "'{first}' is not known here; a line begins with teams, slots, team, slot, game or a kind such as CA1"
            ));
        };
        if word != *first {
            self.fault(match kind_by_word(word) {
                Some(_) => format!("'{first}': a kind is written in capitals, {word}"),
                None => format!("'{first}' is written {word}"),
            });
        }
        let rest = &words[1..];
        let done = match word {
            "teams" => take_size(&mut self.teams, word, rest, TEAMS),
            "slots" => take_size(&mut self.slots, word, rest, SLOTS),
            "team" => {
                let (teams, _) = self.sizes();
                names::take(&mut self.names.teams, word, rest, |number| team(number, teams))
            }
            "slot" => {
                let (_, slots) = self.sizes();
                names::take(&mut self.names.slots, word, rest, |number| one_slot(number, slots))
            }
            "game" => self.take_game(rest),
            _ => {
                kind_by_word(word).into_iter().for_each(|kind| self.take_constraint(kind, rest));
                Ok(())
            }
        };
        if let Err(message) = done {
            self.fault(message);
        }
    }

    /// The numbers of teams and slots, which have to stand before all else.
    fn sizes(&mut self) -> (usize, usize) {
        for (missing, message) in [
            (self.teams.value.is_none(), "there is no line 'teams N' before this"),
            (self.slots.value.is_none(), "there is no line 'slots N' before this"),
        ] {
            if missing {
                self.fault(message);
            }
        }
        (*self.teams.value.get_or_insert(*TEAMS.end()), *self.slots.value.get_or_insert(*SLOTS.end()))
    }

    fn take_game(&mut self, words: &[Word]) -> Result<(), String> {
        let (teams, slots) = self.sizes();
        let [Word::Plain(home), Word::Plain(away), Word::Plain(slot)] = words else {
            return Err("a game is written 'game HOME AWAY SLOT', with '-' for SLOT if it is unplaced".into());
        };
        let slot = if *slot == "-" { Ok(0) } else { one_slot(slot, slots) };
        let (home, away, slot) = match (team(home, teams), team(away, teams), slot) {
            (Ok(home), Ok(away), Ok(slot)) => (home, away, slot),
            (home, away, slot) => {
                [home, away, slot].into_iter().filter_map(Result::err).for_each(|message| self.fault(message));
                return Ok(());
            }
        };
        if home == away {
            return Err(format!("{} cannot play against itself", self.names.team(home)));
        }
        if self.home.len() == *GAMES.end() {
            return Err(format!("there are more than {} games", GAMES.end()));
        }
        let pair = [(home as u8, away as u8), (away as u8, home as u8)];
        if self.home.iter().zip(&self.away).filter(|&(&h, &a)| pair.contains(&(h, a))).count() == MEETINGS {
            return Err(format!("{} and {} have more than {MEETINGS} games", self.names.team(home), self.names.team(away)));
        }
        for t in [home, away] {
            if let Some(line) = self.busy.get(&(t, slot)).filter(|_| slot > 0) {
                return Err(format!("{} already plays in {} (line {line})", self.names.team(t), self.names.slot(slot)));
            }
        }
        self.busy.insert((home, slot), self.line);
        self.busy.insert((away, slot), self.line);
        self.home.push(home as u8);
        self.away.push(away as u8);
        self.sheet.push(slot as u8);
        self.lines.push(self.line);
        Ok(())
    }

    fn take_constraint(&mut self, kind: &Kind, words: &[Word]) {
        let (teams, slots) = self.sizes();
        if self.heads.len() == 8 * CONSTRAINTS.end() {
            return self.fault(format!("there are more than {} constraints", CONSTRAINTS.end()));
        }
        let name = only_name(words).unwrap_or_else(|message| {
            self.fault(message);
            None
        });
        let (words, mut wrong) = without_blanks(words);
        let mut given = Given::default();
        for word in &words {
            if let Err(message) = given.take(kind, word, teams, slots) {
                wrong.push(message);
            }
        }
        wrong.extend(given.missing(kind));
        if wrong.is_empty() {
            wrong.extend(given.contradictions(kind));
        }
        wrong.into_iter().for_each(|message| self.fault(message));
        if let Some(name) = name {
            self.names.constraints.insert(self.heads.len() / 8, name);
        }
        let (head, body) = given.bytes(kind);
        let (t1, s) = (given.t1.unwrap_or(0).count_ones() as usize, given.s.unwrap_or(0).count_ones() as usize);
        self.deviations += kind.deviations(head[1], t1, s);
        self.heads.extend(head);
        self.bodies.extend(body);
    }

    fn finish(mut self) -> Result<Encoded, Faults> {
        self.line = 0;
        for (missing, message) in
            [(self.teams.value.is_none(), "there is no line 'teams N'"), (self.slots.value.is_none(), "there is no line 'slots N'")]
        {
            if missing {
                self.fault(message);
            }
        }
        let (Some(teams), Some(slots), true) = (self.teams.value, self.slots.value, self.faults.0.is_empty()) else {
            return Err(self.faults);
        };
        self.note_names();
        let games: Vec<_> = self.home.iter().zip(&self.away).map(|(&home, &away)| (home.into(), away.into())).collect();
        self.notes.extend(round_robin::notes(teams, &games, &self.lines, &self.names));
        let mut season = vec![teams as u8, slots as u8];
        season.extend((self.home.len() as u16).to_le_bytes());
        season.extend((self.heads.len() as u16 / 8).to_le_bytes());
        for part in [self.home, self.away, self.heads, self.bodies] {
            season.extend(part);
        }
        Ok(Encoded { season, sheet: self.sheet, deviations: self.deviations, names: self.names, notes: self.notes })
    }

    /// Two teams of one name cannot be told apart in a report.
    fn note_names(&mut self) {
        let teams: Vec<(usize, String)> = self.names.teams.clone().into_iter().collect();
        for (at, (number, name)) in teams.iter().enumerate() {
            if let Some((earlier, _)) = teams[..at].iter().find(|(_, other)| other == name) {
                self.note(0, format!("teams {earlier} and {number} have the same name, {name}"));
            }
        }
    }
}

/// The known word that this is, whatever its case.
fn in_right_case<'a>(word: &str, known: &[&'a str]) -> Option<&'a str> {
    let exact = known.iter().find(|known| **known == word);
    exact.or_else(|| known.iter().find(|known| known.eq_ignore_ascii_case(word))).copied()
}

/// The words of a constraint, with those joined that a blank beside a comma has separated, and a message for each.
fn without_blanks(words: &[Word]) -> (Vec<String>, Vec<String>) {
    let (mut joined, mut separated): (Vec<String>, Vec<usize>) = (Vec::new(), Vec::new());
    for word in words {
        let Word::Plain(word) = word else { continue };
        match joined.last_mut() {
            Some(list) if list.ends_with(',') || word.starts_with(',') => {
                list.push_str(word);
                separated.push(joined.len() - 1);
            }
            _ => joined.push(word.to_string()),
        }
    }
    separated.dedup();
    let messages = separated.iter().map(|&at| format!("no blank stands before or after a comma: write {}", joined[at])).collect();
    (joined, messages)
}

/// The name on a constraint's line.
fn only_name(words: &[Word]) -> Result<Option<String>, String> {
    let mut names = words.iter().filter_map(|word| match word {
        Word::Name(name) => Some(name.clone()),
        Word::Plain(_) => None,
    });
    match (names.next(), names.next()) {
        (_, Some(second)) => Err(format!("{}: a constraint has one name only", quote(&second))),
        (name, None) => Ok(name),
    }
}

/// What a constraint's line says.
#[derive(Default)]
struct Given {
    side: Option<u8>,
    second: bool,
    hard: Option<u8>,
    function: Option<u8>,
    weight: Option<u8>,
    kmin: Option<u8>,
    kmax: Option<u8>,
    w: Option<u8>,
    t1: Option<u64>,
    t2: Option<u64>,
    s: Option<u64>,
}

const FIELDS: [&str; 7] = ["weight", "kmin", "kmax", "w", "T1", "T2", "S"];
const HARDNESS: [&str; 2] = ["soft", "hard"];

impl Given {
    fn take(&mut self, kind: &Kind, word: &str, teams: usize, slots: usize) -> Result<(), String> {
        if let Some((name, value)) = word.split_once('=') {
            return self.take_field(kind, name, value, teams, slots);
        }
        let known: Vec<&str> = SIDES.iter().chain(&FUNCTIONS).chain(&HARDNESS).chain(&kind.second).copied().collect();
        let Some(right) = in_right_case(word, &known) else {
            return Err(format!("'{word}' is not known in a line of {}", kind.word));
        };
        let place = |words: &[&str]| words.iter().position(|&known| known == right).map(|at| at as u8);
        let said = if let Some(at) = place(&SIDES) {
            if kind.sides.is_empty() {
                return Err(format!("{} has no side", kind.word));
            }
            if !kind.sides.contains(&right) {
                // It counts as said, so that it is not told as missing too.
                self.side.get_or_insert(at + 1);
                return Err(format!("'{word}': the side of {} is {}", kind.word, kind.sides.join(" or ")));
            }
            self.side.replace(at + 1).is_some()
        } else if let Some(at) = place(&FUNCTIONS) {
            self.function.replace(at + 1).is_some()
        } else if let Some(at) = place(&HARDNESS) {
            self.hard.replace(at).is_some()
        } else {
            std::mem::replace(&mut self.second, true)
        };
        match said {
            true => Err(format!("'{word}': this was already said")),
            false if right != word => Err(format!("'{word}' is written {right}")),
            false => Ok(()),
        }
    }

    fn take_field(&mut self, kind: &Kind, name: &str, value: &str, teams: usize, slots: usize) -> Result<(), String> {
        let Some(right) = in_right_case(name, &FIELDS) else {
            return Err(format!("'{name}' is not a field; there are weight, kmin, kmax, w, T1, T2 and S"));
        };
        let kept = match right {
            "weight" => keep(&mut self.weight, true, number(name, value, 1)),
            "kmin" => keep(&mut self.kmin, kind.kmin, number(name, value, 0)),
            "kmax" => keep(&mut self.kmax, kind.kmax.is_some(), number(name, value, kind.kmax.unwrap_or(0))),
            "w" => keep(&mut self.w, kind.w, number(name, value, 1)),
            "T1" => keep(&mut self.t1, true, group(value, teams, 0, team)),
            "T2" => keep(&mut self.t2, kind.t2, group(value, teams, 0, team)),
            _ => keep(&mut self.s, kind.s, group(value, slots, 1, one_slot)),
        };
        match kept {
            Kept::Yes if right != name => Err(format!("'{name}' is written {right}")),
            Kept::Yes => Ok(()),
            Kept::Twice => Err(format!("'{name}={value}': this was already said")),
            Kept::NotOfKind => Err(format!("{} has no field {right}", kind.word)),
            Kept::Wrong(message) => Err(message),
        }
    }

    /// What the kind needs and the line does not say.
    fn missing(&self, kind: &Kind) -> Vec<String> {
        let wanted = [
            (kind.sides.len() > 1 && self.side.is_none(), "a side: home, away or any"),
            (kind.sides.len() == 1 && self.side.is_none(), "its side, away"),
            (self.hard.is_none(), "hard or soft"),
            (self.function.is_none(), "a function: sum, sq-sum, sum-sq, min or max"),
            (self.weight.is_none(), "weight=N"),
            (kind.kmin && kind.kmax.is_none() && self.kmin.is_none(), "kmin=N"),
            (kind.kmax.is_some() && self.kmax.is_none(), "kmax=N"),
            (kind.w && self.w.is_none(), "w=N"),
            (self.t1.is_none(), "T1=TEAMS"),
            (kind.t2 && self.t2.is_none(), "T2=TEAMS"),
            (kind.s && self.s.is_none(), "S=SLOTS"),
        ];
        wanted.iter().filter(|(missing, _)| *missing).map(|(_, what)| format!("{} needs {what}", kind.word)).collect()
    }

    /// What the fields of a complete line say against each other, or against the kind.
    fn contradictions(&self, kind: &Kind) -> Vec<String> {
        let (kmin, kmax) = (self.kmin.unwrap_or(0), self.kmax.unwrap_or(0));
        let (t1, t2) = (self.t1.unwrap_or(0).count_ones() as usize, self.t2.unwrap_or(0).count_ones());
        let mut found = Vec::new();
        if kind.kmax.is_some() && kmin > kmax {
            found.push(format!("kmin {kmin} is above kmax {kmax}"));
        }
        if t1 < kind.fewest {
            found.push(format!("{} needs at least two teams in T1", kind.word));
        }
        if !kind.one_each && t1 == 1 && t2 == 1 {
            found.push(format!("{} needs more than one team in T1 or in T2", kind.word));
        }
        found
    }

    /// The head and the body.
    fn bytes(&self, kind: &Kind) -> ([u8; 8], Vec<u8>) {
        let byte = |field: Option<u8>| field.unwrap_or(0);
        let group = |field: Option<u64>| field.unwrap_or(0);
        let mode = self.side.unwrap_or(1) + if self.second { 3 } else { 0 };
        let head = [
            kind.number,
            mode,
            byte(self.hard),
            byte(self.function),
            byte(self.weight),
            byte(self.kmin),
            byte(self.kmax),
            byte(self.w),
        ];
        let mut body = (group(self.t1) as u32).to_le_bytes().to_vec();
        body.extend((group(self.t2) as u32).to_le_bytes());
        body.extend(group(self.s).to_le_bytes());
        (head, body)
    }
}

enum Kept {
    Yes,
    Twice,
    NotOfKind,
    Wrong(String),
}

/// Keeps the value of a field. A wrong one counts as said, so that it is not told as missing too.
fn keep<T: Default>(place: &mut Option<T>, of_kind: bool, value: Result<T, String>) -> Kept {
    match (of_kind, value) {
        (false, _) => Kept::NotOfKind,
        (true, _) if place.is_some() => Kept::Twice,
        (true, Ok(value)) => {
            *place = Some(value);
            Kept::Yes
        }
        (true, Err(message)) => {
            *place = Some(T::default());
            Kept::Wrong(message)
        }
    }
}

fn take_size(size: &mut Size, name: &str, rest: &[Word], range: RangeInclusive<usize>) -> Result<(), String> {
    if std::mem::replace(&mut size.said, true) {
        return Err(format!("'{name}' was already said"));
    }
    let value = size.value.insert(*range.end());
    let [Word::Plain(word)] = rest else {
        return Err(format!("this is written '{name} N'"));
    };
    match whole(word) {
        Some(size) if range.contains(&size) => *value = size,
        _ => return Err(format!("{name} has to be a number from {} to {}, not '{word}'", range.start(), range.end())),
    }
    Ok(())
}

/// Digits only: a number without sign.
pub(crate) fn whole(word: &str) -> Option<usize> {
    if word.bytes().all(|b| b.is_ascii_digit()) {
        word.parse().ok()
    } else {
        None
    }
}

fn number(name: &str, word: &str, least: u8) -> Result<u8, String> {
    match whole(word) {
        Some(value) if value >= least.into() && value <= 255 => Ok(value as u8),
        _ => Err(format!("{name} has to be a number from {least} to 255, not '{word}'")),
    }
}

pub(crate) fn team(word: &str, teams: usize) -> Result<usize, String> {
    match whole(word) {
        Some(team) if team < teams => Ok(team),
        _ => Err(format!("'{word}' is not a team; teams are 0 to {}", teams - 1)),
    }
}

pub(crate) fn one_slot(word: &str, slots: usize) -> Result<usize, String> {
    match whole(word) {
        Some(slot) if slot >= 1 && slot <= slots => Ok(slot),
        _ => Err(format!("'{word}' is not a slot; slots are 1 to {slots}")),
    }
}

/// A group such as `0,2,5-9` or `all`, as bits; member `base` is bit 0.
fn group(word: &str, size: usize, base: usize, member: fn(&str, usize) -> Result<usize, String>) -> Result<u64, String> {
    let mut bits = 0;
    for part in word.split(',') {
        let (first, last) = match part.split_once('-') {
            _ if word == "all" => (base, base + size - 1),
            Some((first, last)) => (member(first, size)?, member(last, size)?),
            None => (member(part, size)?, member(part, size)?),
        };
        if first > last {
            return Err(format!("'{part}' runs backwards"));
        }
        for k in first..=last {
            if bits >> (k - base) & 1 == 1 {
                return Err(format!("'{word}' names {k} twice"));
            }
            bits |= 1u64 << (k - base);
        }
    }
    Ok(bits)
}
