//! What a constraint asks and what stands behind its deviations, in words. The deviations themselves are the library's; here only the
//! games are gathered that explain them.

use crate::kinds::Per;
use crate::names::Names;
use crate::phrases::{count_of, limits, Phrases};
use crate::season::{bits, Constraint, Season};
use std::ops::Range;

/// A game as a team sees it.
#[derive(Clone, Copy, PartialEq, Eq, Debug)]
pub struct Entry {
    pub opponent: usize,
    pub at_home: bool,
    /// Whether it is a break of the team.
    pub is_break: bool,
}

/// A season, its sheet team by team, and the names.
pub struct View<'a> {
    pub season: &'a Season,
    pub names: &'a Names,
    /// `diary[team][slot]`: the game of the team in the slot. Place 0 is empty.
    pub diary: Vec<Vec<Option<Entry>>>,
    /// (home, away, slot) of each placed game, by slot and home team.
    pub placed: Vec<(usize, usize, usize)>,
    /// The numbers of the games without a slot.
    pub unplaced: Vec<usize>,
}

/// What a deviation belongs to.
#[derive(Clone, Copy, PartialEq, Eq, Debug)]
pub enum Subject {
    Team(usize),
    Pair(usize, usize),
    Slot(usize),
    Whole,
}

/// A piece of a sentence: text, or a text that stands for a cell of the grid.
#[derive(Clone, PartialEq, Eq, Debug)]
pub enum Piece {
    Text(String),
    Cell { text: String, team: usize, slot: usize },
}

/// One sentence behind a deviation.
#[derive(Clone, Default, Debug)]
pub struct Finding {
    /// How much of the deviation it explains.
    pub by: i64,
    pub pieces: Vec<Piece>,
    /// The cells (team, slot) that it is about.
    pub cells: Vec<(usize, usize)>,
}

pub type Findings = Vec<Finding>;

impl Finding {
    pub fn text(&self) -> String {
        self.pieces
            .iter()
            .map(|piece| match piece {
                Piece::Text(text) | Piece::Cell { text, .. } => text.as_str(),
            })
            .collect()
    }

    fn new(by: i64, text: String) -> Finding {
        Finding { by, pieces: vec![Piece::Text(text)], cells: Vec::new() }
    }

    fn add(&mut self, text: impl Into<String>) {
        self.pieces.push(Piece::Text(text.into()));
    }

    fn add_cell(&mut self, text: String, team: usize, slot: usize) {
        self.pieces.push(Piece::Cell { text, team, slot });
        self.cells.push((team, slot));
    }

    /// `slots 4, 5, 6`: cells of one team. Long runs are told by their ends, unless there is a remark on each slot.
    fn add_slots(&mut self, names: &Names, team: usize, slots: &[usize], remark: Option<&dyn Fn(usize) -> &'static str>) {
        self.add(if slots.len() == 1 { "slot " } else { "slots " });
        let mut separator = "";
        for run in slots.chunk_by(|one, next| one + 1 == *next) {
            let (shown, between) = match run {
                [first, .., last] if run.len() >= LONG_RUN && remark.is_none() => (vec![*first, *last], " to "),
                all => (all.to_vec(), ", "),
            };
            for slot in shown {
                self.add(std::mem::replace(&mut separator, between));
                let text = format!("{}{}", names.slot_number(slot), remark.map_or("", |remark| remark(slot)));
                self.pieces.push(Piece::Cell { text, team, slot });
            }
            separator = ", ";
        }
        self.cells.extend(slots.iter().map(|&slot| (team, slot)));
    }
}

/// Games in this many successive slots or more are told as `4 to 9`.
const LONG_RUN: usize = 5;

/// Beyond this many slots the cells in which a game is missing are not marked: they would be most of a row.
const MOST_MISSING: usize = 10;

impl<'a> View<'a> {
    pub fn new(season: &'a Season, sheet: &[u8], names: &'a Names) -> View<'a> {
        let mut diary = vec![vec![None; season.slots + 1]; season.teams];
        let (mut placed, mut unplaced) = (Vec::new(), Vec::new());
        for (game, (&(home, away), &slot)) in season.games.iter().zip(sheet).enumerate() {
            let slot = usize::from(slot);
            if slot == 0 {
                unplaced.push(game);
                continue;
            }
            placed.push((home, away, slot));
            diary[home][slot] = Some(Entry { opponent: away, at_home: true, is_break: false });
            diary[away][slot] = Some(Entry { opponent: home, at_home: false, is_break: false });
        }
        placed.sort_by_key(|&(home, _, slot)| (slot, home));
        diary.iter_mut().for_each(|row| mark_breaks(row));
        View { season, names, diary, placed, unplaced }
    }

    /// The subjects of a constraint's deviations, in the order of the ledger.
    pub fn subjects(&self, c: &Constraint) -> Vec<Subject> {
        match c.per() {
            Per::Team => bits(c.t1).map(Subject::Team).collect(),
            Per::Pair => bits(c.t1).flat_map(|i| bits(c.t1).filter(move |&j| j > i).map(move |j| Subject::Pair(i, j))).collect(),
            Per::Slot => c.slots().map(Subject::Slot).collect(),
            Per::Whole => vec![Subject::Whole],
        }
    }

    pub fn words(&self) -> Phrases<'a> {
        Phrases { season: self.season, names: self.names }
    }

    /// The slots in which a team has a game that fits.
    fn slots_of(&self, team: usize, fits: impl Fn(usize, Entry) -> bool) -> Vec<usize> {
        (1..=self.season.slots).filter(|&slot| self.diary[team][slot].is_some_and(|entry| fits(slot, entry))).collect()
    }
}

/// A break is a game on the side of the team's last game before, free slots passed over.
fn mark_breaks(row: &mut [Option<Entry>]) {
    let mut last = None;
    for entry in row.iter_mut().flatten() {
        entry.is_break = last == Some(entry.at_home);
        last = Some(entry.at_home);
    }
}

/// Whether the mode asks for games of this side.
fn asks_side(c: &Constraint, at_home: bool) -> bool {
    match (c.mode - 1) % 3 {
        0 => at_home,
        1 => !at_home,
        _ => true,
    }
}

/// `home game`, `away break`, ..
fn noun(c: &Constraint, what: &str) -> String {
    let side = if c.kind.sides.is_empty() { "" } else { ["home ", "away ", ""][usize::from(c.mode - 1) % 3] };
    format!("{side}{what}")
}

/// How far a count is outside kmin..kmax, and the limit that it breaks.
fn outside(c: &Constraint, count: usize) -> Option<(i64, String)> {
    let count = count as i64;
    if count < c.kmin {
        Some((c.kmin - count, format!("at least {}", c.kmin)))
    } else if count > c.kmax {
        Some((count - c.kmax, format!("at most {}", c.kmax)))
    } else {
        None
    }
}

/// The cells of a team in which games are missing.
fn missing_cells(team: usize, slots: impl Iterator<Item = usize> + Clone) -> Vec<(usize, usize)> {
    if slots.clone().count() > MOST_MISSING {
        return Vec::new();
    }
    slots.map(|slot| (team, slot)).collect()
}

// CA1, CA2

pub fn asks_games(view: &View, c: &Constraint) -> String {
    let words = view.words();
    format!("{}: {}{} {}", words.each(c.t1), limits(c, &noun(c, "game")), words.against(c), words.in_slots(c.s))
}

pub fn finds_games(view: &View, c: &Constraint, subject: Subject) -> Findings {
    let Subject::Team(team) = subject else { return Vec::new() };
    let against = |entry: Entry| !c.kind.t2 || c.has_opponent(entry.opponent);
    let slots = view.slots_of(team, |slot, entry| c.has_slot(slot) && asks_side(c, entry.at_home) && against(entry));
    let place = view.words().in_slots(c.s);
    let missing = || missing_cells(team, c.slots());
    found_in(view, c, team, &slots, &place, missing).into_iter().collect()
}

/// `Birch: 3 home games in slots 4 to 6, at most 2: slots 4, 5, 6`.
fn found_in(
    view: &View,
    c: &Constraint,
    team: usize,
    slots: &[usize],
    place: &str,
    missing: impl Fn() -> Vec<(usize, usize)>,
) -> Option<Finding> {
    let (by, limit) = outside(c, slots.len())?;
    let count = count_of(slots.len(), &noun(c, "game"));
    let text = format!("{}: {count}{} {place}, {limit}", view.names.team(team), view.words().against_group(c));
    let mut finding = Finding::new(by, text);
    if !slots.is_empty() {
        finding.add(": ");
        finding.add_slots(view.names, team, slots, None);
    }
    if (slots.len() as i64) < c.kmin {
        finding.cells = missing();
    }
    Some(finding)
}

// CA3

pub fn asks_runs(view: &View, c: &Constraint) -> String {
    let words = view.words();
    let runs = if c.w == 1 { "every slot".into() } else { format!("every {} successive slots", c.w) };
    format!("{}: {}{} in {runs}", words.each(c.t1), limits(c, &noun(c, "game")), words.against(c))
}

pub fn finds_runs(view: &View, c: &Constraint, subject: Subject) -> Findings {
    let Subject::Team(team) = subject else { return Vec::new() };
    let fits = view.slots_of(team, |_, entry| asks_side(c, entry.at_home) && c.has_opponent(entry.opponent));
    let games = |run: Range<usize>| -> Vec<usize> { fits.iter().copied().filter(|slot| run.contains(slot)).collect() };
    let last_first = (view.season.slots + 1).saturating_sub(c.w);
    let counts: Vec<(usize, usize)> = (1..=last_first).map(|first| (first, games(first..first + c.w).len())).collect();
    let outside = counts.into_iter().filter(|&(_, count)| outside(c, count).is_some()).collect::<Vec<_>>();
    let alike = outside.chunk_by(|one, next| one.0 + 1 == next.0 && one.1 == next.1);
    let mut findings = Vec::new();
    for runs in alike {
        if let [(first, count), _, .., (last, _)] = *runs {
            let whole = first..last + c.w;
            findings.extend(found_in_each(view, c, team, (runs.len(), count), whole.clone(), &games(whole)));
        } else {
            findings.extend(runs.iter().filter_map(|&(first, _)| {
                let run = first..first + c.w;
                let place = view.words().in_run(run.clone());
                found_in(view, c, team, &games(run.clone()), &place, || missing_cells(team, run.clone()))
            }));
        }
    }
    findings
}

/// `Birch: 3 home games in each of the 5 runs of 3 slots in slots 4 to 10, at most 2: slots 4, 5, ..`.
fn found_in_each(
    view: &View,
    c: &Constraint,
    team: usize,
    (runs, count): (usize, usize),
    whole: Range<usize>,
    slots: &[usize],
) -> Option<Finding> {
    let (by, limit) = outside(c, count)?;
    let text = format!(
        "{}: {}{} in each of the {runs} runs of {} {}, {limit}",
        view.names.team(team),
        count_of(count, &noun(c, "game")),
        view.words().against_group(c),
        count_of(c.w, "slot"),
        view.words().in_run(whole.clone())
    );
    let mut finding = Finding::new(by * runs as i64, text);
    if !slots.is_empty() {
        finding.add(": ");
        finding.add_slots(view.names, team, slots, None);
    }
    if (count as i64) < c.kmin {
        finding.cells = missing_cells(team, whole);
    }
    Some(finding)
}

// CA4, GA1

pub fn asks_between(view: &View, c: &Constraint) -> String {
    let words = view.words();
    let place = if c.mode > 3 { words.in_each_slot(c.s) } else { words.in_slots(c.s) };
    format!("{} {} {place}", limits(c, "game"), between(view, c))
}

/// Which games a constraint of CA4 or GA1 is about.
fn between(view: &View, c: &Constraint) -> String {
    let words = view.words();
    let (t1, t2) = (words.one_of(c.t1), words.one_of(c.t2));
    match (c.mode - 1) % 3 {
        0 => format!("of {t1} at home against {t2}"),
        1 => format!("of {t1} away against {t2}"),
        _ => format!("of {t1} against {t2}"),
    }
}

pub fn finds_between(view: &View, c: &Constraint, subject: Subject) -> Findings {
    let fits = |home: usize, away: usize| {
        let as_home = asks_side(c, true) && c.has_team(home) && c.has_opponent(away);
        let as_away = asks_side(c, false) && c.has_team(away) && c.has_opponent(home);
        as_home || as_away
    };
    let in_slot = |slot: usize| if let Subject::Slot(only) = subject { slot == only } else { c.has_slot(slot) };
    let (games, elsewhere): (Vec<_>, Vec<_>) =
        view.placed.iter().filter(|(home, away, _)| fits(*home, *away)).partition(|(_, _, slot)| in_slot(*slot));
    let Some((by, limit)) = outside(c, games.len()) else { return Vec::new() };
    // Large groups are named once, in the sentence on what is asked.
    let words = view.words();
    let count = match words.is_short(c.t1) && words.is_short(c.t2) {
        true => format!("{} {}", count_of(games.len(), "game"), between(view, c)),
        false => count_of(games.len(), "such game"),
    };
    let text = match subject {
        Subject::Slot(slot) => format!("{}: {count}, {limit}", view.names.slot(slot)),
        _ => format!("{count} {}, {limit}", words.in_slots(c.s)),
    };
    let mut finding = Finding::new(by, text);
    add_games(view, &mut finding, ": ", &games, !matches!(subject, Subject::Slot(_)));
    if (games.len() as i64) < c.kmin && subject == Subject::Whole {
        let unplaced = view.unplaced.iter().map(|&game| view.season.games[game]).filter(|&(home, away)| fits(home, away));
        let unplaced: Vec<String> = unplaced.map(|fixture| format!("{} unplaced", view.names.fixture(fixture))).collect();
        if elsewhere.len() + unplaced.len() <= MOST_ELSEWHERE {
            add_games(view, &mut finding, "; elsewhere ", &elsewhere, true);
            if !unplaced.is_empty() {
                finding.add(format!("; {}", unplaced.join(", ")));
            }
        }
    }
    vec![finding]
}

/// Where a game is missing, at most this many candidates are told.
const MOST_ELSEWHERE: usize = 4;

/// `Ash - Elm in slot 3, ..`, each a cell of both teams.
fn add_games(view: &View, finding: &mut Finding, before: &str, games: &[&(usize, usize, usize)], with_slots: bool) {
    for (at, &&(home, away, slot)) in games.iter().enumerate() {
        finding.add(if at == 0 { before } else { ", " });
        let game = view.names.fixture((home, away));
        finding.add_cell(if with_slots { format!("{game} in {}", view.names.slot(slot)) } else { game }, home, slot);
        finding.cells.push((away, slot));
    }
}

// BR1, BR2

pub fn asks_breaks(view: &View, c: &Constraint) -> String {
    let words = view.words();
    let who = if c.per() == Per::Team { words.each(c.t1) } else { format!("{} together", words.teams(c.t1)) };
    let noun = noun(c, "break");
    let limit = match (c.mode > 3, c.kmax) {
        (_, 0) => format!("no {noun}"),
        (true, k) => format!("exactly {}", count_of(k as usize, &noun)),
        (false, k) => format!("at most {}", count_of(k as usize, &noun)),
    };
    format!("{who}: {limit} {}", words.in_slots(c.s))
}

pub fn finds_breaks(view: &View, c: &Constraint, subject: Subject) -> Findings {
    let of_team = |team| view.slots_of(team, |slot, entry| entry.is_break && asks_side(c, entry.at_home) && c.has_slot(slot));
    let teams: Vec<usize> = if let Subject::Team(team) = subject { vec![team] } else { bits(c.t1).collect() };
    let rows: Vec<(usize, Vec<usize>)> = teams.into_iter().map(|team| (team, of_team(team))).collect();
    let count: usize = rows.iter().map(|(_, slots)| slots.len()).sum();
    let difference = count as i64 - c.kmax;
    let (by, limit) = match c.mode > 3 {
        true => (difference.abs(), format!("exactly {}", c.kmax)),
        false => (difference.max(0), format!("at most {}", c.kmax)),
    };
    if by == 0 {
        return Vec::new();
    }
    let who = if let Subject::Team(team) = subject { format!("{}: ", view.names.team(team)) } else { "together ".into() };
    let mut finding =
        Finding::new(by, format!("{who}{} {}, {limit}", count_of(count, &noun(c, "break")), view.words().in_slots(c.s)));
    // With side "any" the reader wants to know which side each break is of.
    let any = c.mode.is_multiple_of(3);
    let rows = rows.iter().filter(|(_, slots)| !slots.is_empty());
    for (at, (team, slots)) in rows.enumerate() {
        finding.add(if at == 0 { ": " } else { "; " });
        if subject == Subject::Whole {
            finding.add(format!("{} ", view.names.team(*team)));
        }
        let side = |slot: usize| if view.diary[*team][slot].is_some_and(|entry| entry.at_home) { " home" } else { " away" };
        finding.add_slots(view.names, *team, slots, if any { Some(&side) } else { None });
    }
    vec![finding]
}

// CA5, BR4

/// The slots of each trip of a team: two or more away games with no home game between them, free slots passed over.
fn trips(view: &View, team: usize) -> Vec<Vec<usize>> {
    let is_away = |slot: usize| view.diary[team][slot].is_some_and(|entry| !entry.at_home);
    let slots = view.slots_of(team, |_, _| true);
    let runs = slots.chunk_by(|&one, &next| is_away(one) && is_away(next));
    runs.filter(|run| run.len() > 1).map(|run| run.to_vec()).collect()
}

/// The first and the last slot of a trip.
fn ends(trip: &[usize]) -> [usize; 2] {
    [trip[0], trip[trip.len() - 1]]
}

/// Whether a trip counts: its first and its last slot are in S.
fn counts(c: &Constraint, trip: &[usize]) -> bool {
    ends(trip).iter().all(|&slot| c.has_slot(slot))
}

pub fn asks_games_on_trips(view: &View, c: &Constraint) -> String {
    let words = view.words();
    let games = limits(c, &noun(c, "game"));
    format!("{}: {games}{} on each trip{}", words.each(c.t1), words.against(c), words.within_slots(c.s, 1))
}

/// A sentence for each trip: `Birch: 2 away games against Elm on the trip in slots 4 to 7, at most 1: slots 4, 7`.
pub fn finds_games_on_trips(view: &View, c: &Constraint, subject: Subject) -> Findings {
    let Subject::Team(team) = subject else { return Vec::new() };
    let counted = trips(view, team).into_iter().filter(|trip| counts(c, trip));
    counted.filter_map(|trip| found_on_trip(view, c, team, &trip)).collect()
}

fn found_on_trip(view: &View, c: &Constraint, team: usize, trip: &[usize]) -> Option<Finding> {
    let against = |slot: usize| view.diary[team][slot].is_some_and(|entry| c.has_opponent(entry.opponent));
    let slots: Vec<usize> = trip.iter().copied().filter(|&slot| against(slot)).collect();
    let (by, limit) = outside(c, slots.len())?;
    let count = count_of(slots.len(), &noun(c, "game"));
    let text = format!("{}: {count}{} on the trip in slots ", view.names.team(team), view.words().against_group(c));
    let mut finding = Finding::new(by, text);
    let mut separator = "";
    for slot in ends(trip) {
        finding.add(std::mem::replace(&mut separator, " to "));
        finding.pieces.push(Piece::Cell { text: view.names.slot_number(slot), team, slot });
    }
    finding.add(format!(", {limit}"));
    if !slots.is_empty() {
        finding.add(": ");
        finding.add_slots(view.names, team, &slots, None);
    }
    if (slots.len() as i64) < c.kmin {
        finding.cells = trip.iter().map(|&slot| (team, slot)).collect();
    }
    Some(finding)
}

pub fn asks_trips(view: &View, c: &Constraint) -> String {
    let words = view.words();
    let count = c.kmin as usize;
    format!("{}: at least {}{}", words.each(c.t1), count_of(count, "trip"), words.within_slots(c.s, count))
}

/// `Birch: 1 trip that begins and ends in slots 1 to 9, at least 2: slots 4, 5; one end outside: slots 8, 10`.
pub fn finds_trips(view: &View, c: &Constraint, subject: Subject) -> Findings {
    let Subject::Team(team) = subject else { return Vec::new() };
    let (counted, others): (Vec<_>, Vec<_>) = trips(view, team).into_iter().partition(|trip| counts(c, trip));
    let by = c.kmin - counted.len() as i64;
    if by <= 0 {
        return Vec::new();
    }
    let count = count_of(counted.len(), "trip");
    let place = view.words().within_slots(c.s, counted.len());
    let mut finding = Finding::new(by, format!("{}: {count}{place}, at least {}", view.names.team(team), c.kmin));
    // A trip with one end in S may be what is missing.
    let reaches_in = |trip: &&Vec<usize>| ends(trip).iter().any(|&slot| c.has_slot(slot));
    let outside: Vec<&Vec<usize>> = others.iter().filter(reaches_in).collect();
    for (label, trips) in [(": ", counted.iter().collect()), ("; one end outside: ", outside)] {
        for (at, trip) in trips.into_iter().enumerate() {
            finding.add(if at == 0 { label } else { "; " });
            finding.add_slots(view.names, team, trip, None);
        }
    }
    vec![finding]
}

// FA1, FA2

pub fn asks_balance(view: &View, c: &Constraint) -> String {
    let words = view.words();
    format!(
        "{}: home and away games{} differ by at most {} {}",
        words.each(c.t1),
        words.within_group(c.t1),
        c.kmax,
        words.after_slots(c.s)
    )
}

pub fn finds_balance(view: &View, c: &Constraint, subject: Subject) -> Findings {
    let Subject::Team(team) = subject else { return Vec::new() };
    let side = |at_home: bool| view.slots_of(team, |_, entry| entry.at_home == at_home && c.has_team(entry.opponent));
    let (home, away) = (side(true), side(false));
    let Some((slot, difference)) = widest(c, &home, &away) else { return Vec::new() };
    let (home, away) = (up_to(&home, slot), up_to(&away, slot));
    let text = format!(
        "{}: {} home and {} away games{} up to {}, a difference of {difference}, at most {}",
        view.names.team(team),
        home.len(),
        away.len(),
        view.words().within_group(c.t1),
        view.names.slot(slot),
        c.kmax
    );
    let mut finding = Finding::new(difference - c.kmax, text);
    let parts = [("home ", team, home), ("away ", team, away)];
    list_parts(view, &mut finding, &parts);
    vec![finding]
}

pub fn asks_difference(view: &View, c: &Constraint) -> String {
    let words = view.words();
    format!(
        "{}: their {}s{} differ by at most {} {}",
        words.any_two(c.t1),
        noun(c, "game"),
        words.within_group(c.t1),
        c.kmax,
        words.after_slots(c.s)
    )
}

pub fn finds_difference(view: &View, c: &Constraint, subject: Subject) -> Findings {
    let Subject::Pair(i, j) = subject else { return Vec::new() };
    let of = |team: usize| view.slots_of(team, |_, entry| asks_side(c, entry.at_home) && c.has_team(entry.opponent));
    let (of_i, of_j) = (of(i), of(j));
    let Some((slot, difference)) = widest(c, &of_i, &of_j) else { return Vec::new() };
    let (of_i, of_j) = (up_to(&of_i, slot), up_to(&of_j, slot));
    let names = view.names;
    let text = format!(
        "{} and {}: {} and {} {}s{} up to {}, a difference of {difference}, at most {}",
        names.team(i),
        names.team(j),
        of_i.len(),
        of_j.len(),
        noun(c, "game"),
        view.words().within_group(c.t1),
        names.slot(slot),
        c.kmax
    );
    let mut finding = Finding::new(difference - c.kmax, text);
    let labels = [format!("{} ", names.team(i)), format!("{} ", names.team(j))];
    let parts = [(labels[0].as_str(), i, of_i), (labels[1].as_str(), j, of_j)];
    list_parts(view, &mut finding, &parts);
    vec![finding]
}

/// The first slot of S after which two counts differ most, if that is more than kmax.
fn widest(c: &Constraint, one: &[usize], other: &[usize]) -> Option<(usize, i64)> {
    let mut found = None;
    let mut most = c.kmax;
    for slot in c.slots() {
        let difference = (up_to(one, slot).len() as i64 - up_to(other, slot).len() as i64).abs();
        if difference > most {
            (found, most) = (Some((slot, difference)), difference);
        }
    }
    found
}

/// The slots up to and including one.
fn up_to(slots: &[usize], last: usize) -> &[usize] {
    &slots[..slots.partition_point(|&slot| slot <= last)]
}

/// The games on each side. Only the last of each is a cell: all of them make the difference, and would colour most of two rows.
fn list_parts(view: &View, finding: &mut Finding, parts: &[(&str, usize, &[usize])]) {
    let mut separator = ": ";
    for (label, team, slots) in parts.iter().filter(|(_, _, slots)| !slots.is_empty()) {
        finding.add(std::mem::replace(&mut separator, "; "));
        finding.add(*label);
        let (cells, pieces) = (finding.cells.len(), finding.pieces.len());
        finding.add_slots(view.names, *team, slots, None);
        let last = finding.cells.pop();
        finding.cells.truncate(cells);
        finding.cells.extend(last);
        let all_but_last = pieces..finding.pieces.len() - 1;
        for piece in &mut finding.pieces[all_but_last] {
            if let Piece::Cell { text, .. } = piece {
                *piece = Piece::Text(std::mem::take(text));
            }
        }
    }
}

// SE1

pub fn asks_separation(view: &View, c: &Constraint) -> String {
    format!("{}: at least {} between two games against each other", view.words().any_two(c.t1), count_of(c.w, "slot"))
}

pub fn finds_separation(view: &View, c: &Constraint, subject: Subject) -> Findings {
    let Subject::Pair(i, j) = subject else { return Vec::new() };
    let names = view.names;
    let meetings = view.slots_of(i, |_, entry| entry.opponent == j);
    let close = meetings.windows(2).filter(|two| two[1] - two[0] - 1 < c.w);
    close
        .map(|two| {
            let between = two[1] - two[0] - 1;
            let mut finding =
                Finding::new((c.w - between) as i64, format!("{} and {}: games in slots ", names.team(i), names.team(j)));
            finding.add_cell(names.slot_number(two[0]), i, two[0]);
            finding.add(" and ");
            finding.add_cell(names.slot_number(two[1]), i, two[1]);
            finding.cells.extend([(j, two[0]), (j, two[1])]);
            finding.add(format!(", {} between, at least {}", count_of(between, "slot"), c.w));
            finding
        })
        .collect()
}
