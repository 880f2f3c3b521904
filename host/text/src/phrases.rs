//! Counts, limits and groups in words.

use crate::names::Names;
use crate::season::{bits, Constraint, Season};
use std::ops::Range;

/// `no home game`, `1 home game`, `3 home games`.
pub fn count_of(count: usize, noun: &str) -> String {
    match count {
        0 => format!("no {noun}"),
        1 => format!("1 {noun}"),
        count => format!("{count} {noun}s"),
    }
}

/// What kmin and kmax allow.
pub fn limits(c: &Constraint, noun: &str) -> String {
    let games = |count: i64| count_of(count as usize, noun);
    match (c.kmin, c.kmax) {
        (0, 0) => games(0),
        (0, most) => format!("at most {}", games(most)),
        (least, most) if least == most => format!("exactly {}", games(most)),
        // More than any team can have: no upper limit is meant.
        (least, 255) => format!("at least {}", games(least)),
        (least, most) => format!("{least} to {}", games(most)),
    }
}

/// Phrases about groups of a season.
#[derive(Clone, Copy)]
pub struct Phrases<'a> {
    pub season: &'a Season,
    pub names: &'a Names,
}

/// Groups of more teams are not named again in each sentence.
const FEW: u32 = 3;

/// Groups with few teams outside are told by those.
const MOST_LEFT_OUT: u32 = 3;

impl Phrases<'_> {
    /// `Ash, Elm`, `teams 0, 2 to 5`, `all teams`, `all teams but Elm`.
    pub fn teams(&self, group: u64) -> String {
        let all = u64::MAX >> (64 - self.season.teams);
        let left_out = all & !group;
        if left_out == 0 {
            "all teams".into()
        } else if left_out.count_ones() <= MOST_LEFT_OUT && group.count_ones() > 2 * left_out.count_ones() + 2 {
            format!("all teams but {}", self.list(left_out))
        } else {
            self.list(group)
        }
    }

    fn list(&self, group: u64) -> String {
        if bits(group).any(|team| self.names.teams.contains_key(&team)) {
            return bits(group).map(|team| self.names.team(team)).collect::<Vec<_>>().join(", ");
        }
        let one = group.count_ones() == 1;
        format!("{} {}", if one { "team" } else { "teams" }, runs(group, 0, |team| team.to_string()))
    }

    /// Who has a deviation of their own: `each team`, `Elm`, `each of Ash, Elm`.
    pub fn each(&self, group: u64) -> String {
        match (self.is_all_teams(group), group.count_ones()) {
            (true, _) => "each team".into(),
            (_, 1) => self.teams(group),
            _ => format!("each of {}", self.teams(group)),
        }
    }

    pub fn one_of(&self, group: u64) -> String {
        match (self.is_all_teams(group), group.count_ones()) {
            (true, _) => "any team".into(),
            (_, 1) => self.teams(group),
            _ => format!("one of {}", self.teams(group)),
        }
    }

    pub fn any_two(&self, group: u64) -> String {
        match (self.is_all_teams(group), group.count_ones()) {
            (true, _) => "any two teams".into(),
            (_, 2) => bits(group).map(|team| self.names.team(team)).collect::<Vec<_>>().join(" and "),
            _ => format!("any two of {}", self.teams(group)),
        }
    }

    /// ` against Ash, Elm`, or nothing where T2 is not used or holds all teams.
    pub fn against(&self, c: &Constraint) -> String {
        if !c.kind.t2 || self.is_all_teams(c.t2) {
            return String::new();
        }
        format!(" against {}", self.teams(c.t2))
    }

    /// The same for a sentence under the one that names the group.
    pub fn against_group(&self, c: &Constraint) -> String {
        if c.kind.t2 && !self.is_short(c.t2) {
            return " against the group".into();
        }
        self.against(c)
    }

    /// ` within the group`, where only games between teams of T1 count and T1 is not all teams.
    pub fn within_group(&self, group: u64) -> &'static str {
        if self.is_all_teams(group) {
            ""
        } else {
            " within the group"
        }
    }

    /// Whether a group can be named in each sentence.
    pub fn is_short(&self, group: u64) -> bool {
        group.count_ones() <= FEW || self.is_all_teams(group)
    }

    pub fn is_all_teams(&self, group: u64) -> bool {
        group.count_ones() as usize == self.season.teams
    }

    fn is_all_slots(&self, group: u64) -> bool {
        group.count_ones() as usize == self.season.slots
    }

    /// `slots 4 to 6, 9`, `slot 4`, `all slots`.
    pub fn slots(&self, group: u64) -> String {
        if self.is_all_slots(group) {
            return "all slots".into();
        }
        let one = group.count_ones() == 1;
        format!("{} {}", if one { "slot" } else { "slots" }, runs(group, 1, |slot| self.names.slot_number(slot)))
    }

    pub fn in_slots(&self, group: u64) -> String {
        format!("in {}", self.slots(group))
    }

    pub fn in_each_slot(&self, group: u64) -> String {
        match (self.is_all_slots(group), group.count_ones()) {
            (true, _) => "in every slot".into(),
            (_, 1) => self.in_slots(group),
            _ => format!("in each of {}", self.slots(group)),
        }
    }

    pub fn after_slots(&self, group: u64) -> String {
        match (self.is_all_slots(group), group.count_ones()) {
            (true, _) => "after every slot".into(),
            (_, 1) => format!("after {}", self.slots(group)),
            _ => format!("after each of {}", self.slots(group)),
        }
    }

    /// For a trip or several: ` that begins and ends in slots 4 to 6`, or nothing where S holds all slots.
    pub fn within_slots(&self, group: u64, trips: usize) -> String {
        match (self.is_all_slots(group), trips) {
            (true, _) => String::new(),
            (_, 0 | 1) => format!(" that begins and ends {}", self.in_slots(group)),
            _ => format!(" that begin and end {}", self.in_slots(group)),
        }
    }

    /// `in slots 4 to 6`.
    pub fn in_run(&self, run: Range<usize>) -> String {
        match run.len() {
            1 => format!("in {}", self.names.slot(run.start)),
            _ => format!("in slots {} to {}", self.names.slot_number(run.start), self.names.slot_number(run.end - 1)),
        }
    }
}

/// The members of a group, runs of three or more as `first to last`; bit 0 is the member `base`.
fn runs(group: u64, base: usize, name: impl Fn(usize) -> String) -> String {
    let members: Vec<usize> = bits(group).map(|bit| bit + base).collect();
    let mut parts = Vec::new();
    for run in members.chunk_by(|a, b| a + 1 == *b) {
        match run {
            [first, _, .., last] => parts.push(format!("{} to {}", name(*first), name(*last))),
            few => parts.extend(few.iter().map(|&member| name(member))),
        }
    }
    parts.join(", ")
}
