//! The page: the timetable as a grid of teams and slots, penalties as bars, and the report with links into the grid. It is one file
//! without scripts, and nothing is fetched.

use crate::colours::{marks, Cell, Mark, Part};
use crate::explain::{Entry, Piece, View};
use crate::phrases::count_of;
use crate::report::{reckoning, unexplained, Broken, Deviation, Opened};
use std::collections::HashMap;
use std::fmt::Write;

/// The most slots that stand side by side; a longer season is cut into blocks of equal width, which fit a sheet of paper.
const WIDEST: usize = 22;

/// Two blocks of so many teams share a page of paper; one of more teams fills it, in larger letters.
const MOST_SHARING: usize = 20;

/// The widest cell, in the height of the letters.
const CELL_WIDTH: usize = 6;

/// A longer list of unplaced games stands below the grid, not beside it.
const MOST_BESIDE: usize = 60;

/// Deviations of a constraint beyond these are folded away; on paper only their number stands.
const MOST_UNFOLDED: usize = 8;

/// Games of a sentence beyond these are folded away too, unless it is a few more only.
const MOST_GAMES: usize = 24;
const FEW_MORE: usize = 6;

pub fn page(title: &str, opened: &Opened) -> String {
    let view = opened.view();
    let broken = opened.broken(&view);
    let page = Page { opened, view: &view, broken: &broken, marks: marks(opened, &broken), codes: codes(opened) };
    let title = escape(title);
    format!(
        "<!DOCTYPE html>\n<html lang=\"en\">\n<head>\n<meta charset=\"utf-8\">\n\
         <meta name=\"viewport\" content=\"width=device-width, initial-scale=1\">\n<title>{title}: timetable</title>\n\
         <style>\n{}</style>\n</head>\n<body>\n{}{}<main>\n{}{}{}</main>\n</body>\n</html>\n",
        include_str!("page.css"),
        page.head(&title),
        page.legend(),
        page.timetable(),
        page.penalties(),
        page.list()
    )
}

struct Page<'a> {
    opened: &'a Opened,
    view: &'a View<'a>,
    /// Hard before soft, the highest penalty first.
    broken: &'a [Broken],
    marks: HashMap<Cell, Mark>,
    /// What stands for a team in a cell.
    codes: Vec<String>,
}

/// Three letters of each name that tell the teams apart, or the team's number.
fn codes(opened: &Opened) -> Vec<String> {
    let mut codes: Vec<String> = Vec::new();
    for team in 0..opened.season.teams {
        let letters: Vec<char> = match opened.names.teams.get(&team) {
            Some(name) => name.chars().filter(|c| c.is_alphanumeric()).flat_map(char::to_uppercase).collect(),
            None => Vec::new(),
        };
        let head = letters.len().min(2);
        let thirds = letters[head..].iter().map(|third| letters[..head].iter().chain([third]).collect::<String>());
        // The number of a team may be the code of another one that has no name.
        let is_number = |code: &str| code.parse::<usize>().is_ok_and(|number| number < opened.season.teams);
        let is_free = |code: &String| !code.is_empty() && !is_number(code) && !codes.contains(code);
        let code = thirds.chain([letters.iter().take(3).collect()]).find(is_free);
        codes.push(code.unwrap_or_else(|| team.to_string()));
    }
    codes
}

impl Page<'_> {
    fn head(&self, title: &str) -> String {
        let opened = self.opened;
        format!(
            "<header>\n<h1>{title}</h1>\n<p class=\"quiet\">{}</p>\n<p class=\"verdict {verdict}\"><b>{verdict}</b> {}</p>\n\
             <p>Infeasibility <b>{}</b> <span class=\"quiet\">{}</span></p>\n<p>Objective <b>{}</b> <span class=\"quiet\">{}</span></p>\n\
             </header>\n",
            opened.sizes(),
            opened.verdict_sentence(),
            opened.books.infeasibility(),
            opened.share(true),
            opened.books.objective(),
            opened.share(false),
            verdict = opened.verdict(),
        )
    }

    /// What the marks and colours of the grid mean, with a team of this season.
    fn legend(&self) -> String {
        let (code, team) = (escape(&self.codes[1]), escape(&self.opened.names.team(1)));
        let colours =
            |hardness: &str| -> String { (1..=3).rev().map(|step| format!("<i class=\"{hardness}-{step}\"></i> ")).collect() };
        format!(
            "<p class=\"legend\"><span><b>{code}</b> at home against {team}</span><span>@{code} away against {team}</span>\
             <span><b class=\"mark\">{code}</b> break</span><span>{}in a broken hard constraint, the worst cells darkest</span>\
             <span>{}in a broken soft constraint</span><span>a coloured cell leads to the constraint that weighs most on it</span></p>\n",
            colours("hard"),
            colours("soft")
        )
    }

    // The grid

    fn timetable(&self) -> String {
        let unplaced = self.unplaced();
        let many = self.view.unplaced.len() > MOST_BESIDE;
        let beside = if unplaced.is_empty() || many { "" } else { " beside" };
        format!("<section class=\"timetable{beside}\">\n<div>\n{}</div>\n{unplaced}</section>\n", self.blocks())
    }

    fn blocks(&self) -> String {
        let slots = self.opened.season.slots;
        let count = slots.div_ceil(WIDEST);
        let width = slots.div_ceil(count);
        let firsts = (1..=slots).step_by(width);
        firsts.map(|first| self.block(first, (first + width - 1).min(slots), width, count > 1)).collect()
    }

    /// A table of the slots from first to last, as wide as all blocks are.
    fn block(&self, first: usize, last: usize, width: usize, captioned: bool) -> String {
        // Names need room; few slots need no wide cells.
        let (named, room) = if self.opened.names.teams.is_empty() { ("", 6) } else { (" named", 12) };
        let tall = if self.opened.season.teams > MOST_SHARING { " class=\"tall\"" } else { "" };
        let mut html = format!("<table{tall} style=\"max-width:{}em\">\n", room + CELL_WIDTH * width);
        if captioned {
            let _ = writeln!(html, "<caption>Slots {first} to {last}</caption>");
        }
        let _ = writeln!(html, "<colgroup><col class=\"team{named}\"><col span=\"{width}\"></colgroup>");
        html += "<thead><tr><th scope=\"col\">slot</th>";
        for slot in first..=last {
            let name = self.opened.names.slots.get(&slot);
            let name = name.map_or(String::new(), |name| format!("<span class=\"name\">{}</span>", escape(name)));
            let _ = write!(html, "<th scope=\"col\" title=\"{}\">{slot}{name}</th>", escape(&self.opened.names.slot(slot)));
        }
        html += "</tr></thead>\n<tbody>\n";
        for team in 0..self.opened.season.teams {
            let name = escape(&self.opened.names.team(team));
            let code = self.code_beside(team);
            let _ = write!(html, "<tr><th scope=\"row\" title=\"{name}\">{code}{name}</th>");
            (first..=last).for_each(|slot| html += &self.cell(team, slot));
            html += "</tr>\n";
        }
        html += "</tbody>\n<tfoot><tr><th scope=\"row\">games</th>";
        (first..=last).for_each(|slot| html += &self.slot_bar(slot));
        html += "</tr></tfoot>\n</table>\n";
        html
    }

    /// The code before a name, where there is a name.
    fn code_beside(&self, team: usize) -> String {
        match self.opened.names.teams.contains_key(&team) {
            true => format!("<span class=\"quiet\">{}</span> ", escape(&self.codes[team])),
            false => String::new(),
        }
    }

    fn cell(&self, team: usize, slot: usize) -> String {
        let mark = self.marks.get(&(team, slot));
        let entry = self.view.diary[team][slot];
        let mut classes = vec![match entry {
            None => "free".to_string(),
            Some(entry) if entry.at_home => "home".into(),
            Some(_) => "away".into(),
        }];
        if entry.is_some_and(|entry| entry.is_break) {
            classes.push("break".into());
        }
        classes.extend(mark.map(|mark| format!("{}-{}", if mark.hard { "hard" } else { "soft" }, mark.step)));
        let text = match entry {
            None => "·".into(),
            Some(entry) => self.game(entry),
        };
        let inner = match mark {
            Some(mark) => format!("<a href=\"#c{}\">{text}</a>", self.broken[mark.parts[0].place].number),
            None => format!("<span>{text}</span>"),
        };
        let title = escape(&self.cell_title(team, slot, mark.map_or(&[], |mark| &mark.parts)));
        format!("<td id=\"t{team}s{slot}\" class=\"{}\" title=\"{title}\">{inner}</td>", classes.join(" "))
    }

    /// The opponent, with `@` before it where the game is away; a break is marked by a line below.
    fn game(&self, entry: Entry) -> String {
        let code = escape(&self.codes[entry.opponent]);
        let text = if entry.at_home { code } else { format!("@{code}") };
        if entry.is_break {
            format!("<span class=\"mark\">{text}</span>")
        } else {
            text
        }
    }

    /// The cell in words, with the broken constraints that it has a part in.
    fn cell_title(&self, team: usize, slot: usize, parts: &[Part]) -> String {
        let names = &self.opened.names;
        let mut title = format!("{}, {}: ", names.team(team), names.slot(slot));
        title += &match self.view.diary[team][slot] {
            None => "no game".to_string(),
            Some(entry) => {
                let (side, of_break) = if entry.at_home { ("at home", "home break") } else { ("away", "away break") };
                let mark = if entry.is_break { format!(", {of_break}") } else { String::new() };
                format!("{side} against {}{mark}", names.team(entry.opponent))
            }
        };
        for &Part { place, .. } in parts.iter().take(MOST_UNFOLDED) {
            let _ = write!(title, "\n{}", self.label(&self.broken[place]));
        }
        if parts.len() > MOST_UNFOLDED {
            let _ = write!(title, "\nand {} more", parts.len() - MOST_UNFOLDED);
        }
        title
    }

    /// `4 CA4 "Fir and Gorse share a ground"`
    fn label(&self, broken: &Broken) -> String {
        let c = &self.opened.season.constraints[broken.number];
        let name = self.opened.names.constraints.get(&broken.number).map_or(String::new(), |name| format!(" \"{name}\""));
        format!("{} {}{name}", broken.number, c.kind.word)
    }

    /// The games of a slot as a bar; the highest bar is as many games as the teams can play at once.
    fn slot_bar(&self, slot: usize) -> String {
        let games = self.view.placed.iter().filter(|game| game.2 == slot).count();
        let share = 2.2 * games as f64 / (self.opened.season.teams / 2) as f64;
        format!(
            "<td title=\"{}\">{games}<span class=\"bar\" style=\"height:{share:.2}em\"></span></td>",
            escape(&self.opened.names.slot(slot))
        )
    }

    fn unplaced(&self) -> String {
        let games = &self.view.unplaced;
        if games.is_empty() {
            return String::new();
        }
        let many = if games.len() > MOST_BESIDE { " class=\"many\"" } else { "" };
        let mut html = format!("<aside id=\"unplaced\"{many}>\n<h2>{} unplaced</h2>\n<ul>\n", count_of(games.len(), "game"));
        for &game in games {
            let fixture = escape(&self.opened.names.fixture(self.opened.season.games[game]));
            let _ = writeln!(html, "<li><span class=\"quiet\">{game}</span> {fixture}</li>");
        }
        html + "</ul>\n</aside>\n"
    }

    // Penalties and the list

    /// A bar for each broken constraint. Hard and soft ones have a scale each, as they have a total each.
    fn penalties(&self) -> String {
        if self.broken.is_empty() {
            return String::new();
        }
        format!(
            "<section id=\"penalties\">\n<h2>Penalties</h2>\n{}{}</section>\n",
            self.penalty_bars(true),
            self.penalty_bars(false)
        )
    }

    fn penalty_bars(&self, hard: bool) -> String {
        let same: Vec<&Broken> = self.broken.iter().filter(|b| self.opened.season.constraints[b.number].hard == hard).collect();
        let Some(highest) = same.first().map(|b| b.penalty as f64) else { return String::new() };
        let hardness = if hard { "hard" } else { "soft" };
        // Names need room.
        let named = if self.opened.names.constraints.is_empty() { "" } else { " named" };
        let mut html = format!("<ol class=\"penalties{named}\">\n");
        for b in same {
            let width = 100.0 * b.penalty as f64 / highest;
            let _ = writeln!(
                html,
                "<li><a href=\"#c{}\">{}</a><span class=\"track\"><span class=\"bar {hardness}\" style=\"width:{width:.2}%\"></span></span>\
                 <span class=\"figure\">{}</span></li>",
                b.number,
                escape(&self.label(b)),
                b.penalty
            );
        }
        html + "</ol>\n"
    }

    fn list(&self) -> String {
        let mut html = String::new();
        for (hard, title) in [(true, "Broken hard constraints"), (false, "Broken soft constraints")] {
            let of_both: Vec<&Broken> =
                self.broken.iter().filter(|b| self.opened.season.constraints[b.number].hard == hard).collect();
            if !of_both.is_empty() {
                let _ = writeln!(html, "<section>\n<h2>{title}: {}</h2>", of_both.len());
                of_both.into_iter().for_each(|b| html += &self.article(b));
                html += "</section>\n";
            }
        }
        html
    }

    fn article(&self, b: &Broken) -> String {
        let c = &self.opened.season.constraints[b.number];
        let name = self.opened.names.constraints.get(&b.number);
        let name = name.map_or(format!("Constraint {}", b.number), |name| {
            format!("{} <span class=\"quiet\">constraint {}</span>", escape(name), b.number)
        });
        let mut html = format!(
            "<article id=\"c{}\" class=\"{}\">\n<h3>{name}: penalty {} <span class=\"quiet\">{}, {}, {}</span></h3>\n<p>Asks: {}</p>\n",
            b.number,
            if c.hard { "hard" } else { "soft" },
            b.penalty,
            c.kind.word,
            c.kind.title,
            reckoning(c),
            escape(&(c.kind.asks)(self.view, c))
        );
        let (shown, folded) = b.deviations.split_at(b.deviations.len().min(MOST_UNFOLDED));
        html += &self.deviations(shown);
        if !folded.is_empty() {
            let _ = write!(
                html,
                "<details><summary>{}</summary>\n{}</details>\n",
                count_of(folded.len(), "more deviation"),
                self.deviations(folded)
            );
        }
        html + "</article>\n"
    }

    fn deviations(&self, deviations: &[Deviation]) -> String {
        let mut html = String::from("<ul>\n");
        for deviation in deviations {
            for (at, finding) in deviation.findings.iter().enumerate() {
                let by = if at == 0 { format!("by {}", deviation.by) } else { String::new() };
                let text = sentence(&finding.pieces);
                let _ = writeln!(html, "<li><span class=\"by\">{by}</span>{text}</li>");
            }
            if !deviation.is_explained() {
                let text = escape(&unexplained(self.opened, deviation));
                let _ = writeln!(html, "<li><span class=\"by\">by {}</span>{text}</li>", deviation.by);
            }
        }
        html + "</ul>\n"
    }
}

/// A sentence with its links; of a long list of games the rest is folded away.
fn sentence(pieces: &[Piece]) -> String {
    let is_cell = |piece: &&Piece| matches!(piece, Piece::Cell { .. });
    if pieces.iter().filter(is_cell).count() <= MOST_GAMES + FEW_MORE {
        return pieces.iter().map(piece).collect();
    }
    let cells = pieces.iter().enumerate().filter(|(_, piece)| is_cell(piece));
    let end = cells.map(|(at, _)| at + 1).nth(MOST_GAMES - 1).unwrap_or(pieces.len());
    let (shown, folded) = pieces.split_at(end);
    format!(
        "{}<details><summary>{} more</summary>{}</details>",
        shown.iter().map(piece).collect::<String>(),
        folded.iter().filter(is_cell).count(),
        folded.iter().map(piece).collect::<String>()
    )
}

fn piece(piece: &Piece) -> String {
    match piece {
        Piece::Text(text) => escape(text),
        Piece::Cell { text, team, slot } => format!("<a href=\"#t{team}s{slot}\">{}</a>", escape(text)),
    }
}

fn escape(text: &str) -> String {
    text.replace('&', "&amp;").replace('<', "&lt;").replace('>', "&gt;").replace('"', "&quot;")
}
