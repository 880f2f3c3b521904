//! The page: its structure, and, where Chromium is installed, how it is laid out on screen and on paper.

use season_text::{encode, page, Opened};
use std::collections::{BTreeMap, HashMap, HashSet};
use std::path::{Path, PathBuf};
use std::process::Command;

fn sample_text(name: &str) -> String {
    let path = Path::new(env!("CARGO_MANIFEST_DIR")).join(format!("../../examples/{name}.txt"));
    std::fs::read_to_string(path).unwrap()
}

fn sample(name: &str) -> Opened {
    opened(&sample_text(name))
}

fn opened(text: &str) -> Opened {
    let encoded = encode(text).unwrap();
    Opened::new(&[encoded.season, encoded.sheet].concat(), encoded.names).unwrap()
}

/// A tag with its attributes.
struct Tag {
    name: String,
    attributes: HashMap<String, String>,
}

/// The opening tags of a page. Every element is closed, in order, but those that have no content.
fn tags(html: &str) -> Vec<Tag> {
    let mut open: Vec<String> = Vec::new();
    let mut tags = Vec::new();
    let body = html.strip_prefix("<!DOCTYPE html>\n").expect("a doctype");
    for part in body.split('<').skip(1) {
        let (tag, text) = part.split_once('>').unwrap_or_else(|| panic!("no end of a tag: {part}"));
        if let Some(name) = tag.strip_prefix('/') {
            assert_eq!(open.pop().as_deref(), Some(name), "closed in the wrong order");
            continue;
        }
        let (name, rest) = tag.split_once(' ').unwrap_or((tag, ""));
        if !["meta", "col"].contains(&name) {
            open.push(name.into());
        }
        assert!(!text.contains('>') || name == "style", "a bare '>': {text}");
        tags.push(Tag { name: name.into(), attributes: attributes(rest) });
    }
    assert!(open.is_empty(), "not closed: {open:?}");
    tags
}

fn attributes(text: &str) -> HashMap<String, String> {
    let mut found = HashMap::new();
    let mut rest = text.trim();
    while !rest.is_empty() {
        let (name, after) = rest.split_once("=\"").unwrap_or_else(|| panic!("an attribute without quotes: {text}"));
        let (value, after) = after.split_once('"').expect("a closing quote");
        assert!(found.insert(name.to_string(), value.to_string()).is_none(), "twice: {name}");
        rest = after.trim_start();
    }
    found
}

fn has_class(tag: &Tag, class: &str) -> bool {
    tag.attributes.get("class").is_some_and(|classes| classes.split(' ').any(|one| one == class))
}

/// What every page has, whatever the season.
fn check(name: &str, opened: &Opened) -> Vec<Tag> {
    let html = page(name, opened);
    let tags = tags(&html);
    let count = |wanted: &dyn Fn(&Tag) -> bool| tags.iter().filter(|tag| wanted(tag)).count();
    let season = &opened.season;
    let sheet = opened.books.sheet();
    // Nothing is fetched and nothing is run.
    for word in ["<script", "<link", "<img", "src=", "url(", "http:", "https:", "@import", "onclick", "javascript"] {
        assert!(!html.contains(word), "{name}: {word}");
    }
    // Names are used once, and every link leads somewhere.
    let ids: Vec<&String> = tags.iter().filter_map(|tag| tag.attributes.get("id")).collect();
    let known: HashSet<&str> = ids.iter().map(|id| id.as_str()).collect();
    assert_eq!(ids.len(), known.len(), "{name}: an id stands twice");
    for href in tags.iter().filter_map(|tag| tag.attributes.get("href")) {
        assert!(href.strip_prefix('#').is_some_and(|id| known.contains(id)), "{name}: {href}");
    }
    // A cell for each team and slot, a game in two of them.
    for team in 0..season.teams {
        for slot in 1..=season.slots {
            assert!(known.contains(format!("t{team}s{slot}").as_str()), "{name}: team {team}, slot {slot}");
        }
    }
    let placed = sheet.iter().filter(|&&slot| slot > 0).count();
    assert_eq!(count(&|tag| has_class(tag, "home")), placed, "{name}: home games");
    assert_eq!(count(&|tag| has_class(tag, "away")), placed, "{name}: away games");
    assert_eq!(count(&|tag| has_class(tag, "free")), season.teams * season.slots - 2 * placed, "{name}: free cells");
    // A bar for each slot and each broken constraint, an entry for each broken constraint, all unplaced games.
    let broken = opened.books.tally()[..season.constraints.len()].iter().filter(|&&penalty| penalty > 0).count();
    assert_eq!(count(&|tag| has_class(tag, "bar")), season.slots + broken, "{name}: bars");
    assert_eq!(count(&|tag| tag.name == "article"), broken, "{name}: entries");
    assert_eq!(
        count(&|tag| tag.attributes.get("id").is_some_and(|id| id == "unplaced")),
        usize::from(placed < sheet.len()),
        "{name}"
    );
    // Breaks, worked out here from the sheet.
    let mut breaks = 0;
    for team in 0..season.teams {
        let mut games: Vec<(u8, bool)> = season
            .games
            .iter()
            .zip(sheet)
            .filter(|(game, &slot)| slot > 0 && (game.0 == team || game.1 == team))
            .map(|(game, &slot)| (slot, game.0 == team))
            .collect();
        games.sort_unstable();
        breaks += games.windows(2).filter(|two| two[0].1 == two[1].1).count();
    }
    assert_eq!(count(&|tag| has_class(tag, "break")), breaks, "{name}: breaks");
    // A broken constraint whose games are known has coloured cells.
    let is_coloured = |tag: &Tag| tag.attributes.get("class").is_some_and(|classes| classes.contains('-'));
    let coloured = count(&|tag| tag.name == "td" && is_coloured(tag));
    assert_eq!(coloured > 0, broken > 0 && placed > 0 && html.contains("href=\"#t"), "{name}: colours");
    tags
}

/// How many elements of each name and class the pages have, as stored; with HOST_STORE=1 it is written instead.
#[test]
fn samples() {
    let mut structure = String::new();
    for name in ["season-a", "robinx-table1", "named8", "league18", "largest32", "mixed32", "trips20"] {
        let mut counts: BTreeMap<String, usize> = BTreeMap::new();
        for tag in check(name, &sample(name)) {
            let classes = tag.attributes.get("class").map_or(String::new(), |classes| format!(".{}", classes.replace(' ', ".")));
            *counts.entry(format!("{}{classes}", tag.name)).or_default() += 1;
        }
        structure += &format!("{name}\n");
        counts.iter().for_each(|(element, count)| structure += &format!("  {count} {element}\n"));
    }
    let path = Path::new(env!("CARGO_MANIFEST_DIR")).join("tests/stored/pages.structure");
    if std::env::var_os("HOST_STORE").is_some() {
        std::fs::write(&path, &structure).unwrap();
    }
    let stored = std::fs::read_to_string(&path).unwrap();
    for (stored, got) in stored.lines().zip(structure.lines()) {
        assert_eq!(stored, got, "tests/stored/pages.structure (HOST_STORE=1 writes it anew)");
    }
    assert_eq!(stored, structure);
}

#[test]
fn what_a_small_page_shows() {
    let html = page("season-a", &sample("season-a"));
    for part in [
        "<title>season-a: timetable</title>",
        "<b>infeasible</b> every game has a slot, and 1 hard constraint is broken",
        "Infeasibility <b>10</b> <span class=\"quiet\">1 of 1 hard constraint broken</span>",
        "<td id=\"t0s1\" class=\"home hard-3\" title=\"team 0, slot 1: at home against team 1\n0 CA1\"><a href=\"#c0\">1</a></td>",
        "<td id=\"t1s1\" class=\"away\" title=\"team 1, slot 1: away against team 0\"><span>@0</span></td>",
        "<td id=\"t2s3\" class=\"away break soft-3\" title=\"team 2, slot 3: away against team 0, away break\n1 BR2\n3 CA3\">",
        "<article id=\"c3\" class=\"soft\">",
        "<span class=\"by\">by 1</span>team 2: 2 away games in slots 2 to 3, at most 1: slots <a href=\"#t2s2\">2</a>, <a href=\"#t2s3\">3</a></li>",
    ] {
        assert!(html.contains(part), "{part}\n{html}");
    }
    // Four slots between the games of a pair are enough where four are asked for.
    let html = page("mirrored", &opened(&sample_text("robinx-table1").replace("w=5", "w=4")));
    for part in
        ["<p class=\"verdict feasible\">", "Infeasibility <b>0</b> <span class=\"quiet\">0 of 1 hard constraint broken</span>"]
    {
        assert!(html.contains(part), "{part}\n{html}");
    }
    let html = page("named8", &sample("named8"));
    for part in [
        "<h2>2 games unplaced</h2>",
        "<li><span class=\"quiet\">21</span> Dogwood - Ash</li>",
        "<th scope=\"col\" title=\"slot 4 (27 March)\">4<span class=\"name\">27 March</span></th>",
        "<th scope=\"row\" title=\"Elm\"><span class=\"quiet\">ELM</span> Elm</th>",
        "<h3>Elm's ground is closed <span class=\"quiet\">constraint 0</span>: penalty 10 ",
    ] {
        assert!(html.contains(part), "{part}\n{html}");
    }
}

/// The largest grid: 32 teams, 64 slots, and seasons at the other corners.
#[test]
fn corners() {
    let tags = check("largest grid", &opened(&largest_grid()));
    assert_eq!(tags.iter().filter(|tag| tag.name == "table").count(), 3);
    check("smallest", &opened("teams 2\nslots 1\n"));
    check("one game", &opened("teams 2\nslots 1\ngame 0 1 1\nCA1 home hard sum weight=1 kmax=0 T1=all S=all\n"));
    let unplaced: String = (0..1024).map(|k| format!("game {} {} -\n", k / 31 % 32, (k / 31 % 32 + 1 + k % 31) % 32)).collect();
    check("nothing placed", &opened(&format!("teams 32\nslots 64\n{unplaced}SE1 soft sum weight=1 w=3 T1=all\n")));
    // Names that begin alike keep their codes apart; long ones and marks do no harm.
    let names = "team 0 \"Northbridge\"\nteam 1 \"Northbrook\"\nteam 2 \"Nor\"\nteam 3 \"& <b>\"\nteam 4 \"---\"\nteam 5 \"\\\"North\\\"\"\n";
    let html = page("a & b", &opened(&format!("teams 6\nslots 2\n{names}game 0 1 1\ngame 3 2 1\ngame 4 5 1\n")));
    tags_and_codes(&html);
}

fn tags_and_codes(html: &str) {
    tags(html);
    let codes: HashSet<&str> = html
        .split("<tr><th scope=\"row\" title=\"")
        .skip(1)
        .filter_map(|row| row.split("<span class=\"quiet\">").nth(1))
        .filter_map(|code| code.split('<').next())
        .collect();
    assert_eq!(codes.len(), 6, "{codes:?}");
}

/// 32 teams in 64 slots: a double round robin by the circle method, two slots free, one game unplaced, broken constraints of both sorts.
fn largest_grid() -> String {
    let mut text = String::from("teams 32\nslots 64\n");
    for team in 0..32 {
        text += &format!("team {team} \"Sporting Club {}{}\"\n", (b'A' + team / 6) as char, (b'a' + team % 26) as char);
    }
    for slot in 1..=64 {
        text += &format!("slot {slot} \"Week {slot}\"\n");
    }
    for round in 0..62 {
        let r = round % 31;
        for k in 0..16 {
            let (i, j) = if k == 0 { (31, r) } else { ((r + k) % 31, (r + 31 - k) % 31) };
            let (i, j) = if (round >= 31) != (k % 2 == 1) { (j, i) } else { (i, j) };
            let slot = if round == 7 && k == 3 { "-".into() } else { (round + 1).to_string() };
            text += &format!("game {i} {j} {slot}\n");
        }
    }
    text + "CA1 home hard sum weight=3 kmax=0 T1=4 S=1-8 \"Ground closed\"\nBR1 any soft sum weight=1 kmax=2 T1=all S=all\n\
            FA2 home soft max weight=1 kmax=1 T1=all S=all\nCA1 any soft sum weight=1 kmin=2 kmax=2 T1=all S=63,64 \"Play to the end\"\n"
}

// How it looks, by Chromium

/// A copy of a page as it is on paper: the rules for print hold, and the frame is as wide as the paper without its margins.
fn on_paper(html: &str) -> String {
    html.replace("@media print", "@media screen")
}

/// Loads pages in frames of given widths and writes down what was laid out: tables, the widest and highest, cells, those that are not
/// seen or cut off, and by how much the page is wider than its frame.
const HARNESS: &str = "<script>
addEventListener('load', () => {
  const found = [...document.querySelectorAll('iframe')].map(frame => {
    const page = frame.contentDocument, all = selector => [...page.querySelectorAll(selector)];
    const cells = all('tbody td'), boxes = cells.map(cell => cell.getBoundingClientRect());
    const cut = cells.filter(cell => cell.firstElementChild.scrollWidth > cell.clientWidth + 1);
    const tables = all('table').map(table => table.getBoundingClientRect());
    const colours = new Set(cells.map(cell => page.defaultView.getComputedStyle(cell).backgroundColor));
    return [tables.length, Math.round(Math.max(...tables.map(box => box.height))), cells.length, boxes.filter(box => box.width < 8 || box.height < 8).length,
      cut.length, page.documentElement.scrollWidth - page.documentElement.clientWidth, all('article').length, colours.size].join(' ');
  });
  document.body.textContent = '';
  document.documentElement.setAttribute('data-found', found.join(';'));
});
</script>";

fn chromium() -> Option<PathBuf> {
    let folders: Vec<PathBuf> = std::env::split_paths(&std::env::var_os("PATH")?).collect();
    let names = ["chromium", "chromium-browser", "google-chrome"];
    folders.iter().flat_map(|folder| names.map(|name| folder.join(name))).find(|program| program.is_file())
}

/// The page as Chromium has loaded it; none where Chromium does not run.
fn load(program: &Path, name: &str, html: &str) -> Option<String> {
    let folder = PathBuf::from(env!("CARGO_TARGET_TMPDIR"));
    let file = folder.join(format!("{name}.html"));
    std::fs::write(&file, html).unwrap();
    let profile = format!("--user-data-dir={}", folder.join("chromium").display());
    let fixed = ["--headless", "--no-sandbox", "--disable-gpu", "--disable-dev-shm-usage", "--no-first-run", "--dump-dom"];
    let output = Command::new(program).args(fixed).arg(profile).arg(format!("file://{}", file.display())).output().ok()?;
    let dom = String::from_utf8_lossy(&output.stdout).into_owned();
    dom.contains("<html").then_some(dom)
}

#[test]
fn chromium_lays_it_out() {
    let Some(program) = chromium() else {
        println!("Chromium is not installed: the layout of the page is left out");
        return;
    };
    if load(&program, "trial", "<!DOCTYPE html><html><body>trial</body></html>").is_none() {
        println!("Chromium does not run here: the layout of the page is left out");
        return;
    }
    // Width of the frame; the greatest height of a table, on paper that of the page without its margins (96 dots an inch).
    let (screen, a4, a3) = ((1280, 2000), (1054, 725), (1519, 1054));
    let seasons = [
        ("season-a", sample("season-a")),
        ("named8", sample("named8")),
        ("league18", sample("league18")),
        ("largest32", sample("largest32")),
        ("grid", opened(&largest_grid())),
    ];
    let mut cases = Vec::new();
    let mut html = String::from("<!DOCTYPE html><html><body>");
    for (name, season) in &seasons {
        let page = page(name, season);
        for (paper, (width, height)) in [("screen", screen), ("A4", a4), ("A3", a3)] {
            let copy = if paper == "screen" { page.clone() } else { on_paper(&page) };
            html += &format!(
                "<iframe style=\"border:0;width:{width}px;height:700px\" srcdoc=\"{}\"></iframe>",
                copy.replace('&', "&amp;").replace('"', "&quot;")
            );
            cases.push((name, season, paper, height));
        }
    }
    let dom = load(&program, "layout", &format!("{html}{HARNESS}</body></html>")).expect("Chromium runs");
    let found = dom.split("data-found=\"").nth(1).and_then(|rest| rest.split('"').next()).expect("what was found");
    let found: Vec<Vec<i64>> =
        found.split(';').map(|case| case.split(' ').map(|number| number.parse().unwrap()).collect()).collect();
    assert_eq!(found.len(), cases.len());
    for ((name, opened, paper, height), found) in cases.iter().zip(&found) {
        let &[tables, highest, cells, unseen, cut, beyond, articles, colours] = &found[..] else { panic!("{found:?}") };
        let season = &opened.season;
        let broken = opened.books.tally()[..season.constraints.len()].iter().filter(|&&penalty| penalty > 0).count();
        println!("{name} on {paper}: {found:?}");
        assert_eq!(tables as usize, season.slots.div_ceil(22), "{name} on {paper}: tables");
        assert!(highest <= *height, "{name} on {paper}: a table is {highest} high, the page {height}");
        assert_eq!(cells as usize, season.teams * season.slots, "{name} on {paper}: cells");
        assert_eq!((unseen, cut), (0, 0), "{name} on {paper}: cells that are not seen, or cut off");
        assert!(beyond <= 0, "{name} on {paper}: {beyond} wider than the page");
        assert_eq!(articles as usize, broken, "{name} on {paper}: entries");
        assert!(colours > 1, "{name} on {paper}: colours");
    }
}
