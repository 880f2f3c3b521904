//! season-text: seasons as text and as bytes, reports in words, a page to look at, lists of moves.

mod files;

use files::{content, print, Content, Outputs};
use season_text::{decode_named, encode, end, line, make, moves, page, report, sizes, verdict, Faults, Names, Opened, SHOWN};
use std::path::Path;
use std::process::ExitCode;

const USAGE: &str = "\
usage: season-text encode TEXT [BYTES [SHEET]]       season and sheet in one file, or the sheet in a file of its own
       season-text decode BYTES [TEXT]               BYTES is a season followed by its sheet
       season-text report FILE                       verdict, totals, broken constraints and the games behind them
       season-text page FILE OUT.html                the same with the timetable, to look at and to print
       season-text play FILE MOVES [--check] [OUT..] makes the moves of a list; --check opens afresh after each and compares
FILE is text or bytes. '-' stands for standard input or output; an output that is left out is standard output.
OUT ends in .txt, .bin or .html: the season with the last sheet as text, bytes or page. Names of teams, slots and
constraints are kept beside the bytes, in BYTES.names.
";

/// The lines that say why a command failed.
type Failure = Vec<String>;

fn main() -> ExitCode {
    let words: Vec<String> = std::env::args().skip(1).collect();
    if words.iter().any(|word| ["--help", "-h"].contains(&word.as_str())) || words.first().is_some_and(|word| word == "help") {
        let _ = print(USAGE.as_bytes());
        return ExitCode::SUCCESS;
    }
    let words: Vec<&str> = words.iter().map(String::as_str).collect();
    let done = match words.as_slice() {
        ["encode", text] => encode_file(text, "-", None),
        ["encode", text, bytes] => encode_file(text, bytes, None),
        ["encode", text, bytes, sheet] => encode_file(text, bytes, Some(sheet)),
        ["decode", bytes] => decode_file(bytes, "-"),
        ["decode", bytes, text] => decode_file(bytes, text),
        ["report", file] => report_file(file),
        ["page", file, out] => page_file(file, out),
        ["play", file, list, rest @ ..] => play_file(file, list, rest),
        _ => {
            eprint!("{USAGE}");
            return ExitCode::from(2);
        }
    };
    match done {
        Ok(()) => ExitCode::SUCCESS,
        Err(lines) => {
            lines.iter().for_each(|line| eprintln!("{line}"));
            ExitCode::FAILURE
        }
    }
}

/// Does the work of a command; if it fails, no output of an earlier run stays.
fn deliver(outputs: &Outputs, work: impl FnOnce() -> Result<Vec<Option<Vec<u8>>>, Failure>) -> Result<(), Failure> {
    let contents = work().inspect_err(|_| outputs.discard())?;
    outputs.write(&contents).map_err(one)
}

fn one(line: String) -> Failure {
    vec![line]
}

fn names_file(bytes: &str) -> String {
    format!("{bytes}.names")
}

fn encode_file(from: &str, to: &str, sheet: Option<&str>) -> Result<(), Failure> {
    let mut targets = vec![to.to_string()];
    targets.extend(sheet.map(str::to_string));
    if to != "-" {
        targets.push(names_file(to));
    }
    let outputs = Outputs::new(&[from], targets).and_then(Outputs::spare_texts).map_err(one)?;
    deliver(&outputs, || {
        let Content::Text(text) = content(from).map_err(one)? else {
            return Err(one(format!("{from}: these are bytes, not text; 'season-text decode' turns bytes into text")));
        };
        let encoded = encode(&text).map_err(|faults| faults.in_file(from))?;
        show_notes(from, &encoded.notes);
        if encoded.deviations > 6000 {
            eprintln!("{from}: note: {} deviations; season-report takes at most 6000", encoded.deviations);
        }
        if to == "-" && !encoded.names.is_empty() {
            eprintln!("{from}: note: the bytes have no names; with an output file they are kept beside it");
        }
        let mut contents = match sheet {
            Some(_) => vec![Some(encoded.season), Some(encoded.sheet)],
            None => vec![Some([encoded.season, encoded.sheet].concat())],
        };
        contents.push((!encoded.names.is_empty()).then(|| encoded.names.file().into_bytes()));
        Ok(contents)
    })
}

fn show_notes(file: &str, notes: &[season_text::Fault]) {
    for note in notes.iter().take(SHOWN) {
        let place = if note.line == 0 { String::new() } else { format!(":{}", note.line) };
        eprintln!("{file}{place}: note: {}", note.message);
    }
    if notes.len() > SHOWN {
        eprintln!("{file}: note: and {} more notes", notes.len() - SHOWN);
    }
}

fn decode_file(from: &str, to: &str) -> Result<(), Failure> {
    let outputs = Outputs::new(&[from], vec![to.to_string()]).map_err(one)?;
    deliver(&outputs, || {
        let Content::Bytes(bytes) = content(from).map_err(one)? else {
            return Err(one(format!("{from}: this is text, not bytes; 'season-text encode' turns text into bytes")));
        };
        let names = names_beside(from, &bytes)?;
        let text = decode_named(&bytes, &names).map_err(|faults| faults.in_file(from))?;
        Ok(vec![Some(text.into_bytes())])
    })
}

/// The names that are kept beside a file of bytes.
fn names_beside(file: &str, bytes: &[u8]) -> Result<Names, Failure> {
    let beside = names_file(file);
    let Some([teams, slots, _, constraints]) = sizes(bytes) else { return Ok(Names::default()) };
    if file == "-" || !Path::new(&beside).exists() || teams == 0 || slots == 0 {
        return Ok(Names::default());
    }
    let Content::Text(text) = content(&beside).map_err(one)? else {
        return Err(one(format!("{beside}: this is no file of names")));
    };
    Names::read(&text, teams, slots, constraints).map_err(|faults| faults.in_file(&beside))
}

/// The season of a file of either form, opened by the library.
fn open_file(file: &str) -> Result<Opened, Failure> {
    let (bytes, names) = match content(file).map_err(one)? {
        Content::Text(text) => {
            let encoded = encode(&text).map_err(|faults| faults.in_file(file))?;
            show_notes(file, &encoded.notes);
            ([encoded.season, encoded.sheet].concat(), encoded.names)
        }
        Content::Bytes(bytes) => {
            let names = names_beside(file, &bytes)?;
            (bytes, names)
        }
    };
    Opened::new(&bytes, names).map_err(|refused| {
        let lines = refused.lines.into_iter().map(season_text::Fault::whole).collect();
        [one(format!("{file}: refused {}", refused.number)), Faults(lines).in_file(file)].concat()
    })
}

fn report_file(file: &str) -> Result<(), Failure> {
    let opened = open_file(file)?;
    print(report(file, &opened).as_bytes()).map_err(|error| one(format!("standard output: {error}")))
}

/// The name of a season for the head of its page: the file's, without folder and ending.
fn title(file: &str) -> String {
    let stem = Path::new(file).file_stem().map_or(String::new(), |stem| stem.to_string_lossy().replace('-', " "));
    match stem.trim() {
        "" => "season".into(),
        stem => stem.into(),
    }
}

fn page_file(file: &str, out: &str) -> Result<(), Failure> {
    let outputs = Outputs::new(&[file], vec![out.to_string()]).and_then(Outputs::spare_texts).map_err(one)?;
    deliver(&outputs, || Ok(vec![Some(page(&title(file), &open_file(file)?).into_bytes())]))
}

/// What a file of the last sheet holds, by its ending.
#[derive(Clone, Copy)]
enum Form {
    Text,
    Bytes,
    Page,
}

fn form(name: &str) -> Option<Form> {
    match Path::new(name).extension()?.to_str()? {
        "txt" => Some(Form::Text),
        "bin" => Some(Form::Bytes),
        "html" => Some(Form::Page),
        _ => None,
    }
}

fn play_file(file: &str, list: &str, rest: &[&str]) -> Result<(), Failure> {
    let check = rest.contains(&"--check");
    let (mut targets, mut forms) = (Vec::new(), Vec::new());
    for &out in rest.iter().filter(|word| **word != "--check") {
        let form = form(out).ok_or_else(|| one(format!("{out}: an output of play ends in .txt, .bin or .html")))?;
        targets.push(out.to_string());
        forms.push(Some(form));
        if let Form::Bytes = form {
            targets.push(names_file(out));
            forms.push(None);
        }
    }
    if file == "-" && list == "-" {
        return Err(one("the season and the moves cannot both come from standard input".into()));
    }
    let outputs = Outputs::new(&[file, list], targets).map_err(one)?;
    deliver(&outputs, || {
        let mut opened = open_file(file)?;
        let Content::Text(text) = content(list).map_err(one)? else {
            return Err(one(format!("{list}: this is no list of moves")));
        };
        let steps = moves(&text).map_err(|faults| faults.in_file(list))?;
        make_moves(&mut opened, &steps, check)?;
        forms.iter().map(|form| last_sheet(&title(file), &opened, *form)).collect()
    })
}

/// Makes the moves and prints a line for each.
fn make_moves(opened: &mut Opened, steps: &[season_text::Move], check: bool) -> Result<(), Failure> {
    let say = |text: String| print(format!("{text}\n").as_bytes()).map_err(|error| one(format!("standard output: {error}")));
    let (books, reply) = (&opened.books, opened.reply);
    say(format!("open: {}, infeasibility {}, objective {}", verdict(reply.number), books.infeasibility(), books.objective()))?;
    let mut refused = 0;
    for (at, &step) in steps.iter().enumerate() {
        let before = opened.books.clone();
        let reply = make(opened, step);
        refused += usize::from(reply.declined);
        say(line(opened, before.sheet(), step, reply))?;
        if check {
            let found = season_text::differences(opened, &before, reply);
            if !found.is_empty() {
                let faults = Faults(found.into_iter().map(season_text::Fault::whole).collect());
                return Err([one(format!("move {} differs from a fresh opening:", at + 1)), faults.in_file("difference")].concat());
            }
        }
    }
    say(format!("{} moves: {} accepted, {refused} refused", steps.len(), steps.len() - refused))?;
    if check {
        let (ledger, tally) = (opened.books.ledger().len(), opened.books.tally().len());
        say(format!(
            "checked: after each move the verdict, both changes, the {ledger} words of the ledger and the {tally} of the tally are \
             those of a fresh opening"
        ))?;
    }
    Ok(())
}

/// The contents of an output of play; without a form, the names beside the bytes.
fn last_sheet(title: &str, opened: &Opened, form: Option<Form>) -> Result<Option<Vec<u8>>, Failure> {
    let bytes = [opened.books.season(), opened.books.sheet()].concat();
    debug_assert_eq!(end(&bytes), opened.books.season().len());
    Ok(match form {
        Some(Form::Text) => {
            let text = decode_named(&bytes, &opened.names).map_err(|faults| faults.in_file("the last sheet"))?;
            Some(text.into_bytes())
        }
        Some(Form::Bytes) => Some(bytes),
        Some(Form::Page) => Some(page(title, opened).into_bytes()),
        None => (!opened.names.is_empty()).then(|| opened.names.file().into_bytes()),
    })
}
