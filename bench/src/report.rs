//! The tables of docs/BENCHMARKS.md.

use crate::play::{Made, Part, Sample};
use std::collections::BTreeMap;
use std::fmt::Write;

/// Instructions of a hand-written C program with vector code on the same lists: open, set, exchange.
const LIMITS: [(&str, [f64; 3]); 4] = [
    ("league18", [193_000.0, 105_000.0, 112_000.0]),
    ("largest32", [768_000.0, 437_000.0, 460_000.0]),
    ("mixed32", [1_538_000.0, 941_000.0, 1_010_000.0]),
    ("trips20", [177_000.0, 88_000.0, 92_000.0]),
];

const CALLS: [&str; 3] = ["open", "set", "exchange"];

/// The kinds of constraints, with their numbers.
const KINDS: [(&str, u8); 12] = [
    ("CA1", 11),
    ("CA2", 12),
    ("CA3", 13),
    ("CA4", 14),
    ("CA5", 15),
    ("GA1", 21),
    ("BR1", 31),
    ("BR2", 32),
    ("BR4", 34),
    ("FA1", 41),
    ("FA2", 42),
    ("SE1", 51),
];

/// What the profiler counted: lines `count WHO SEASON CONSTRAINTS CALL INSTRUCTIONS CALLS`, of a kind with its number instead of the
/// constraints, and `self SEASON PERCENT FUNCTION`.
#[derive(Default)]
struct Counts {
    /// instructions a call
    mean: BTreeMap<(String, String, usize, String), f64>,
    /// (season, percent, function)
    parts: Vec<(String, String, String)>,
}

impl Counts {
    fn read(text: &str) -> Counts {
        let mut counts = Counts::default();
        for line in text.lines() {
            match line.split_whitespace().collect::<Vec<_>>().as_slice() {
                ["count", who, season, constraints, call, instructions, calls] => {
                    let number = |word: &str| word.parse::<f64>().expect("a number");
                    let key = (
                        who.to_string(),
                        season.to_string(),
                        number(constraints) as usize,
                        call.to_string(),
                    );
                    counts
                        .mean
                        .insert(key, number(instructions) / number(calls));
                }
                ["self", season, percent, function @ ..] => {
                    counts.parts.push((
                        season.to_string(),
                        percent.to_string(),
                        function.join(" "),
                    ));
                }
                _ => panic!("not a count: {line}"),
            }
        }
        counts
    }

    fn of(&self, who: &str, season: &str, constraints: usize, call: &str) -> f64 {
        self.mean[&(who.into(), season.into(), constraints, call.into())]
    }
}

pub fn report(counts: &str) -> String {
    let counts = Counts::read(counts);
    let mut text = String::from(
        "# Benchmarks\n\n\
         Made by `bench/run.sh`, all in one run. \"Library\" is the compiled proved library. \"Independent\" is `host/reference`, which works\n\
         everything out anew at each call; it is written to be read, not to be fast. \"Limit\" is a hand-written C program with vector code.\n\
         Each sample season of `examples/` is opened and its list of calls is made, of the independent checker the first 20; a figure is the\n\
         mean over the calls of a sort. Both are built for release and work on the caller's buffers, and nothing is cleared between calls.\n\n\
         ## Instructions a call (callgrind)\n\n\
         | season | call | library | limit | library / limit | independent | independent / library |\n\
         |---|---|---|---|---|---|---|\n",
    );
    let samples: Vec<Sample> = LIMITS
        .iter()
        .map(|(name, _)| Sample::new(name, Part::Some(1024)))
        .collect();
    let (mut to_limit, mut to_independent) = (0.0, f64::MAX);
    for ((name, limits), sample) in LIMITS.iter().zip(&samples) {
        assert!(
            sample.agrees(),
            "{name}: library and independent checker differ"
        );
        for (call, limit) in CALLS.iter().zip(limits) {
            let library = counts.of("library", name, sample.constraints(), call);
            let independent = counts.of("reference", name, sample.constraints(), call);
            if *call == "set" {
                to_limit = f64::max(to_limit, library / limit);
                to_independent = f64::min(to_independent, independent / library);
            }
            let _ = writeln!(
                text,
                "| {name} | {call} | {} | {} | {:.2} | {} | {:.0} |",
                thousands(library),
                thousands(*limit),
                library / limit,
                thousands(independent),
                independent / library
            );
        }
    }

    let _ = writeln!(
        text,
        "\nSet takes at most {to_limit:.1} times the instructions of the limit, and at least {to_independent:.0} times fewer than the independent checker."
    );

    text += "\n## Nanoseconds a call\n\nThe best of five runs of each list, of the independent checker the best of two runs of its first 60 calls. Times depend on the\nmachine, ratios much less.\n\n\
             | season | call | library | independent | independent / library |\n|---|---|---|---|---|\n";
    for ((name, _), sample) in LIMITS.iter().zip(&samples) {
        let library = best(5, || sample.play("library", 20, usize::MAX));
        let independent = best(2, || sample.play("reference", 3, 60));
        for (k, call) in CALLS.iter().enumerate() {
            let (fast, slow) = (library[k], independent[k]);
            let _ = writeln!(
                text,
                "| {name} | {call} | {} | {} | {:.0} |",
                thousands(fast),
                thousands(slow),
                slow / fast
            );
        }
    }

    text += "\n## Touched constraints\n\nThe mean share of the season's constraints that a call of the list touches; set and exchange rework only\nthese.\n\n| season | constraints | set | exchange |\n|---|---|---|---|\n";
    for ((name, _), sample) in LIMITS.iter().zip(&samples) {
        let [set, exchange] = sample.touched();
        let _ = writeln!(
            text,
            "| {name} | {} | {:.1} % | {:.1} % |",
            sample.constraints(),
            100.0 * set,
            100.0 * exchange
        );
    }

    text += "\n## How set grows with the number of constraints\n\nlargest32 with a part of its constraints, evenly chosen. What is left with none is\n\
             the check of the games and the sheet, and the tables made from it.\n\n\
             | constraints | instructions a set | beyond none, for each constraint | nanoseconds |\n|---|---|---|---|\n";
    let grown: Vec<usize> = counts
        .mean
        .keys()
        .filter(|key| key.0 == "grown")
        .map(|key| key.2)
        .collect();
    let none = counts.of("grown", "largest32", 0, "set");
    for constraints in grown {
        let set = counts.of("grown", "largest32", constraints, "set");
        let each = if constraints == 0 {
            "".into()
        } else {
            thousands((set - none) / constraints as f64)
        };
        let sample = Sample::new("largest32", Part::Some(constraints));
        let time = best(5, || sample.play("library", 1, usize::MAX))[1];
        let _ = writeln!(
            text,
            "| {constraints} | {} | {each} | {} |",
            thousands(set),
            thousands(time)
        );
    }

    text += "\n## What a set spends on each kind\n\nInstructions of a set on the season with the constraints of one kind only, beyond those of a set with none;\n\
             in brackets the number of the constraints and the share of the whole season's set. Empty where the season has none of the kind.\n\n\
             | kind ";
    for (name, _) in &LIMITS {
        let _ = write!(text, "| {name} ");
    }
    let _ = writeln!(text, "|\n|---{}|", "|---".repeat(LIMITS.len()));
    for (kind, number) in KINDS {
        let _ = write!(text, "| {kind} ");
        for ((name, _), sample) in LIMITS.iter().zip(&samples) {
            let of_kind = Sample::new(name, Part::Kind(number)).constraints();
            if of_kind == 0 {
                text += "| ";
                continue;
            }
            let whole = counts.of("library", name, sample.constraints(), "set");
            let beyond =
                counts.of("kind", name, number.into(), "set") - counts.of("kind", name, 0, "set");
            let _ = write!(
                text,
                "| {} ({}, {:.0} %) ",
                thousands(beyond),
                of_kind,
                100.0 * beyond / whole
            );
        }
        text += "|\n";
    }
    text += "| none ";
    for ((name, _), sample) in LIMITS.iter().zip(&samples) {
        let none = counts.of("kind", name, 0, "set");
        let whole = counts.of("library", name, sample.constraints(), "set");
        let _ = write!(
            text,
            "| {} ({:.0} %) ",
            thousands(none),
            100.0 * none / whole
        );
    }
    text += "|\n";

    text += "\n## Where the instructions of set are\n\nThe functions of the compiled library with the largest part of the instructions of all\n\
             sets of a list, without what they call. What the compiler put into its caller counts there.\n\n\
             | season | part | function |\n|---|---|---|\n";
    for (season, percent, function) in &counts.parts {
        let _ = writeln!(text, "| {season} | {percent} % | `{function}` |");
    }
    text
}

/// The lowest mean times of several runs.
fn best(runs: usize, mut run: impl FnMut() -> Made) -> [f64; 3] {
    let mut lowest = [f64::MAX; 3];
    for _ in 0..runs {
        let means = run().means();
        lowest = std::array::from_fn(|k| lowest[k].min(means[k]));
    }
    lowest
}

/// A whole number in groups of three digits.
fn thousands(value: f64) -> String {
    let digits = format!("{value:.0}");
    let mut text = String::new();
    for (at, digit) in digits.chars().enumerate() {
        if at > 0 && (digits.len() - at) % 3 == 0 {
            text.push(',');
        }
        text.push(digit);
    }
    text
}
