//! record FILE [CASES]: writes seasons, calls and what they have to leave, for host/c/replay.c.
//! record --show CASE: prints one of the cases.
//!
//! Little-endian: the number of cases; for each one the lengths of season, sheet, ledger, tally and the number of calls (u32 each), the
//! four buffers, and for each call what (0 open, 1 set, 2 exchange), two numbers, the reply, and a hash of the three written buffers.

use checks::{example_calls, example_season, expected, seed, Check, Draft, Mover, Random, Shape};
use reference::{read, Buffers, Call};

/// A season, what the buffers hold at first, and the calls.
struct Case {
    season: Vec<u8>,
    buffers: Buffers,
    calls: Vec<Call>,
}

fn main() {
    let words: Vec<String> = std::env::args().skip(1).collect();
    let seed = seed(61);
    match words.iter().map(String::as_str).collect::<Vec<_>>().as_slice() {
        ["--show", case] => show(&case_of(seed, case.parse().expect("a case number"))),
        [file] => write(seed, file, 1500),
        [file, cases] => write(seed, file, cases.parse().expect("a number of cases")),
        _ => panic!("record FILE [CASES] | record --show CASE"),
    }
}

fn write(seed: u64, file: &str, cases: u64) {
    let mut bytes = (cases as u32).to_le_bytes().to_vec();
    for case in 0..cases {
        case_of(seed, case).write(&mut bytes);
    }
    std::fs::write(file, bytes).unwrap_or_else(|error| panic!("{file}: {error}"));
}

fn show(case: &Case) {
    let whole = [&case.season[..], &case.buffers.sheet].concat();
    match season_text::decode(&whole) {
        Ok(text) => print!("{text}"),
        Err(why) => println!("season ({why})\n{:02x?}\nsheet {:?}", case.season, case.buffers.sheet),
    }
    println!("{} words of ledger, {} of tally", case.buffers.ledger.len(), case.buffers.tally.len());
    for (at, call) in case.calls.iter().enumerate() {
        println!("call {at}: {call}");
    }
}

/// The first cases are the sample seasons; of the others, one in four is damaged and one in four has spoilt books.
fn case_of(seed: u64, case: u64) -> Case {
    if let Some(name) = ["season-a", "league18", "largest32", "mixed32", "trips20"].get(case as usize) {
        return sample(name);
    }
    let mut random = Random::new(seed, case);
    let shape = match case % 16 {
        4 => Shape::LARGEST,
        8 | 12 => Shape::MIDDLE,
        _ => Shape::SMALL,
    };
    let draft = Draft::random(&mut random, shape);
    let mut bytes = draft.bytes();
    let season = read(&bytes).unwrap();
    let mut buffers = Check::buffers_for(&bytes, &draft.sheet);
    let mover = Mover::new(&mut random, &season);
    let mut calls = vec![Call::Open];
    if case % 4 == 1 {
        let at = random.below(bytes.len());
        bytes[at] = random.bits() as u8;
    }
    if case % 8 == 1 {
        bytes.truncate(random.below(bytes.len() + 1));
    }
    if case % 4 == 2 {
        calls.clear();
        buffers.tally.iter_mut().for_each(|word| *word = random.bits());
    }
    // The calls follow the sheet that they make.
    let mut now = buffers.clone();
    for _ in 0..40 {
        let call = mover.call(&mut random, &season, &now.sheet);
        reference::call(&bytes, &mut now, call);
        calls.push(call);
    }
    Case { season: bytes, buffers, calls }
}

fn sample(name: &str) -> Case {
    let (season, sheet) = example_season(&format!("{name}.txt"));
    let buffers = Check::buffers_for(&season, &sheet);
    let mut calls = vec![Call::Open];
    match name {
        "season-a" => {
            for game in 0..7 {
                calls.extend((0..5).map(|slot| Call::Set { game, slot }));
                calls.extend((0..7).map(|other| Call::Exchange { game, other }));
            }
        }
        _ => calls.extend(example_calls(&format!("{name}.calls")).into_iter().take(30)),
    }
    Case { season, buffers, calls }
}

impl Case {
    fn write(&self, to: &mut Vec<u8>) {
        let lengths =
            [self.season.len(), self.buffers.sheet.len(), self.buffers.ledger.len(), self.buffers.tally.len(), self.calls.len()];
        to.extend(lengths.iter().flat_map(|&length| (length as u32).to_le_bytes()));
        to.extend(&self.season);
        to.extend(&self.buffers.sheet);
        to.extend(self.buffers.ledger.iter().flat_map(|word| word.to_le_bytes()));
        to.extend(self.buffers.tally.iter().flat_map(|word| word.to_le_bytes()));
        let mut now = self.buffers.clone();
        for &call in &self.calls {
            let after = expected(&self.season, &now, call);
            let (what, a, b) = match call {
                Call::Open => (0, 0, 0),
                Call::Set { game, slot } => (1, game, slot),
                Call::Exchange { game, other } => (2, game, other),
            };
            to.push(what);
            to.extend(a.to_le_bytes());
            to.extend(b.to_le_bytes());
            to.extend([u8::from(after.reply.declined), after.reply.number]);
            to.extend(after.reply.infeasibility.to_le_bytes());
            to.extend(after.reply.objective.to_le_bytes());
            to.extend(hash(&after.buffers).to_le_bytes());
            now = after.buffers;
        }
    }
}

/// FNV-1a over sheet, ledger and tally, item by item.
fn hash(buffers: &Buffers) -> u64 {
    let sheet = buffers.sheet.iter().map(|&item| u64::from(item));
    let ledger = buffers.ledger.iter().map(|&item| u64::from(item));
    let items = sheet.chain(ledger).chain(buffers.tally.iter().copied());
    items.fold(0xcbf29ce484222325, |hash: u64, item| (hash ^ item).wrapping_mul(0x100000001b3))
}
