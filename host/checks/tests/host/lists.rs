//! Long lists of calls on random seasons, each call compared in full, on right books and on spoilt ones.

use checks::{seed, times, Check, Draft, Mover, Random, Shape, KIND_MODES};
use reference::{fresh, sheet_is_valid, Buffers, Call};
use std::collections::BTreeMap;

/// What a run of lists has seen, so that it can be told from one that sees nothing.
#[derive(Default)]
struct Seen {
    seasons: u64,
    accepted: u64,
    refused: BTreeMap<u8, u64>,
    verdicts: BTreeMap<u8, u64>,
    /// (kind, mode): deviations above 0, and figures that a call changed
    positive: BTreeMap<(u8, u8), u64>,
    moved: BTreeMap<(u8, u8), u64>,
}

impl Seen {
    /// Notes a reply, and which figures differ from those before.
    fn note(&mut self, check: &Check, reply: reference::Reply, ledger_before: &[u32]) {
        if reply.declined {
            *self.refused.entry(reply.number).or_default() += 1;
            return;
        }
        self.accepted += 1;
        *self.verdicts.entry(reply.number).or_default() += 1;
        let season = check.season.as_ref().unwrap();
        let mut at = 0;
        for c in &season.constraints {
            let stretch = at..at + c.entries();
            let key = (c.kind, c.mode);
            *self.positive.entry(key).or_default() += u64::from(check.before.ledger[stretch.clone()].iter().any(|&d| d > 0));
            *self.moved.entry(key).or_default() += u64::from(check.before.ledger[stretch.clone()] != ledger_before[stretch]);
            at += c.entries();
        }
    }

    /// Every kind and mode has had a broken constraint and one that a call changed; every refusal and verdict has come.
    fn require_all(&self, name: &str) {
        for (kind, lowest, highest) in KIND_MODES {
            for mode in lowest..=highest {
                assert!(
                    self.positive.get(&(kind, mode)).is_some_and(|&n| n > 20),
                    "{name}: kind {kind}, mode {mode} is never broken"
                );
                assert!(self.moved.get(&(kind, mode)).is_some_and(|&n| n > 20), "{name}: kind {kind}, mode {mode} never changes");
            }
        }
        for number in 9..=13 {
            assert!(self.refused.contains_key(&number), "{name}: no refusal {number}");
        }
        for number in 0..=2 {
            assert!(self.verdicts.contains_key(&number), "{name}: no verdict {number}");
        }
    }

    fn print(&self, name: &str) {
        println!(
            "{name}: {} seasons, {} calls accepted, refused {:?}, verdicts {:?}",
            self.seasons, self.accepted, self.refused, self.verdicts
        );
    }
}

/// Opens a random season and makes calls at random; after each one everything is that of a fresh opening of the plain sheet.
fn lists(name: &str, own_seed: u64, seasons: u64, calls: u64, shape: Shape) -> Seen {
    let seed = seed(own_seed);
    let mut seen = Seen::default();
    for case in 0..seasons {
        let mut random = Random::new(seed, case);
        let draft = Draft::random(&mut random, shape);
        let bytes = draft.bytes();
        let mut check =
            Check::new(format!("{name}: HOST_SEED={seed}, season {case}"), &bytes, Check::buffers_for(&bytes, &draft.sheet));
        assert!(!check.open().declined, "a random season is refused");
        seen.seasons += 1;
        let season = check.season.clone().unwrap();
        let mover = Mover::new(&mut random, &season);
        let (mut infeasibility, mut objective) = totals(&check);
        for _ in 0..calls {
            let call = mover.call(&mut random, &season, &check.before.sheet);
            let ledger_before = check.before.ledger.clone();
            let reply = check.make_fresh(call);
            infeasibility += reply.infeasibility;
            objective += reply.objective;
            seen.note(&check, reply, &ledger_before);
        }
        assert_eq!((infeasibility, objective), totals(&check), "{}: the changes do not add up to the totals", check.name);
        // The same by a fresh opening in the library itself.
        let kept = check.before.clone();
        check.open();
        assert!(kept == check.before, "{}: a fresh opening gives other books", check.name);
    }
    seen
}

fn totals(check: &Check) -> (i64, i64) {
    let count = check.season.as_ref().unwrap().constraints.len();
    (check.lent.tally()[count] as i64, check.lent.tally()[count + 1] as i64)
}

#[test]
fn small_seasons() {
    let seen = lists("small seasons", 11, 1500 * times(), 150, Shape::SMALL);
    seen.print("small seasons");
    seen.require_all("small seasons");
}

#[test]
fn middle_seasons() {
    let seen = lists("middle seasons", 12, 150 * times(), 150, Shape::MIDDLE);
    seen.print("middle seasons");
    seen.require_all("middle seasons");
}

#[test]
fn largest_seasons() {
    let seen = lists("largest seasons", 13, 60 * times(), 60, Shape::LARGEST);
    seen.print("largest seasons");
}

/// One very long list, so that an error that needs many calls to build up has the time.
#[test]
fn a_long_evening() {
    let seen = lists("a long evening", 14, 4 * times(), 8000, Shape { teams: 8, slots: 14, games: 56, constraints: 60 });
    seen.print("a long evening");
}

/// Somebody else writes the books, or the sheet: touched constraints come out right, the others keep what they have, and another
/// open puts all right.
#[test]
fn spoilt_books() {
    let seed = seed(15);
    let (mut calls, mut refused) = (0, 0);
    for case in 0..1200 * times() {
        let mut random = Random::new(seed, case);
        let draft = Draft::random(&mut random, if case % 20 == 0 { Shape::MIDDLE } else { Shape::SMALL });
        let bytes = draft.bytes();
        let mut check =
            Check::new(format!("spoilt books: HOST_SEED={seed}, season {case}"), &bytes, Check::buffers_for(&bytes, &draft.sheet));
        check.open();
        let season = check.season.clone().unwrap();
        let mover = Mover::new(&mut random, &season);
        for _ in 0..30 {
            if random.chance(40) {
                spoil(&mut check, &mut random, &draft);
            }
            let call = if random.chance(5) { Call::Open } else { mover.call(&mut random, &season, &check.before.sheet) };
            refused += u64::from(check.make(call).declined);
            calls += 1;
            if !sheet_is_valid(&season, &check.before.sheet) {
                let buffers = Buffers { sheet: draft.sheet.clone(), ..check.before.clone() };
                check.overwrite(buffers);
            }
        }
        // Back to a sheet that opens, and everything is right again.
        let buffers = Buffers { sheet: draft.sheet.clone(), ..check.before.clone() };
        check.overwrite(buffers);
        check.open();
        let books = fresh(&season, &draft.sheet);
        assert!(check.before.ledger == books.ledger && check.before.tally == books.tally);
    }
    println!("spoilt books: {calls} calls, {refused} of them refused");
}

fn spoil(check: &mut Check, random: &mut Random, draft: &Draft) {
    let mut buffers = check.before.clone();
    match random.below(8) {
        0 => buffers.ledger.iter_mut().for_each(|word| *word = random.bits() as u32),
        1 => buffers.tally.iter_mut().for_each(|word| *word = random.bits()),
        2 => buffers.tally.iter_mut().for_each(|word| *word = u64::MAX),
        3 if !buffers.ledger.is_empty() => {
            let at = random.below(buffers.ledger.len());
            buffers.ledger[at] = buffers.ledger[at].wrapping_add(1);
        }
        4 => {
            // the two totals
            let count = buffers.tally.len();
            let values = [0, 1, u64::MAX, 1 << 63, (1 << 63) - 1, random.bits()];
            buffers.tally[count - 2] = random.one_of(&values);
            buffers.tally[count - 1] = random.one_of(&values);
        }
        5 => {
            let at = random.below(buffers.tally.len());
            buffers.tally[at] = random.one_of(&[0, u64::MAX, 1 << 63, random.clone().bits()]);
        }
        6 => {
            // another valid sheet under the same books
            let mut other = draft.clone();
            other.draw_sheet(random);
            buffers.sheet = other.sheet;
        }
        _ if !buffers.sheet.is_empty() => {
            // a sheet that may not be valid
            let at = random.below(buffers.sheet.len());
            buffers.sheet[at] = random.one_of(&[0, 1, draft.slots as u8, draft.slots as u8 + 1, 255, random.clone().bits() as u8]);
        }
        _ => (),
    }
    check.overwrite(buffers);
}
