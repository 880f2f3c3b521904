//! A sample season and its list of calls, played on the library or on the independent checker.

use checks::{example_calls, example_season, Check, Lent};
use reference::{read, Buffers, Call};
use std::time::Instant;

pub struct Sample {
    pub bytes: Vec<u8>,
    pub buffers: Buffers,
    pub calls: Vec<Call>,
}

/// How many calls of each sort were made, and how long they took.
#[derive(Default, Clone)]
pub struct Made {
    pub opens: u64,
    pub sets: u64,
    pub exchanges: u64,
    /// nanoseconds: open, set, exchange
    pub time: [f64; 3],
}

impl Made {
    /// Mean nanoseconds of an open, a set and an exchange.
    pub fn means(&self) -> [f64; 3] {
        let counts = [self.opens, self.sets, self.exchanges];
        std::array::from_fn(|k| self.time[k] / counts[k].max(1) as f64)
    }
}

/// The calls of the independent checker, under names that a profiler finds.
#[no_mangle]
#[inline(never)]
pub extern "C" fn reference_open(sample: &Sample, now: &mut Buffers) -> bool {
    reference::work_out(
        &sample.bytes,
        &mut now.sheet,
        &mut now.ledger,
        &mut now.tally,
        Call::Open,
    )
    .declined
}

#[no_mangle]
#[inline(never)]
pub extern "C" fn reference_set(sample: &Sample, now: &mut Buffers, game: u64, slot: u64) -> bool {
    reference::work_out(
        &sample.bytes,
        &mut now.sheet,
        &mut now.ledger,
        &mut now.tally,
        Call::Set { game, slot },
    )
    .declined
}

#[no_mangle]
#[inline(never)]
pub extern "C" fn reference_exchange(
    sample: &Sample,
    now: &mut Buffers,
    game: u64,
    other: u64,
) -> bool {
    reference::work_out(
        &sample.bytes,
        &mut now.sheet,
        &mut now.ledger,
        &mut now.tally,
        Call::Exchange { game, other },
    )
    .declined
}

impl Sample {
    /// A season of examples/ with a part of its constraints.
    pub fn new(name: &str, part: Part) -> Sample {
        let (bytes, sheet) = example_season(&format!("{name}.txt"));
        let bytes = thin(&bytes, part);
        let buffers = Check::buffers_for(&bytes, &sheet);
        Sample {
            bytes,
            buffers,
            calls: example_calls(&format!("{name}.calls")),
        }
    }

    pub fn constraints(&self) -> usize {
        self.buffers.tally.len() - 2
    }

    /// Opens several times, then makes the first calls of the list. The buffers are those of the caller, nothing is cleared between.
    pub fn play(&self, who: &str, opens: u64, calls: usize) -> Made {
        let mut made = Made::default();
        let mut lent = Lent::new(&self.bytes, &self.buffers);
        let mut now = self.buffers.clone();
        let list = std::iter::repeat_n(Call::Open, opens as usize)
            .chain(self.calls.iter().copied().take(calls));
        for call in list {
            let start = Instant::now();
            let declined = match (who, call) {
                ("library", _) => lent.call(call).declined,
                (_, Call::Open) => reference_open(self, &mut now),
                (_, Call::Set { game, slot }) => reference_set(self, &mut now, game, slot),
                (_, Call::Exchange { game, other }) => {
                    reference_exchange(self, &mut now, game, other)
                }
            };
            let time = start.elapsed().as_nanos() as f64;
            assert!(!declined, "{call:?} is refused");
            let (which, count) = match call {
                Call::Open => (0, &mut made.opens),
                Call::Set { .. } => (1, &mut made.sets),
                Call::Exchange { .. } => (2, &mut made.exchanges),
            };
            *count += 1;
            made.time[which] += time;
        }
        made
    }

    /// The mean share of constraints that a call of the list touches: for set and for exchange.
    pub fn touched(&self) -> [f64; 2] {
        let season = read(&self.bytes).unwrap();
        let mut sheet = self.buffers.sheet.clone();
        let mut sums = [0.0; 2];
        let mut counts = [0.0; 2];
        for &call in &self.calls {
            let after = reference::plain_step(&season, &sheet, call).unwrap();
            let moved: Vec<usize> = (0..sheet.len()).filter(|&g| sheet[g] != after[g]).collect();
            let touches = |c: &&reference::Constraint| {
                moved
                    .iter()
                    .any(|&g| reference::touched(c, season.games[g], sheet[g], after[g]))
            };
            let which = usize::from(matches!(call, Call::Exchange { .. }));
            sums[which] += season.constraints.iter().filter(touches).count() as f64
                / self.constraints().max(1) as f64;
            counts[which] += 1.0;
            sheet = after;
        }
        [sums[0] / counts[0], sums[1] / counts[1]]
    }

    /// Whether library and independent checker give the same replies and books on the first calls of the list.
    pub fn agrees(&self) -> bool {
        let mut lent = Lent::new(&self.bytes, &self.buffers);
        let mut now = self.buffers.clone();
        let mut calls = std::iter::once(Call::Open).chain(self.calls.iter().copied().take(20));
        let same = calls.all(|call| {
            let wanted = reference::work_out(
                &self.bytes,
                &mut now.sheet,
                &mut now.ledger,
                &mut now.tally,
                call,
            );
            lent.call(call) == wanted
        });
        same && lent.sheet() == now.sheet
            && lent.ledger() == now.ledger
            && lent.tally() == now.tally
    }
}

/// Which constraints of a season are kept: so many, evenly chosen, or those of a kind.
#[derive(Clone, Copy)]
pub enum Part {
    Some(usize),
    Kind(u8),
}

impl Part {
    /// A number, or `kind` and a number.
    pub fn parse(word: &str) -> Part {
        match word.strip_prefix("kind") {
            Some(kind) => Part::Kind(kind.parse().expect("a kind")),
            None => Part::Some(word.parse().expect("a number of constraints")),
        }
    }
}

fn thin(bytes: &[u8], part: Part) -> Vec<u8> {
    let games = usize::from(u16::from_le_bytes([bytes[2], bytes[3]]));
    let all = usize::from(u16::from_le_bytes([bytes[4], bytes[5]]));
    let heads = 6 + 2 * games;
    let bodies = heads + 8 * all;
    let keep: Vec<usize> = match part {
        Part::Some(number) if number < all => (0..number).map(|k| k * all / number).collect(),
        Part::Some(_) => (0..all).collect(),
        Part::Kind(kind) => (0..all).filter(|k| bytes[heads + 8 * k] == kind).collect(),
    };
    let mut thinned = bytes[..heads].to_vec();
    thinned[4..6].copy_from_slice(&(keep.len() as u16).to_le_bytes());
    thinned.extend(
        keep.iter()
            .flat_map(|&c| &bytes[heads + 8 * c..heads + 8 * c + 8]),
    );
    thinned.extend(
        keep.iter()
            .flat_map(|&c| &bytes[bodies + 16 * c..bodies + 16 * c + 16]),
    );
    thinned
}
