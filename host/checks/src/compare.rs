//! Holds every call of the library against the independent checker, in full.

use crate::Lent;
use reference::{fresh, plain_step, read, Buffers, Call, Reply, Season};
use std::fmt::{Debug, Write};

/// What a call leaves: the reply and the buffers.
#[derive(Clone, PartialEq, Eq, Debug)]
pub struct Outcome {
    pub reply: Reply,
    pub buffers: Buffers,
}

/// What the rules say for any buffers.
pub fn expected(season: &[u8], before: &Buffers, call: Call) -> Outcome {
    let mut buffers = before.clone();
    let reply = reference::call(season, &mut buffers, call);
    Outcome { reply, buffers }
}

/// A season under test: the library's buffers, and beside them what they have to hold.
pub struct Check {
    /// Test, seed and case, for the message of a failure.
    pub name: String,
    pub lent: Lent,
    pub bytes: Vec<u8>,
    pub before: Buffers,
    /// The season, if it can be read.
    pub season: Option<Season>,
    pub calls: u64,
}

impl Check {
    pub fn new(name: String, bytes: &[u8], buffers: Buffers) -> Check {
        Check { name, lent: Lent::new(bytes, &buffers), bytes: bytes.to_vec(), before: buffers, season: read(bytes).ok(), calls: 0 }
    }

    /// Buffers of the right lengths around a sheet, filled with something that open has to overwrite.
    pub fn buffers_for(bytes: &[u8], sheet: &[u8]) -> Buffers {
        let (entries, constraints) = match read(bytes) {
            Ok(season) => (season.entries(), season.constraints.len()),
            Err(_) => (3, bytes.get(4).map_or(0, |&c| c as usize)),
        };
        Buffers { sheet: sheet.to_vec(), ledger: vec![0xdeadbeef; entries], tally: vec![0xfeedfacecafebeef; constraints + 2] }
    }

    /// Opens and makes no assumption on what the books held.
    pub fn open(&mut self) -> Reply {
        self.make(Call::Open)
    }

    /// A call on any books: reply and buffers are what the rules say.
    pub fn make(&mut self, call: Call) -> Reply {
        let wanted = expected(&self.bytes, &self.before, call);
        self.compare(call, wanted)
    }

    /// A call on books that are those of the sheet: also the plain sheet and a fresh opening of it give this outcome.
    pub fn make_fresh(&mut self, call: Call) -> Reply {
        let season = self.season.as_ref().expect("a valid season");
        let wanted = expected(&self.bytes, &self.before, call);
        let count = season.constraints.len();
        match plain_step(season, &self.before.sheet, call) {
            Err(number) => {
                let refused = Reply { declined: true, number, infeasibility: 0, objective: 0 };
                assert!(wanted.reply == refused && wanted.buffers == self.before, "the independent checker contradicts itself");
            }
            Ok(sheet) => {
                let books = fresh(season, &sheet);
                let reply = Reply {
                    declined: false,
                    number: books.verdict,
                    infeasibility: books.tally[count] as i64 - self.before.tally[count] as i64,
                    objective: books.tally[count + 1] as i64 - self.before.tally[count + 1] as i64,
                };
                let buffers = Buffers { sheet, ledger: books.ledger, tally: books.tally };
                if wanted != (Outcome { reply, buffers }) {
                    let message = self.describe(call, "the rule of touched constraints does not give the fresh figures".into());
                    panic!("{message}");
                }
            }
        }
        self.compare(call, wanted)
    }

    /// Makes the call and compares everything.
    pub fn compare(&mut self, call: Call, wanted: Outcome) -> Reply {
        let reply = self.lent.call(call);
        self.calls += 1;
        if let Some(found) = self.difference(&reply, &wanted) {
            let message = self.describe(call, found);
            panic!("{message}");
        }
        self.before = wanted.buffers;
        reply
    }

    /// Puts other contents into the buffers: what somebody else might have written.
    pub fn overwrite(&mut self, buffers: Buffers) {
        self.lent.refill(&buffers);
        self.before = buffers;
    }

    /// What differs: the reply, and the first word of each buffer.
    fn difference(&self, reply: &Reply, wanted: &Outcome) -> Option<String> {
        let mut found = Vec::new();
        found.extend(self.lent.overrun().map(|name| format!("something was written before or behind the {name}")));
        found.extend((reply != &wanted.reply).then(|| format!("reply: expected {}; got {reply}", wanted.reply)));
        let buffers = &wanted.buffers;
        found.extend(first("season", self.lent.season(), &self.bytes, |_| String::new()));
        found.extend(first("sheet", self.lent.sheet(), &buffers.sheet, |game| format!(" (game {game})")));
        found.extend(first("ledger", self.lent.ledger(), &buffers.ledger, |at| self.place_in_ledger(at)));
        found.extend(first("tally", self.lent.tally(), &buffers.tally, |at| self.place_in_tally(at)));
        (!found.is_empty()).then(|| found.join("\n==== "))
    }

    fn place_in_ledger(&self, at: usize) -> String {
        let Some(season) = &self.season else { return String::new() };
        let mut from = 0;
        for (index, c) in season.constraints.iter().enumerate() {
            if at < from + c.entries() {
                return format!(" (constraint {index}, kind {}, its deviation {})", c.kind, at - from);
            }
            from += c.entries();
        }
        String::new()
    }

    fn place_in_tally(&self, at: usize) -> String {
        let Some(season) = &self.season else { return String::new() };
        match season.constraints.get(at) {
            Some(c) => format!(" (penalty of constraint {at}, kind {})", c.kind),
            None if at == season.constraints.len() => " (infeasibility)".into(),
            None => " (objective)".into(),
        }
    }

    /// The message of a failure: where, the call, the differences, the season, the books before the call.
    pub fn describe(&self, call: Call, found: String) -> String {
        let mut text = format!("\n==== {}, call {}: {call}\n==== {found}\n", self.name, self.calls);
        let before = &self.before;
        let whole = [&self.bytes[..], &before.sheet].concat();
        match season_text::decode(&whole) {
            Ok(season) => {
                let _ = write!(text, "==== season, and sheet before the call\n{season}");
                let known = self.season.as_ref().map(|season| fresh(season, &before.sheet));
                let right = known.is_some_and(|books| books.ledger == before.ledger && books.tally == before.tally);
                if right {
                    text += "==== the books before the call were those of this sheet\n";
                } else {
                    let _ = write!(text, "==== books before the call\nledger {:?}\ntally {:?}\n", before.ledger, before.tally);
                }
            }
            Err(why) => {
                let hex: Vec<String> = self.bytes.iter().map(|b| format!("{b:02x}")).collect();
                let _ = write!(text, "==== season ({why})\n{}\nsheet {:?}\n", hex.join(" "), before.sheet);
                let _ = writeln!(text, "{} words of ledger, {} of tally", before.ledger.len(), before.tally.len());
            }
        }
        text
    }
}

fn first<T: PartialEq + Debug>(name: &str, got: &[T], wanted: &[T], place: impl Fn(usize) -> String) -> Option<String> {
    assert_eq!(got.len(), wanted.len(), "{name}: lengths");
    let at = got.iter().zip(wanted).position(|(a, b)| a != b)?;
    Some(format!("{name}[{at}]{}: expected {:?}, got {:?}", place(at), wanted[at], got[at]))
}
