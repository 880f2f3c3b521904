//! What the tests share: calls of the library on guarded buffers, random seasons and calls, comparison with the independent checker.

mod compare;
pub mod helpers;
mod library;
mod moves;
mod random;
mod seasons;

pub use compare::{expected, Check, Outcome};
pub use library::Lent;
pub use moves::Mover;
pub use random::Random;
pub use seasons::{Draft, Shape, KIND_MODES};

/// How many times the usual amount of random cases is run (environment variable HOST_TIMES).
pub fn times() -> u64 {
    number_from("HOST_TIMES").unwrap_or(1)
}

/// The seed of a test: its own, or the one in the environment variable HOST_SEED.
pub fn seed(own: u64) -> u64 {
    number_from("HOST_SEED").unwrap_or(own)
}

fn number_from(name: &str) -> Option<u64> {
    std::env::var(name).ok().map(|word| word.parse().unwrap_or_else(|_| panic!("{name} is not a number: {word}")))
}

/// A file below examples/.
pub fn example(name: &str) -> Vec<u8> {
    let path = format!("{}/../../examples/{name}", env!("CARGO_MANIFEST_DIR"));
    std::fs::read(&path).unwrap_or_else(|error| panic!("{path}: {error}"))
}

/// An example in text form, as season and sheet.
pub fn example_season(name: &str) -> (Vec<u8>, Vec<u8>) {
    let text = String::from_utf8(example(name)).unwrap();
    let encoded = season_text::encode(&text).unwrap_or_else(|fault| panic!("examples/{name}: {fault}"));
    (encoded.season, encoded.sheet)
}

/// A list of calls below examples/.
pub fn example_calls(name: &str) -> Vec<reference::Call> {
    let text = String::from_utf8(example(name)).unwrap();
    let call = |line: &str| {
        let words: Vec<&str> = line.split_whitespace().collect();
        let number = |at: usize| words[at].parse().unwrap();
        match words[0] {
            "set" => reference::Call::Set { game: number(1), slot: number(2) },
            "exchange" => reference::Call::Exchange { game: number(1), other: number(2) },
            word => panic!("examples/{name}: {word}"),
        }
    };
    text.lines().map(call).collect()
}
