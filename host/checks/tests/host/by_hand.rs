//! What tests share whose figures were worked out by hand, after opening and after moves.

use checks::Check;
use reference::Call;

/// A season in text form, opened.
pub fn opened(text: &str) -> Check {
    let encoded = season_text::encode(text).unwrap_or_else(|faults| panic!("{faults}\n{text}"));
    let mut check = Check::new("by hand".into(), &encoded.season, Check::buffers_for(&encoded.season, &encoded.sheet));
    let reply = check.open();
    assert!(!reply.declined, "{reply}\n{text}");
    check
}

/// Makes an accepted move; the deviations after it, which are those of a fresh opening by the library itself.
pub fn after(check: &mut Check, call: Call) -> Vec<u32> {
    let reply = check.make_fresh(call);
    assert!(!reply.declined, "{call}: {reply}");
    let kept = check.before.clone();
    check.open();
    assert!(kept == check.before, "{call}: a fresh opening gives other books");
    kept.ledger
}

pub const fn set(game: u64, slot: u64) -> Call {
    Call::Set { game, slot }
}

pub const fn exchange(game: u64, other: u64) -> Call {
    Call::Exchange { game, other }
}
