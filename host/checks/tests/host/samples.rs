//! The sample seasons with their lists of calls; after each call everything is held against a fresh working-out.

use checks::{example, example_calls, example_season, seed, times, Check, Mover, Random};

fn follow(name: &str) {
    let (season, sheet) = example_season(&format!("{name}.txt"));
    let mut check = Check::new(name.into(), &season, Check::buffers_for(&season, &sheet));
    assert!(!check.open().declined);
    for call in example_calls(&format!("{name}.calls")) {
        assert!(!check.make_fresh(call).declined, "{name}: {call} is refused");
    }
    // Further calls at random, refused ones among them.
    let mut random = Random::new(seed(1), 0);
    let mover = Mover::new(&mut random, &check.season.clone().unwrap());
    for _ in 0..50 * times() {
        let call = mover.call(&mut random, check.season.as_ref().unwrap(), &check.before.sheet);
        check.make_fresh(call);
    }
    println!("{name}: {} calls", check.calls);
}

#[test]
fn league18() {
    follow("league18");
}

#[test]
fn largest32() {
    follow("largest32");
}

#[test]
fn mixed32() {
    follow("mixed32");
}

#[test]
fn trips20() {
    follow("trips20");
}

#[test]
fn season_a_in_both_forms() {
    let (season, sheet) = example_season("season-a.txt");
    assert_eq!([season, sheet].concat(), example("season-a.bin"));
}
