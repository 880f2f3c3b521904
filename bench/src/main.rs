//! Plays the calls of the sample seasons, for a profiler to count (`bench play`), and writes docs/BENCHMARKS.md from the counts and
//! from times that it measures itself (`bench report`). bench/run.sh does both.

mod play;
mod report;

fn main() {
    let words: Vec<String> = std::env::args().skip(1).collect();
    match words.iter().map(String::as_str).collect::<Vec<_>>().as_slice() {
        ["play", who, name, opens, calls, part] => {
            let season = play::Sample::new(name, play::Part::parse(part));
            let made = season.play(who, opens.parse().expect("opens"), calls.parse().expect("calls"));
            println!("{} {} {}", made.opens, made.sets, made.exchanges);
        }
        ["report", counts] => print!("{}", report::report(&std::fs::read_to_string(counts).expect("counts"))),
        _ => panic!("bench play library|reference SEASON OPENS CALLS CONSTRAINTS|kindKIND | bench report COUNTS"),
    }
}
