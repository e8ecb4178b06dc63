//! Prints the microseconds of the shortest of some runs of a command, with its start: `best_of RUNS COMMAND WORDS..`. What
//! the command prints is passed over.
use std::env;
use std::process::{Command, Stdio};
use std::time::Instant;

fn main() {
    let words: Vec<String> = env::args().collect();
    let mut best = u128::MAX;
    for _ in 0..words[1].parse::<u32>().unwrap() {
        let start = Instant::now();
        let ended = Command::new(&words[2]).args(&words[3..]).stdin(Stdio::null()).stdout(Stdio::null()).status();
        best = best.min(start.elapsed().as_micros());
        assert!(ended.unwrap().success(), "{:?} failed", &words[2..]);
    }
    println!("{best}");
}
