//! Times two programs on the same files: `timer RUNS PROGRAM OPPONENT FILE...`
//!
//! A run goes from starting the process, with the file on standard input and the key thrown away, to
//! its end. The two take turns; the best of the runs counts. Nothing is subtracted. PROGRAM prints
//! OPPONENT's key, or that without its last column, as the plain machine does.

use std::fs::File;
use std::process::{Command, Stdio};
use std::time::{Duration, Instant};

fn output(program: &str, file: &str) -> Vec<u8> {
    let input = File::open(file).expect("the file");
    Command::new(program).stdin(input).output().expect("the program").stdout
}

fn without_last_column(key: &[u8]) -> Vec<u8> {
    let text = String::from_utf8_lossy(key);
    let short = |line: &str| line.rsplit_once(' ').map_or(line, |parts| parts.0).to_string() + "\n";
    text.lines().map(short).collect::<String>().into_bytes()
}

fn run(program: &str, file: &str) -> Duration {
    let input = File::open(file).expect("the file");
    let start = Instant::now();
    Command::new(program).stdin(input).stdout(Stdio::null()).status().expect("the program");
    start.elapsed()
}

fn main() {
    let a: Vec<String> = std::env::args().collect();
    let runs: usize = a[1].parse().expect("a number of runs");
    let (program, opponent) = (&a[2], &a[3]);
    println!("{:<19} {:>7} {:>11} {:>11} {:>7} {:>10} {:>10}", "file", "events", "program", "opponent", "ratio", "program", "opponent");
    println!("{:<19} {:>7} {:>11} {:>11} {:>7} {:>10} {:>10}", "", "", "ms", "ms", "", "ns/event", "ns/event");
    for file in &a[4..] {
        let key = output(opponent, file);
        let printed = output(program, file);
        if printed != key && printed != without_last_column(&key) {
            eprintln!("{file}: the keys differ, no use in timing");
            std::process::exit(1);
        }
        let events = key.iter().filter(|b| **b == b'\n').count();
        let (mut p, mut o) = (Duration::MAX, Duration::MAX);
        for _ in 0..runs {
            p = p.min(run(program, file));
            o = o.min(run(opponent, file));
        }
        let (p, o) = (p.as_nanos() as f64, o.as_nanos() as f64);
        let name = file.rsplit('/').next().unwrap().trim_end_matches("-00000");
        println!(
            "{name:<19} {events:>7} {:>11.3} {:>11.3} {:>7.2} {:>10.0} {:>10.0}",
            p / 1e6,
            o / 1e6,
            p / o,
            p / events as f64,
            o / events as f64
        );
    }
}
