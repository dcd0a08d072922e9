//! differential SECONDS [SEED [CASE]]: the boundaries, then random cases until the time is over; with a CASE, that one alone.
//! The exit status is 1 if the port differs from the Rust anywhere.

use differential::boundaries::PARTS;
use differential::compare::{Comparer, Difference, Held, Tally};
use differential::judge::{Reply, SORTS, is_read};
use differential::random::Random;
use differential::{invalid, sequences, shrink};
use oracle::lines::{change_line, hex, line};
use std::process::ExitCode;
use std::time::{Duration, Instant};

type Case = fn(&mut Comparer, &mut Random) -> Held<()>;

/// In turn; a case of damage asks some 20,000 calls, so those are seldom.
fn case_of(number: u64) -> Case {
    match (number % 32, number % 3) {
        (29, _) => invalid::noise,
        (30, _) => invalid::arguments,
        (31, _) => invalid::one_image,
        (_, 0) => sequences::one_image,
        (_, 1) => sequences::orderly,
        _ => sequences::disorderly,
    }
}

struct Run {
    comparer: Comparer,
    seed: u64,
    start: Instant,
    said: Instant,
    /// DIFFERENTIAL_LAST: a file for what is being done.
    last: Option<String>,
}

impl Run {
    fn case(&mut self, number: u64) -> Held<()> {
        let mut random = Random::new(self.seed ^ number.wrapping_mul(0xd6e8_feb8_6659_fd93));
        case_of(number)(&mut self.comparer, &mut random)
    }

    /// Leaves word of what is asked next, for a port that never comes back.
    fn doing(&self, what: &str) {
        if let Some(file) = &self.last {
            let _ = std::fs::write(file, what);
        }
    }

    fn progress(&mut self, doing: &str) {
        if self.said.elapsed() >= Duration::from_secs(5) {
            self.said = Instant::now();
            let (seconds, calls) = (self.start.elapsed().as_secs(), self.comparer.tally.calls);
            eprintln!("differential: {seconds} s, seed {}, {doing}, {calls} calls compared, no difference", self.seed);
        }
    }

    /// Says what differs, as small as it can be made.
    fn failed(&mut self, found: Difference, again: &str) -> ExitCode {
        let seconds = self.start.elapsed().as_secs_f64();
        println!("DIFFERENCE after {:.1} s and {} calls; again: {again}", seconds, self.comparer.tally.calls);
        let small = shrink::shrink(&mut self.comparer, found.clone());
        println!("shrunk from an image of {} bytes to one of {}", found.image.len(), small.image.len());
        println!("  call  {}", say_call(&small));
        println!("  image {}", if small.image.len() <= 2000 { hex(&small.image) } else { "(long)".to_string() });
        println!("  Rust  {}", say(&small.want));
        println!("  port  {}", say(&small.got));
        ExitCode::FAILURE
    }
}

/// As a line of crates/vectors.
fn say_call(found: &Difference) -> String {
    let line = if is_read(&found.call) { line(&found.call, &[]) } else { change_line(&found.call, found.room, &[]) };
    line.expect("a call has a line")
}

fn say(reply: &Reply) -> String {
    match reply {
        Reply::Image(new) => {
            format!("image of {} bytes {}", new.len(), if new.len() <= 2000 { hex(new) } else { String::new() })
        }
        Reply::Text { start, text } => format!("text at {start}: {}", hex(text)),
        other => format!("{other:?}"),
    }
}

fn table(tally: &Tally) {
    println!("{:<10} {:>10} {:>10} {:>10}  refused", "call", "compared", "some", "none");
    for (sort, name) in SORTS.iter().enumerate() {
        let refused: Vec<String> = (1..12)
            .filter(|number| tally.refused[sort][*number] > 0)
            .map(|number| format!("{number}: {}", tally.refused[sort][number]))
            .collect();
        let all: u64 = tally.refused[sort].iter().sum::<u64>() + tally.some[sort] + tally.none[sort];
        println!("{name:<10} {all:>10} {:>10} {:>10}  {}", tally.some[sort], tally.none[sort], refused.join(", "));
    }
}

fn main() -> ExitCode {
    let numbers: Option<Vec<u64>> = std::env::args().skip(1).map(|word| word.parse().ok()).collect();
    let (seconds, seed, only) = match numbers.as_deref() {
        Some([seconds]) => (*seconds, 1, None),
        Some([seconds, seed]) => (*seconds, *seed, None),
        Some([seconds, seed, case]) => (*seconds, *seed, Some(*case)),
        _ => {
            eprintln!("differential SECONDS [SEED [CASE]]");
            return ExitCode::from(2);
        }
    };
    let start = Instant::now();
    let mut run =
        Run { comparer: Comparer::default(), seed, start, said: start, last: std::env::var("DIFFERENTIAL_LAST").ok() };
    if let Some(case) = only {
        return match run.case(case) {
            Ok(()) => {
                println!("case {case} of seed {seed}: {} calls compared, no difference", run.comparer.tally.calls);
                ExitCode::SUCCESS
            }
            Err(found) => run.failed(*found, &format!("differential 0 {seed} {case}")),
        };
    }
    for (name, part) in PARTS {
        run.doing(&format!("boundaries: {name}"));
        if let Err(found) = part(&mut run.comparer) {
            return run.failed(*found, &format!("differential 0, boundaries: {name}"));
        }
        run.progress(name);
    }
    let boundaries = run.comparer.tally.calls;
    let mut number = 0;
    while start.elapsed() < Duration::from_secs(seconds) {
        run.doing(&format!("differential 0 {seed} {number}"));
        if let Err(found) = run.case(number) {
            return run.failed(*found, &format!("differential 0 {seed} {number}"));
        }
        number += 1;
        run.progress(&format!("{number} cases"));
    }
    table(&run.comparer.tally);
    let calls = run.comparer.tally.calls;
    println!(
        "{calls} calls compared ({boundaries} at boundaries, {number} random cases), seed {seed}, {:.1} s, no difference",
        start.elapsed().as_secs_f64()
    );
    ExitCode::SUCCESS
}
