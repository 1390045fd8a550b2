//! The archive's entry and the report program against the original. See README.md.

mod archive;
mod call;
mod compare;
mod crash;
mod cuts;
mod damaged;
mod expected;
mod program;
mod spoil;
mod tally;
#[cfg(test)]
mod tests;
mod work;

use archive::entry;
use compare::Programs;
use std::process::ExitCode;
use std::time::Instant;
use tally::Tally;

const USAGE: &str = "usage: harness COMMAND
  compare SEED COUNT REPORT  entry and report program on the generator's cases
  damaged SEED COUNT         the entry on damaged records
";

fn main() -> ExitCode {
    let arguments: Vec<String> = std::env::args().skip(1).collect();
    let words: Vec<&str> = arguments.iter().map(String::as_str).collect();
    let start = Instant::now();
    let Some(tally) = run(&words) else {
        eprint!("{USAGE}");
        return ExitCode::from(2);
    };
    print!("{}", tally.table());
    println!("seconds: {:.0}", start.elapsed().as_secs_f64());
    print!("{}", tally.differing());
    println!("{} passed, {} failed", tally.cases - tally.failed, tally.failed);
    if tally.failed == 0 { ExitCode::SUCCESS } else { ExitCode::from(1) }
}

fn run(words: &[&str]) -> Option<Tally> {
    let [command, seed, count, rest @ ..] = words else { return None };
    let (seed, count) = (seed.parse().ok()?, count.parse().ok()?);
    println!("seed {seed}, {count} cases");
    crash::watch();
    match (*command, rest) {
        ("compare", [program]) => {
            let report = |record: &[u8]| program::printed(program, record);
            Some(compare::compare(&Programs { entry: &entry, report: &report }, seed, count))
        }
        ("damaged", []) => Some(damaged::compare(&entry, seed, count)),
        _ => None,
    }
}
