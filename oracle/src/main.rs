//! The oracle's commands. See README.md.

use oracle::cases::{self, EVERY_SIZE, Origin};
use oracle::summary::Summary;
use oracle::{leaves, list, named, play, refusal, small};
use std::io::{BufWriter, Read, Write};
use std::process::ExitCode;

const USAGE: &str = "usage: oracle COMMAND
  play                      the report of the record on standard input
  questions                 its questions in sequence, then the report
  refusal                   its refusal with both details, 0 0 0 if accepted
  generate SEED COUNT       records, one line of hexadecimal each
  small SEED COUNT          small cases with answers, one JSON object a line
  list SEED COUNT           cases with answers, binary
  leaves SEED COUNT         private functions with answers, one JSON object a line
  summary WHICH SEED COUNT  what the cases of generate, small or list meet
  meanings                  the meanings of the float operations in this build
  starred                   document 01's cases that a record can show
";

fn main() -> ExitCode {
    let arguments: Vec<String> = std::env::args().skip(1).collect();
    let words: Vec<&str> = arguments.iter().map(String::as_str).collect();
    match words[..] {
        ["play"] => print(play::report_lines(&play::play(&input())).as_bytes()),
        ["questions"] => {
            let played = play::play(&input());
            let questions = played.as_ref().map_or(String::new(), play::question_lines);
            print((questions + &play::report_lines(&played)).as_bytes())
        }
        ["refusal"] => refusal(),
        ["meanings"] => verdicts(itofin_optimize::meanings::check()),
        ["starred"] => {
            let cases = named::cases().into_iter();
            verdicts(cases.map(|case| (case.name, case.agrees())).collect())
        }
        [command, seed, count] => match (seed.parse(), count.parse()) {
            (Ok(seed), Ok(count)) => generate(command, seed, count),
            _ => usage(),
        },
        ["summary", which, seed, count] => match (seed.parse(), count.parse()) {
            (Ok(seed), Ok(count)) => summarise(which, seed, count),
            _ => usage(),
        },
        _ => usage(),
    }
}

fn input() -> Vec<u8> {
    let mut bytes = Vec::new();
    std::io::stdin().read_to_end(&mut bytes).expect("standard input can be read");
    bytes
}

fn print(bytes: &[u8]) -> ExitCode {
    let written = std::io::stdout().write_all(bytes);
    if written.is_ok() { ExitCode::SUCCESS } else { ExitCode::FAILURE }
}

fn usage() -> ExitCode {
    eprint!("{USAGE}");
    ExitCode::FAILURE
}

fn refusal() -> ExitCode {
    let refusal = play::play(&input()).err().unwrap_or(refusal::Refusal::plain(0));
    let [first, second] = refusal.details;
    print(format!("{} {first} {second}\n", refusal.number).as_bytes())
}

/// Prints what holds and what does not.
fn verdicts(found: Vec<(&'static str, bool)>) -> ExitCode {
    for (name, held) in &found {
        println!("{} {name}", if *held { "holds " } else { "FAILS " });
    }
    let held = found.iter().all(|(_, held)| *held);
    if held { ExitCode::SUCCESS } else { ExitCode::FAILURE }
}

fn generate(command: &str, seed: u64, count: u64) -> ExitCode {
    match command {
        "generate" => print_each(drawn(seed, count).map(|(_, input)| hexadecimal(&input))),
        "small" => {
            let cases = small::inputs(seed).take(count as usize);
            print_each(cases.map(|(_, input)| small::line(&input)))
        }
        "leaves" => print_each((0..count).map(|index| leaves::line(seed, index))),
        "list" => print(&list::bytes(seed, count as usize)),
        _ => usage(),
    }
}

fn drawn(seed: u64, count: u64) -> impl Iterator<Item = (Option<Origin>, Vec<u8>)> {
    (0..count).map(move |index| {
        let (origin, input) = cases::case(seed, index, &EVERY_SIZE);
        (Some(origin), input)
    })
}

fn hexadecimal(input: &[u8]) -> String {
    let digits: String = input.iter().map(|byte| format!("{byte:02x}")).collect();
    digits + "\n"
}

fn print_each(lines: impl Iterator<Item = String>) -> ExitCode {
    let mut out = BufWriter::new(std::io::stdout().lock());
    for line in lines {
        if out.write_all(line.as_bytes()).is_err() {
            return ExitCode::FAILURE;
        }
    }
    ExitCode::SUCCESS
}

fn summarise(which: &str, seed: u64, count: u64) -> ExitCode {
    let mut summary = Summary::default();
    let mut add = |(origin, input): (Option<Origin>, Vec<u8>)| summary.add(origin, &input);
    match which {
        "generate" => drawn(seed, count).for_each(&mut add),
        "small" => small::inputs(seed).take(count as usize).for_each(&mut add),
        "list" => list::inputs(seed).take(count as usize).for_each(&mut add),
        _ => return usage(),
    }
    print(summary.table().as_bytes())
}
