//! The report program: a process for each record.

use std::io::{ErrorKind, Read, Write};
use std::process::{Command, Stdio};

/// What the program prints for the record on its standard input.
pub fn printed(program: &str, record: &[u8]) -> Result<String, String> {
    let failed = |error: std::io::Error| format!("{program}: {error}");
    let mut child = Command::new(program)
        .stdin(Stdio::piped())
        .stdout(Stdio::piped())
        .spawn()
        .map_err(failed)?;
    let mut input = child.stdin.take().expect("a pipe");
    match input.write_all(record) {
        Err(error) if error.kind() != ErrorKind::BrokenPipe => return Err(failed(error)),
        _ => drop(input),
    }
    let mut text = Vec::new();
    child.stdout.take().expect("a pipe").read_to_end(&mut text).map_err(failed)?;
    let ended = child.wait().map_err(failed)?;
    if ended.code().is_none() {
        return Err(format!("{program}: {ended}"));
    }
    Ok(one_nan(&String::from_utf8_lossy(&text)))
}

/// The text with every NaN written as the same one.
fn one_nan(text: &str) -> String {
    text.split_inclusive('\n').map(line_with_one_nan).collect()
}

fn line_with_one_nan(line: &str) -> String {
    let digits = line.strip_prefix("fun ").map(|rest| rest.trim_end_matches('\n'));
    let word = digits.filter(|digits| digits.len() == 16);
    let word = word.and_then(|digits| u64::from_str_radix(digits, 16).ok());
    match word {
        Some(word) if f64::from_bits(word).is_nan() => "fun 7ff8000000000000\n".to_string(),
        _ => line.to_string(),
    }
}
