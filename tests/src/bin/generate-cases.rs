//! Prints a case file: `generate-cases stored` or
//! `generate-cases random SEED COUNT`.

use case_files::generate::{mixed::random_file, stored::stored_file};
use std::io::{self, Write};
use std::process::ExitCode;

fn main() -> io::Result<ExitCode> {
    let arguments: Vec<String> = std::env::args().skip(1).collect();
    let words: Vec<&str> = arguments.iter().map(String::as_str).collect();
    let file = match words[..] {
        ["stored"] => Some(stored_file()?),
        ["random", seed, count] => random_from(seed, count),
        _ => None,
    };
    let Some(file) = file else {
        eprintln!("usage: generate-cases stored | generate-cases random SEED COUNT");
        return Ok(ExitCode::from(2));
    };
    io::stdout().write_all(&file)?;
    Ok(ExitCode::SUCCESS)
}

fn random_from(seed: &str, count: &str) -> Option<Vec<u8>> {
    Some(random_file(seed.parse().ok()?, count.parse().ok()?))
}
