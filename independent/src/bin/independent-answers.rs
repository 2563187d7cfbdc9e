//! Reads a case file from standard input and prints one line a case.

use independent::answers::answer_file;
use std::io::{self, Read, Write};

fn main() -> io::Result<()> {
    let mut file = Vec::new();
    io::stdin().read_to_end(&mut file)?;
    io::stdout().write_all(answer_file(&file).as_bytes())
}
