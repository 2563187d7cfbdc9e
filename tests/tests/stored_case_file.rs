//! The case file and the answers that are stored in the repository are those
//! that this package makes.

use case_files::generate::stored::stored_file;
use independent::answers::answer_file;
use std::fs;
use std::path::{Path, PathBuf};

/// Where the stored files are, beside this package.
fn stored(name: &str) -> PathBuf {
    Path::new(env!("CARGO_MANIFEST_DIR")).join("../crates/answers").join(name)
}

#[test]
fn stored_case_file() {
    let made = stored_file().expect("the captures");
    let cases =
        fs::read(stored("stdin")).expect("crates/answers/stdin is missing: write it with `generate-cases stored`");
    // Not assert_eq, which would print both files.
    assert!(cases == made, "crates/answers/stdin is not what `generate-cases stored` prints");
}

#[test]
fn stored_answers() {
    let cases = fs::read(stored("stdin")).expect("crates/answers/stdin");
    let answers = fs::read_to_string(stored("stdout")).expect("crates/answers/stdout is missing");
    let expected = answer_file(&cases);
    for (number, (found, wanted)) in answers.lines().zip(expected.lines()).enumerate() {
        assert_eq!(found, wanted, "line {} of crates/answers/stdout", number + 1);
    }
    assert_eq!(answers.len(), expected.len(), "length of crates/answers/stdout");
}
