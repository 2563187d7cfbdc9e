//! The refusals have the numbers and words of the header.

use basilothyn::{Iomode, Layouts, Refusal};
use std::error::Error;

const HEADER: &str = include_str!("../../include/basilothyn.h");

/// Name, number and words of each line of the header's list but the first, which is no refusal.
fn of_the_header() -> Vec<(String, u32, String)> {
    let list = HEADER.split("enum basilothyn_refusal {\n").nth(1).expect("a list of refusals");
    let list = list.split("\n};").next().expect("its end");
    list.lines().skip(1).map(line_of_the_header).collect()
}

fn line_of_the_header(line: &str) -> (String, u32, String) {
    let (name, rest) = line.trim().split_once(" = ").expect("a number");
    let (number, words) = rest.split_once("/*").expect("words");
    let number = number.trim().trim_end_matches(',').parse().expect("digits");
    let name = name.trim_start_matches("BASILOTHYN_").replace('_', "").to_lowercase();
    (name, number, words.trim_end_matches("*/").trim().to_string())
}

#[test]
fn every_refusal_of_the_header_has_its_name_and_words() {
    let header = of_the_header();
    assert_eq!(header.len(), 26);
    assert_eq!(Refusal::ALL.len(), 26);
    for (name, number, words) in header {
        let refusal = Refusal::from_number(number).expect("a refusal of the header");
        assert_eq!(format!("{refusal:?}").to_lowercase(), name);
        assert_eq!(refusal.number(), number);
        assert_eq!(refusal.to_string(), format!("refused {number}: {words}"));
    }
}

#[test]
fn no_other_number_is_a_refusal() {
    for number in [0, 18, 19, 29, u32::MAX] {
        assert_eq!(Refusal::from_number(number), None);
    }
}

#[test]
fn a_refusal_is_an_error() {
    let recalled = || -> Result<(), Box<dyn Error>> { Ok(Layouts::default().recall(0, 1, Iomode::Any)?) };
    let error = recalled().expect_err("nothing is held");
    assert_eq!(error.to_string(), "refused 25: a recall meets nothing that is held");
}

#[test]
fn iomodes_have_the_numbers_of_nfs() {
    let numbers = [(1, Iomode::Read), (2, Iomode::ReadWrite), (3, Iomode::Any)];
    for (number, iomode) in numbers {
        assert_eq!((Iomode::from_number(number), iomode.number()), (Some(iomode), number));
    }
    assert_eq!((Iomode::from_number(0), Iomode::from_number(4)), (None, None));
}
