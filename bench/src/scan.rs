//! The scan of a zero store, which soundness asks for before each call.

use crate::clock::{shortest, turn};
use crate::race::Row;
use basilothyn::raw;
use std::hint::black_box;

const BLOCK: usize = 256;

type Form = (&'static str, fn(&[u8]) -> bool);

const FORMS: [Form; 4] = [
    ("every byte compared, `iter().all`", |bytes| bytes.iter().all(|byte| *byte == 0)),
    ("bytes folded with `|` in blocks of 256", |bytes| {
        let (blocks, rest) = bytes.as_chunks::<256>();
        let zero = |run: &[u8]| run.iter().fold(0, |all, byte| all | byte) == 0;
        blocks.iter().all(|block| zero(block)) && zero(rest)
    }),
    ("words of 8 bytes folded with `|` in blocks of 256", |bytes| {
        let word = |word: &[u8]| u64::from_ne_bytes(word.try_into().expect("8 bytes"));
        let zero = |block: &[u8]| block.chunks_exact(8).map(word).fold(0, |all, word| all | word) == 0;
        let blocks = bytes.chunks_exact(256);
        blocks.remainder().iter().all(|byte| *byte == 0) && bytes.chunks_exact(256).all(zero)
    }),
    ("blocks of 256 compared with zeros, `==`", |bytes| {
        let (blocks, rest) = bytes.as_chunks::<256>();
        blocks.iter().all(|block| *block == [0; 256]) && rest.iter().all(|byte| *byte == 0)
    }),
];

/// The row, and a line about the forms of the Rust. A store that is corrupted in its last byte is refused after its last block of 256 bytes, one that is corrupted
/// in its first byte after its first, all else being the same: the difference is the scan of all blocks but one.
pub fn row() -> (Row, String) {
    let zeros = vec![0; raw::STORE_LENGTH];
    let corrupted_at = |place: usize| zeros.iter().enumerate().map(|(at, _)| u8::from(at == place)).collect::<Vec<_>>();
    let (early, late) = (corrupted_at(0), corrupted_at(raw::STORE_LENGTH - 1));
    let table = raw::empty_table();
    let locate = |store: &[u8]| raw::locate_write(*black_box(&table), store, 0, 1).refusal;
    let (scanned, short) = (&zeros[BLOCK..], &zeros[1..]);
    assert_eq!((locate(&zeros), locate(&late), locate(&early), locate(short)), (17, 20, 20, 20));
    let mut turns = vec![turn(|| locate(&late)), turn(|| locate(&early)), turn(|| locate(short))];
    for (_, form) in FORMS {
        assert!(form(scanned));
        turns.push(turn(move || form(black_box(scanned))));
    }
    let times = shortest(&mut turns.iter_mut().collect::<Vec<_>>());
    let forms = &times[3..];
    let fastest = forms.iter().copied().fold(f64::MAX, f64::min);
    let work = "scan of the store, 32,512 bytes (a difference, see above)".to_string();
    let row =
        Row { work, core: times[0] - times[1], plain: forms[0], tuned: Some(fastest), by_value: None, rpcgen: None };
    row.print();
    let said: Vec<String> = FORMS.iter().zip(forms).map(|((name, _), time)| format!("{name} {time:.0} ns")).collect();
    let crossing = format!(
        "A lookup with a store of another length, which is refused before anything is looked at: {:.0} ns.",
        times[2]
    );
    (row, format!("Forms of the scan in Rust: {}.\n\n{crossing}", said.join("; ")))
}
