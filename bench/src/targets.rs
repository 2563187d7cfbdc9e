//! What the core is to reach, and whether it did.

use crate::race::Row;

/// Length of a layout body, and how many times the Rust's time the core may take.
const LAYOUTS: [(usize, f64); 3] = [(104, 2.0), (344, 1.2), (1_952, 1.0)];
const FASTER_THAN_RPCGEN: f64 = 5.0;
const SCAN: f64 = 1.2;
const TUNED: f64 = 1.5;
const PLAIN: f64 = 1.0;

pub fn print(layouts: &[(usize, Row)], scan: &Row, tables: &[Row]) {
    println!("\nTargets:\n");
    for (length, most) in LAYOUTS {
        for (_, row) in layouts.iter().filter(|(of, _)| *of == length) {
            at_most(&format!("{}, of plain Rust's time", row.work), most, row.core / row.plain);
            row.tuned
                .iter()
                .for_each(|tuned| at_most(&format!("{}, of tuned Rust's time", row.work), most, row.core / tuned));
        }
    }
    for (_, row) in layouts {
        match row.rpcgen {
            Some(rpcgen) => line(
                rpcgen / row.core >= FASTER_THAN_RPCGEN,
                &format!(
                    "{}, at least {FASTER_THAN_RPCGEN} times as fast as rpcgen: {:.1}",
                    row.work,
                    rpcgen / row.core
                ),
            ),
            None => println!("- not measured: {} against rpcgen", row.work),
        }
    }
    scan.tuned
        .iter()
        .for_each(|fastest| at_most("scan of the store, of the fastest Rust's time", SCAN, scan.core / fastest));
    worst("each event and lookup, of tuned Rust's time", TUNED, tables, |row| {
        row.core / row.tuned.unwrap_or(row.plain)
    });
    worst(
        "each event and lookup, of the time of tuned Rust by value (no target of the customer's)",
        TUNED,
        tables,
        |row| row.core / row.by_value.unwrap_or(row.plain),
    );
    worst("each event and lookup, of plain Rust's time", PLAIN, tables, |row| row.core / row.plain);
}

fn line(met: bool, said: &str) {
    println!("- {}: {said}", if met { "met" } else { "missed" });
}

fn at_most(work: &str, most: f64, figure: f64) {
    line(figure <= most, &format!("{work} at most {most:.1} times: {figure:.2}"));
}

fn worst(work: &str, most: f64, rows: &[Row], ratio: impl Fn(&Row) -> f64) {
    let Some(row) = rows.iter().max_by(|one, other| ratio(one).total_cmp(&ratio(other))) else { return };
    let above = rows.iter().filter(|row| ratio(row) > most).count();
    let figure = ratio(row);
    line(
        above == 0,
        &format!(
            "{work} at most {most:.1} times: {figure:.2} at worst ({}); {above} of {} rows are above",
            row.work,
            rows.len()
        ),
    );
}
