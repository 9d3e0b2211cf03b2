//! Sheets for timing the forecast, beyond those for judging and for carrying out: 1,024 rows
//! of six fields whose values are hard to count.

use super::carrying_series::colliding;
use super::forecasting::rows_of;
use super::series::{leave_out_a_third, Family};
use super::sheets::{entry, Kind, Sheet};

const WIDE: Kind = Kind { kind: 1, width: 6 };

/// The families that the benchmark's table of forecasting has of its own.
pub fn families() -> Vec<Family> {
    let mut all = Vec::new();
    let mut add = |name, sheet| {
        let sheets = vec![sheet];
        all.push(Family { name, sheets });
    };
    // The first is 0, a value like the others where it stands once.
    let different = |step: u32| (0..6_144u32).map(move |value| value * step);
    add("6,144 different values in 1,024 rows", table(different(7)));
    add("the same, without a rule", bare(table(different(7))));
    add("6,144 values, multiples of 4,096", table(different(4_096)));
    let multiples = (0..6_144u32).map(|value| (value % 95 + 1) << 20);
    add("1,024 rows, multiples of 1,048,576", table(multiples));
    let colliding = colliding();
    let together = (0..6_144).map(|value| colliding[value % colliding.len()]);
    add(
        "1,024 rows, values that one multiplier puts together",
        table(together),
    );
    let mut missing = table(different(7));
    leave_out_a_third(&mut missing);
    add("1,024 rows, a third of the values not given", missing);
    all
}

/// One row and one rule: what a call takes where there is next to nothing to do.
pub fn smallest() -> Sheet {
    let mut sheet = table(0..6);
    sheet.rows = rows_of(WIDE, 6, 1);
    sheet
}

/// Rows of six fields and a rule that hands two of them on with a fresh number.
fn table(values: impl Iterator<Item = u32>) -> Sheet {
    let next = Kind { kind: 2, width: 3 };
    let mut sheet = Sheet::new(vec![WIDE, next]);
    let body = entry(WIDE, &[1, 2, 3, 4, 5, 6]);
    sheet.rules.push(vec![body, entry(next, &[1, 2, 7])]);
    let values: Vec<u32> = values.collect();
    let rows = values.chunks(6).map(|values| entry(WIDE, values));
    sheet.rows = rows.collect();
    sheet
}

fn bare(mut sheet: Sheet) -> Sheet {
    sheet.rules.clear();
    sheet
}
