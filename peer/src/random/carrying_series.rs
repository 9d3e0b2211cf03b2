//! Sheets for timing the carrying out: families of one size each, in three orders.

use super::carrying::layers;
use super::series::{fresh_chain, leave_out_a_third, End, Family, Order};
use super::sheets::{entry, row, some_kinds, Kind, Sheet};
use super::Random;
use crate::carry;

const ROOM: usize = 8 * 4_096;

/// The families of the benchmark's table of carrying out.
pub fn families(random: &mut Random) -> Vec<Family> {
    let mut all = Vec::new();
    let mut add = |name, sheets| all.push(Family { name, sheets });
    add("100 rules, 30 kinds, 200 rows", vec![bank(random)]);
    let rows = followed((0..1_024).map(|row| 7 + 3 * row));
    add("1,024 rows with three records each", vec![rows]);
    add(
        "one kind of six fields, 256 rules",
        vec![one_kind(random, 256)],
    );
    add("chain of 64 kinds, 64 rows", vec![chain(random)]);
    add("256 rules that carry nothing, 1,024 rows", vec![nothing()]);
    add("64 rules, what they make is there", vec![all_there()]);
    for (name, values) in [
        ("values that are multiples of 4,096", multiples(4_096)),
        ("values that are multiples of 1,048,576", multiples(1 << 20)),
        ("values that one multiplier puts together", colliding()),
    ] {
        let mut sheets = vec![followed_pairs(&values)];
        if values.len() == 1_024 {
            sheets.push(followed(values.into_iter()));
        }
        add(name, sheets);
    }
    add("the examples", examples());
    let mut pairs = followed_pairs(&(100..132).collect::<Vec<u32>>());
    leave_out_a_third(&mut pairs);
    let mut rows = followed((0..1_024).map(|row| 7 + 3 * row));
    leave_out_a_third(&mut rows);
    add(
        "1,024 rows, a third of the values not given",
        vec![pairs, rows],
    );
    all
}

/// The same sheet with its rows and rules in another order.
pub fn in_order(random: &mut Random, mut sheet: Sheet, order: Order) -> Sheet {
    match order {
        Order::Along => {}
        Order::Against => {
            sheet.rules.reverse();
            sheet.rows.reverse();
        }
        Order::Shuffled => {
            random.shuffle(&mut sheet.rules);
            random.shuffle(&mut sheet.rows);
        }
    }
    sheet
}

/// Rules to later kinds, drawn until the sheet is carried out with 1,000 records or more.
fn bank(random: &mut Random) -> Sheet {
    loop {
        let kinds = some_kinds(random, 30, 1, 4);
        let mut sheet = layers(random, kinds, 100, 2);
        for _ in 0..200 {
            let kind = random.pick(&sheet.kinds);
            sheet.rows.push(row(random, kind, 20));
        }
        let run = carry(sheet.lines().as_flattened(), ROOM);
        if run.is_ok_and(|run| run.records.len() >= 1_000) {
            return sheet;
        }
    }
}

fn kinds(count: u32, width: usize) -> Vec<Kind> {
    (1..=count).map(|kind| Kind { kind, width }).collect()
}

/// Rows of one field, at most 1,024, each with a record in three further kinds.
fn followed(values: impl Iterator<Item = u32>) -> Sheet {
    let mut sheet = Sheet::new(kinds(4, 1));
    let rule = sheet.kinds.iter().map(|&kind| entry(kind, &[1])).collect();
    sheet.rules.push(rule);
    let start = sheet.kinds[0];
    sheet.rows = values
        .take(1_024)
        .map(|value| entry(start, &[value]))
        .collect();
    sheet
}

/// Rows of two fields over the first 32 values, each with a record in three further kinds.
fn followed_pairs(values: &[u32]) -> Sheet {
    let mut sheet = Sheet::new(kinds(4, 2));
    let marks = [[1, 2], [2, 1], [1, 1], [1, 2]];
    let entries = sheet.kinds.iter().zip(&marks);
    let rule = entries.map(|(&kind, marks)| entry(kind, marks)).collect();
    sheet.rules.push(rule);
    let values = &values[..32];
    for &first in values {
        let start = sheet.kinds[0];
        let row = |&second| entry(start, &[first, second]);
        sheet.rows.extend(values.iter().map(row));
    }
    sheet
}

/// All records over four values, moved about by rules that make no fresh number.
fn one_kind(random: &mut Random, rules: usize) -> Sheet {
    let mut sheet = Sheet::new(kinds(1, 6));
    let kind = sheet.kinds[0];
    let body = [1, 2, 3, 4, 5, 6];
    for at in 0..6 {
        let mut made = body;
        made[at] = body[(at + 1) % 6];
        sheet
            .rules
            .push(vec![entry(kind, &body), entry(kind, &made)]);
    }
    let mut turned = body;
    turned.rotate_left(1);
    sheet
        .rules
        .push(vec![entry(kind, &body), entry(kind, &turned)]);
    while sheet.rules.len() < rules {
        let made: Vec<u32> = (0..6).map(|_| random.pick(&body)).collect();
        sheet
            .rules
            .push(vec![entry(kind, &body), entry(kind, &made)]);
    }
    sheet.rows.push(entry(kind, &[11, 12, 13, 14, 11, 11]));
    sheet
}

/// A chain with a fresh number at each step, gone through from 64 rows.
fn chain(random: &mut Random) -> Sheet {
    let mut sheet = fresh_chain(random, 64, false, End::Stops);
    let start = sheet.kinds[0];
    sheet.rows = (0..64)
        .map(|row| entry(start, &[1_000, 2_000 + row]))
        .collect();
    sheet
}

/// Each rule fires once, whatever the rows.
fn nothing() -> Sheet {
    let mut sheet = followed((0..1_024).map(|row| 7 + 3 * row));
    let rule = vec![entry(sheet.kinds[0], &[1]), entry(sheet.kinds[1], &[2])];
    sheet.rules = vec![rule; 256];
    sheet
}

/// All pairs over 32 values, and 64 rules that make pairs of them again.
fn all_there() -> Sheet {
    let mut sheet = followed_pairs(&(100..132).collect::<Vec<u32>>());
    let kind = sheet.kinds[0];
    let made = [[2, 1], [1, 1], [2, 2], [1, 2]].map(|marks| entry(kind, &marks));
    let rule = [vec![entry(kind, &[1, 2])], made.to_vec()].concat();
    sheet.rules = vec![rule; 64];
    sheet
}

/// The multiples of a number up to the largest value, at most 1,024.
fn multiples(of: u32) -> Vec<u32> {
    (1..=99_999_999 / of).take(1_024).map(|n| n * of).collect()
}

/// 1,024 values that a product with 2,654,435,761 gives the same twelve highest bits.
pub fn colliding() -> Vec<u32> {
    const MULTIPLIER: u32 = 2_654_435_761;
    // Newton's rule for the inverse: each round doubles the right bits.
    let inverse = (0..5).fold(MULTIPLIER, |inverse, _| {
        inverse.wrapping_mul(2u32.wrapping_sub(MULTIPLIER.wrapping_mul(inverse)))
    });
    let bucket = 1_234 << 20;
    let values = (0..1 << 20).map(|rest| inverse.wrapping_mul(bucket | rest));
    values
        .filter(|&value| value <= 99_999_999)
        .take(1_024)
        .collect()
}

/// The sheets in the folder of examples that are carried out.
fn examples() -> Vec<Sheet> {
    let texts = [
        include_str!("../../../examples/bank_day.sheet"),
        include_str!("../../../examples/pallets.sheet"),
        include_str!("../../../examples/patterns.sheet"),
    ];
    texts.map(taken_apart).into_iter().collect()
}

fn taken_apart(text: &str) -> Sheet {
    let lines = crate::read(text.as_bytes(), 2_000).expect("a sheet");
    let mut sheet = Sheet::new(Vec::new());
    for line in lines {
        let (kind, width) = (line[1], line[2] as usize);
        if line[0] == u32::from(b'K') {
            sheet.kinds.push(Kind { kind, width });
            continue;
        }
        let of = sheet.kinds.iter().find(|of| of.kind == kind);
        let of = *of.expect("a declared kind");
        let new = entry(of, &line[2..2 + of.width]);
        match line[0] as u8 {
            b'B' => sheet.rules.push(vec![new]),
            b'H' => sheet.rules.last_mut().expect("a B line").push(new),
            _ => sheet.rows.push(new),
        }
    }
    sheet
}
