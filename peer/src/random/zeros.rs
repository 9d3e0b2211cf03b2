//! Labels that are not given: zeros put among the values of rows, and numbers put in their place.

use super::sheets::{Entry, Sheet};
use super::Random;
use crate::{carry, Line};
use std::collections::HashSet;

const LARGEST: u32 = 99_999_999;
const ROOM: usize = 8 * 4_096;

/// Makes values of a row 0, so many of a hundred.
pub fn put(random: &mut Random, row: &mut Entry, percent: usize) {
    for value in &mut row.numbers {
        if random.chance(percent) {
            *value = 0;
        }
    }
}

/// Makes values of a row 0 that stand in it once, so many of a hundred: its pattern stays.
pub fn put_alone(random: &mut Random, row: &mut Entry, percent: usize) {
    let before = row.numbers.clone();
    for value in &mut row.numbers {
        let alone = before.iter().filter(|other| *other == value).count() == 1;
        if alone && random.chance(percent) {
            *value = 0;
        }
    }
}

/// Puts zeros into a sheet's rows: few or many, in all fields of some rows or of all, in one
/// field of every row, for all of one value, in rows that are the same, or beside the largest
/// numbers.
pub fn scatter(random: &mut Random, sheet: &mut Sheet) {
    match random.below(14) {
        0 => everywhere(random, sheet, 4),
        1 => everywhere(random, sheet, 100),
        2 => whole_rows(random, sheet),
        3 => one_field(random, sheet),
        4 | 5 => one_value(random, sheet),
        6 | 7 => again(random, sheet),
        8 | 9 => {
            everywhere(random, sheet, 33);
            raise_largest(random, sheet);
        }
        _ => everywhere(random, sheet, 33),
    }
}

fn everywhere(random: &mut Random, sheet: &mut Sheet, percent: usize) {
    for row in &mut sheet.rows {
        put(random, row, percent);
    }
}

fn whole_rows(random: &mut Random, sheet: &mut Sheet) {
    let share = random.pick(&[5, 30, 70]);
    for row in &mut sheet.rows {
        if random.chance(share) {
            row.numbers.fill(0);
        }
    }
}

fn one_field(random: &mut Random, sheet: &mut Sheet) {
    let field = random.below(6);
    for row in &mut sheet.rows {
        let field = field % row.numbers.len();
        row.numbers[field] = 0;
    }
}

fn one_value(random: &mut Random, sheet: &mut Sheet) {
    if sheet.rows.is_empty() {
        return;
    }
    let row = random.below(sheet.rows.len());
    let missing = random.pick(&sheet.rows[row].numbers);
    for value in sheet.rows.iter_mut().flat_map(|row| row.numbers.iter_mut()) {
        if *value == missing {
            *value = 0;
        }
    }
}

/// The same rows in the place of others, most of them with zeros.
fn again(random: &mut Random, sheet: &mut Sheet) {
    everywhere(random, sheet, 20);
    let rows = sheet.rows.len();
    for _ in 0..random.below(rows + 1) {
        let row = sheet.rows[random.below(rows)].clone();
        sheet.rows[random.below(rows)] = row;
    }
}

/// Raises the table's largest number so far that the numbers of a run end at the largest one
/// allowed, or one or two before or after it; where the sheet is carried out at all.
pub fn raise_largest(random: &mut Random, sheet: &mut Sheet) {
    let lines = sheet.lines();
    let Ok(run) = carry(lines.as_flattened(), ROOM) else {
        return;
    };
    let given = sheet.rows.iter().flat_map(|row| row.numbers.iter());
    let Some(&table) = given.max().filter(|&&table| table > 0) else {
        return;
    };
    let numbers = run.records.iter().flat_map(|line| &line[2..]);
    let needed = numbers.max().map_or(0, |last| last - table);
    let end = LARGEST - 2 + random.pick(&[0, 1, 2, 2, 2, 3, 3, 3, 4]);
    let raised = (end - needed).min(LARGEST);
    for value in sheet.rows.iter_mut().flat_map(|row| row.numbers.iter_mut()) {
        if *value == table {
            *value = raised;
        }
    }
}

/// The zeros in the rows among lent lines of a sheet.
fn places(lines: &[Line]) -> Vec<(usize, usize)> {
    let mut widths = [0; 65];
    let mut places = Vec::new();
    for (at, line) in lines.iter().enumerate() {
        let kind = line[1] as usize;
        match line[0] as u8 {
            b'K' => widths[kind] = line[2] as usize,
            b'R' => places.extend((2..2 + widths[kind]).map(|place| (at, place))),
            _ => {}
        }
    }
    places.retain(|&(at, place)| lines[at][place] == 0);
    places
}

/// How many zeros the rows of a sheet hold, given as lent lines.
pub fn count(lines: &[Line]) -> usize {
    places(lines).len()
}

fn values(lines: &[Line]) -> HashSet<u32> {
    let rows = lines.iter().filter(|line| line[0] == u32::from(b'R'));
    rows.flat_map(|line| line[2..].iter().copied()).collect()
}

/// The same lines of a sheet with one number in the place of all zeros of its rows, one that no
/// row has.
pub fn all_the_same(lines: &[Line]) -> Vec<Line> {
    let used = values(lines);
    let number = (1..).find(|number| !used.contains(number));
    let number = number.expect("6,144 values do not have every number");
    replaced(lines, std::iter::repeat(number))
}

/// The same lines of a sheet with a number in the place of each 0 of its rows, each one that
/// stands nowhere else in the table.
pub fn all_different(random: &mut Random, lines: &[Line]) -> Vec<Line> {
    let mut used = values(lines);
    let start = match random.below(3) {
        0 => 1,
        1 => LARGEST - 7_000,
        _ => random.between(1, LARGEST as usize) as u32,
    };
    // There are at most 6,144 values: the numbers up to the largest and then from 1 suffice.
    let unused = (start..=LARGEST).chain(1..start);
    let mut unused: Vec<u32> = unused
        .filter(|&number| used.insert(number))
        .take(count(lines))
        .collect();
    random.shuffle(&mut unused);
    replaced(lines, unused.into_iter())
}

/// The same lines with the numbers after the table's largest in the place of the zeros, in
/// their order; none where these numbers do not suffice.
pub fn numbered(lines: &[Line]) -> Option<Vec<Line>> {
    let largest = values(lines).into_iter().max().unwrap_or(0);
    let last = largest as usize + count(lines);
    (last <= LARGEST as usize).then(|| replaced(lines, largest + 1..))
}

fn replaced(lines: &[Line], numbers: impl Iterator<Item = u32>) -> Vec<Line> {
    let mut lines = lines.to_vec();
    for ((at, place), number) in places(&lines).into_iter().zip(numbers) {
        lines[at][place] = number;
    }
    lines
}
