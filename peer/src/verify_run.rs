//! Checks the records of a run, whoever gave them, as they stand: which numbers the
//! table's zeros have, which pairs of rule and carried values there are, which
//! numbers those pairs own, and that the records are the rows and what these pairs
//! make, no more and no less.

use crate::carry::Run;
use crate::chase::{carried_marks, fires, make};
use crate::layout::{Line, Record, Rule, Sheet, MOST_NUMBER, NOT_GIVEN, R};
use std::collections::{HashMap, HashSet};

const MOST_RECORDS: usize = 4_096;

fn require(holds: bool, sentence: &str) -> Result<(), String> {
    holds.then_some(()).ok_or_else(|| sentence.to_string())
}

/// Whether every sentence about a run holds of these records, or which fails.
pub fn verify_run(numbers: &[u32], run: &Run) -> Result<(), String> {
    let sheet = Sheet::new(numbers).map_err(|r| format!("the sheet gets 8 at line {}", r.line))?;
    require(run.records.len() <= MOST_RECORDS, "at most 4,096 records")?;
    let records = records(&sheet, &run.records)?;
    let mut places = HashMap::new();
    for (at, &record) in records.iter().enumerate() {
        require(places.insert(record, at).is_none(), "no record twice")?;
    }
    let rows = check_rows(&sheet, &records)?;
    let fresh: Vec<Vec<u8>> = sheet.rules.iter().map(fresh_marks).collect();
    let pairs = pairs(&sheet, &fresh, &records);
    require(run.firings == pairs.len(), "as many firings as pairs")?;
    check_numbers(&sheet, &fresh, &records, &pairs)?;
    let made = made(&sheet, &fresh, &records, &pairs);
    let mut from_before: HashSet<usize> = (0..rows).collect();
    for (pair, record) in made {
        let place = places.get(&record);
        let place = *place.ok_or("what a rule makes of a record is there")?;
        if pair.at < place {
            from_before.insert(place);
        }
    }
    require(
        from_before.len() == records.len(),
        "a record beyond the rows is made from one before it",
    )
}

/// The records that R lines show; a line has the width that its kind has elsewhere.
fn records(sheet: &Sheet, lines: &[Line]) -> Result<Vec<Record>, String> {
    let forms = sheet.rules.iter().flat_map(|rule| rule.heads());
    let mut widths: HashMap<u32, u8> = forms
        .map(|form| (u32::from(form.kind), form.width))
        .collect();
    widths.extend(
        sheet
            .rows
            .iter()
            .map(|row| (u32::from(row.kind), row.width)),
    );
    let record = |line: &Line| {
        require(line[0] == R, "each line is an R line")?;
        let width = widths.get(&line[1]).copied();
        let width = width.ok_or("each kind is that of a row or an H line")?;
        let (used, unused) = line[2..].split_at(width as usize);
        let in_range = used.iter().all(|&number| number <= MOST_NUMBER);
        require(in_range, "no number over 99,999,999")?;
        require(!used.contains(&0), "no record of a run holds a 0")?;
        require(unused.iter().all(|&n| n == 0), "unused numbers are 0")?;
        Ok(Record {
            kind: line[1] as u8,
            width,
            values: line[2..].try_into().expect("six numbers"),
        })
    };
    lines.iter().map(record).collect()
}

/// Holds the rows, equal ones once, against the first records; gives how many they are.
fn check_rows(sheet: &Sheet, records: &[Record]) -> Result<usize, String> {
    let mut met = HashSet::new();
    let rows = sheet.rows.iter().filter(|&row| met.insert(*row));
    let mut next = largest(sheet) + 1;
    let mut count = 0;
    for row in rows {
        let record = records.get(count).ok_or("each row is a record")?;
        let same_form = (row.kind, row.width) == (record.kind, record.width);
        require(same_form, "the rows come first, in order")?;
        for (&value, &shown) in row.values().iter().zip(record.values()) {
            if value < NOT_GIVEN {
                require(shown == value, "the rows come first, in order")?;
            } else {
                require(shown == next, "each 0 has the next number")?;
                next += 1;
            }
        }
        count += 1;
    }
    Ok(count)
}

/// A rule with values of its carried marks that some record shows.
struct Pair {
    rule: usize,
    /// The place of the first record that shows it.
    at: usize,
    /// The number of the first fresh mark; the others follow by rising mark.
    first: u32,
}

/// All pairs, by their first record and then by rule. In this order they own the
/// numbers after those of the zeros, one for each fresh mark: no number is owned
/// twice, and none is a table value.
fn pairs(sheet: &Sheet, fresh: &[Vec<u8>], records: &[Record]) -> Vec<Pair> {
    let carried: Vec<Vec<u8>> = sheet.rules.iter().map(carried_marks).collect();
    let mut met: HashSet<(usize, Vec<u32>)> = HashSet::new();
    let mut pairs = Vec::new();
    let mut first = largest(sheet) + sheet.zeros + 1;
    for (at, record) in records.iter().enumerate() {
        for (number, rule) in sheet.rules.iter().enumerate() {
            if !fires(rule, record) {
                continue;
            }
            let body = rule.body.marks();
            let value = |mark| {
                body.iter()
                    .position(|m| m == mark)
                    .map(|p| record.values[p])
            };
            let values = carried[number].iter().filter_map(value).collect();
            if met.insert((number, values)) {
                let rule = number;
                pairs.push(Pair { rule, at, first });
                first += fresh[rule].len() as u32;
            }
        }
    }
    pairs
}

/// The largest number that a row gives.
fn largest(sheet: &Sheet) -> u32 {
    sheet.given().max().unwrap_or(0)
}

/// The marks that stand in some H and not in B, rising.
fn fresh_marks(rule: &Rule) -> Vec<u8> {
    (1..=12)
        .filter(|mark| !rule.body.marks().contains(mark))
        .filter(|mark| rule.heads().iter().any(|head| head.marks().contains(mark)))
        .collect()
}

/// What the pairs make, each record with its pair.
fn made<'a>(
    sheet: &'a Sheet,
    fresh: &'a [Vec<u8>],
    records: &'a [Record],
    pairs: &'a [Pair],
) -> impl Iterator<Item = (&'a Pair, Record)> {
    pairs.iter().flat_map(move |pair| {
        let number = |mark| {
            let before = fresh[pair.rule].iter().filter(|&&m| m < mark).count();
            pair.first + before as u32
        };
        let made = make(&sheet.rules[pair.rule], &records[pair.at], number);
        made.into_iter().map(move |record| (pair, record))
    })
}

/// The numbers above the table's largest are those of the zeros and those that the
/// pairs own.
fn check_numbers(
    sheet: &Sheet,
    fresh: &[Vec<u8>],
    records: &[Record],
    pairs: &[Pair],
) -> Result<(), String> {
    let largest = largest(sheet);
    let owned: usize = pairs.iter().map(|pair| fresh[pair.rule].len()).sum();
    let owned = owned + sheet.zeros as usize;
    let values = records.iter().flat_map(|record| record.values());
    let above: HashSet<u32> = values.copied().filter(|&value| value > largest).collect();
    let end = above.iter().max().map_or(0, |&last| last - largest);
    require(
        above.len() == owned && end as usize == owned,
        "numbers of zeros, then fresh ones, follow the table's largest, none left out",
    )
}
