//! Checks a forecast, whoever gave it, against runs: one that takes any firings, fitting or
//! not, and one that carries the rules out to the end, where that is not refused.

use crate::carry::{carry, Run};
use crate::chase::{fires, Carried, Values};
use crate::forecast::Forecast;
use crate::layout::{Record, Sheet};
use crate::mix::Mixing;
use crate::random::Random;
use std::collections::HashSet;

const ROOM: usize = 8 * 4_096;
const MOST_FIRINGS: usize = 40;

/// How many different values and records a run leaves, and how many different pairs of rule
/// and carried values its firings that fit have.
#[derive(Clone, Copy, Debug, PartialEq, Eq)]
pub struct Left {
    pub values: usize,
    pub records: usize,
    pub pairs: usize,
}

/// Whether runs keep to a forecast, or what passes it. Gives what the run to the end leaves,
/// none where carrying out is refused.
pub fn verify_forecast(
    numbers: &[u32],
    forecast: &Forecast,
    random: &mut Random,
) -> Result<Option<Left>, String> {
    let sheet = Sheet::new(numbers).map_err(|r| format!("the sheet gets 8 at line {}", r.line))?;
    keeps_to(forecast, &random_run(&sheet, random))?;
    let Ok(run) = carry(numbers, ROOM) else {
        return Ok(None);
    };
    let left = left_by(&sheet, &run);
    keeps_to(forecast, &left)?;
    Ok(Some(left))
}

fn keeps_to(forecast: &Forecast, left: &Left) -> Result<(), String> {
    let figures = [
        ("values", left.values, forecast.values),
        ("records", left.records, forecast.records),
        ("pairs", left.pairs, forecast.pairs),
    ];
    for (name, count, figure) in figures {
        if figure.is_some_and(|figure| count > figure as usize) {
            return Err(format!("a run has {count} {name}; {forecast:?}"));
        }
    }
    Ok(())
}

/// Carrying out fires once for each pair.
fn left_by(sheet: &Sheet, run: &Run) -> Left {
    let mut widths = [0; 65];
    for &(kind, width) in &sheet.kinds {
        widths[kind as usize] = width as usize;
    }
    let records = run.records.iter();
    Left {
        values: different(records.flat_map(|line| &line[2..2 + widths[line[1] as usize]])),
        records: run.records.len(),
        pairs: run.firings,
    }
}

fn different<'a>(values: impl Iterator<Item = &'a u32>) -> usize {
    values.collect::<HashSet<_, Mixing>>().len()
}

/// A run as the scope document has it: any list of firings.
pub(crate) struct Course<'a> {
    sheet: &'a Sheet,
    values: Values<'a>,
    known: HashSet<Record>,
    records: Vec<Record>,
    pairs: HashSet<(usize, Carried)>,
}

impl<'a> Course<'a> {
    /// The rows, equal ones once.
    pub(crate) fn new(sheet: &'a Sheet) -> Course<'a> {
        let mut course = Course {
            sheet,
            values: Values::new(sheet),
            known: HashSet::new(),
            records: Vec::new(),
            pairs: HashSet::new(),
        };
        for index in 0..sheet.rows.len() {
            let row = course.values.row(index);
            course.add(row);
        }
        course
    }

    fn add(&mut self, record: Record) {
        if self.known.insert(record) {
            self.records.push(record);
        }
    }

    /// Fires a rule on a record; one that does not fit changes nothing.
    fn fire(&mut self, rule: usize, record: &Record) {
        if !self.known.contains(record) {
            return;
        }
        let Some(made) = self.values.fire(rule, record) else {
            return;
        };
        self.pairs.insert((rule, self.values.carried(rule, record)));
        for record in made {
            self.add(record);
        }
    }

    /// Fires all rules on all records, until nothing new comes or so many are there.
    #[cfg(test)]
    pub(crate) fn run_on(&mut self, most: usize) -> bool {
        let mut at = 0;
        while at < self.records.len() && self.records.len() <= most {
            let record = self.records[at];
            for rule in 0..self.sheet.rules.len() {
                self.fire(rule, &record);
            }
            at += 1;
        }
        at == self.records.len()
    }

    pub(crate) fn left(&self) -> Left {
        Left {
            values: different(self.records.iter().flat_map(|record| record.values())),
            records: self.records.len(),
            pairs: self.pairs.len(),
        }
    }
}

/// Firings at random: mostly of a rule that fires on a late record, but also of rules and
/// records that are not there.
fn random_run(sheet: &Sheet, random: &mut Random) -> Left {
    let mut course = Course::new(sheet);
    if !course.records.is_empty() {
        for _ in 0..random.below(MOST_FIRINGS + 1) {
            let (rule, record) = random_firing(&course, random);
            course.fire(rule, &record);
        }
    }
    course.left()
}

fn random_firing(course: &Course, random: &mut Random) -> (usize, Record) {
    let count = course.records.len();
    let back = random.pick(&[4, 20, count]).min(count);
    let mut record = course.records[count - 1 - random.below(back)];
    // One more than there are: none has the last number.
    let rules = course.sheet.rules.len() + 1;
    let first = random.below(rules);
    match random.below(10) {
        0 => (first, record),
        1 => {
            let values = &mut record.values[..record.width as usize];
            values[random.below(values.len())] = random.below(count) as u32;
            (first, record)
        }
        _ => {
            let mut from_first = (first..rules).chain(0..first);
            let fits = |&rule: &usize| {
                let rule = course.sheet.rules.get(rule);
                rule.is_some_and(|rule| fires(rule, &record))
            };
            (from_first.find(fits).unwrap_or(first), record)
        }
    }
}
