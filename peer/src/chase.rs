//! A plain chase: records with their values, fired until nothing new comes.

use crate::layout::{first_appearance, Record, Rule, Sheet};
use std::collections::{HashMap, HashSet};

#[derive(Clone, Copy, Debug, PartialEq, Eq)]
pub struct Chased {
    pub complete: bool,
    pub deepest: usize,
    pub shapes: usize,
    pub fired: usize,
}

/// Up to six carried values, by rising mark; the rest is `NONE`.
pub(crate) type Carried = [u32; 6];
const NONE: u32 = u32::MAX;

/// The numbers met so far, each with its generation. A table value, of which each
/// 0 is one, or a fresh number stands in records as its place among them.
pub(crate) struct Values<'a> {
    sheet: &'a Sheet,
    carried: Vec<Vec<u8>>,
    table: HashMap<u32, u32>,
    fresh: HashMap<(usize, u8, Carried), u32>,
    generations: Vec<usize>,
}

impl<'a> Values<'a> {
    pub(crate) fn new(sheet: &'a Sheet) -> Values<'a> {
        Values {
            sheet,
            carried: sheet.rules.iter().map(carried_marks).collect(),
            table: HashMap::new(),
            fresh: HashMap::new(),
            generations: Vec::new(),
        }
    }

    pub(crate) fn generation(&self, value: u32) -> usize {
        self.generations[value as usize]
    }

    /// The record of a row.
    pub(crate) fn row(&mut self, index: usize) -> Record {
        let mut record = self.sheet.rows[index];
        for value in &mut record.values[..record.width as usize] {
            let next = self.generations.len() as u32;
            let place = *self.table.entry(*value).or_insert(next);
            if place == next {
                self.generations.push(0);
            }
            *value = place;
        }
        record
    }

    /// The records that a rule makes from a record, one for each H line, or
    /// none where it does not fire.
    pub(crate) fn fire(&mut self, rule: usize, record: &Record) -> Option<Vec<Record>> {
        let form = self.sheet.rules.get(rule)?;
        if !fires(form, record) {
            return None;
        }
        let carried = self.carried(rule, record);
        Some(make(form, record, |mark| {
            self.fresh_number(rule, mark, carried)
        }))
    }

    pub(crate) fn carried(&self, rule: usize, record: &Record) -> Carried {
        let body = self.sheet.rules[rule].body.marks();
        let mut carried = [NONE; 6];
        for (value, &mark) in carried.iter_mut().zip(&self.carried[rule]) {
            *value = value_of(body, record, mark).unwrap_or(NONE);
        }
        carried
    }

    /// A fresh number is fixed by rule, mark and carried values.
    fn fresh_number(&mut self, rule: usize, mark: u8, carried: Carried) -> u32 {
        let next = self.generations.len() as u32;
        let place = *self.fresh.entry((rule, mark, carried)).or_insert(next);
        if place == next {
            let values = carried.iter().filter(|&&value| value != NONE);
            let above = values.map(|&value| self.generation(value)).max();
            self.generations.push(1 + above.unwrap_or(0));
        }
        place
    }
}

/// Whether a rule fires on a record.
pub(crate) fn fires(rule: &Rule, record: &Record) -> bool {
    let body = rule.body.marks();
    rule.body.kind == record.kind
        && (body.iter().zip(record.values()))
            .all(|(&mark, &value)| value_of(body, record, mark) == Some(value))
}

/// One record for each H line; `fresh` gives the numbers of fresh marks.
pub(crate) fn make(rule: &Rule, record: &Record, mut fresh: impl FnMut(u8) -> u32) -> Vec<Record> {
    let body = rule.body.marks();
    let mut made = Vec::with_capacity(rule.heads().len());
    for head in rule.heads() {
        let mut values = [0; 6];
        for (value, &mark) in values.iter_mut().zip(head.marks()) {
            *value = value_of(body, record, mark).unwrap_or_else(|| fresh(mark));
        }
        made.push(Record {
            kind: head.kind,
            width: head.width,
            values,
        });
    }
    made
}

/// The value that a body mark has in a record.
fn value_of(body: &[u8], record: &Record, mark: u8) -> Option<u32> {
    let place = body.iter().position(|&m| m == mark)?;
    Some(record.values[place])
}

/// The marks that stand in B and in some H, rising.
pub(crate) fn carried_marks(rule: &Rule) -> Vec<u8> {
    (1..=12)
        .filter(|mark| rule.body.marks().contains(mark))
        .filter(|mark| rule.heads().iter().any(|head| head.marks().contains(mark)))
        .collect()
}

/// Chases a sheet until nothing new comes (then `complete`) or more than `cap`
/// records are there. A sheet that is refused gives nothing, not complete.
pub fn chase(numbers: &[u32], cap: usize) -> Chased {
    let Ok(sheet) = Sheet::new(numbers) else {
        return Chased {
            complete: false,
            deepest: 0,
            shapes: 0,
            fired: 0,
        };
    };
    let mut values = Values::new(&sheet);
    let mut known: HashSet<Record> = HashSet::new();
    let mut records: Vec<Record> = Vec::new();
    for index in 0..sheet.rows.len() {
        let record = values.row(index);
        if known.insert(record) {
            records.push(record);
        }
    }
    let mut fired = HashSet::new();
    let mut at = 0;
    while at < records.len() && records.len() <= cap {
        let record = records[at];
        at += 1;
        for rule in 0..sheet.rules.len() {
            let Some(made) = values.fire(rule, &record) else {
                continue;
            };
            fired.insert(rule);
            records.extend(made.into_iter().filter(|&record| known.insert(record)));
        }
    }
    Chased {
        complete: records.len() <= cap,
        deepest: deepest(&values, &records),
        shapes: shapes(&records),
        fired: fired.len(),
    }
}

fn deepest(values: &Values, records: &[Record]) -> usize {
    let all = records.iter().flat_map(|record| record.values());
    all.map(|&value| values.generation(value))
        .max()
        .unwrap_or(0)
}

fn shapes(records: &[Record]) -> usize {
    let shapes: HashSet<(u8, [u8; 6])> = records
        .iter()
        .map(|record| (record.kind, first_appearance(record.values()).0))
        .collect();
    shapes.len()
}
