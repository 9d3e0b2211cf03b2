//! Carrying the rules out: the records themselves, from the rows on. Each 0 of the
//! table, and after these each fresh number, is the next one after the table's largest.

use crate::judge::settles;
use crate::layout::{Line, Refusal, Rule, Sheet, MOST_NUMBER, NOT_GIVEN, R};
use crate::mix::Mixing;
use std::collections::HashSet;

const MOST_RECORDS: usize = 4_096;
const LEAST_NUMBERS: usize = 8 * MOST_RECORDS;

/// The records as R lines, rows first, and how often a rule fired.
#[derive(Clone, Debug, PartialEq, Eq)]
pub struct Run {
    pub records: Vec<Line>,
    pub firings: usize,
}

/// Carries lent lines out; `lent_numbers` is how many u32 are lent for the records.
pub fn carry(numbers: &[u32], lent_numbers: usize) -> Result<Run, Refusal> {
    let refusal = |number| Refusal { number, line: 0 };
    if lent_numbers < LEAST_NUMBERS {
        return Err(refusal(12));
    }
    let sheet = Sheet::new(numbers)?;
    if !settles(&sheet).ok_or(refusal(11))? {
        return Err(refusal(21));
    }
    let mut state = State::new(&sheet);
    state.run(&sheet).ok_or(refusal(22))?;
    if state.next > MOST_NUMBER + 1 {
        return Err(refusal(23));
    }
    Ok(Run {
        records: state.records,
        firings: state.fired.len(),
    })
}

/// A rule made ready for firing. Places are those of a record's line.
struct Plan {
    rule: u32,
    /// Two places each that have to hold the same value.
    equal: Vec<(usize, usize)>,
    /// The first places of the carried marks.
    carried: Vec<usize>,
    heads: Vec<Head>,
    /// How many fresh marks there are.
    fresh: u32,
}

struct Head {
    kind: u32,
    fields: Vec<Source>,
}

/// Where a made record has a value from.
enum Source {
    Place(usize),
    /// The fresh number of so many fresh marks before this one.
    Fresh(u32),
}

impl Plan {
    fn new(index: usize, rule: &Rule) -> Plan {
        let body = rule.body.marks();
        let first = |mark: u8| body.iter().position(|&m| m == mark);
        let equal = body.iter().enumerate();
        let equal = equal.filter_map(|(at, &mark)| Some((first(mark)?, at)));
        let equal = equal.filter(|(first, at)| first < at);
        let made = || rule.heads().iter().flat_map(|head| head.marks());
        let carried = (1..=12).filter(|mark| made().any(|m| m == mark));
        let mut fresh: Vec<u8> = made().copied().filter(|&m| first(m).is_none()).collect();
        fresh.sort_unstable();
        fresh.dedup();
        let before = |mark| fresh.iter().filter(|&&m| m < mark).count() as u32;
        let source = |&mark: &u8| match first(mark) {
            Some(at) => Source::Place(2 + at),
            None => Source::Fresh(before(mark)),
        };
        let heads = rule.heads().iter().map(|head| Head {
            kind: u32::from(head.kind),
            fields: head.marks().iter().map(source).collect(),
        });
        Plan {
            rule: index as u32,
            equal: equal.map(|(first, at)| (2 + first, 2 + at)).collect(),
            carried: carried.filter_map(first).map(|at| 2 + at).collect(),
            heads: heads.collect(),
            fresh: fresh.len() as u32,
        }
    }

    fn fires(&self, record: &Line) -> bool {
        self.equal.iter().all(|&(a, b)| record[a] == record[b])
    }

    /// The rule and its carried values; the rest is 0.
    fn pair(&self, record: &Line) -> [u32; 7] {
        let mut pair = [self.rule, 0, 0, 0, 0, 0, 0];
        for (value, &at) in pair[1..].iter_mut().zip(&self.carried) {
            *value = record[at];
        }
        pair
    }
}

/// What a run has so far.
struct State {
    records: Vec<Line>,
    known: HashSet<Line, Mixing>,
    fired: HashSet<[u32; 7], Mixing>,
    /// The next number for a 0 or a fresh mark.
    next: u32,
}

impl State {
    fn new(sheet: &Sheet) -> State {
        State {
            records: Vec::new(),
            known: HashSet::default(),
            fired: HashSet::default(),
            next: 1 + sheet.given().max().unwrap_or(0),
        }
    }

    /// Goes through all records; none at the 4,097th.
    fn run(&mut self, sheet: &Sheet) -> Option<()> {
        let mut plans: [Vec<Plan>; 65] = [const { Vec::new() }; 65];
        for (index, rule) in sheet.rules.iter().enumerate() {
            plans[rule.body.kind as usize].push(Plan::new(index, rule));
        }
        self.add_rows(sheet)?;
        let mut at = 0;
        while let Some(&record) = self.records.get(at) {
            for plan in &plans[record[1] as usize] {
                if plan.fires(&record) && self.fired.insert(plan.pair(&record)) {
                    self.fire(plan, &record)?;
                }
            }
            at += 1;
        }
        Some(())
    }

    /// Begins with the rows; their zeros get the first numbers.
    fn add_rows(&mut self, sheet: &Sheet) -> Option<()> {
        let first = self.next;
        self.next += sheet.zeros;
        let numbered = |value: u32| match value.checked_sub(NOT_GIVEN) {
            Some(zeros_before) => first + zeros_before,
            None => value,
        };
        for row in &sheet.rows {
            let [a, b, c, d, e, f] = row.values.map(numbered);
            self.add([R, u32::from(row.kind), a, b, c, d, e, f])?;
        }
        Some(())
    }

    fn fire(&mut self, plan: &Plan, record: &Line) -> Option<()> {
        for head in &plan.heads {
            let mut made = [R, head.kind, 0, 0, 0, 0, 0, 0];
            for (value, source) in made[2..].iter_mut().zip(&head.fields) {
                *value = match source {
                    Source::Place(at) => record[*at],
                    Source::Fresh(before) => self.next + before,
                };
            }
            self.add(made)?;
        }
        self.next += plan.fresh;
        Some(())
    }

    /// Appends a record unless it is there.
    fn add(&mut self, record: Line) -> Option<()> {
        if self.known.insert(record) {
            self.records.push(record);
        }
        (self.records.len() <= MOST_RECORDS).then_some(())
    }
}
