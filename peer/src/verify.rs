//! Checks an answer, whoever gave it, against what the scope document says of
//! answers. The steps are fired on real records with their generations; the
//! counts and, with "settles", the stated generation are held against the
//! reached shapes, raised until nothing changes.

use crate::chase::{carried_marks, fires, make, Values};
use crate::judge::Verdict;
use crate::layout::{first_appearance, Record, Rule, Sheet};
use std::collections::{HashMap, HashSet};

const MOST_SHAPES: usize = 512;
const MOST_STEPS: usize = 4_096;
const MOST_TRAIL: usize = 3_583;
const ROUNDS: usize = 3;

type Step = [u16; 5];
type Shape = (u8, [u8; 6]);

fn require(holds: bool, sentence: &str) -> Result<(), String> {
    holds.then_some(()).ok_or_else(|| sentence.to_string())
}

/// Whether every sentence about answers holds of this one, or which fails.
pub fn verify(numbers: &[u32], verdict: &Verdict) -> Result<(), String> {
    let sheet = Sheet::new(numbers).map_err(|r| format!("the sheet gets 8 at line {}", r.line))?;
    let closure = Closure::new(&sheet).ok_or("the sheet gets 11")?;
    check_counts(&sheet, &closure, verdict)?;
    let steps = verdict.steps.len();
    require(steps <= MOST_STEPS, "at most 4,096 steps")?;
    require(
        verdict.trail.checked_add(verdict.turns) == Some(steps),
        "as many steps as trail and loop together",
    )?;
    if verdict.endless {
        require(verdict.deepest == 0, "endless: deepest 0")?;
        return check_endless(&sheet, verdict);
    }
    require(verdict.turns == 0, "settles: loop 0")?;
    // A firing adds one generation at most; this also bounds the next test.
    require(
        verdict.deepest <= steps,
        "settles: the trail makes a number of the deepest generation",
    )?;
    require(
        closure.keeps_to(verdict.deepest),
        "settles: no later generation than the one stated",
    )?;
    if verdict.deepest == 0 {
        require(verdict.row == 0, "settles with deepest 0: row 0")?;
        return require(steps == 0, "settles with deepest 0: no steps");
    }
    check_settled(&sheet, verdict)
}

fn check_counts(sheet: &Sheet, closure: &Closure, verdict: &Verdict) -> Result<(), String> {
    let rules = sheet.rules.len();
    require(
        verdict.shapes == closure.moves.len(),
        "the count of reached shapes",
    )?;
    require(
        verdict.fired == closure.fired,
        "the count of rules that fire on some reachable record",
    )?;
    require(
        is_share(verdict.share, closure.fired, rules),
        "the share, to the nearest whole, a half to the even neighbour",
    )
}

/// Whether a share is within a half of 100 × fired / rules, and even where it is a half away.
fn is_share(share: usize, fired: usize, rules: usize) -> bool {
    if rules == 0 {
        return share == 0;
    }
    let (twice_share, rules) = (2 * share as u128, rules as u128);
    let away = (200 * fired as u128).abs_diff(twice_share * rules);
    away < rules || away == rules && share % 2 == 0
}

/// What happens where a rule fires on a shape and makes another by an H line.
struct Move {
    to: usize,
    /// For each field made, the body field it is carried from, or none.
    from: Vec<Option<usize>>,
    /// The first body fields of the rule's carried marks.
    carried: Vec<usize>,
}

/// All reached shapes, each with what is made from it.
struct Closure {
    moves: Vec<Vec<Move>>,
    fired: usize,
}

impl Closure {
    /// None where more than 512 shapes are reached.
    fn new(sheet: &Sheet) -> Option<Closure> {
        let mut index = HashMap::new();
        let mut shapes: Vec<Record> = Vec::new();
        let mut find = |shapes: &mut Vec<Record>, record: &Record| {
            let next = shapes.len();
            let found = *index.entry(shape(record)).or_insert(next);
            if found == next {
                shapes.push(example(record));
            }
            found
        };
        for row in &sheet.rows {
            find(&mut shapes, row);
        }
        let mut moves = Vec::new();
        let mut fired = HashSet::new();
        while moves.len() < shapes.len() && shapes.len() <= MOST_SHAPES {
            let at = shapes[moves.len()];
            let mut made = Vec::new();
            for (number, rule) in sheet.rules.iter().enumerate() {
                if fires(rule, &at) {
                    fired.insert(number);
                    let records = make(rule, &at, |mark| 10 + u32::from(mark));
                    let ends = records.iter().map(|record| find(&mut shapes, record));
                    made.extend(ends.enumerate().map(|(head, to)| Move::new(rule, head, to)));
                }
            }
            moves.push(made);
        }
        (shapes.len() <= MOST_SHAPES).then_some(Closure {
            moves,
            fired: fired.len(),
        })
    }

    /// Whether no field of a reached shape gets a later generation than `most`.
    fn keeps_to(&self, most: usize) -> bool {
        let mut generations = vec![[0; 6]; self.moves.len()];
        let mut raised: Vec<usize> = (0..self.moves.len()).collect();
        while let Some(at) = raised.pop() {
            for made in &self.moves[at] {
                let before = generations[at];
                let largest = made.carried.iter().map(|&field| before[field]).max();
                let fresh = 1 + largest.unwrap_or(0);
                let mut rises = false;
                for (field, from) in made.from.iter().enumerate() {
                    let generation = from.map_or(fresh, |from| before[from]);
                    if generation > most {
                        return false;
                    }
                    if generation > generations[made.to][field] {
                        generations[made.to][field] = generation;
                        rises = true;
                    }
                }
                if rises {
                    raised.push(made.to);
                }
            }
        }
        true
    }
}

impl Move {
    fn new(rule: &Rule, head: usize, to: usize) -> Move {
        let body = rule.body.marks();
        let place = |&mark: &u8| body.iter().position(|&m| m == mark);
        Move {
            to,
            from: rule.heads()[head].marks().iter().map(place).collect(),
            carried: carried_marks(rule).iter().filter_map(place).collect(),
        }
    }
}

fn shape(record: &Record) -> Shape {
    (record.kind, first_appearance(record.values()).0)
}

/// The record of the same shape whose values are the pattern's digits.
fn example(record: &Record) -> Record {
    Record {
        values: first_appearance(record.values()).0.map(u32::from),
        ..*record
    }
}

#[derive(Clone, Copy, PartialEq, Eq)]
enum Sort {
    Reaching,
    Carried,
    Fresh,
    /// A fresh step by a rule that carries nothing.
    Source,
}

/// Fires steps one after another, from the starting row on.
struct Walk<'a> {
    sheet: &'a Sheet,
    values: Values<'a>,
    record: Record,
}

impl<'a> Walk<'a> {
    fn new(sheet: &'a Sheet, row: usize) -> Result<Walk<'a>, String> {
        require(
            1 <= row && row <= sheet.rows.len(),
            "rows count from 1 among R lines",
        )?;
        let mut values = Values::new(sheet);
        let record = values.row(row - 1);
        Ok(Walk {
            sheet,
            values,
            record,
        })
    }

    /// The generation of the last record's value at a field, from 1.
    fn generation(&self, field: u16) -> usize {
        self.values
            .generation(self.record.values[field as usize - 1])
    }

    /// Fires a step on the last record; checks what is said of it alone.
    fn fire(&mut self, step: Step) -> Result<Sort, String> {
        let (rule, head) = (step[0] as usize, step[1] as usize);
        require(
            (1..=self.sheet.rules.len()).contains(&rule),
            "a step's rule is in the sheet",
        )?;
        let before = self.record;
        let made = self.values.fire(rule - 1, &before);
        let made = made.ok_or("each of these firings fits")?;
        require(
            (1..=made.len()).contains(&head),
            "H line within the rule (1 to 4)",
        )?;
        self.record = made[head - 1];
        match step[2..] {
            [0, 0, 0] => Ok(Sort::Reaching),
            [_, _, 0] => self.check_carried(step, &before),
            [_, _, 1] => self.check_fresh(step, &before),
            _ => Err("fresh (1) or carried (0)".to_string()),
        }
    }

    /// Whether the to field's mark stands in B.
    fn in_body(&self, step: Step) -> Result<bool, String> {
        let rule = &self.sheet.rules[step[0] as usize - 1];
        let head = rule.heads()[step[1] as usize - 1];
        let mark = field(head.marks(), step[3]).ok_or("the to field is a field of the H line")?;
        Ok(rule.body.marks().contains(&mark))
    }

    fn check_carried(&self, step: Step, before: &Record) -> Result<Sort, String> {
        require(
            self.in_body(step)?,
            "carried: the to field's mark stands in B too",
        )?;
        let value = field(before.values(), step[2]).ok_or(NO_FROM_FIELD)?;
        require(
            field(self.record.values(), step[3]) == Some(value),
            "carried: the value at the from field stands at the to field",
        )?;
        Ok(Sort::Carried)
    }

    fn check_fresh(&self, step: Step, before: &Record) -> Result<Sort, String> {
        require(
            !self.in_body(step)?,
            "fresh: the to field's mark is a fresh one",
        )?;
        let rule = step[0] as usize - 1;
        if step[2] == 0 {
            require(
                carried_marks(&self.sheet.rules[rule]).is_empty(),
                "from field 0 with fresh 1 only where the rule carries nothing",
            )?;
            return Ok(Sort::Source);
        }
        let value = field(before.values(), step[2]).ok_or(NO_FROM_FIELD)?;
        require(
            self.values.carried(rule, before).contains(&value),
            "fresh: the from field's value is among the carried values",
        )?;
        Ok(Sort::Fresh)
    }
}

const NO_FROM_FIELD: &str = "the from field is a field of the record fired on";

/// Fields count from 1.
fn field<T: Copy>(fields: &[T], number: u16) -> Option<T> {
    fields.get((number as usize).checked_sub(1)?).copied()
}

/// Of a list of steps without reaching ones.
fn check_following(steps: &[Step]) -> Result<(), String> {
    require(
        steps.windows(2).all(|pair| pair[1][2] == pair[0][3]),
        "a step that follows another has that one's to field as its from field",
    )
}

fn check_endless(sheet: &Sheet, verdict: &Verdict) -> Result<(), String> {
    let (trail, turns) = verdict.steps.split_at(verdict.trail);
    let mut walk = Walk::new(sheet, verdict.row)?;
    let mut met = HashSet::from([shape(&walk.record)]);
    for &step in trail {
        require(
            walk.fire(step)? == Sort::Reaching,
            "endless: the trail is by reaching steps",
        )?;
        require(
            met.insert(shape(&walk.record)),
            "endless: the trail has no shape twice",
        )?;
    }
    let (Some(first), Some(last)) = (turns.first(), turns.last()) else {
        return Err("the loop has at least one fresh step".to_string());
    };
    let start = shape(&walk.record);
    let mut before = None;
    for round in 0..ROUNDS {
        let fresh = check_round(&mut walk, turns, round == 0)?;
        require(
            shape(&walk.record) == start && last[3] == first[2],
            "the loop returns to its first shape and from field",
        )?;
        let after = walk.generation(first[2]);
        require(
            before.is_none_or(|before| after >= before + fresh),
            "the generation rises with every round",
        )?;
        require(after > round, "after n rounds a number of generation n")?;
        before = Some(after);
    }
    check_following(turns)
}

/// Goes round the loop once; gives the count of fresh steps.
fn check_round(walk: &mut Walk, turns: &[Step], first: bool) -> Result<usize, String> {
    let mut met = HashSet::new();
    let mut fresh = 0;
    for &step in turns {
        let pair = (shape(&walk.record), step[2]);
        require(
            met.insert(pair) || !first,
            "the loop meets no pair of shape and field twice before",
        )?;
        match walk.fire(step)? {
            Sort::Carried => {}
            Sort::Fresh => fresh += 1,
            Sort::Source => return Err("the loop has no from field 0".to_string()),
            Sort::Reaching => return Err("the loop is made of carried and fresh steps".to_string()),
        }
    }
    require(fresh > 0, "the loop has at least one fresh step")?;
    Ok(fresh)
}

fn check_settled(sheet: &Sheet, verdict: &Verdict) -> Result<(), String> {
    let steps = &verdict.steps;
    require(
        steps.len() <= MOST_TRAIL,
        "settles: a trail of at most 3,583 steps",
    )?;
    let mut walk = Walk::new(sheet, verdict.row)?;
    let mut line = None;
    let mut last = Sort::Reaching;
    for (at, &step) in steps.iter().enumerate() {
        last = walk.fire(step)?;
        match (line, last) {
            (None, Sort::Reaching) => {}
            (None, Sort::Fresh | Sort::Source) => line = Some(at),
            (None, Sort::Carried) => {
                return Err("the steps before the first fresh one are reaching steps".to_string())
            }
            (Some(_), Sort::Carried | Sort::Fresh) => {}
            (Some(_), Sort::Source) => {
                return Err("from field 0 with fresh 1 stands nowhere else".to_string())
            }
            (Some(_), Sort::Reaching) => {
                return Err("every later step is a carried or fresh step".to_string())
            }
        }
    }
    let line = line.ok_or("settles with deepest above 0: the trail holds a fresh step")?;
    check_following(&steps[line..])?;
    require(
        walk.generation(steps[steps.len() - 1][3]) == verdict.deepest,
        "the last record holds a number of the deepest generation",
    )?;
    require(
        last != Sort::Carried,
        "the trail makes that number in its last record",
    )
}
