//! Explaining: a sentence for each step of an endless sheet, the trail's first and then the
//! loop's; and the way back, from such a text to the steps.

use crate::judge::endless;
use crate::layout::{Refusal, Rule, Sheet};
use std::ops::RangeInclusive;

/// Rule, H line, from field, to field, fresh.
type Step = [u16; 5];

/// No text of a sheet's steps is longer: 4,096 sentences of 73 bytes.
pub const MOST_EXPLAINED: usize = 4_096 * 73;

const MOST_RULES: u16 = 256;
const MOST_HEADS: u16 = 4;
const MOST_KIND: u16 = 64;
const MOST_FIELD: u16 = 6;

/// Explains lent lines in a lent text; gives how many bytes are written.
pub fn explain(numbers: &[u32], text: &mut [u8]) -> Result<usize, Refusal> {
    let sheet = Sheet::new(numbers)?;
    let verdict = endless(&sheet)?;
    let sentences = of_steps(&sheet.rules, verdict.trail, &verdict.steps);
    let size = length(sentences.clone());
    let place = text.get_mut(..size).ok_or(Refusal {
        number: 25,
        line: 0,
    })?;
    fill(place, sentences);
    Ok(size)
}

/// The text of any steps of lent lines, of which the first `trail` are the trail's; none where
/// the lines are no sheet or hold no such step.
pub fn text_of_steps(numbers: &[u32], trail: usize, steps: &[Step]) -> Option<Vec<u8>> {
    let sheet = Sheet::new(numbers).ok()?;
    let all_there = steps.iter().all(|step| is_of(&sheet.rules, step));
    all_there.then(|| text(of_steps(&sheet.rules, trail, steps)))
}

/// Whether the rules have that H line, and the step's other numbers are those of a step.
fn is_of(rules: &[Rule], &[rule, head, from, to, fresh]: &Step) -> bool {
    let rule = (rule as usize).checked_sub(1).and_then(|at| rules.get(at));
    let heads = rule.map_or(0, |rule| rule.heads().len());
    (1..=heads).contains(&(head as usize)) && from.max(to) <= MOST_FIELD && fresh <= 1
}

/// What one sentence says.
#[derive(Clone, Copy)]
struct Sentence {
    step: Step,
    /// Those of the rule's B line and of its H line.
    kinds: [u8; 2],
    in_loop: bool,
}

/// The sentences of steps, whose kinds stand with the rules.
fn of_steps<'a>(
    rules: &'a [Rule],
    trail: usize,
    steps: &'a [Step],
) -> impl Iterator<Item = Sentence> + Clone + 'a {
    steps.iter().enumerate().map(move |(at, &step)| {
        let rule = &rules[step[0] as usize - 1];
        let head = &rule.heads()[step[1] as usize - 1];
        Sentence {
            step,
            kinds: [rule.body.kind, head.kind],
            in_loop: at >= trail,
        }
    })
}

fn text(sentences: impl Iterator<Item = Sentence> + Clone) -> Vec<u8> {
    let mut text = vec![0; length(sentences.clone())];
    fill(&mut text, sentences);
    text
}

/// How many bytes sentences have.
fn length(sentences: impl Iterator<Item = Sentence>) -> usize {
    sentences.map(|sentence| sentence.length()).sum()
}

/// Writes sentences into a text of their length.
fn fill(text: &mut [u8], sentences: impl Iterator<Item = Sentence>) {
    sentences.fold(text, |rest, sentence| sentence.put(rest));
}

// What stands between the numbers.
const RULE: &[u8; 5] = b"Rule ";
const HEAD: &[u8; 9] = b", H line ";
const KIND: &[u8; 7] = b": kind ";
const FIELD: &[u8; 7] = b" field ";
const TO_KIND: &[u8; 9] = b" to kind ";

// And after them.
const CARRIED: &[u8; 11] = b", carried, ";
const FRESH: &[u8; 9] = b", fresh, ";
const REACHING: &[u8; 12] = b", reaching, ";
const TRAIL: &[u8; 7] = b"trail.\n";
const LOOP: &[u8; 6] = b"loop.\n";

/// The bytes of a sentence but for the digits of its rule and kinds and its last two words. Its
/// H line and its fields have a digit each.
const PLAIN: usize = RULE.len() + HEAD.len() + KIND.len() + TO_KIND.len() + 2 * FIELD.len() + 3;

#[derive(Clone, Copy, PartialEq, Eq)]
enum Sort {
    Carried,
    Fresh,
    Reaching,
}

fn sort([.., from, to, fresh]: Step) -> Sort {
    match (from, to, fresh) {
        (0, 0, 0) => Sort::Reaching,
        (_, _, 0) => Sort::Carried,
        _ => Sort::Fresh,
    }
}

impl Sentence {
    fn length(&self) -> usize {
        let [body_kind, head_kind] = self.kinds.map(u16::from);
        let sort = match sort(self.step) {
            Sort::Carried => CARRIED.len(),
            Sort::Fresh => FRESH.len(),
            Sort::Reaching => REACHING.len(),
        };
        let place = if self.in_loop {
            LOOP.len()
        } else {
            TRAIL.len()
        };
        PLAIN + digits(self.step[0]) + digits(body_kind) + digits(head_kind) + sort + place
    }

    /// Writes the sentence where a text begins; gives the rest of the text.
    fn put<'a>(&self, text: &'a mut [u8]) -> &'a mut [u8] {
        let [rule, head, from, to, _] = self.step;
        let [body_kind, head_kind] = self.kinds.map(u16::from);
        let text = put_number(put(text, RULE), rule);
        let text = put(put(text, HEAD), &[digit(head)]);
        let text = put_number(put(text, KIND), body_kind);
        let text = put(put(text, FIELD), &[digit(from)]);
        let text = put_number(put(text, TO_KIND), head_kind);
        let text = put(put(text, FIELD), &[digit(to)]);
        let text = match sort(self.step) {
            Sort::Carried => put(text, CARRIED),
            Sort::Fresh => put(text, FRESH),
            Sort::Reaching => put(text, REACHING),
        };
        if self.in_loop {
            put(text, LOOP)
        } else {
            put(text, TRAIL)
        }
    }
}

/// So many bytes, known beforehand, are moved without a loop.
fn put<'a, const N: usize>(text: &'a mut [u8], bytes: &[u8; N]) -> &'a mut [u8] {
    let (here, rest) = text.split_at_mut(N);
    here.copy_from_slice(bytes);
    rest
}

/// How many digits a number below 1,000 has.
fn digits(number: u16) -> usize {
    1 + usize::from(number >= 10) + usize::from(number >= 100)
}

/// The last digit of a number.
fn digit(number: u16) -> u8 {
    b'0' + (number % 10) as u8
}

fn put_number(text: &mut [u8], number: u16) -> &mut [u8] {
    match digits(number) {
        1 => put(text, &[digit(number)]),
        2 => put(text, &[10, 1].map(|place| digit(number / place))),
        _ => put(text, &[100, 10, 1].map(|place| digit(number / place))),
    }
}

/// What a text tells: the steps, how many of them are the trail's, and for each the kinds of
/// its rule's B line and of its H line.
#[derive(Clone, Debug, PartialEq, Eq)]
pub struct Told {
    pub steps: Vec<Step>,
    pub trail: usize,
    pub kinds: Vec<[u8; 2]>,
}

impl Told {
    /// The text that tells this.
    pub fn text(&self) -> Vec<u8> {
        let both = self.steps.iter().zip(&self.kinds).enumerate();
        text(both.map(|(at, (&step, &kinds))| Sentence {
            step,
            kinds,
            in_loop: at >= self.trail,
        }))
    }
}

/// Reads a text back, if it is that of some steps of some sheet; otherwise says which sentence
/// is wrong.
pub fn read_back(text: &[u8]) -> Result<Told, String> {
    let mut told = Told {
        steps: Vec::new(),
        trail: 0,
        kinds: Vec::new(),
    };
    let mut known = Known::new();
    let mut rest = text;
    while !rest.is_empty() {
        let number = told.steps.len() + 1;
        let found = Sentence::read(rest).filter(|(sentence, _)| known.admits(sentence));
        let (sentence, after) = found.ok_or_else(|| format!("sentence {number} is none"))?;
        if !sentence.in_loop {
            if told.trail < told.steps.len() {
                return Err(format!("sentence {number}: the trail's after the loop's"));
            }
            told.trail += 1;
        }
        told.steps.push(sentence.step);
        told.kinds.push(sentence.kinds);
        rest = after;
    }
    Ok(told)
}

/// What begins a text, and what comes after it.
type Found<'a, T> = Option<(T, &'a [u8])>;

impl Sentence {
    fn read(text: &[u8]) -> Found<'_, Sentence> {
        let (rule, rest) = read_number(text.strip_prefix(RULE)?, 1..=MOST_RULES)?;
        let (head, rest) = read_number(rest.strip_prefix(HEAD)?, 1..=MOST_HEADS)?;
        let (body_kind, rest) = read_number(rest.strip_prefix(KIND)?, 1..=MOST_KIND)?;
        let (from, rest) = read_number(rest.strip_prefix(FIELD)?, 0..=MOST_FIELD)?;
        let (head_kind, rest) = read_number(rest.strip_prefix(TO_KIND)?, 1..=MOST_KIND)?;
        let (to, rest) = read_number(rest.strip_prefix(FIELD)?, 0..=MOST_FIELD)?;
        let (said, rest) = read_sort(rest)?;
        let (in_loop, rest) = read_place(rest)?;
        let sentence = Sentence {
            step: [rule, head, from, to, u16::from(said == Sort::Fresh)],
            kinds: [body_kind as u8, head_kind as u8],
            in_loop,
        };
        (sort(sentence.step) == said).then_some((sentence, rest))
    }
}

fn read_sort(text: &[u8]) -> Found<'_, Sort> {
    let carried = text.strip_prefix(CARRIED).map(|rest| (Sort::Carried, rest));
    let fresh = || text.strip_prefix(FRESH).map(|rest| (Sort::Fresh, rest));
    let reaching = || {
        text.strip_prefix(REACHING)
            .map(|rest| (Sort::Reaching, rest))
    };
    carried.or_else(fresh).or_else(reaching)
}

/// Whether the sentence is one of the loop.
fn read_place(text: &[u8]) -> Found<'_, bool> {
    let in_trail = text.strip_prefix(TRAIL).map(|rest| (false, rest));
    in_trail.or_else(|| text.strip_prefix(LOOP).map(|rest| (true, rest)))
}

/// A number in that range, without a 0 before it.
fn read_number(text: &[u8], range: RangeInclusive<u16>) -> Found<'_, u16> {
    let end = text.iter().position(|byte| !byte.is_ascii_digit())?;
    let (digits, rest) = text.split_at(end);
    if digits.first()? == &b'0' && digits.len() > 1 {
        return None;
    }
    let number = digits.iter().try_fold(0u16, |number, &digit| {
        let tens = number.checked_mul(10)?;
        tens.checked_add(u16::from(digit - b'0'))
    })?;
    range.contains(&number).then_some((number, rest))
}

/// The kinds that the sentences so far have said of each rule, B line first; 0 where none has.
struct Known([[u8; 1 + MOST_HEADS as usize]; MOST_RULES as usize]);

impl Known {
    fn new() -> Known {
        Known([[0; 1 + MOST_HEADS as usize]; MOST_RULES as usize])
    }

    /// Whether a sentence's kinds are those that its rule is known to have; notes them.
    fn admits(&mut self, sentence: &Sentence) -> bool {
        let [rule, head, ..] = sentence.step;
        let known = &mut self.0[rule as usize - 1];
        [0, head as usize]
            .into_iter()
            .zip(sentence.kinds)
            .all(|(place, kind)| {
                let before = std::mem::replace(&mut known[place], kind);
                before == 0 || before == kind
            })
    }
}
