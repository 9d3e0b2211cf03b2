//! Explaining by the library and by the peer. Row, trail and loop are each one's own choice, so
//! the library's text is held to the steps that the library gives where it judges the same lines.

use super::{judged, numbers_of, other_end, reply, same, steps_of, Lent, ALL_STEPS};
use crate::library;
use peer::random::{Input, Random};
use peer::{Refusal, MOST_EXPLAINED};

/// What the explained sheets were like.
#[derive(Default)]
pub struct Explained {
    /// How many were good, or refused with which number, where enough is lent.
    pub sheets: [usize; 26],
    /// How often a text got 25, being lent too little.
    pub too_short: usize,
    /// How many texts of the library were compared and read back.
    pub texts: usize,
    /// How many sentences they have, and how many bytes the longest.
    pub sentences: usize,
    pub longest: usize,
}

const TOO_SHORT: Refusal = Refusal {
    number: 25,
    line: 0,
};

/// Explains a sheet, and the same with some bytes less or more, which is not counted.
pub fn compare(random: &mut Random, input: &Input, tally: &mut Explained) -> Result<(), String> {
    compare_lines(random, &input.lines, tally)?;
    let (lines, what) = other_end(random, &input.lines);
    let answer = compare_lines(random, &lines, &mut Explained::default());
    answer.map_err(|e| format!("{e}; {what}"))
}

fn compare_lines(random: &mut Random, lines: &[u8], tally: &mut Explained) -> Result<(), String> {
    let numbers = numbers_of(lines);
    let mut own = vec![0; MOST_EXPLAINED];
    match peer::explain(&numbers, &mut own) {
        Err(refusal) => {
            tally.sheets[refusal.number as usize] += 1;
            compare_refused(random, lines, refusal)
        }
        Ok(size) => {
            tally.sheets[0] += 1;
            check_own(random, &numbers, &own[..size])?;
            compare_text(random, lines, tally)
        }
    }
}

/// The same refusal, whatever is lent.
fn compare_refused(random: &mut Random, lines: &[u8], refusal: Refusal) -> Result<(), String> {
    let size = much(random, 0);
    compare_reply(random, lines, size, Err(refusal))?;
    if random.chance(25) {
        compare_reply(random, lines, 0, Err(refusal))?;
    }
    Ok(())
}

/// The library's text, where more than enough is lent, just enough, a byte too little and
/// sometimes nothing.
fn compare_text(random: &mut Random, lines: &[u8], tally: &mut Explained) -> Result<(), String> {
    let (said, steps) = judged(lines)?;
    same("explain: the verdict", said.verdict, 2)?;
    let steps = steps_of(&steps);
    let text = peer::text_of_steps(&numbers_of(lines), said.trail, &steps);
    let text = text.ok_or("explain: a step that the sheet does not have")?;
    for size in [much(random, text.len()), text.len()] {
        let found = compare_reply(random, lines, size, Ok(&text))?;
        let told = peer::read_back(&found).map_err(|e| format!("explain: {e}"))?;
        same("explain: steps read back", &told.steps, &steps)?;
        same("explain: trail read back", told.trail, said.trail)?;
        tally.texts += 1;
        tally.sentences += steps.len();
    }
    tally.longest = tally.longest.max(text.len());
    compare_reply(random, lines, text.len().saturating_sub(1), Err(TOO_SHORT))?;
    tally.too_short += 1;
    if random.chance(25) {
        compare_reply(random, lines, 0, Err(TOO_SHORT))?;
        tally.too_short += 1;
    }
    Ok(())
}

/// More than enough where so much is needed, now and then enough for any text.
fn much(random: &mut Random, needed: usize) -> usize {
    match random.below(8) {
        0 => MOST_EXPLAINED,
        _ => needed + random.between(1, 200),
    }
}

/// Explains by the library with so much lent; gives its text, empty where it is refused. All
/// other memory has to be as it was.
fn compare_reply(
    random: &mut Random,
    lines: &[u8],
    size: usize,
    wanted: Result<&[u8], Refusal>,
) -> Result<Vec<u8>, String> {
    let mut lent = Lent::new(random, size);
    let library = library::explain(lines, lent.part());
    let what = format!("explain, {size} bytes lent");
    same(&what, library, reply(wanted.map(<[u8]>::len)))?;
    let held = lent.holds(wanted.unwrap_or_default());
    held.map_err(|e| format!("{what}: {e}"))?;
    Ok(lent.part()[..library.count].to_vec())
}

/// The peer's text leads back to the peer's steps, and does not fit where a byte is missing.
fn check_own(random: &mut Random, numbers: &[u32], text: &[u8]) -> Result<(), String> {
    let not_so = |e| format!("explain, the peer alone: {e}");
    let told = peer::read_back(text).map_err(not_so)?;
    let verdict = peer::judge(numbers, ALL_STEPS / 2).map_err(|_| "explain: no verdict")?;
    let read_back = (told.steps, told.trail);
    if read_back != (verdict.steps, verdict.trail) {
        return Err(not_so(format!("other steps read back: {read_back:?}")));
    }
    let mut lent = Lent::new(random, text.len() - 1);
    let answer = peer::explain(numbers, lent.part());
    same(
        "explain: a byte too little",
        reply(Err(TOO_SHORT)),
        reply(answer),
    )?;
    lent.holds(&[]).map_err(not_so)
}
