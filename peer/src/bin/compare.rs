//! Compares the proved library with the peer on random inputs, whole and damaged:
//! every answer, and every byte of lent memory and around it. What the library says of a
//! sheet with zeros in its rows is also compared with what it says with numbers in their place.
//!
//!     compare [--seed N] [--count N] [--only N] [--progress] [--statistics]
//!
//! `--only` takes one input of a run, by its number; without it, sheets at the limits of
//! carrying out and of forecasting come first. Exit status 1 on a difference, whose input is
//! then written to a file.

#[path = "compare/explaining.rs"]
mod explaining;
#[path = "../library.rs"]
mod library;

use explaining::Explained;
use library::{CarryReply, ForecastReply, JudgeReply, Reply, Span, Step};
use peer::random::{bytes_of, carrying, forecasting, zeros, Input, Random};
use peer::{Figure, Forecast, Left, Line, Refusal, Run, Verdict};
use std::panic::{catch_unwind, AssertUnwindSafe};
use std::process::ExitCode;
use std::time::Instant;
use std::{env, fmt, fs};

/// Records up to which a sheet is chased.
const CHASE: usize = 1_500;

/// The most records of a run.
const MOST_RECORDS: usize = 4_096;

/// No text has more lines.
const MOST_LINES: usize = 1_638;

/// The bytes of 4,096 steps.
const ALL_STEPS: usize = 40_960;

/// Lent memory with guards around it, all random at first.
struct Lent {
    bytes: Vec<u8>,
    before: Vec<u8>,
    start: usize,
    size: usize,
}

impl Lent {
    fn new(random: &mut Random, size: usize) -> Lent {
        let start = random.between(32, 63);
        let bytes = random.bytes(start + size + 32);
        let before = bytes.clone();
        Lent {
            bytes,
            before,
            start,
            size,
        }
    }

    fn part(&mut self) -> &mut [u8] {
        &mut self.bytes[self.start..self.start + self.size]
    }

    /// Whether the memory begins with these bytes and is otherwise as it was.
    fn holds(&self, counted: &[u8]) -> Result<(), String> {
        let end = self.start + counted.len();
        if counted.len() > self.size || self.bytes[self.start..end] != *counted {
            return Err("the counted part of the lent memory".to_string());
        }
        let same = |part: std::ops::Range<usize>| self.bytes[part.clone()] == self.before[part];
        if !same(end..self.start + self.size) {
            return Err("lent memory past the counted part has changed".to_string());
        }
        if !same(0..self.start) || !same(self.start + self.size..self.bytes.len()) {
            return Err("memory outside the lent part has changed".to_string());
        }
        Ok(())
    }
}

fn same<T: PartialEq + fmt::Debug>(what: &str, library: T, peer: T) -> Result<(), String> {
    if library == peer {
        return Ok(());
    }
    Err(format!("{what}: library {library:?}, peer {peer:?}"))
}

fn reply(answer: Result<usize, Refusal>) -> Reply {
    match answer {
        Ok(count) => Reply {
            refusal: 0,
            line: 0,
            count,
        },
        Err(Refusal { number, line }) => Reply {
            refusal: number,
            line,
            count: 0,
        },
    }
}

fn numbers_of(bytes: &[u8]) -> Vec<u32> {
    let number = |part: &[u8]| u32::from_le_bytes([part[0], part[1], part[2], part[3]]);
    bytes.chunks_exact(4).map(number).collect()
}

fn steps_of(bytes: &[u8]) -> Vec<[u16; 5]> {
    let number = |step: &[u8], at: usize| u16::from_le_bytes([step[2 * at], step[2 * at + 1]]);
    let step = |step: &[u8]| [0, 1, 2, 3, 4].map(|at| number(step, at));
    bytes.chunks_exact(10).map(step).collect()
}

/// What the inputs of a run were like.
#[derive(Default)]
struct Tally {
    read: [usize; 13],
    written: [usize; 13],
    patterns: [usize; 13],
    judged: [usize; 13],
    explained: Explained,
    carried: [usize; 24],
    records: usize,
    firings: usize,
    full: usize,
    foretold: [usize; 24],
    beyond: [usize; 3],
    any_beyond: usize,
    largest: usize,
    ended: usize,
    met: [usize; 3],
    endless: usize,
    halves: usize,
    with_zeros: usize,
    chased: usize,
    figures: Vec<Figures>,
    zeros: Zeros,
}

/// Of sheets with a 0 in a row.
#[derive(Default)]
struct Zeros {
    /// With enough steps lent.
    judged: [usize; 13],
    carried: [usize; 24],
    /// Carried out with 99,999,999 as the largest number.
    to_the_end: usize,
    /// How many would have another verdict, or another deepest generation, count of shapes or
    /// of fired rules, if all zeros were one number.
    other_verdict: usize,
    other_figures: usize,
}

/// Of a judged sheet.
struct Figures {
    style: &'static str,
    endless: bool,
    deepest: usize,
    shapes: usize,
    trail: usize,
    turns: usize,
}

/// Reads by both, and writes back what was read.
fn compare_read(random: &mut Random, input: &Input, tally: &mut Tally) -> Result<(), String> {
    let mut lent = Lent::new(random, input.lent_lines);
    let library = library::read(&input.text, lent.part());
    let peer = peer::read(&input.text, input.lent_lines / 32);
    let count = peer.as_ref().map(Vec::len).map_err(|&refusal| refusal);
    same("read", library, reply(count))?;
    tally.read[library.refusal as usize] += 1;
    let lines = bytes_of(peer.unwrap_or_default().as_flattened());
    lent.holds(&lines).map_err(|e| format!("read: {e}"))?;
    if library.refusal == 0 {
        let (_, text) = compare_write(random, &lines, input.text.len())?;
        same("text written back", text.as_slice(), &input.text)?;
    }
    Ok(())
}

/// Writes by both; gives the refusal or 0, and the text, empty where it is refused.
fn compare_write(random: &mut Random, lines: &[u8], size: usize) -> Result<(u32, Vec<u8>), String> {
    let mut lent = Lent::new(random, size);
    let library = library::write(lines, lent.part());
    let peer = peer::write(&numbers_of(lines), size);
    let count = peer.as_ref().map(Vec::len).map_err(|&refusal| refusal);
    same("write", library, reply(count))?;
    let text = peer.unwrap_or_default();
    lent.holds(&text).map_err(|e| format!("write: {e}"))?;
    Ok((library.refusal, text))
}

fn compare_pattern(input: &Input, tally: &mut Tally) -> Result<(), String> {
    let library = library::pattern(&input.fields);
    let peer = peer::pattern(&numbers_of(&input.fields));
    same(
        "pattern",
        library,
        reply(peer.map(|number| number as usize)),
    )?;
    tally.patterns[library.refusal as usize] += 1;
    Ok(())
}

fn compare_judge(random: &mut Random, input: &Input, tally: &mut Tally) -> Result<(), String> {
    let mut lent = Lent::new(random, input.lent_steps);
    let library = library::judge(&input.lines, lent.part());
    let numbers = numbers_of(&input.lines);
    let counted = match peer::judge(&numbers, input.lent_steps / 2) {
        Err(refusal) => {
            same("judge", library, refused(refusal))?;
            0
        }
        Ok(verdict) => {
            let counted = compare_figures(&library, &verdict)?;
            let steps = lent
                .part()
                .get(..counted)
                .ok_or("judge: more steps than lent")?;
            compare_answer(&numbers, &library, steps)?;
            compare_chase(&numbers, &verdict, tally)?;
            tally.count(input.style, &library);
            tally.halves += usize::from(is_at_a_half(&numbers, verdict.fired));
            tally.with_zeros += usize::from(zeros::count(lines_of(&numbers)) > 0);
            counted
        }
    };
    tally.judged[library.refusal as usize] += 1;
    let steps = lent.part()[..counted].to_vec();
    lent.holds(&steps).map_err(|e| format!("judge: {e}"))
}

fn lines_of(numbers: &[u32]) -> &[Line] {
    numbers.as_chunks::<8>().0
}

/// How many zeros the rows of lent lines hold; 0 where the lines are refused.
fn zeros_of<T>(numbers: &[u32], answer: &Result<T, Refusal>) -> usize {
    match answer {
        Err(refusal) if [8, 12].contains(&refusal.number) => 0,
        _ => zeros::count(lines_of(numbers)),
    }
}

/// A row's 0 is as good as a number that stands nowhere else in the table: the library's figures
/// are the same with such numbers, and each of its two answers holds of the other sheet too.
fn compare_zeros(random: &mut Random, input: &Input, tally: &mut Tally) -> Result<(), String> {
    let numbers = numbers_of(&input.lines);
    let answer = peer::judge(&numbers, ALL_STEPS / 2);
    if zeros_of(&numbers, &answer) == 0 {
        return Ok(());
    }
    let lines = lines_of(&numbers);
    tally.zeros.count_judged(lines, &answer);
    let given = zeros::all_different(random, lines);
    let (said, steps) = judged(&input.lines)?;
    let (said_given, steps_given) = judged(&bytes_of(given.as_flattened()))?;
    // Row, trail and loop are the library's choice.
    let figures = |said: &JudgeReply| JudgeReply {
        row: 0,
        trail: 0,
        turns: 0,
        ..*said
    };
    same_given("judge", figures(&said), figures(&said_given))?;
    if said.refusal == 0 {
        let not_so = |e| format!("a number for each 0: {e}");
        compare_answer(given.as_flattened(), &said, &steps).map_err(not_so)?;
        compare_answer(&numbers, &said_given, &steps_given).map_err(not_so)?;
    }
    let forecast = |lines: &[Line]| library::forecast(&bytes_of(lines.as_flattened()));
    same_given("forecast", forecast(lines), forecast(&given))?;
    compare_zeros_carried(lines)
}

/// The library's judging, with the steps that it counts.
fn judged(lines: &[u8]) -> Result<(JudgeReply, Vec<u8>), String> {
    let mut steps = vec![0; ALL_STEPS];
    let said = library::judge(lines, &mut steps);
    let counted = said.trail.saturating_add(said.turns).saturating_mul(10);
    if counted > ALL_STEPS {
        return Err("judge: more steps than lent".to_string());
    }
    steps.truncate(counted);
    Ok((said, steps))
}

fn same_given<T: PartialEq + fmt::Debug>(what: &str, zeros: T, given: T) -> Result<(), String> {
    if zeros == given {
        return Ok(());
    }
    Err(format!(
        "{what}, by the library: zeros {zeros:?}, a number for each {given:?}"
    ))
}

/// The library's run with zeros is that with the numbers after the table's largest in their
/// place; where these do not suffice, it is refused.
fn compare_zeros_carried(lines: &[Line]) -> Result<(), String> {
    let carried = |lines: &[Line]| {
        let mut records = vec![0; 32 * MOST_RECORDS];
        let said = library::carry(&bytes_of(lines.as_flattened()), &mut records);
        (said, records)
    };
    let (said, records) = carried(lines);
    let Some(numbered) = zeros::numbered(lines) else {
        let refused = [11, 21, 22, 23].contains(&said.refusal);
        return same("carry: refused, since a 0 has no number", refused, true);
    };
    let (said_numbered, records_numbered) = carried(&numbered);
    same_given("carry", said, said_numbered)?;
    same_given("records", records == records_numbered, true)
}

/// Carries out by both; the records are also held to what is said of every run.
fn compare_carry(random: &mut Random, input: &Input, tally: &mut Tally) -> Result<(), String> {
    let mut lent = Lent::new(random, input.lent_records);
    let library = library::carry(&input.lines, lent.part());
    let numbers = numbers_of(&input.lines);
    let peer = peer::carry(&numbers, input.lent_records / 4);
    same("carry", library, carry_reply(&peer))?;
    tally.carried[library.refusal as usize] += 1;
    tally.zeros.count_run(&numbers, &peer);
    let bytes = match &peer {
        Err(_) => Vec::new(),
        Ok(run) => bytes_of(run.records.as_flattened()),
    };
    lent.holds(&bytes).map_err(|e| format!("carry: {e}"))?;
    let Ok(run) = peer else {
        return Ok(());
    };
    tally.records += run.records.len();
    tally.firings += run.firings;
    tally.full += usize::from(run.records.len() == MOST_RECORDS);
    peer::verify_run(&numbers, &run).map_err(|e| format!("carry: not so: {e}"))
}

fn carry_reply(peer: &Result<Run, Refusal>) -> CarryReply {
    let (refusal, line) = match peer {
        Err(refusal) => (refusal.number, refusal.line),
        Ok(_) => (0, 0),
    };
    let of = |count: fn(&Run) -> usize| peer.as_ref().map_or(0, count);
    CarryReply {
        refusal,
        line,
        records: of(|run| run.records.len()),
        firings: of(|run| run.firings),
    }
}

/// Forecasts by both; what both foretell is also held to runs.
fn compare_forecast(random: &mut Random, input: &Input, tally: &mut Tally) -> Result<(), String> {
    let library = library::forecast(&input.lines);
    let numbers = numbers_of(&input.lines);
    let peer = peer::forecast(&numbers);
    same("forecast", library, forecast_reply(&peer))?;
    tally.foretold[library.refusal as usize] += 1;
    if let Ok(forecast) = peer {
        let left = peer::verify_forecast(&numbers, &forecast, random);
        let left = left.map_err(|e| format!("forecast: not so: {e}"))?;
        tally.count_forecast(&forecast, left);
    }
    let (lines, what) = other_end(random, &input.lines);
    let peer = peer::forecast(&numbers_of(&lines));
    let library = library::forecast(&lines);
    same(&format!("forecast, {what}"), library, forecast_reply(&peer))
}

/// The same lines with some bytes less or more, and how many: the last line or its last number
/// is not whole.
fn other_end(random: &mut Random, lines: &[u8]) -> (Vec<u8>, String) {
    let mut lines = lines.to_vec();
    let part = random.between(1, 31);
    let less = random.chance(50);
    if less {
        lines.truncate(lines.len().saturating_sub(part));
    } else {
        lines.extend(random.bytes(part));
    }
    let what = if less { "less" } else { "more" };
    (lines, format!("{part} bytes {what}"))
}

fn forecast_reply(peer: &Result<Forecast, Refusal>) -> ForecastReply {
    let (refusal, line) = match peer {
        Err(refusal) => (refusal.number, refusal.line),
        Ok(_) => (0, 0),
    };
    let beyond = u64::from(u32::MAX) + 1;
    let of = |figure: fn(&Forecast) -> Figure| match peer {
        Err(_) => 0,
        Ok(forecast) => figure(forecast).map_or(beyond, u64::from),
    };
    ForecastReply {
        refusal,
        line,
        values: of(|forecast| forecast.values),
        records: of(|forecast| forecast.records),
        pairs: of(|forecast| forecast.pairs),
    }
}

/// From the text to the verdict. The steps are looked at as records.
fn compare_text(random: &mut Random, input: &Input) -> Result<(), String> {
    let mut lent = Lent::new(random, input.lent_steps);
    let library = library::judge_text(&input.text, lent.part());
    let counted = match peer::judge_text(&input.text, input.lent_steps / 2) {
        Err(refusal) => {
            same("judge a text", library, refused(refusal))?;
            0
        }
        Ok(verdict) => {
            let counted = compare_figures(&library, &verdict)?;
            let steps = lent.part().get(..counted);
            let steps = steps.ok_or("judge a text: more steps than lent")?;
            let lines =
                peer::read(&input.text, MOST_LINES).map_err(|_| "judge a text: no lines")?;
            compare_answer(lines.as_flattened(), &library, steps)?;
            compare_steps(steps)?;
            counted
        }
    };
    let steps = lent.part()[..counted].to_vec();
    lent.holds(&steps).map_err(|e| format!("judge a text: {e}"))
}

/// Each step as a record; all zeros past the last.
fn compare_steps(steps: &[u8]) -> Result<(), String> {
    let record = |[rule, head, from, to, fresh]: [u16; 5]| Step {
        rule,
        head,
        from,
        to,
        fresh,
    };
    let numbers = steps_of(steps);
    for (k, &step) in numbers.iter().enumerate() {
        same("a step", library::step_at(steps, k), record(step))?;
    }
    same(
        "no step",
        library::step_at(steps, numbers.len()),
        record([0; 5]),
    )
}

/// The text's lines one after the other, and one number past them.
fn compare_lines(input: &Input) -> Result<(), String> {
    let feeds = input.text.iter().filter(|&&byte| byte == b'\n').count();
    // The first lines, the last ones, and those past the end.
    let numbers = (0..feeds.min(8)).chain(feeds.saturating_sub(2)..feeds + 3);
    for number in numbers {
        let (start, end) = peer::line_span(&input.text, number);
        let library = library::line_span(&input.text, number);
        same("where a line stands", library, Span { start, end })?;
    }
    Ok(())
}

fn refused(refusal: Refusal) -> JudgeReply {
    JudgeReply {
        refusal: refusal.number,
        line: refusal.line,
        verdict: 0,
        deepest: 0,
        shapes: 0,
        fired: 0,
        share: 0,
        row: 0,
        trail: 0,
        turns: 0,
    }
}

/// The figures that are the same for every right answer; gives the size of the library's steps.
fn compare_figures(library: &JudgeReply, peer: &Verdict) -> Result<usize, String> {
    same("judge: refusal", (library.refusal, library.line), (0, 0))?;
    same(
        "judge: verdict",
        library.verdict,
        if peer.endless { 2 } else { 1 },
    )?;
    same("judge: deepest", library.deepest, peer.deepest)?;
    same("judge: shapes", library.shapes, peer.shapes)?;
    same("judge: fired", library.fired, peer.fired)?;
    same("judge: share", library.share, peer.share)?;
    let steps = library.trail.checked_add(library.turns);
    let size = steps.and_then(|steps| steps.checked_mul(10));
    size.ok_or("judge: more steps than lent".to_string())
}

/// Whether 100 × fired / rules lies in the middle between two whole numbers.
fn is_at_a_half(numbers: &[u32], fired: usize) -> bool {
    let is_rule = |line: &&[u32]| line[0] == u32::from(b'B');
    let rules = numbers.chunks_exact(8).filter(is_rule).count();
    rules > 0 && 200 * fired % rules == 0 && 200 * fired / rules % 2 == 1
}

/// The figures and steps that are the library's choice, by the peer's test of answers.
fn compare_answer(numbers: &[u32], library: &JudgeReply, steps: &[u8]) -> Result<(), String> {
    let verdict = Verdict {
        endless: library.verdict == 2,
        deepest: library.deepest,
        shapes: library.shapes,
        fired: library.fired,
        share: library.share,
        row: library.row,
        trail: library.trail,
        turns: library.turns,
        steps: steps_of(steps),
    };
    peer::verify(numbers, &verdict).map_err(|e| format!("judge: not so: {e}; {verdict:?}"))
}

/// A chase ends exactly where the sheet settles, and has the same counts.
fn compare_chase(numbers: &[u32], verdict: &Verdict, tally: &mut Tally) -> Result<(), String> {
    let cap = if verdict.endless { CHASE / 10 } else { CHASE };
    let chased = peer::chase(numbers, cap);
    if !chased.complete {
        return Ok(());
    }
    tally.chased += 1;
    same("chase: endless", verdict.endless, false)?;
    same("chase: deepest", verdict.deepest, chased.deepest)?;
    same("chase: shapes", verdict.shapes, chased.shapes)?;
    same("chase: fired", verdict.fired, chased.fired)
}

fn compare(random: &mut Random, input: &Input, tally: &mut Tally) -> Result<(), String> {
    compare_read(random, input, tally)?;
    let (refusal, _) = compare_write(random, &input.lines, input.lent_text)?;
    tally.written[refusal as usize] += 1;
    compare_pattern(input, tally)?;
    compare_judge(random, input, tally)?;
    compare_carry(random, input, tally)?;
    compare_forecast(random, input, tally)?;
    compare_zeros(random, input, tally)?;
    compare_text(random, input)?;
    compare_lines(input)?;
    explaining::compare(random, input, &mut tally.explained)
}

impl Zeros {
    fn count_run(&mut self, numbers: &[u32], run: &Result<Run, Refusal>) {
        if zeros_of(numbers, run) == 0 {
            return;
        }
        match run {
            Err(refusal) => self.carried[refusal.number as usize] += 1,
            Ok(run) => {
                self.carried[0] += 1;
                let values = run.records.iter().flat_map(|line| &line[2..]);
                self.to_the_end += usize::from(values.max() == Some(&99_999_999));
            }
        }
    }

    fn count_judged(&mut self, lines: &[Line], answer: &Result<Verdict, Refusal>) {
        let Ok(verdict) = answer else {
            self.judged[11] += 1;
            return;
        };
        self.judged[0] += 1;
        let equal = zeros::all_the_same(lines);
        let Ok(equal) = peer::judge(equal.as_flattened(), ALL_STEPS / 2) else {
            self.other_figures += 1;
            return;
        };
        let figures = |verdict: &Verdict| (verdict.deepest, verdict.shapes, verdict.fired);
        self.other_verdict += usize::from(verdict.endless != equal.endless);
        self.other_figures += usize::from(figures(verdict) != figures(&equal));
    }

    fn print(&self) {
        println!(
            "zeros in rows: judge {}; carry {}, {} times to 99,999,999; were all zeros one \
             number: {} other verdicts, {} other figures",
            counts(&self.judged),
            counts(&self.carried),
            self.to_the_end,
            self.other_verdict,
            self.other_figures,
        );
    }
}

impl Tally {
    fn count(&mut self, style: &'static str, reply: &JudgeReply) {
        self.endless += usize::from(reply.verdict == 2);
        self.figures.push(Figures {
            style,
            endless: reply.verdict == 2,
            deepest: reply.deepest,
            shapes: reply.shapes,
            trail: reply.trail,
            turns: reply.turns,
        });
    }

    fn count_forecast(&mut self, forecast: &Forecast, left: Option<Left>) {
        let figures = [forecast.values, forecast.records, forecast.pairs];
        self.any_beyond += usize::from(figures.contains(&None));
        for (beyond, figure) in self.beyond.iter_mut().zip(figures) {
            *beyond += usize::from(figure.is_none());
            self.largest += usize::from(figure == Some(u32::MAX));
        }
        let Some(left) = left else {
            return;
        };
        self.ended += 1;
        let counts = [left.values, left.records, left.pairs];
        for ((met, figure), count) in self.met.iter_mut().zip(figures).zip(counts) {
            *met += usize::from(figure.is_some_and(|figure| figure as usize == count));
        }
    }

    fn print_statistics(&self) {
        let mut styles: Vec<&str> = self.figures.iter().map(|f| f.style).collect();
        styles.sort_unstable();
        styles.dedup();
        println!("style        settles  endless  deepest  shapes  trail   loop (the most)");
        for style in styles {
            let of_style: Vec<&Figures> =
                self.figures.iter().filter(|f| f.style == style).collect();
            let endless = of_style.iter().filter(|f| f.endless).count();
            let most = |figure: fn(&Figures) -> usize| {
                of_style.iter().map(|f| figure(f)).max().unwrap_or(0)
            };
            println!(
                "{style:12}{:8}{endless:9}{:9}{:8}{:7}{:7}",
                of_style.len() - endless,
                most(|f| f.deepest),
                most(|f| f.shapes),
                most(|f| f.trail),
                most(|f| f.turns),
            );
        }
        self.print_spread("deepest, settles", |f| (!f.endless).then_some(f.deepest));
        self.print_spread("trail, settles", |f| (!f.endless).then_some(f.trail));
        self.print_spread("trail, endless", |f| f.endless.then_some(f.trail));
        self.print_spread("loop, endless", |f| f.endless.then_some(f.turns));
        self.print_spread("shapes", |f| Some(f.shapes));
        let of = |[values, records, pairs]: [usize; 3]| {
            format!("values {values}, records {records}, pairs {pairs}")
        };
        println!("forecast, beyond: {}", of(self.beyond));
        println!(
            "forecast, met exactly by a run to the end: {}",
            of(self.met)
        );
        self.zeros.print();
    }

    /// How many sheets have the figure 0, 1, 2 to 3, 4 to 7 and so on.
    fn print_spread(&self, name: &str, figure: fn(&Figures) -> Option<usize>) {
        let mut counts = [0; 14];
        for figure in self.figures.iter().filter_map(figure) {
            counts[(usize::BITS - figure.leading_zeros()) as usize] += 1;
        }
        print!("{name}:");
        for (size, count) in counts.iter().enumerate().filter(|(_, &count)| count > 0) {
            print!("  {}..: {count}", (1 << size) / 2);
        }
        println!();
    }
}

/// "9000 good, 1: 20, 2: 300": how many were good and how many were refused, by number.
fn counts(of: &[usize]) -> String {
    let refused = of
        .iter()
        .enumerate()
        .skip(1)
        .filter(|(_, &count)| count > 0);
    let refused: Vec<String> = refused
        .map(|(number, count)| format!(", {number}: {count}"))
        .collect();
    format!("{} good{}", of[0], refused.concat())
}

impl fmt::Display for Tally {
    fn fmt(&self, f: &mut fmt::Formatter) -> fmt::Result {
        write!(
            f,
            "read {}; write {}; pattern {}; judge {}; {} settle, {} endless, {} chased to the end, \
             {} shares at a half, {} with zeros in rows; \
             carry {}; {} records by {} firings, {} times exactly 4,096 records; \
             forecast {}; {} with a figure beyond, {} times exactly 4,294,967,295, \
             {} held to a run to the end, {} figures met exactly; \
             explain {}; {} texts of {} sentences compared and read back, the longest of {} bytes, \
             {} times too little lent",
            counts(&self.read),
            counts(&self.written),
            counts(&self.patterns),
            counts(&self.judged),
            self.judged[0] - self.endless,
            self.endless,
            self.chased,
            self.halves,
            self.with_zeros,
            counts(&self.carried),
            self.records,
            self.firings,
            self.full,
            counts(&self.foretold),
            self.any_beyond,
            self.largest,
            self.ended,
            self.met.iter().sum::<usize>(),
            counts(&self.explained.sheets),
            self.explained.texts,
            self.explained.sentences,
            self.explained.longest,
            self.explained.too_short,
        )
    }
}

struct Options {
    seed: u64,
    from: u64,
    count: u64,
    only: bool,
    progress: bool,
    statistics: bool,
}

fn options() -> Result<Options, String> {
    let mut options = Options {
        seed: 1,
        from: 0,
        count: 20_000,
        only: false,
        progress: false,
        statistics: false,
    };
    let mut words = env::args().skip(1);
    while let Some(word) = words.next() {
        let mut number = || {
            let word = words.next().and_then(|word| word.parse().ok());
            word.ok_or("a number is missing".to_string())
        };
        match word.as_str() {
            "--seed" => options.seed = number()?,
            "--count" => options.count = number()?,
            "--only" => (options.from, options.count, options.only) = (number()?, 1, true),
            "--progress" => options.progress = true,
            "--statistics" => options.statistics = true,
            _ => return Err(format!("unknown: {word}")),
        }
    }
    Ok(options)
}

/// Compares one input of a run.
fn run(seed: u64, index: u64, tally: &mut Tally) -> Result<(), String> {
    let mut random = Random::of_input(seed, index);
    let input = catch_unwind(AssertUnwindSafe(|| Input::new(&mut random)));
    let input = input.map_err(|_| format!("input {index}: the generator has stopped"))?;
    run_input(&mut random, &input, &index.to_string(), seed, tally)
}

/// Compares the sheets at the limits of carrying out, each with all rooms; gives their count.
fn run_limits(seed: u64, tally: &mut Tally) -> Result<usize, String> {
    let limits = carrying::limits();
    for (number, limit) in limits.iter().enumerate() {
        for room in carrying::ROOMS {
            let input = Input::of_lines(limit.name, &limit.lines, room);
            let mut random = Random::of_input(seed, number as u64);
            let name = format!("limit-{number}-{room}");
            run_input(&mut random, &input, &name, seed, tally)?;
            let wanted = if room < 32 * MOST_RECORDS {
                12
            } else {
                limit.refusal
            };
            let peer = peer::carry(limit.lines.as_flattened(), room / 4);
            same(limit.name, carry_reply(&peer).refusal, wanted)?;
        }
    }
    Ok(limits.len() * carrying::ROOMS.len())
}

/// Compares the sheets at the limits of forecasting; gives their count.
fn run_forecast_limits(seed: u64, tally: &mut Tally) -> Result<usize, String> {
    let limits = forecasting::limits();
    for (number, limit) in limits.iter().enumerate() {
        let input = Input::of_lines(limit.name, &limit.lines, 32 * MOST_RECORDS);
        let mut random = Random::of_input(seed, number as u64);
        let name = format!("forecast-{number}");
        run_input(&mut random, &input, &name, seed, tally)?;
        let peer = peer::forecast(limit.lines.as_flattened());
        let peer = peer.map(|forecast| [forecast.values, forecast.records, forecast.pairs]);
        let peer = peer.map_err(|refusal| (refusal.number, refusal.line));
        same(limit.name, peer, limit.wanted)?;
    }
    Ok(limits.len())
}

/// Compares an input; on a difference, says which and writes the input to a file.
fn run_input(
    random: &mut Random,
    input: &Input,
    name: &str,
    seed: u64,
    tally: &mut Tally,
) -> Result<(), String> {
    let result = catch_unwind(AssertUnwindSafe(|| compare(random, input, tally)));
    let difference = match result {
        Ok(Ok(())) => return Ok(()),
        Ok(Err(difference)) => difference,
        Err(_) => "the peer has stopped".to_string(),
    };
    let file = format!("difference-{seed}-{name}.txt");
    let written = fs::write(&file, shown(input, &difference));
    let place = written.map_or_else(|e| format!("not written: {e}"), |()| format!("see {file}"));
    Err(format!(
        "input {name} ({}): {difference} ({place})",
        input.style
    ))
}

fn shown(input: &Input, difference: &str) -> String {
    let mut shown = format!(
        "{difference}\n\nLent for lines: {} bytes. ",
        input.lent_lines
    );
    shown += &format!("Text of {} bytes:\n", input.text.len());
    for line in input.text.split_inclusive(|&byte| byte == b'\n') {
        shown += &format!("{}\n", line.escape_ascii());
    }
    shown += &format!("\nLent for text: {} bytes, ", input.lent_text);
    shown += &format!("for steps: {} bytes, ", input.lent_steps);
    shown += &format!("for records: {} bytes. ", input.lent_records);
    shown += &format!("Lent lines of {} bytes:\n", input.lines.len());
    for line in numbers_of(&input.lines).chunks(8) {
        shown += &format!("{line:?}\n");
    }
    shown + &format!("\nFields: {:?}\n", numbers_of(&input.fields))
}

fn main() -> ExitCode {
    let options = match options() {
        Ok(options) => options,
        Err(error) => {
            eprintln!("compare: {error}");
            return ExitCode::from(2);
        }
    };
    let mut tally = Tally::default();
    let start = Instant::now();
    let limits = match options.only {
        true => Ok((0, 0)),
        false => run_limits(options.seed, &mut tally).and_then(|carrying| {
            let forecasting = run_forecast_limits(options.seed, &mut tally)?;
            Ok((carrying, forecasting))
        }),
    };
    let (carrying, forecasting) = match limits {
        Ok(limits) => limits,
        Err(difference) => {
            println!("seed {}: {difference}", options.seed);
            return ExitCode::FAILURE;
        }
    };
    for index in options.from..options.from + options.count {
        if let Err(difference) = run(options.seed, index, &mut tally) {
            println!("seed {}: {difference}", options.seed);
            return ExitCode::FAILURE;
        }
        let done = index + 1 - options.from;
        if options.progress && done % 1_000 == 0 {
            println!("{done} inputs, {:.1} s", start.elapsed().as_secs_f64());
        }
    }
    if options.statistics {
        tally.print_statistics();
    }
    println!(
        "seed {}, {} inputs, {carrying} at the limits of carrying out and {forecasting} at those \
         of forecasting: {tally}; 0 differences",
        options.seed, options.count
    );
    ExitCode::SUCCESS
}
