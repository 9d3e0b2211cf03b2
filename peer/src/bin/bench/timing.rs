//! Times of reading, judging, explaining, carrying out and forecasting, by the library and by
//! the peer, in turn on the same sheets.
//! Inputs and lent memory are ready before; lent memory is not cleared between calls. Times
//! are this thread's processor time, so that other work on the machine counts little.

use crate::library;
use peer::random::bytes_of;
use peer::random::sheets::{text_of, Sheet};
use std::hint::black_box;

const STEPS: usize = 40_960;
const RECORDS: usize = 131_072;

#[repr(C)]
struct Timespec {
    seconds: i64,
    nanoseconds: i64,
}

const CLOCK_THREAD_CPUTIME_ID: i32 = 3;

extern "C" {
    fn clock_gettime(clock: i32, time: *mut Timespec) -> i32;
}

/// This thread's processor time in microseconds.
fn now() -> f64 {
    let mut time = Timespec {
        seconds: 0,
        nanoseconds: 0,
    };
    // Safety: the C library writes the struct whose address it gets.
    unsafe { clock_gettime(CLOCK_THREAD_CPUTIME_ID, &mut time) };
    time.seconds as f64 * 1e6 + time.nanoseconds as f64 / 1e3
}

/// A sheet as each implementation takes it.
pub struct Ready {
    pub text: Vec<u8>,
    lines: Vec<u8>,
    numbers: Vec<u32>,
}

impl Ready {
    pub fn new(sheet: &Sheet) -> Ready {
        let lines = sheet.lines();
        let numbers = lines.as_flattened().to_vec();
        Ready {
            text: text_of(&lines),
            lines: bytes_of(&numbers),
            numbers,
        }
    }

    pub fn good(&self) -> bool {
        let read = peer::read(&self.text, self.numbers.len() / 8);
        read.is_ok() && peer::judge(&self.numbers, STEPS / 2).is_ok()
    }

    /// How many steps the peer shows of an endless sheet; none where it settles.
    pub fn explained(&self) -> Option<usize> {
        let verdict = peer::judge(&self.numbers, STEPS / 2).ok()?;
        verdict.endless.then_some(verdict.steps.len())
    }

    /// The peer's run; none where it is refused.
    pub fn run(&self) -> Option<peer::Run> {
        peer::carry(&self.numbers, RECORDS / 4).ok()
    }

    /// The peer's forecast; none where it is refused.
    pub fn forecast(&self) -> Option<peer::Forecast> {
        peer::forecast(&self.numbers).ok()
    }
}

/// How often to measure, and for how many microseconds at least.
pub struct Effort {
    pub repetitions: usize,
    pub least: f64,
}

/// Best times for one sheet, in microseconds, and the median of library / peer.
#[derive(Clone, Copy)]
pub struct Times {
    pub library: f64,
    pub peer: f64,
    pub ratio: f64,
}

/// Times two calls on all sheets, one after the other, again and again.
fn times(
    effort: &Effort,
    sheets: &[Ready],
    mut library: impl FnMut(&Ready),
    mut peer: impl FnMut(&Ready),
) -> Times {
    let mut once = |rounds: usize, by_library: bool| {
        let start = now();
        for _ in 0..rounds {
            for sheet in sheets {
                if by_library {
                    library(sheet);
                } else {
                    peer(sheet);
                }
            }
        }
        now() - start
    };
    let mut rounds = 1;
    while once(rounds, true).min(once(rounds, false)) < effort.least {
        rounds *= 2;
    }
    let pairs: Vec<(f64, f64)> = (0..effort.repetitions)
        .map(|_| (once(rounds, true), once(rounds, false)))
        .collect();
    let each = 1.0 / (rounds * sheets.len()) as f64;
    let best = |of: fn(&(f64, f64)) -> f64| pairs.iter().map(of).fold(f64::INFINITY, f64::min);
    Times {
        library: each * best(|pair| pair.0),
        peer: each * best(|pair| pair.1),
        ratio: median(pairs.iter().map(|pair| pair.0 / pair.1).collect()),
    }
}

fn median(mut numbers: Vec<f64>) -> f64 {
    numbers.sort_by(f64::total_cmp);
    numbers[numbers.len() / 2]
}

pub fn read_times(effort: &Effort, sheets: &[Ready]) -> Times {
    let room = sheets.iter().map(|sheet| sheet.lines.len()).max();
    let mut lent = vec![0; room.unwrap_or(0)];
    times(
        effort,
        sheets,
        |sheet| {
            let lines = &mut lent[..sheet.lines.len()];
            black_box(library::read(black_box(&sheet.text), lines));
        },
        |sheet| {
            let lines = sheet.numbers.len() / 8;
            let _ = black_box(peer::read(black_box(&sheet.text), lines));
        },
    )
}

pub fn judge_times(effort: &Effort, sheets: &[Ready]) -> Times {
    let mut lent = vec![0; STEPS];
    times(
        effort,
        sheets,
        |sheet| {
            black_box(library::judge(black_box(&sheet.lines), &mut lent));
        },
        |sheet| {
            let _ = black_box(peer::judge(black_box(&sheet.numbers), STEPS / 2));
        },
    )
}

/// Each has a text of its own that is long enough for any sheet.
pub fn explain_times(effort: &Effort, sheets: &[Ready]) -> Times {
    let mut lent = vec![0; peer::MOST_EXPLAINED];
    let mut lent_to_peer = lent.clone();
    times(
        effort,
        sheets,
        |sheet| {
            black_box(library::explain(black_box(&sheet.lines), &mut lent));
        },
        |sheet| {
            let numbers = black_box(&sheet.numbers);
            let _ = black_box(peer::explain(numbers, &mut lent_to_peer));
        },
    )
}

pub fn carry_times(effort: &Effort, sheets: &[Ready]) -> Times {
    let mut lent = vec![0; RECORDS];
    times(
        effort,
        sheets,
        |sheet| {
            black_box(library::carry(black_box(&sheet.lines), &mut lent));
        },
        |sheet| {
            let _ = black_box(peer::carry(black_box(&sheet.numbers), RECORDS / 4));
        },
    )
}

pub fn forecast_times(effort: &Effort, sheets: &[Ready]) -> Times {
    times(
        effort,
        sheets,
        |sheet| {
            black_box(library::forecast(black_box(&sheet.lines)));
        },
        |sheet| {
            let _ = black_box(peer::forecast(black_box(&sheet.numbers)));
        },
    )
}

/// The median of the library's times of forecasting / judging.
pub fn forecast_to_judge(effort: &Effort, sheets: &[Ready]) -> f64 {
    let mut lent = vec![0; STEPS];
    let both = times(
        effort,
        sheets,
        |sheet| {
            black_box(library::forecast(black_box(&sheet.lines)));
        },
        |sheet| {
            black_box(library::judge(black_box(&sheet.lines), &mut lent));
        },
    );
    both.ratio
}

/// The times of one of the calls on growing sets of sheets: the best of three passes over
/// all sets, a third of the repetitions each, so that a busy moment marks no single one.
pub fn growing_times(
    effort: &Effort,
    sets: &[Vec<Ready>],
    times: fn(&Effort, &[Ready]) -> Times,
) -> Vec<Times> {
    let third = Effort {
        repetitions: effort.repetitions.div_ceil(3),
        ..*effort
    };
    let pass = || sets.iter().map(|sheets| times(&third, sheets));
    let mut best: Vec<Times> = pass().collect();
    for _ in 1..3 {
        for (kept, new) in best.iter_mut().zip(pass()) {
            kept.library = kept.library.min(new.library);
            kept.peer = kept.peer.min(new.peer);
        }
    }
    best
}
