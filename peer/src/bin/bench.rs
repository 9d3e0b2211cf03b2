//! Times the proved library against the peer on the same inputs in one run, reading
//! and judging apart, and prints a table; then explaining; then carrying out and forecasting,
//! with rows and rules in three orders; then judging as shapes and rules grow.
//!
//!     bench [--svg FILE] [--quick] [--explaining] [--carrying] [--forecasting]
//!
//! `--svg` also draws the times by the number of rules and of shapes. `--explaining` prints the
//! table of explaining alone, `--carrying` that of carrying out, `--forecasting` those of
//! forecasting.

#[path = "bench/chart.rs"]
mod chart;
#[allow(dead_code)] // reading, judging, explaining, carrying out and forecasting only
#[path = "../library.rs"]
mod library;
#[path = "bench/timing.rs"]
mod timing;

use chart::{drawn, Panel, Style};
use peer::random::series::{self, End, Family, Order};
use peer::random::sheets::Sheet;
use peer::random::{carrying_series, forecasting_series, Random};
use std::process::ExitCode;
use std::{env, fs};
use timing::{carry_times, explain_times, forecast_times, forecast_to_judge, growing_times};
use timing::{judge_times, read_times, Effort, Ready, Times};

const SEED: u64 = 7;

/// The longest text that is read.
const MOST_BYTES: usize = 32_768;

fn print_families(effort: &Effort) {
    println!(
        "Microseconds a sheet, best of {}; ratio: library / peer, median; –: too long to read.\n",
        effort.repetitions
    );
    println!("| sheets | read: library | peer | ratio | judge: library | peer | ratio |");
    println!("|---|---:|---:|---:|---:|---:|---:|");
    for family in series::families(&mut Random::new(SEED)) {
        let sheets: Vec<Ready> = family.sheets.iter().map(Ready::new).collect();
        let readable = sheets.iter().all(|sheet| sheet.text.len() <= MOST_BYTES);
        let read = readable.then(|| read_times(effort, &sheets));
        let judge = judge_times(effort, &sheets);
        let read = read.map_or("– | – | –".to_string(), cells);
        println!("| {} | {read} | {} |", family.name, cells(judge));
    }
}

fn cells(times: Times) -> String {
    format!(
        "{:.1} | {:.1} | {:.2}",
        times.library, times.peer, times.ratio
    )
}

/// Explaining: the sheets of judging that are endless.
fn print_explaining(effort: &Effort) {
    println!("\nExplaining: microseconds a sheet, judging it first; sentences: of all sheets of a");
    println!("family that are endless, as the peer explains them.\n");
    println!("| sheets | endless | sentences | library | peer | ratio |");
    println!("|---|---:|---:|---:|---:|---:|");
    for family in series::families(&mut Random::new(SEED)) {
        let mut ready: Vec<Ready> = family.sheets.iter().map(Ready::new).collect();
        ready.retain(|sheet| sheet.explained().is_some());
        if ready.is_empty() {
            continue;
        }
        let sentences: usize = ready.iter().filter_map(Ready::explained).sum();
        let counts = format!("{} of {} | {sentences}", ready.len(), family.sheets.len());
        let times = cells(explain_times(effort, &ready));
        // The family that comes before "the same" settles and is not in this table.
        let name = family
            .name
            .replace("the same", "512 shapes in 64 layers, 256 rules");
        println!("| {name} | {counts} | {times} |");
    }
}

const ORDERS: [Order; 3] = [Order::Along, Order::Shuffled, Order::Against];

/// Carrying out, with the rows and rules of each sheet in each order.
fn print_carrying(effort: &Effort) {
    println!("\nCarrying out: microseconds a sheet, rows and rules in order, shuffled, reversed;");
    println!("records and firings: of all sheets of a family.\n");
    println!(
        "| sheets | records | firings | library | peer | ratio | shuffled: library | peer | ratio \
         | reversed: library | peer | ratio |"
    );
    println!("|---|---:|---:|---:|---:|---:|---:|---:|---:|---:|---:|---:|");
    let mut random = Random::new(SEED);
    for family in carrying_series::families(&mut random) {
        let times = ORDERS.map(|order| {
            let ready = in_order(&mut random, &family, order);
            cells(carry_times(effort, &ready))
        });
        let counts = run_counts(&family.sheets);
        println!("| {} | {counts} | {} |", family.name, times.join(" | "));
    }
}

/// The sheets of a family with their rows and rules in this order.
fn in_order(random: &mut Random, family: &Family, order: Order) -> Vec<Ready> {
    let sheets = family.sheets.iter().cloned();
    let ordered = sheets.map(|sheet| carrying_series::in_order(random, sheet, order));
    ordered.map(|sheet| Ready::new(&sheet)).collect()
}

/// Forecasting: sheets of its own and those of carrying out and of judging, the first two in
/// each order of rows and rules.
fn print_forecasting(effort: &Effort) {
    println!("\nForecasting: microseconds a sheet, rows and rules in order, shuffled, reversed;");
    println!("to judging: the library's forecasting / its judging of the same sheets, median;");
    println!("foretold: how many sheets are not refused, and how many have a figure beyond.\n");
    let part = "library | peer | ratio | to judging";
    println!("| sheets | foretold | beyond | {part} | shuffled: {part} | reversed: {part} |");
    println!("|---|---:|---:|{}", "---:|".repeat(12));
    let mut random = Random::new(SEED);
    let mut most: f64 = 0.0;
    let own = forecasting_series::families();
    let carrying = carrying_series::families(&mut random);
    for family in own.iter().chain(&carrying) {
        let times = ORDERS.map(|order| {
            let ready = in_order(&mut random, family, order);
            forecast_cells(effort, &ready, &mut most)
        });
        let counts = forecast_counts(&family.sheets);
        println!("| {} | {counts} | {} |", family.name, times.join(" | "));
    }
    println!("\nThe sheets of judging, as they stand:\n");
    println!("| sheets | foretold | beyond | {part} |");
    println!("|---|---:|---:|---:|---:|---:|---:|");
    for family in series::families(&mut Random::new(SEED)) {
        let ready: Vec<Ready> = family.sheets.iter().map(Ready::new).collect();
        let times = forecast_cells(effort, &ready, &mut most);
        let counts = forecast_counts(&family.sheets);
        println!("| {} | {counts} | {times} |", family.name);
    }
    let smallest = [Ready::new(&forecasting_series::smallest())];
    let times = forecast_cells(effort, &smallest, &mut most);
    println!("\nOne row and one rule, most of it what judging clears: {part}: {times}.");
    println!("\nForecasting takes the library at most {most:.2} times as long as judging.");
}

fn forecast_cells(effort: &Effort, sheets: &[Ready], most: &mut f64) -> String {
    let times = forecast_times(effort, sheets);
    let to_judging = forecast_to_judge(effort, sheets);
    *most = most.max(to_judging);
    format!("{} | {to_judging:.2}", cells(times))
}

/// How many sheets are foretold, and how many of them with a figure beyond.
fn forecast_counts(sheets: &[Sheet]) -> String {
    let all = sheets
        .iter()
        .filter_map(|sheet| Ready::new(sheet).forecast());
    let all: Vec<peer::Forecast> = all.collect();
    let beyond = all.iter().filter(|forecast| {
        let figures = [forecast.values, forecast.records, forecast.pairs];
        figures.contains(&None)
    });
    format!("{} of {} | {}", all.len(), sheets.len(), beyond.count())
}

/// How many records and firings there are in all.
fn run_counts(sheets: &[Sheet]) -> String {
    let runs = sheets.iter().filter_map(|sheet| Ready::new(sheet).run());
    let runs: Vec<peer::Run> = runs.collect();
    let records: usize = runs.iter().map(|run| run.records.len()).sum();
    let firings: usize = runs.iter().map(|run| run.firings).sum();
    format!("{records} | {firings}")
}

/// Judging of layers that grow in shapes or in rules, with their rows in each order.
struct Growth {
    title: &'static str,
    across: &'static str,
    unit: &'static str,
    sizes: Vec<usize>,
    links: Vec<usize>,
    /// For each order, for each size.
    times: Vec<Vec<Times>>,
}

fn growth(
    effort: &Effort,
    [title, across, unit]: [&'static str; 3],
    sizes: &[usize],
    each_and_rules: fn(usize) -> (usize, usize),
) -> Growth {
    let sheet = |&size: &usize, order| {
        let (each, rules) = each_and_rules(size);
        series::layers(&mut Random::new(SEED), each, rules, order, End::Stops)
    };
    let links = |size| series::links(&sheet(size, Order::Along));
    let times = |order| {
        let ready = |size| vec![Ready::new(&sheet(size, order))];
        let sets: Vec<Vec<Ready>> = sizes.iter().map(ready).collect();
        growing_times(effort, &sets, judge_times)
    };
    Growth {
        title,
        across,
        unit,
        sizes: sizes.to_vec(),
        links: sizes.iter().map(links).collect(),
        times: ORDERS.map(times).to_vec(),
    }
}

/// Shapes from 64 to 512, and rules from 16 to 256.
fn growths(effort: &Effort) -> [Growth; 2] {
    let by_shapes = [
        "Judging, 64 layers, 256 rules",
        "shapes, about 160 links each",
        "shapes",
    ];
    let by_rules = [
        "Judging, 64 layers, 512 shapes",
        "rules, about 320 links each",
        "rules",
    ];
    let shapes = [64, 128, 192, 256, 320, 384, 448, 512];
    let rules = [16, 32, 64, 96, 128, 160, 192, 224, 256];
    [
        growth(effort, by_shapes, &shapes, |shapes| (shapes / 64, 256)),
        growth(effort, by_rules, &rules, |rules| (8, rules)),
    ]
}

fn print_growth(growth: &Growth) {
    println!("\n{}: microseconds a sheet, library / peer;", growth.title);
    println!("a link: nanoseconds of the library a link, in its slowest order.\n");
    println!(
        "| {} | links | in order | shuffled | reversed | a link |",
        growth.unit
    );
    println!("|---:|---:|---:|---:|---:|---:|");
    for (at, (size, links)) in growth.sizes.iter().zip(&growth.links).enumerate() {
        let here = || growth.times.iter().map(|times| times[at]);
        let cells: Vec<String> = here()
            .map(|times| format!("{:.0} / {:.0}", times.library, times.peer))
            .collect();
        let slowest = here().map(|times| times.library).fold(0.0, f64::max);
        let a_link = 1e3 * slowest / *links as f64;
        println!("| {size} | {links} | {} | {a_link:.1} |", cells.join(" | "));
    }
}

const LIBRARY: [Style; 3] = styles(
    "#1f5fa8",
    ["library", "library, shuffled", "library, reversed"],
);
const PEER: [Style; 3] = styles("#c2571a", ["peer", "peer, shuffled", "peer, reversed"]);
const NOTE: [&str; 3] = [
    "In the lower panels, a sheet's rows stand",
    "in the order in which numbers flow through it,",
    "or shuffled, or reversed.",
];
const DOWN: &str = "microseconds a sheet";

const fn styles(colour: &'static str, names: [&'static str; 3]) -> [Style; 3] {
    let [along, shuffled, against] = names;
    [
        style(along, colour, ""),
        style(shuffled, colour, "9 4"),
        style(against, colour, "2 4"),
    ]
}

const fn style(name: &'static str, colour: &'static str, dashes: &'static str) -> Style {
    Style {
        name,
        colour,
        dashes,
    }
}

/// The lines of the library and of the peer, for so many orders.
fn lines(times: &[Vec<Times>]) -> Vec<(Style, Vec<f64>)> {
    let of = |style: &Style, times: &[Times], side: fn(&Times) -> f64| {
        (*style, times.iter().map(side).collect())
    };
    let library = LIBRARY.iter().zip(times);
    let peer = PEER.iter().zip(times);
    let library = library.map(|(style, times)| of(style, times, |t| t.library));
    let peer = peer.map(|(style, times)| of(style, times, |t| t.peer));
    library.chain(peer).collect()
}

fn panel(
    title: &'static str,
    across: &'static str,
    places: &[usize],
    times: &[Vec<Times>],
) -> Panel {
    Panel {
        title,
        down: DOWN,
        across,
        places: places.to_vec(),
        lines: lines(times),
    }
}

fn panels(effort: &Effort, growths: &[Growth]) -> Vec<Panel> {
    let sizes: Vec<usize> = (1..=8).map(|n| 32 * n).collect();
    let sets: Vec<Vec<Ready>> = sizes.iter().map(|&rules| sheets_of_rules(rules)).collect();
    let shapes: Vec<usize> = (1..=8).map(|n| 64 * n).collect();
    let shaped = |n| series::carried_patterns(&mut Random::new(SEED), n);
    let shaped: Vec<Vec<Ready>> = (1..=8).map(|n| vec![Ready::new(&shaped(n))]).collect();
    let read = growing_times(effort, &sets, read_times);
    let judge = growing_times(effort, &sets, judge_times);
    let patterns = growing_times(effort, &shaped, judge_times);
    let mut panels = vec![
        panel("Reading, 30 kinds, 100 rows", "rules", &sizes, &[read]),
        panel("Judging, 30 kinds, 100 rows", "rules", &sizes, &[judge]),
        panel(
            "Judging, 64 kinds, 128 rules",
            "shapes",
            &shapes,
            &[patterns],
        ),
    ];
    for growth in growths {
        panels.push(panel(
            growth.title,
            growth.across,
            &growth.sizes,
            &growth.times,
        ));
    }
    panels
}

/// Eight random sheets of so many rules.
fn sheets_of_rules(rules: usize) -> Vec<Ready> {
    let mut random = Random::new(SEED);
    let all =
        std::iter::repeat_with(|| Ready::new(&series::rules_and_rows(&mut random, rules, 100)));
    all.filter(Ready::good).take(8).collect()
}

fn main() -> ExitCode {
    let words: Vec<String> = env::args().skip(1).collect();
    let quick = words.iter().any(|word| word == "--quick");
    let effort = Effort {
        repetitions: if quick { 5 } else { 25 },
        least: if quick { 500.0 } else { 3_000.0 },
    };
    if words.iter().any(|word| word == "--explaining") {
        print_explaining(&effort);
        return ExitCode::SUCCESS;
    }
    if words.iter().any(|word| word == "--carrying") {
        print_carrying(&effort);
        return ExitCode::SUCCESS;
    }
    if words.iter().any(|word| word == "--forecasting") {
        print_forecasting(&effort);
        return ExitCode::SUCCESS;
    }
    print_families(&effort);
    print_explaining(&effort);
    print_carrying(&effort);
    print_forecasting(&effort);
    let growths = growths(&effort);
    growths.iter().for_each(print_growth);
    let file = words
        .iter()
        .position(|word| word == "--svg")
        .and_then(|at| words.get(at + 1));
    if let Some(file) = file {
        let picture = drawn(&panels(&effort, &growths), &NOTE);
        if let Err(error) = fs::write(file, picture) {
            eprintln!("bench: {file}: {error}");
            return ExitCode::FAILURE;
        }
    }
    ExitCode::SUCCESS
}
