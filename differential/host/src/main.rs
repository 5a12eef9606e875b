//! Runs the library beside the given Rust, on 01's domain, and beside a plain reading of 01 and 02, everywhere. One difference ends it.
//!
//! `beside [--seed S] [--count C | --seconds T]`
//! `beside --replay FILE`
//!
//! For a seed and a count the output is always the same.

mod bench;
mod every_path;
mod figures;
mod kinds;
mod library;
mod subject;
mod text;
mod wishes;
mod written;

use bench::{Bench, Compared};
use kinds::pairs::PairMaps;
use kinds::small::SmallMaps;
use kinds::{drawn, examples, layers, limits, maps, pairs, paper, small, tables};
use oracle::random::Random;
use plain::{asker, call, lists, reading};
use std::process::ExitCode;
use std::time::{Duration, Instant};
use wishes::{Until, Wishes};

/// Calls on small maps in one round, and on maps of linked pairs.
const SMALL: usize = 3000;
const PAIRS: usize = 3000;

fn main() -> ExitCode {
    let words: Vec<String> = std::env::args().skip(1).collect();
    let wishes = match Wishes::read(&words) {
        Ok(wishes) => wishes,
        Err(problem) => {
            eprintln!("beside: {problem}\nusage: {}", wishes::USAGE);
            return ExitCode::from(2);
        }
    };
    match wishes {
        Wishes::Run { seed, until } => run(seed, until),
        Wishes::Replay { file } => replay(&file),
    }
}

fn run(seed: u64, until: Until) -> ExitCode {
    let mut bench = Bench::default();
    let mut small_maps = SmallMaps::new();
    let mut pair_maps = PairMaps::default();
    println!("differential: seed {seed}, {until}");
    let compared = compare(&mut bench, &mut small_maps, &mut pair_maps, seed, until);
    if let Err(difference) = compared {
        println!("{}", difference.0);
        println!("differential: a DIFFERENCE after {} calls without one", bench.calls());
        return ExitCode::FAILURE;
    }
    bench.figures.lines().iter().for_each(|line| println!("{line}"));
    let complete =
        small_maps.complete().map_or("none complete".to_string(), |size| format!("all of size {size} and less"));
    println!(
        "small maps: {} of up to 4 nodes, {complete} (a map's size is its nodes, links and unlinked ports together)",
        small_maps.count
    );
    println!("linked pairs: {}", pair_maps.complete());
    println!("differential: {} calls compared, no difference", bench.calls());
    ExitCode::SUCCESS
}

/// What comes once, and then round after round until there is enough.
fn compare(
    bench: &mut Bench,
    small_maps: &mut SmallMaps,
    pair_maps: &mut PairMaps,
    seed: u64,
    until: Until,
) -> Compared<()> {
    let start = Instant::now();
    let mut random = Random::new(seed);
    paper::all(bench)?;
    examples::all(bench)?;
    limits::all(bench, &mut random)?;
    let enough = |bench: &Bench| match until {
        Until::Count(count) => bench.calls() >= count,
        Until::Seconds(seconds) => start.elapsed() >= Duration::from_secs(seconds),
    };
    let mut round = 0;
    while !enough(bench) {
        small::round(bench, small_maps, SMALL)?;
        pairs::round(bench, pair_maps, PAIRS)?;
        drawn::round(bench, &mut random, round)?;
        layers::round(bench, &mut random)?;
        tables::round(bench, &mut random, round)?;
        maps::round(bench, &mut random)?;
        round += 1;
    }
    eprintln!("{round} rounds in {:.1} seconds", start.elapsed().as_secs_f64());
    Ok(())
}

/// One call again, from the text that a difference was printed with: what the library leaves, and what the reading has.
fn replay(file: &str) -> ExitCode {
    let read = std::fs::read_to_string(file).map_err(|problem| format!("{file}: {problem}"));
    let call = match read.and_then(|text| text::read(&text)) {
        Ok(call) => call,
        Err(problem) => {
            eprintln!("beside: {problem}");
            return ExitCode::from(2);
        }
    };
    let (left, plain) = (library::outcome(&call), reading::outcome(&call));
    println!("the library left:\n{}", text::outcome(&call, &left));
    println!("the reading has:\n{}", text::outcome(&call, &plain));
    match left == plain {
        true => ExitCode::SUCCESS,
        false => ExitCode::FAILURE,
    }
}
