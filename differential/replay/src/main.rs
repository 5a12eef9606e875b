//! The recorder of the program `replay`: `record_replay FOLDER [--seed S] [--maps M] [--steps N] [--lists L] [--ports P] [--refusals R]`.
//!
//! It writes the file of answers, and what the program is to write of it, below the program's folder. Answers are the given Rust's, and each
//! of them is held against the reading of 01 too; refusals, which the Rust does not have, are the reading's. What a line means stands in the
//! file's head (`file.rs`).

mod asked;
mod file;
mod line;
mod refused;

use oracle::asking::Amount;
use std::path::Path;
use std::process::ExitCode;

const USAGE: &str = "record_replay FOLDER [--seed S] [--maps M] [--steps N] [--lists L] [--ports P] [--refusals R]";

/// Limits of document 01 that a random map of so many steps surely keeps.
const MOST_STEPS: usize = 100;

/// What is drawn.
pub struct Drawn {
    pub seed: u64,
    pub maps: usize,
    /// Nodes in a map, at most; most maps have fewer.
    pub steps: usize,
    pub amount: Amount,
    /// Refused questions a map, at most.
    pub refusals: usize,
}

fn main() -> ExitCode {
    let words: Vec<String> = std::env::args().skip(1).collect();
    let done = match words.as_slice() {
        [folder, words @ ..] => wishes(words)
            .and_then(|drawn| file::write(Path::new(folder), &drawn).map_err(|problem| format!("{folder}: {problem}"))),
        [] => Err("no folder is named".to_string()),
    };
    match done {
        Ok(()) => ExitCode::SUCCESS,
        Err(problem) => {
            eprintln!("record_replay: {problem}\nusage: {USAGE}");
            ExitCode::FAILURE
        }
    }
}

/// Reads the command line.
fn wishes(words: &[String]) -> Result<Drawn, String> {
    let mut drawn = Drawn { seed: 1, maps: 60, steps: 60, amount: Amount { lists: 6, ports: 10 }, refusals: 12 };
    for pair in words.chunks(2) {
        let [name, value] = pair else {
            return Err(format!("{} wants a number", pair[0]));
        };
        let number: usize = value.parse().map_err(|_| format!("{name} wants a number, not {value}"))?;
        match name.as_str() {
            "--seed" => drawn.seed = number as u64,
            "--maps" => drawn.maps = number,
            "--steps" if (1..=MOST_STEPS).contains(&number) => drawn.steps = number,
            "--steps" => return Err(format!("--steps is 1 to {MOST_STEPS}")),
            "--lists" => drawn.amount.lists = number,
            "--ports" => drawn.amount.ports = number,
            "--refusals" => drawn.refusals = number,
            _ => return Err(format!("unknown: {name}")),
        }
    }
    Ok(drawn)
}
