//! The recorder: random maps, questions about them, and the given Rust's answers on standard output.
//!
//! `record --text|--antt [--seed S] [--maps M] [--steps N] [--lists L] [--ports P]`
//! `record --prepare FOLDER`
//!
//! The grammar of the text stands at the head of `text.rs`. Figures go to standard error. With `--prepare` it writes the stored
//! cases of preparing, and what is to be written of them, to the folder of the program `prepare_run`.

use oracle::asking::{record, Amount};
use oracle::drawing;
use oracle::figures::Figures;
use oracle::prepare_cases::Cases;
use oracle::random::Random;
use oracle::recording::Recording;
use oracle::{antt, text};
use std::path::Path;
use std::process::ExitCode;

const USAGE: &str = "record --text|--antt [--seed S] [--maps M] [--steps N] [--lists L] [--ports P]
  --seed S    the random numbers' seed (1)
  --maps M    how many maps (20)
  --steps N   nodes in a map, at most (7)
  --lists L   lists of nodes a map, and as many with ports (4; for --antt 2)
  --ports P   ports a map whose lines are asked, at most (all; for --antt 4)
record --prepare FOLDER";

/// Limits of document 01 that a random map of so many steps surely keeps.
const MOST_STEPS: usize = 100;

#[derive(Clone, Copy, PartialEq)]
enum Format {
    Text,
    Antt,
}

struct Wishes {
    format: Format,
    seed: u64,
    maps: usize,
    steps: usize,
    amount: Amount,
    /// As given, for the file's head.
    command: String,
}

fn main() -> ExitCode {
    let words: Vec<String> = std::env::args().skip(1).collect();
    let done = match words.as_slice() {
        [mode, folder] if mode == "--prepare" => {
            Cases::all().write(Path::new(folder)).map_err(|problem| format!("{folder}: {problem}"))
        }
        _ => wishes(&words).map(|wishes| run(&wishes)),
    };
    match done {
        Ok(()) => ExitCode::SUCCESS,
        Err(problem) => {
            eprintln!("record: {problem}\nusage: {USAGE}");
            ExitCode::FAILURE
        }
    }
}

/// Reads the command line.
fn wishes(words: &[String]) -> Result<Wishes, String> {
    let format = match words.first().map(String::as_str) {
        Some("--text") => Format::Text,
        Some("--antt") => Format::Antt,
        _ => return Err("the first word is --text, --antt or --prepare".to_string()),
    };
    let (maps, steps, lists, ports) = match format {
        Format::Text => (20, 7, 4, usize::MAX),
        Format::Antt => (20, 7, 2, 4),
    };
    let amount = Amount { lists, ports };
    let mut wishes = Wishes { format, seed: 1, maps, steps, amount, command: words.join(" ") };
    for pair in words[1..].chunks(2) {
        let [name, value] = pair else {
            return Err(format!("{} wants a number", pair[0]));
        };
        let number: usize = value.parse().map_err(|_| format!("{name} wants a number, not {value}"))?;
        match name.as_str() {
            "--seed" => wishes.seed = number as u64,
            "--maps" => wishes.maps = number,
            "--steps" if (1..=MOST_STEPS).contains(&number) => wishes.steps = number,
            "--steps" => return Err(format!("--steps is 1 to {MOST_STEPS}")),
            "--lists" => wishes.amount.lists = number,
            "--ports" => wishes.amount.ports = number,
            _ => return Err(format!("unknown: {name}")),
        }
    }
    Ok(wishes)
}

fn run(wishes: &Wishes) {
    let mut random = Random::new(wishes.seed);
    let recordings: Vec<Recording> = (0..wishes.maps)
        .map(|_| {
            let map = drawing::map(&mut random, wishes.steps);
            record(&mut random, &map, wishes.amount)
        })
        .collect();

    tell_figures(&recordings);
    match wishes.format {
        Format::Text => print_text(&recordings),
        Format::Antt => print_antt(wishes, &recordings),
    }
}

fn tell_figures(recordings: &[Recording]) {
    let mut figures = Figures::default();
    recordings.iter().for_each(|recording| figures.add(recording));
    figures.lines().iter().for_each(|line| eprintln!("{line}"));
}

fn print_text(recordings: &[Recording]) {
    for (number, recording) in recordings.iter().enumerate() {
        text::lines(number, recording).iter().for_each(|line| println!("{line}"));
    }
}

fn print_antt(wishes: &Wishes, recordings: &[Recording]) {
    println!("-- Answers of the given Rust (portgraph 88172a3c8e) on random maps, computed by the definitions too. Made with");
    println!("-- `differential/record {}`, seed {}, and laid out by `rt fmt`. Rests on Recording.", wishes.command, wishes.seed);
    println!("{}", antt::USES);
    for (number, recording) in recordings.iter().enumerate() {
        println!();
        antt::definition(number, recording).iter().for_each(|line| println!("{line}"));
    }
    println!();
    antt::list_of_all(recordings.len()).iter().for_each(|line| println!("{line}"));
}
