//! The command line.

use std::fmt;

pub const USAGE: &str = "beside [--seed S] [--count C | --seconds T]
  --seed S     the random numbers' seed (1)
  --count C    stop when so many calls were compared (1000000)
  --seconds T  stop after so many seconds
beside --replay FILE   one call again, from the text of a difference";

#[derive(Clone, Copy)]
pub enum Until {
    Count(usize),
    Seconds(u64),
}

impl fmt::Display for Until {
    fn fmt(&self, out: &mut fmt::Formatter) -> fmt::Result {
        match self {
            Until::Count(count) => write!(out, "until {count} calls are compared"),
            Until::Seconds(seconds) => write!(out, "for {seconds} seconds"),
        }
    }
}

pub enum Wishes {
    Run { seed: u64, until: Until },
    Replay { file: String },
}

impl Wishes {
    pub fn read(words: &[String]) -> Result<Self, String> {
        if let [mode, file] = words {
            if mode == "--replay" {
                return Ok(Wishes::Replay { file: file.clone() });
            }
        }
        let (mut seed, mut until) = (1, None);
        for pair in words.chunks(2) {
            let [name, value] = pair else {
                return Err(format!("{} wants a number", pair[0]));
            };
            let number: u64 = value.parse().map_err(|_| format!("{name} wants a number, not {value}"))?;
            let wish = match name.as_str() {
                "--seed" => {
                    seed = number;
                    continue;
                }
                "--count" => Until::Count(number as usize),
                "--seconds" => Until::Seconds(number),
                _ => return Err(format!("unknown: {name}")),
            };
            if until.replace(wish).is_some() {
                return Err("one of --count and --seconds".to_string());
            }
        }
        Ok(Wishes::Run { seed, until: until.unwrap_or(Until::Count(1_000_000)) })
    }
}
