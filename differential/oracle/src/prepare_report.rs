//! What the program `prepare_run` is to write of a case: the case's line, the answer, the area's words by sections, and an
//! empty line. The rules stand at the head of crates/prepare_cases/src/report.rt.

use crate::map_bytes;
use crate::preparing::{prepare, sections, words};

/// A section with more words than this is written as its checksum, unless its words are all equal.
const LONG: usize = 80;

/// The lines for a map prepared in an area of so many words that are all `before`.
pub fn lines(case: &str, bytes: &[u8], area_words: usize, before: u16) -> Vec<String> {
    let mut area = vec![before; area_words];
    let answer = match prepare(bytes, &mut area) {
        Ok(lines) => format!("lines {lines}"),
        Err(refusal) => format!("refused {} {}", refusal.number, refusal.place),
    };
    let mut lines = vec![case.to_string(), answer];
    lines.extend(area_lines(bytes, &area));
    lines.push(String::new());
    lines
}

/// The area by sections; as one after refusals 1, 2 and 3.
fn area_lines(bytes: &[u8], area: &[u16]) -> Vec<String> {
    let sections = map_bytes::read(bytes).map(|map| sections(&map));
    let Some(sections) = sections.ok().filter(|sections| words(sections) <= area.len()) else {
        return vec![section("area", area)];
    };
    let mut rest = area;
    let mut lines = Vec::new();
    for (name, size) in sections {
        let (part, after) = rest.split_at(size);
        lines.push(section(name, part));
        rest = after;
    }
    lines.push(section("past W", rest));
    lines
}

fn section(name: &str, words: &[u16]) -> String {
    let all_equal = words.iter().all(|word| *word == words[0]);
    if words.len() > LONG && !all_equal {
        let set = words.iter().filter(|word| **word != 0).count();
        return format!("{name} {} words, {set} not 0, checksum {}", words.len(), checksum(words));
    }
    let runs = words.chunk_by(|word, next| word == next);
    let texts = runs.flat_map(|run| match run.len() {
        0..=3 => vec![run[0].to_string(); run.len()],
        count => vec![format!("{}*{count}", run[0])],
    });
    [name.to_string()].into_iter().chain(texts).collect::<Vec<_>>().join(" ")
}

/// Each word is added to 257 times what stands before it, modulo the largest prime of 32 bits.
fn checksum(words: &[u16]) -> u64 {
    words.iter().fold(0, |sum, word| (sum * 257 + u64::from(*word)) % 4_294_967_291)
}
