//! A call and an outcome as text. A call's text can be read back, for a replay.

use crate::call::{words, Call, Name, Outcome};

/// The call: its name, what is lent to it, in hexadecimal digits, and its two numbers; one to a line.
pub fn call(call: &Call) -> String {
    let mut lines = vec![format!("call {}", call.name.text())];
    let mut parts = call.clone();
    lines.extend(fields(&mut parts).map(|(name, bytes)| format!("{name} {}", digits(bytes))));
    lines.push(format!("map {}", digits(&call.map)));
    lines.push(format!("area {}", digits(&call.area)));
    lines.push(format!("many {}", call.many));
    lines.push(format!("index {}", call.index));
    lines.join("\n")
}

/// The lent bytes that a call owns, by name.
fn fields(call: &mut Call) -> [(&'static str, &mut Vec<u8>); 5] {
    [
        ("list", &mut call.list),
        ("inputs", &mut call.inputs),
        ("outputs", &mut call.outputs),
        ("records", &mut call.records),
        ("buffer", &mut call.buffer),
    ]
}

fn digits(bytes: &[u8]) -> String {
    bytes.iter().map(|byte| format!("{byte:02x}")).collect()
}

/// Reads a call's text back; lines that are none of its own are passed over.
pub fn read(text: &str) -> Result<Call, String> {
    let none: [u8; 0] = [];
    let mut call = Call::new(Name::Prepare, &none.into(), &none.into());
    let mut named = false;
    for line in text.lines() {
        let (field, value) = line.trim().split_once(' ').unwrap_or((line.trim(), ""));
        match field {
            "call" => {
                let found = Name::ALL.iter().find(|(_, text)| *text == value);
                call.name = found.ok_or_else(|| format!("no such function: {value}"))?.0;
                named = true;
            }
            "map" => call.map = bytes(value)?.into(),
            "area" => call.area = bytes(value)?.into(),
            "many" => call.many = number(value)?,
            "index" => call.index = number(value)?,
            _ => {
                if let Some((_, bytes_of)) = fields(&mut call).into_iter().find(|(name, _)| *name == field) {
                    *bytes_of = bytes(value)?;
                }
            }
        }
    }
    if named {
        Ok(call)
    } else {
        Err("no line that says the call".to_string())
    }
}

fn number(text: &str) -> Result<usize, String> {
    text.parse().map_err(|_| format!("not a number: {text}"))
}

fn bytes(digits: &str) -> Result<Vec<u8>, String> {
    let byte = |at: usize| {
        let pair = digits.get(at..at + 2).ok_or_else(|| format!("not bytes: {digits}"))?;
        u8::from_str_radix(pair, 16).map_err(|_| format!("not a byte: {pair}"))
    };
    (0..digits.len()).step_by(2).map(byte).collect()
}

/// An outcome: the numbers as they stand, and of the lent bytes what the call changed.
pub fn outcome(call: &Call, outcome: &Outcome) -> String {
    let Outcome { case, values, number, place, area, room, stray } = outcome;
    let mut lines = vec![format!("  case {case} values {values:x?} number {number:x} place {place:x} (hexadecimal)")];
    lines.push(format!("  area: {}", changes(&call.area, area)));
    lines.push(format!("  room: {}", changes(call.room(), room)));
    if !stray.is_empty() {
        lines.push(format!("  also written: {}", stray.join(", ")));
    }
    lines.join("\n")
}

fn changes(before: &[u8], after: &[u8]) -> String {
    let (old, new) = (words(before), words(after));
    let changed = (0..old.len()).filter(|&at| old[at] != new[at]);
    let changes: Vec<String> = changed.map(|at| format!("{at}:{}->{}", old[at], new[at])).collect();
    match (changes.is_empty(), before == after) {
        (true, true) => "unchanged".to_string(),
        (true, false) => "its odd last byte is changed".to_string(),
        _ => changes.join(" "),
    }
}
