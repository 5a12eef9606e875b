//! Compares outcomes, counts what was compared, and says where two differ.

use crate::call::{Call, Outcome};
use crate::figures::Figures;
use crate::text;
use crate::{library, reading};

/// A difference, as text with the call in it.
pub struct Difference(pub String);

/// What follows a comparison, or the first difference.
pub type Compared<T> = Result<T, Box<Difference>>;

#[derive(Default)]
pub struct Bench {
    pub figures: Figures,
}

impl Bench {
    /// The next comparisons are of this kind.
    pub fn kind(&mut self, kind: &'static str) {
        self.figures.kind(kind);
    }

    /// How many calls were compared.
    pub fn calls(&self) -> usize {
        self.figures.calls()
    }

    /// Calls the library and compares with the reading.
    pub fn ask(&mut self, call: &Call) -> Compared<Outcome> {
        let left = library::outcome(call);
        equal(call, &left, "the reading", &reading::outcome(call))?;
        self.figures.add(call.name, &left, false);
        Ok(left)
    }

    /// Calls the library and compares with the reading and with what the Rust says.
    pub fn ask_beside(&mut self, call: &Call, given: &Outcome) -> Compared<Outcome> {
        let left = library::outcome(call);
        equal(call, &left, "the Rust", given)?;
        equal(call, &left, "the reading", &reading::outcome(call))?;
        self.figures.add(call.name, &left, true);
        Ok(left)
    }

    /// Calls the library and compares with the reading; the Rust says which case it is, and no more.
    pub fn ask_case_beside(&mut self, call: &Call, case: u64) -> Compared<Outcome> {
        let left = library::outcome(call);
        equal(call, &left, "the Rust's yes or no", &Outcome { case, ..left.clone() })?;
        equal(call, &left, "the reading", &reading::outcome(call))?;
        self.figures.add(call.name, &left, true);
        Ok(left)
    }

    /// Calls the library and compares with the reading and with what is written down.
    pub fn ask_for(&mut self, call: &Call, written: &Outcome) -> Compared<Outcome> {
        let left = library::outcome(call);
        equal(call, &left, "what is written down", written)?;
        equal(call, &left, "the reading", &reading::outcome(call))?;
        self.figures.add(call.name, &left, false);
        Ok(left)
    }
}

fn equal(call: &Call, left: &Outcome, whose: &str, other: &Outcome) -> Compared<()> {
    if left == other {
        return Ok(());
    }
    let lines = [
        format!("the library and {whose} differ on this call:"),
        text::call(call),
        "the library left:".to_string(),
        text::outcome(call, left),
        format!("{whose} has:"),
        text::outcome(call, other),
    ];
    Err(Box::new(Difference(lines.join("\n"))))
}
