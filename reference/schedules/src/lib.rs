//! Schedules for `play`, and what it prints for each of them: those written
//! by hand, one for each thing to show, random ones and loads from fixed seeds.
//! [`resets`] has those for `recover`.
//!
//! [`store`] keeps them in files, [`coverage`] tells what they reach, and
//! [`random`] makes as many more as a fuzz run wants.

pub mod coverage;
pub mod hand;
pub mod journals;
pub mod loads;
pub mod longest;
pub mod malformed;
pub mod offers;
pub mod random;
pub mod resets;
pub mod script;
pub mod store;

/// A schedule and what it is there for.
#[derive(Clone, Debug, PartialEq, Eq)]
pub struct Schedule {
    /// What it shows, in a few words.
    pub shows: String,
    /// The input of `play`.
    pub text: Vec<u8>,
    /// What the document makes `play` print, where that was written down
    /// by hand.
    pub expected: Option<String>,
}

impl Schedule {
    /// What the reference prints.
    pub fn played(&self) -> Vec<u8> {
        played(&self.text)
    }
}

/// What the reference prints for an input.
pub fn played(text: &[u8]) -> Vec<u8> {
    let mut output = Vec::new();
    model::play::play(text, &mut output).expect("writing to memory");
    output
}

/// What the reference prints of what an input leaves.
pub fn inspected(text: &[u8]) -> Vec<u8> {
    let mut output = Vec::new();
    model::play::inspect(text, &mut output).expect("writing to memory");
    output
}

/// Every stored schedule, in the order of their numbers.
pub fn all() -> Vec<Schedule> {
    let mut schedules = hand::schedules();
    schedules.extend(malformed::schedules());
    schedules.extend(random::stored());
    schedules.extend(longest::schedules());
    schedules.extend(loads::schedules());
    schedules.extend(offers::schedules());
    schedules.extend(random::stored_with_offers());
    schedules
}
