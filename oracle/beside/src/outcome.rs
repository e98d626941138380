//! What a call comes to: its answer and every element of the lent slices, as numbers.
use crate::answer;
use crate::lent;
use crate::made::Call;
use crate::table::Refusal;

/// What a call that is done counts: V, E, F of a mesh; or the refusal with its step.
pub type Answer = Result<Vec<usize>, (Refusal, usize)>;

/// The answer taken apart; then the lent slices after the call, floats as bits.
#[derive(Clone, Debug, PartialEq)]
pub struct Outcome {
    pub refusal: Option<(Refusal, usize)>,
    /// None of a refused call.
    pub counts: Vec<usize>,
    pub slices: Vec<Vec<u32>>,
}

impl Outcome {
    pub fn new(answer: Answer, slices: Vec<Vec<u32>>) -> Outcome {
        let refusal = answer.as_ref().err().copied();
        Outcome { refusal, counts: answer.unwrap_or_default(), slices }
    }

    /// As the tally counts it.
    pub fn counted(&self) -> answer::Outcome {
        self.refusal.map_or(answer::Outcome::Done, |refused| answer::Outcome::Refused(refused.0))
    }
}

fn answer_text(outcome: &Outcome) -> String {
    let counts = format!(", counts {:?}", outcome.counts);
    match outcome.refusal {
        Some((Refusal { number, place }, step)) => {
            let counts = if outcome.counts.is_empty() { "" } else { &counts };
            format!("{number} at {place}, step {step}{counts}")
        }
        None => format!("done{counts}"),
    }
}

/// The first thing in which they differ.
pub fn difference(call: &Call, expected: &Outcome, given: &Outcome) -> Option<String> {
    if expected == given {
        return None;
    }
    let (ours, theirs) = (answer_text(expected), answer_text(given));
    if ours != theirs {
        return Some(format!("  answer: expected {ours}; the library says {theirs}"));
    }
    let slices = expected.slices.iter().zip(&given.slices);
    for ((name, _), (ours, theirs)) in lent::lengths(call).iter().zip(slices) {
        if let Some(at) =
            (0..ours.len().max(theirs.len())).find(|at| ours.get(*at) != theirs.get(*at))
        {
            let text = |number: Option<&u32>| {
                number.map_or("nothing".to_string(), |n| format!("{n}={n:08x}"))
            };
            let (ours, theirs) = (text(ours.get(at)), text(theirs.get(at)));
            return Some(format!("  {name} {at}: expected {ours}; the library has {theirs}"));
        }
    }
    Some("  the slices differ in number".to_string())
}

/// What lent slices start from.
pub fn filled(length: usize, fill: u32) -> Vec<u32> {
    (0..length).map(|index| fill.wrapping_add(index as u32)).collect()
}

pub fn filled_bytes(length: usize, fill: u32) -> Vec<u8> {
    filled(length, fill).into_iter().map(|number| number as u8).collect()
}

pub fn bits(numbers: &[f32]) -> Vec<u32> {
    numbers.iter().map(|number| number.to_bits()).collect()
}

/// Bytes as numbers.
pub fn numbers(bytes: &[u8]) -> Vec<u32> {
    bytes.iter().map(|byte| u32::from(*byte)).collect()
}
