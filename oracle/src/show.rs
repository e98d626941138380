//! Cases and differences as text for a reader.
use crate::case::{Case, Program, Room};
use crate::extra::step_words;
use crate::recipe::Step;
use std::fmt::Write;

/// At most so many items of a list are shown.
const SHOWN: usize = 400;

pub fn case(case: &Case) -> String {
    let mut text = format!("{} {}\n", case.function.code(), case.function.name());
    let parameters = &case.parameters;
    let mut line =
        |name: &str, value: String| writeln!(text, "  {name}: {value}").expect("a string");
    for (name, number) in [("ratio", parameters.ratio), ("height", parameters.height)] {
        if let Some(number) = number {
            line(name, float(number));
        }
    }
    for (name, list) in [("arities", &parameters.arities), ("face numbers", &parameters.faces)] {
        if let Some(list) = list {
            line(name, joined(list, u32::to_string));
        }
    }
    for (name, given) in [("regular", parameters.regular), ("longer diagonal", parameters.longer)] {
        if given {
            line(name, "yes".to_string());
        }
    }
    line("offsets", joined(&case.mesh.offsets, u32::to_string));
    line("corners", joined(&case.mesh.corners, u32::to_string));
    line("coordinates", joined(&case.mesh.coordinates, |number| float(*number)));
    let room = case.room;
    line("room", format!("{:?}", room.lengths()));
    line("fill", case.fill.to_string());
    if case.function.program() == Program::Rerun {
        let extra = &case.extra;
        line("work meshes", format!("{:?}", extra.work.map(Room::lengths)));
        line("rows", extra.ledger.to_string());
        let step = |step: &Step| format!("{:?}", step_words(step));
        line("steps", joined(&extra.steps, step));
        line("file", joined(&extra.file, |byte| format!("{byte:02x}")));
    }
    text
}

fn float(number: f32) -> String {
    format!("{number:e}={:08x}", number.to_bits())
}

fn joined<T>(items: &[T], text: impl Fn(&T) -> String) -> String {
    let shown: Vec<String> = items.iter().take(SHOWN).map(text).collect();
    let more = if items.len() > SHOWN { " ..." } else { "" };
    format!("({}) {}{more}", items.len(), shown.join(" "))
}

/// The first field in which two lines differ.
pub fn first_difference(expected: &str, given: &str) -> String {
    let (mut ours, mut theirs) = (expected.split(' '), given.split(' '));
    for field in 0.. {
        let (our, their) = (ours.next(), theirs.next());
        if our != their || our.is_none() {
            let (our, their) = (our.unwrap_or("(end)"), their.unwrap_or("(end)"));
            return format!("  field {field}: expected {our}, the program says {their}");
        }
    }
    unreachable!("one of the lines ends")
}

/// The words at the start of a stream.
pub fn words(bytes: &[u8]) -> String {
    let words =
        bytes.chunks_exact(4).map(|chunk| u32::from_le_bytes(chunk.try_into().expect("four")));
    joined(&words.collect::<Vec<_>>(), u32::to_string)
}
