//! The same calls of the proved library through files: `driver.c`, linked with it, plays them (the words are told there).
use crate::case::{take, to_bytes, to_words, BadCase, Function};
use crate::expected_runs;
use crate::lent;
use crate::made::{Call, Entry};
use crate::outcome::{bits, numbers, Outcome};
use crate::table::Refusal;
use std::ops::Range;
use std::path::Path;
use std::process::Command;

const FILE_STEPS: u32 = 43;
const FILE_WRITE: u32 = 44;

/// Number, place and step, then four counts.
const ANSWER: usize = 7;
const REFUSAL: usize = 3;

/// One run of the driver, which stands in the folder `FILES`; so do the files.
pub fn outcomes(calls: &[Call]) -> Result<Vec<Outcome>, String> {
    let folder = std::env::var_os("FILES").ok_or("no folder FILES (oracle/compare makes it)")?;
    let [driver, to, from] =
        ["driver", "calls", "answers"].map(|name| Path::new(&folder).join(name));
    let words: Vec<u32> = calls.iter().flat_map(call_words).collect();
    told(std::fs::write(&to, to_bytes(&words)), &to)?;
    let mut command = command(&driver);
    let status = told(command.arg(&to).arg(&from).status(), command.get_program().as_ref())?;
    if !status.success() {
        return Err(format!("the driver ended with {status}"));
    }
    let answers = told(std::fs::read(&from), &from)?;
    answered(calls, &answers).map_err(|BadCase| "the answers do not end with the calls".to_string())
}

fn told<T>(result: std::io::Result<T>, path: &Path) -> Result<T, String> {
    result.map_err(|error| format!("{}: {error}", path.display()))
}

/// The driver itself, or the words of `EMULATOR` with the driver as their argument.
fn command(driver: &Path) -> Command {
    let emulator = std::env::var("EMULATOR").unwrap_or_default();
    let mut words = emulator.split_whitespace();
    match words.next() {
        Some(first) => {
            let mut command = Command::new(first);
            command.args(words).arg(driver);
            command
        }
        None => Command::new(driver),
    }
}

fn call_words(call: &Call) -> Vec<u32> {
    let case = &call.case;
    let list = |list: &Option<Vec<u32>>| list.clone().unwrap_or_default();
    let read = [
        case.mesh.offsets.clone(),
        case.mesh.corners.clone(),
        bits(&case.mesh.coordinates),
        list(&case.parameters.arities),
        list(&case.parameters.faces),
        expected_runs::words(case).concat(),
        numbers(&case.extra.file),
    ];
    let lent = lent::slices(call);
    let mut words = case.first_words().to_vec();
    words[0] = code(call);
    put_runs(&mut words, &read);
    words.push(lent.len() as u32);
    put_runs(&mut words, &lent);
    words
}

fn code(call: &Call) -> u32 {
    match call.entry {
        Entry::Named => call.case.function.code(),
        Entry::FileSteps => FILE_STEPS,
        Entry::FileWrite => FILE_WRITE,
    }
}

fn put_runs(words: &mut Vec<u32>, runs: &[Vec<u32>]) {
    for run in runs {
        words.push(run.len() as u32);
        words.extend(run);
    }
}

/// What the bytes answer to the calls, all of them and nothing more.
fn answered(calls: &[Call], bytes: &[u8]) -> Result<Vec<Outcome>, BadCase> {
    let (words, cut_inside_a_word) = to_words(bytes);
    let mut rest = words.as_slice();
    let outcomes = calls.iter().map(|call| outcome(call, &mut rest)).collect();
    match cut_inside_a_word || !rest.is_empty() {
        true => Err(BadCase),
        false => outcomes,
    }
}

/// Takes the outcome of a call off the front of `words`. A number that is to be 0 and is not differs from what is
/// expected: of a call that is done the place and the step, and all counts that the call does not have.
fn outcome(call: &Call, words: &mut &[u32]) -> Result<Outcome, BadCase> {
    let (refused, counts) = take(words, ANSWER)?.split_at(REFUSAL);
    let refusal = Refusal { number: refused[0], place: refused[1] };
    let refusal = (refused != [0; REFUSAL]).then_some((refusal, refused[2] as usize));
    let counted = if refusal.is_none() { counted(call) } else { 0..0 };
    let counts = counts.iter().enumerate().filter(|(at, n)| counted.contains(at) || **n != 0);
    let counts = counts.map(|(_, count)| *count as usize).collect();
    let lengths = lent::lengths(call).into_iter();
    let slices = lengths.map(|(_, length)| take(words, length).map(<[u32]>::to_vec));
    Ok(Outcome { refusal, counts, slices: slices.collect::<Result<_, _>>()? })
}

/// Which of the four counts a call has.
fn counted(call: &Call) -> Range<usize> {
    match (call.entry, call.case.function) {
        (Entry::FileSteps, _) | (Entry::Named, Function::File) => 0..4,
        (Entry::FileWrite, _) => 0..1,
        (Entry::Named, Function::CheckClosed | Function::CheckFans) => 0..0,
        (Entry::Named, Function::Edges) => 1..2,
        (Entry::Named, _) => 0..3,
    }
}

#[cfg(test)]
mod tests {
    use super::*;
    use crate::case::{Case, Room};
    use crate::mesh::Mesh;

    /// The edges of a lone face into one pair, which starts as 7 and 8.
    fn edges() -> Call {
        let mesh = Mesh { coordinates: vec![1.0], ..Mesh::new(&[vec![0, 1, 2]], &[]) };
        let room = Room { offsets: 1, ..Room::default() };
        let case = Case { room, fill: 7, ..Case::new(Function::Edges, mesh) };
        Call { entry: Entry::Named, case }
    }

    fn answer(words: &[u32]) -> Result<Vec<Outcome>, BadCase> {
        answered(&[edges()], &to_bytes(words))
    }

    #[test]
    fn the_words_of_a_call() {
        let read = [2, 0, 3, 3, 0, 1, 2, 1, 0x3F80_0000, 0, 0, 0, 0];
        assert_eq!(call_words(&edges()), [&[26, 0, 0, 0], &read[..], &[1, 2, 7, 8]].concat());
    }

    #[test]
    fn bytes_and_steps_are_a_word_each() {
        let mut call = Call { entry: Entry::FileWrite, ..edges() };
        call.case.mesh = Mesh::default();
        call.case.extra.file = vec![5; 17];
        let step = [0x0505_0505; 4];
        let read = [&[0, 0, 0, 0, 0, 4], &step[..], &[17], &[5; 17]].concat();
        assert_eq!(call_words(&call), [&[44, 0, 0, 0], &read[..], &[1, 1, 7]].concat());
    }

    #[test]
    fn an_answer_is_read() {
        let done = answer(&[0, 0, 0, 0, 1, 0, 0, 4, 5]).expect("whole");
        assert_eq!(done, [Outcome::new(Ok(vec![1]), vec![vec![4, 5]])]);
        let refused = answer(&[13, 2, 1, 0, 0, 0, 0, 7, 8]).expect("whole");
        let refusal = (Refusal { number: 13, place: 2 }, 1);
        assert_eq!(refused, [Outcome::new(Err(refusal), vec![vec![7, 8]])]);
    }

    #[test]
    fn numbers_that_are_to_be_0_differ() {
        let read = |words: &[u32]| answer(words).expect("whole");
        let (done, refused) = ([0, 0, 0, 0, 1, 0, 0, 4, 5], [13, 2, 1, 0, 0, 0, 0, 7, 8]);
        for at in [1, 2, 3, 5, 6] {
            let mut other = done;
            other[at] = 9;
            assert_ne!(read(&other), read(&done), "{at}");
        }
        for at in 3..7 {
            let mut other = refused;
            other[at] = 9;
            assert_ne!(read(&other), read(&refused), "{at}");
        }
    }

    #[test]
    fn answers_end_with_the_last_call() {
        let bytes = to_bytes(&[0, 0, 0, 0, 1, 0, 0, 4, 5, 0]);
        for length in 0..=bytes.len() {
            let whole = answered(&[edges()], &bytes[..length]).is_ok();
            assert_eq!(whole, length == 36, "{length}");
        }
    }
}
