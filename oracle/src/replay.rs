//! The program `replay` or `rerun` run on cases, its lines held against the oracle's.
use crate::answer::{answer, Answer, Outcome};
use crate::case::{to_bytes, Case, Program};
use crate::commands::variable;
use crate::show;
use crate::tally::Tally;
use std::io::{Read, Write};
use std::path::{Path, PathBuf};
use std::process::{Command, Stdio};

/// Cases go to the program in batches of at most so many cases or words.
const BATCH_CASES: usize = 5_000;
const BATCH_WORDS: usize = 4_000_000;

pub struct Comparison {
    program: PathBuf,
    batch: Vec<(Case, Answer)>,
    batch_words: usize,
    pub compared: usize,
    pub tally: Tally,
}

impl Comparison {
    pub fn new(program: Program) -> Result<Comparison, String> {
        let name = program.name();
        let path = variable(&name.to_uppercase())?;
        let missing = |_| format!("no program {name} at {path} (set {})", name.to_uppercase());
        let program = std::fs::canonicalize(&path).map_err(missing)?;
        Ok(Comparison {
            program,
            batch: Vec::new(),
            batch_words: 0,
            compared: 0,
            tally: Tally::default(),
        })
    }

    pub fn add(&mut self, case: Case) -> Result<(), String> {
        let answer = answer(&case);
        self.add_answered(case, answer)
    }

    /// Adds the case if its outcome is `wanted`; says whether it was.
    pub fn add_if(&mut self, case: Case, wanted: fn(Outcome) -> bool) -> Result<bool, String> {
        let answer = answer(&case);
        let is_wanted = wanted(answer.outcome);
        if is_wanted {
            self.add_answered(case, answer)?;
        }
        Ok(is_wanted)
    }

    pub fn add_answered(&mut self, case: Case, answer: Answer) -> Result<(), String> {
        self.tally.count(&case, answer.outcome);
        self.batch_words += case.words().len();
        self.batch.push((case, answer));
        if self.batch.len() >= BATCH_CASES || self.batch_words >= BATCH_WORDS {
            self.compare_batch()?;
        }
        Ok(())
    }

    /// Compares this one case before another is added.
    pub fn compare_now(&mut self, case: Case, answer: Answer) -> Result<(), String> {
        self.add_answered(case, answer)?;
        self.compare_batch()
    }

    /// Compares what is left and says what was compared.
    pub fn finish(&mut self) -> Result<String, String> {
        self.compare_batch()?;
        Ok(format!("{}{} cases, 0 differences", self.tally, self.compared))
    }

    fn compare_batch(&mut self) -> Result<(), String> {
        let batch = std::mem::take(&mut self.batch);
        self.batch_words = 0;
        if batch.is_empty() {
            return Ok(());
        }
        let bytes: Vec<u8> = batch.iter().flat_map(|(case, _)| to_bytes(&case.words())).collect();
        let output = self.run(&bytes)?;
        let mut lines = output.lines();
        for (case, answer) in &batch {
            let line = lines.next().unwrap_or("(none)");
            if line != answer.line {
                return Err(self.difference(case, &answer.line, line));
            }
            self.compared += 1;
        }
        match lines.next() {
            Some(line) => Err(format!("a line after the last case: {line}")),
            None => Ok(()),
        }
    }

    /// Runs the program on a stream and hands back what it prints.
    pub fn run(&self, bytes: &[u8]) -> Result<String, String> {
        run_program(&self.program, bytes)
    }

    fn difference(&self, case: &Case, expected: &str, given: &str) -> String {
        let at = format!("after {} equal cases, a difference", self.compared);
        let kept = keep(case).unwrap_or_else(|error| error);
        let fields = show::first_difference(expected, given);
        format!("{at}\n{}{fields}\n{kept}", show::case(case))
    }
}

/// The program itself, or `RUNNER`, an emulator, with the program as its argument.
fn command(program: &Path) -> Command {
    match std::env::var("RUNNER") {
        Ok(runner) if !runner.is_empty() => {
            let mut command = Command::new(runner);
            command.arg(program);
            command
        }
        _ => Command::new(program),
    }
}

/// Runs a program on an input and hands back what it prints.
pub fn run_program(program: &Path, input: &[u8]) -> Result<String, String> {
    let failed = |error: std::io::Error| format!("{}: {error}", program.display());
    let mut child =
        command(program).stdin(Stdio::piped()).stdout(Stdio::piped()).spawn().map_err(failed)?;
    let mut to = child.stdin.take().expect("piped");
    let mut output = Vec::new();
    std::thread::scope(|scope| {
        // A program that ends early leaves its input unread; its lines will tell.
        scope.spawn(move || to.write_all(input).ok());
        child.stdout.take().expect("piped").read_to_end(&mut output)
    })
    .map_err(failed)?;
    child.wait().map_err(failed)?;
    String::from_utf8(output).map_err(|_| "the program printed other than text".to_string())
}

/// Writes the case where `oracle/run case` can read it.
fn keep(case: &Case) -> Result<String, String> {
    let file = Path::new(&variable("OUT")?).join("difference");
    std::fs::write(&file, to_bytes(&case.words())).map_err(|error| error.to_string())?;
    Ok(format!("the case is kept in {}", file.display()))
}
