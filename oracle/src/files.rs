//! Panel files, good and bad: the lines of `rerun` for them, and what `report` prints.
use crate::case::Program;
use crate::commands::{demand, variable, Done};
use crate::made_files::{case, some};
use crate::panel;
use crate::random::Random;
use crate::replay::{run_program, Comparison};

/// Of so many files one goes to `report`, a process each.
const A_REPORT: usize = 200;

/// So many files against `rerun`, a part of them against `report`.
pub fn compare(files: usize) -> Done {
    let mut random = Random::new(8);
    let mut comparison = Comparison::new(Program::Rerun)?;
    let mut made = 0;
    let mut reports = 0;
    while made < files {
        for file in some(&mut random) {
            if made % A_REPORT == 0 {
                reports += usize::from(compare_report(&file)?);
            }
            comparison.add(case(file, &mut random))?;
            made += 1;
        }
    }
    println!("{}\n{reports} reports, 0 differences", comparison.finish()?);
    demand(&comparison.tally, [13, 15, 16, 17, 18], 1)
}

/// What `report` prints; false where there is no such program.
fn compare_report(file: &[u8]) -> Result<bool, String> {
    let program = std::path::PathBuf::from(variable("REPORT")?);
    if !program.exists() {
        return Ok(false);
    }
    let (expected, given) = (panel::report(file), run_program(&program, file)?);
    if expected == given {
        Ok(true)
    } else {
        Err(format!("of the file {file:02x?}\nexpected\n{expected}report prints\n{given}"))
    }
}
