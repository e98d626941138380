//! The lines that `rerun` must print for lists, recipes and files.
use crate::answer::{begun, lent, put, put_output, Answer, Outcome};
use crate::case::Case;
use crate::extra::step_words;
use crate::operator::{Operator, Parameters};
use crate::panel::{self, Panel};
use crate::recipe::{self, Lent, List, Row, Step, MOST_STEPS};
use crate::table::{self, Refusal, Sizes};
use std::fmt::Write;

fn lent_of(case: &Case) -> Lent {
    Lent { work: case.extra.work, output: case.room }
}

pub fn list(list: List, case: &Case) -> Answer {
    let steps = list.steps(&case.parameters);
    let ran = recipe::run_steps(&steps, &case.mesh, lent_of(case));
    let (mut line, outcome) = begun(&ran.outcome);
    put_work(&mut line);
    put_output(&mut line, &ran.outcome.unwrap_or_default(), case);
    Answer { line, outcome }
}

pub fn recipe(case: &Case) -> Answer {
    let extra = &case.extra;
    let ran = recipe::run_recipe(&extra.steps, &case.mesh, lent_of(case), extra.ledger);
    let (mut line, outcome) = begun(&ran.outcome);
    put_ledger(&mut line, &ran.rows, case);
    put_work(&mut line);
    put_output(&mut line, &ran.outcome.unwrap_or_default(), case);
    Answer { line, outcome }
}

/// All lent rows, four numbers each.
fn put_ledger(line: &mut String, rows: &[Row], case: &Case) {
    put(line, 'l', lent(&rows.concat(), 4 * case.extra.ledger, case.fill), |n| n.to_string());
}

/// Both work meshes read zero, whatever came.
fn put_work(line: &mut String) {
    line.push_str(" w 1 1");
}

pub fn file(case: &Case) -> Answer {
    let read = panel::read(&case.extra.file).and_then(|panel| {
        table::check_room(Sizes::of(&panel.mesh), case.room)?;
        Ok(panel)
    });
    let (mut line, outcome) = match &read {
        Ok(panel) => (format!("0 0 {}", counts(panel)), Outcome::Done),
        Err(refusal) => {
            let Refusal { number, place } = *refusal;
            (format!("{number} {place} 0 0 0 0"), Outcome::Refused(*refusal))
        }
    };
    let panel = read.unwrap_or_default();
    put_steps(&mut line, &panel::read(&case.extra.file).unwrap_or_default().steps);
    put_output(&mut line, &panel.mesh, case);
    Answer { line, outcome }
}

/// Steps, positions, faces and corners.
fn counts(panel: &Panel) -> String {
    let Sizes { faces, corners, positions } = Sizes::of(&panel.mesh);
    format!("{} {positions} {faces} {corners}", panel.steps.len())
}

/// Sixteen steps, those past the file's duals: code, flags, ratio and height.
fn put_steps(line: &mut String, steps: &[Step]) {
    line.push_str(" s");
    let filler = Step { operator: Operator::Dual, parameters: Parameters::default() };
    for step in steps.iter().chain(std::iter::repeat(&filler)).take(MOST_STEPS) {
        let [code, flags, ratio, height] = step_words(step);
        let [ratio, height] = [ratio, height].map(crate::answer::float_text);
        write!(line, " {code} {flags} {ratio} {height}").expect("a string");
    }
}
