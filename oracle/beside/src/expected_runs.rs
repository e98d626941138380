//! What a list, a recipe and the functions on panel files must come to.
use crate::answer::lent;
use crate::case::Case;
use crate::expected::{at_no_step, lent_mesh, mesh_outcome};
use crate::extra::step_words;
use crate::mesh::Mesh;
use crate::operator::{Operator, Parameters};
use crate::outcome::{filled_bytes, numbers, Answer, Outcome};
use crate::panel::{self, Panel};
use crate::recipe::{self, Lent, List, Ran, Step, MOST_STEPS};
use crate::rust_side;
use crate::table::{self, Refusal, Sizes};

fn lent_of(case: &Case) -> Lent {
    Lent { work: case.extra.work, output: case.room }
}

/// The table decides step by step; a list that it lets through is the text's own.
pub fn list(list: List, case: &Case) -> Outcome {
    let ran = recipe::run_steps(&list.steps(&case.parameters), &case.mesh, lent_of(case));
    let by_text = ran.outcome.map(|_| rust_side::apply_list(list, &case.parameters, &case.mesh));
    with_work(mesh_outcome(by_text, case), case)
}

pub fn recipe(case: &Case) -> Outcome {
    let (words, ledger) = (words(case), case.extra.ledger);
    let ran = match strange_step(&words) {
        Some(refusal) => Ran { rows: Vec::new(), outcome: Err(at_no_step(refusal)) },
        None => recipe::run_recipe(&steps_of(&words), &case.mesh, lent_of(case), ledger),
    };
    let mut outcome = with_work(mesh_outcome(ran.outcome, case), case);
    outcome.slices.push(lent(&ran.rows.concat(), ledger_numbers(case), case.fill));
    outcome
}

/// Both work meshes read zero, whatever came.
fn with_work(mut outcome: Outcome, case: &Case) -> Outcome {
    for length in case.extra.work.iter().flat_map(|room| room.lengths()) {
        outcome.slices.push(vec![0; length]);
    }
    outcome
}

/// Four numbers a row, and up to three that make no row.
pub fn ledger_numbers(case: &Case) -> usize {
    4 * case.extra.ledger + case.fill as usize % 4
}

/// The steps as the library takes them: the words of the case's file where it has one, so that they may be none.
pub fn words(case: &Case) -> Vec<[u32; 4]> {
    if case.extra.file.is_empty() {
        return case.extra.steps.iter().map(step_words).collect();
    }
    let word = |bytes: &[u8]| u32::from_le_bytes([bytes[0], bytes[1], bytes[2], bytes[3]]);
    let step = |bytes: &[u8]| std::array::from_fn(|at| word(&bytes[4 * at..]));
    case.extra.file.chunks_exact(16).map(step).collect()
}

/// Number 17 of at most 16 steps, at the byte of the first that is none.
fn strange_step(words: &[[u32; 4]]) -> Option<Refusal> {
    let at = words.iter().position(|step| panel::step_of(*step).is_none())?;
    (words.len() <= MOST_STEPS).then_some(Refusal { number: 17, place: 16 * at as u32 })
}

/// Of more than 16 steps, which are refused for their number, one that is none counts too.
fn steps_of(words: &[[u32; 4]]) -> Vec<Step> {
    let none = || Step { operator: Operator::Dual, parameters: Parameters::default() };
    words.iter().map(|step| panel::step_of(*step).unwrap_or_else(none)).collect()
}

fn held(panel: &Panel) -> Vec<usize> {
    let Sizes { faces, corners, positions } = Sizes::of(&panel.mesh);
    vec![panel.steps.len(), positions, faces, corners]
}

fn counted<T>(result: &Result<T, Refusal>, counts: impl Fn(&T) -> Vec<usize>) -> Answer {
    result.as_ref().map(counts).map_err(|refusal| (*refusal, 0))
}

pub fn file(case: &Case) -> Outcome {
    let read = panel::read(&case.extra.file).and_then(|panel| {
        table::check_room(Sizes::of(&panel.mesh), case.room)?;
        Ok(panel)
    });
    let answer = counted(&read, held);
    let mesh = with_one_nan(&read.unwrap_or_default().mesh);
    Outcome::new(answer, lent_mesh(&mesh, case))
}

/// The library has one NaN, whichever stood in a file or is to be written into one (docs/PANEL-FILE.md).
fn one_nan(number: f32) -> f32 {
    if number.is_nan() {
        f32::from_bits(0x7FC0_0000)
    } else {
        number
    }
}

fn with_one_nan(mesh: &Mesh) -> Mesh {
    let coordinates = mesh.coordinates.iter().copied().map(one_nan).collect();
    Mesh { coordinates, ..mesh.clone() }
}

pub fn file_steps(case: &Case) -> Outcome {
    let room = case.extra.ledger;
    let read = panel::read(&case.extra.file).and_then(|panel| match panel.steps.len() > room {
        true => Err(Refusal { number: 13, place: 3 }),
        false => Ok(panel),
    });
    let answer = counted(&read, held);
    let words: Vec<u32> = read.unwrap_or_default().steps.iter().flat_map(step_words).collect();
    Outcome::new(answer, vec![lent(&words, 4 * room, case.fill)])
}

pub fn file_write(case: &Case) -> Outcome {
    let (words, room) = (words(case), case.room.offsets);
    let written = match strange_step(&words) {
        Some(refusal) => Err(refusal),
        None => write_into(&steps_of(&words), &case.mesh, room),
    };
    let answer = counted(&written, |file| vec![file.len()]);
    let mut bytes = filled_bytes(room, case.fill);
    let file = written.unwrap_or_default();
    bytes[..file.len()].copy_from_slice(&file);
    Outcome::new(answer, vec![numbers(&bytes)])
}

/// The file where it may be written into so many bytes: numbers 1, 2 with the limits of a file, and 13.
fn write_into(steps: &[Step], mesh: &Mesh, bytes: usize) -> Result<Vec<u8>, Refusal> {
    table::refuse_where(1, table::wrong_shape(mesh))?;
    let Sizes { faces, corners, positions } = Sizes::of(mesh);
    let limits = [
        (3, steps.len(), MOST_STEPS),
        (0, faces, panel::MOST_FACES),
        (1, corners, panel::MOST_CORNERS),
        (2, positions, panel::MOST_POSITIONS),
    ];
    let over = limits.iter().find(|(_, size, most)| size > most);
    table::refuse_where(2, over.map(|limit| limit.0))?;
    let mut steps = steps.to_vec();
    for Step { parameters, .. } in &mut steps {
        parameters.ratio = parameters.ratio.map(one_nan);
        parameters.height = parameters.height.map(one_nan);
    }
    let file = panel::write(&steps, &with_one_nan(mesh));
    table::refuse_where(13, (file.len() > bytes).then_some(0))?;
    Ok(file)
}
