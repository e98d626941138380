//! Recipes and lists, read a second time from document 01: steps in turn through the table.
use crate::answer;
use crate::case::Room;
use crate::mesh::Mesh;
use crate::operator::{Operator, Parameters};
use crate::table::{self, Refusal, Sizes};

pub const MOST_STEPS: usize = 16;

#[derive(Clone, Debug, PartialEq)]
pub struct Step {
    pub operator: Operator,
    pub parameters: Parameters,
}

/// The room that a recipe or a list is lent.
#[derive(Clone, Copy)]
pub struct Lent {
    pub work: [Room; 2],
    pub output: Room,
}

/// A refusal and the step it stands at, 0 before the first.
#[derive(Clone, Copy, Debug, PartialEq, Eq)]
pub struct RefusedAt {
    pub step: usize,
    pub refusal: Refusal,
}

/// A row of the ledger: code, V, E, F.
pub type Row = [u32; 4];

/// The finished rows, and the last mesh or the refusal.
pub struct Ran {
    pub rows: Vec<Row>,
    pub outcome: Result<Mesh, RefusedAt>,
}

/// A recipe whose ledger has so many rows.
pub fn run_recipe(steps: &[Step], mesh: &Mesh, lent: Lent, ledger: usize) -> Ran {
    let refused = |number| Ran {
        rows: Vec::new(),
        outcome: Err(RefusedAt { step: 0, refusal: Refusal { number, place: 3 } }),
    };
    if steps.len() > MOST_STEPS {
        refused(2)
    } else if ledger < steps.len() {
        refused(13)
    } else if steps.is_empty() {
        let outcome = copied(mesh, lent.output).map_err(|refusal| RefusedAt { step: 0, refusal });
        Ran { rows: Vec::new(), outcome }
    } else {
        run_steps(steps, mesh, lent)
    }
}

/// No steps: numbers 1, 2, 4 to 7 and 13, then a copy.
fn copied(mesh: &Mesh, output: Room) -> Result<Mesh, Refusal> {
    table::check_faces(mesh)?;
    table::check_room(Sizes::of(mesh), output)?;
    Ok(mesh.clone())
}

/// One step or more. The odd ones write the first work mesh, the even ones the second, the last
/// one the output.
pub fn run_steps(steps: &[Step], mesh: &Mesh, lent: Lent) -> Ran {
    let mut rows = Vec::new();
    let mut mesh = mesh.clone();
    for (step, number) in steps.iter().zip(1..) {
        let last = number == steps.len();
        let room = if last { lent.output } else { lent.work[(number - 1) % 2] };
        match answer::call(step.operator, &step.parameters, &mesh, room) {
            Ok(result) => mesh = result,
            Err(refusal) => return Ran { rows, outcome: Err(RefusedAt { step: number, refusal }) },
        }
        let [positions, edges, faces] = mesh.counts();
        rows.push([step.operator.code(), positions as u32, edges as u32, faces as u32]);
    }
    Ran { rows, outcome: Ok(mesh) }
}

/// The lists of operators that document 01 names.
#[derive(Clone, Copy, Debug, PartialEq, Eq)]
pub enum List {
    Bevel,
    Expand,
    Join,
    Medial,
    Meta,
    Needle,
    Ortho,
    Snub,
    Truncate,
    Zip,
}

use List::*;

pub const LISTS: [List; 10] =
    [Bevel, Expand, Join, Medial, Meta, Needle, Ortho, Snub, Truncate, Zip];

impl List {
    /// Its steps. Each takes of the parameters what document 000 hands it.
    pub fn steps(self, given: &Parameters) -> Vec<Step> {
        let ratio = Parameters { ratio: given.ratio, ..Parameters::default() };
        let split = Parameters {
            height: given.height,
            arities: given.arities.clone(),
            regular: given.regular,
            ..Parameters::default()
        };
        let threes = split.arities.clone().or(Some(vec![3]));
        let step =
            |operator, parameters: &Parameters| Step { operator, parameters: parameters.clone() };
        let dual = step(Operator::Dual, &Parameters::default());
        let ambo = step(Operator::Ambo, &ratio);
        let kis = step(Operator::Kis, &split);
        let kis_threes = step(Operator::Kis, &Parameters { arities: threes, ..split });
        let gyro = step(Operator::Gyro, &Parameters { height: given.height, ..ratio });
        let join = [&dual, &ambo, &dual];
        let truncate = [&dual, &kis, &dual];
        let steps: Vec<&Step> = match self {
            Bevel => [&[&ambo], &truncate[..]].concat(),
            Expand => vec![&ambo, &ambo],
            Join => join.to_vec(),
            Medial => [&[&ambo], &truncate[..], &[&dual]].concat(),
            Meta => [&join[..], &[&kis_threes]].concat(),
            Needle => [&truncate[..], &[&dual]].concat(),
            Ortho => [join, join].concat(),
            Snub => vec![&dual, &gyro, &dual],
            Truncate => truncate.to_vec(),
            Zip => vec![&kis, &dual],
        };
        steps.into_iter().cloned().collect()
    }
}
