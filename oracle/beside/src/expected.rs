//! What a call must come to: the table decides, and what it lets through is the Rust text's.
use crate::answer::{self, lent};
use crate::case::{Case, Function};
use crate::expected_runs as runs;
use crate::made::{Call, Entry};
use crate::mesh::Mesh;
use crate::outcome::{bits, Outcome};
use crate::recipe::RefusedAt;
use crate::rust_side;
use crate::table::{self, Refusal};

pub fn outcome(call: &Call) -> Outcome {
    let case = &call.case;
    match call.entry {
        Entry::Named => named(case),
        Entry::FileSteps => runs::file_steps(case),
        Entry::FileWrite => runs::file_write(case),
    }
}

fn named(case: &Case) -> Outcome {
    let mesh = &case.mesh;
    match case.function {
        Function::Operator(operator) => {
            let result = answer::call(operator, &case.parameters, mesh, case.room);
            mesh_outcome(result.map_err(at_no_step), case)
        }
        Function::CheckClosed => check_outcome(table::check_closed(mesh)),
        Function::CheckFans => check_outcome(table::check_fans(mesh)),
        Function::Edges => edges_outcome(case),
        Function::List(list) => runs::list(list, case),
        Function::Recipe => runs::recipe(case),
        Function::File => runs::file(case),
        other => unreachable!("{} is not made", other.name()),
    }
}

pub fn at_no_step(refusal: Refusal) -> RefusedAt {
    RefusedAt { step: 0, refusal }
}

/// A call that makes a mesh.
pub fn mesh_outcome(result: Result<Mesh, RefusedAt>, case: &Case) -> Outcome {
    let answer = result.as_ref().map(|mesh| mesh.counts().to_vec());
    let answer = answer.map_err(|refused| (refused.refusal, refused.step));
    Outcome::new(answer, lent_mesh(&result.unwrap_or_default(), case))
}

/// The lent output after a call that wrote the mesh.
pub fn lent_mesh(written: &Mesh, case: &Case) -> Vec<Vec<u32>> {
    let (room, fill) = (case.room, case.fill);
    vec![
        lent(&written.offsets, room.offsets, fill),
        lent(&written.corners, room.corners, fill),
        lent(&bits(&written.coordinates), room.coordinates, fill),
    ]
}

fn check_outcome(checked: Result<(), Refusal>) -> Outcome {
    Outcome::new(checked.map(|()| Vec::new()).map_err(|refusal| (refusal, 0)), Vec::new())
}

/// The room of offsets is the room for pairs.
fn edges_outcome(case: &Case) -> Outcome {
    let pairs = case.room.offsets;
    let listed = table::check_closed(&case.mesh).and_then(|()| {
        let edges = rust_side::edges(&case.mesh);
        if edges.len() <= pairs {
            Ok(edges)
        } else {
            Err(Refusal { number: 13, place: 0 })
        }
    });
    let answer = listed.as_ref().map(|edges| vec![edges.len()]).map_err(|refusal| (*refusal, 0));
    let edges = listed.unwrap_or_default();
    Outcome::new(answer, vec![lent(&edges.concat(), 2 * pairs, case.fill)])
}
