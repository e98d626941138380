//! The same calls of the proved library in this process, through its Rust crate.
use crate::case::{Case, Function};
use crate::lent;
use crate::library_runs as runs;
use crate::made::{Call, Entry};
use crate::mesh::Mesh;
use crate::operator::Operator;
use crate::outcome::{bits, Outcome};
use crate::table::Refusal;
use crossglimmer::{slices, Counts, Lent, Masks, Read};

/// What a call that is done counts.
pub type Counted = Result<Vec<usize>, crossglimmer::Refusal>;

pub fn outcomes(calls: &[Call]) -> Result<Vec<Outcome>, String> {
    Ok(calls.iter().map(outcome).collect())
}

fn outcome(call: &Call) -> Outcome {
    let (case, mut lent) = (&call.case, lent::slices(call));
    let answer = match call.entry {
        Entry::Named => named(case, &mut lent),
        Entry::FileSteps => runs::file_steps(case, &mut lent[0]),
        Entry::FileWrite => runs::file_write(case, &mut lent[0]),
    };
    Outcome::new(answer.map_err(refused), lent)
}

fn named(case: &Case, lent: &mut [Vec<u32>]) -> Counted {
    let mesh = read(&case.mesh);
    match case.function {
        Function::Operator(operator) => {
            lend(lent, |out| operate(operator, case, mesh, out)).map(counted)
        }
        Function::CheckClosed => slices::check(mesh).map(|()| Vec::new()),
        Function::CheckFans => slices::check_full(mesh).map(|()| Vec::new()),
        Function::Edges => {
            let listed = in_groups(&mut lent[0], |pairs| slices::edges(mesh, pairs));
            listed.map(|edges| vec![edges])
        }
        Function::List(list) => runs::list(list, case, lent),
        Function::Recipe => runs::recipe(case, lent),
        Function::File => runs::file(case, lent),
        other => unreachable!("{} is not made", other.name()),
    }
}

pub fn read(mesh: &Mesh) -> Read<'_> {
    Read { offsets: &mesh.offsets, corners: &mesh.corners, coords: &mesh.coordinates }
}

/// An operator of the library with a case's numbers and masks.
fn operate(
    operator: Operator,
    case: &Case,
    mesh: Read,
    out: Lent,
) -> Result<Counts, crossglimmer::Refusal> {
    let parameters = &case.parameters;
    let (ratio, height) = (parameters.ratio, parameters.height);
    let masks = Masks {
        arities: parameters.arities.as_deref(),
        numbers: parameters.faces.as_deref(),
        regular: parameters.regular,
    };
    match operator {
        Operator::Ambo => slices::ambo(mesh, ratio, out),
        Operator::Chamfer => slices::chamfer(mesh, ratio, out),
        Operator::Dual => slices::dual(mesh, out),
        Operator::Gyro => slices::gyro(mesh, ratio, height, out),
        Operator::Kis => slices::kis(mesh, height, masks, out),
        Operator::Propellor => slices::propellor(mesh, ratio, out),
        Operator::Quinto => slices::quinto(mesh, height, out),
        Operator::Reflect => slices::reflect(mesh, out),
        Operator::Reverse => slices::reverse(mesh, out),
        Operator::Whirl => slices::whirl(mesh, ratio, height, out),
        Operator::Triangulate => slices::triangulate(mesh, !parameters.longer, out),
    }
}

/// Lends the first three slices as those of a mesh.
pub fn lend<R>(slices: &mut [Vec<u32>], call: impl FnOnce(Lent) -> R) -> R {
    let (indices, floats) = slices.split_at_mut(2);
    let (offsets, corners) = indices.split_at_mut(1);
    let mut coords: Vec<f32> = floats[0].iter().map(|bits| f32::from_bits(*bits)).collect();
    let answer =
        call(Lent { offsets: &mut offsets[0], corners: &mut corners[0], coords: &mut coords });
    floats[0] = bits(&coords);
    answer
}

/// Lends a slice as groups of N numbers.
pub fn in_groups<R, const N: usize>(
    slice: &mut Vec<u32>,
    call: impl FnOnce(&mut [[u32; N]]) -> R,
) -> R {
    let group = |numbers: &[u32]| std::array::from_fn(|at| numbers[at]);
    let mut groups: Vec<[u32; N]> = slice.chunks(N).map(group).collect();
    let answer = call(&mut groups);
    *slice = groups.concat();
    answer
}

pub fn counted(counts: Counts) -> Vec<usize> {
    let Counts { positions, edges, faces } = counts;
    [positions, edges, faces].map(|count| count as usize).to_vec()
}

fn refused(refusal: crossglimmer::Refusal) -> (Refusal, usize) {
    let crossglimmer::Refusal { number, place, step } = refusal;
    (Refusal { number, place }, step as usize)
}
