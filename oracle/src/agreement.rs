//! The oracle's two readings held against each other: the Rust text and document 01's.
use crate::answer;
use crate::arithmetic;
use crate::calls;
use crate::case::{Case, Function};
use crate::commands::Done;
use crate::mesh::Mesh;
use crate::meshes::{self, AMPLE};
use crate::numbers;
use crate::operator::{Operator, OPERATORS};
use crate::random::Random;
use crate::recipe::{self, Lent, LISTS};
use crate::runs;
use crate::rust_side;
use crate::table;
use std::fmt::Debug;

/// Compares once; false where there was nothing to compare.
type Agreement = fn(&mut Random) -> Result<bool, String>;

const AGREEMENTS: [(&str, Agreement); 6] = [
    ("roots, the machine's and by whole numbers", roots),
    ("centroids, normals and regular tests", faces),
    ("edge lists", edges),
    ("results, whose sizes and faces the table foretells", results),
    ("lists, by their steps and as the text has them", lists),
    ("cases, written and read", streams),
];

/// Makes so many comparisons of each kind.
pub fn all(times: usize) -> Done {
    for (name, agree) in AGREEMENTS {
        let mut random = Random::new(4);
        let mut compared = 0;
        while compared < times {
            let made = agree(&mut random).map_err(|difference| format!("{name}: {difference}"))?;
            compared += usize::from(made);
        }
        println!("{name}: {compared} compared, 0 differences");
    }
    Ok(())
}

fn equal<T: PartialEq + Debug>(ours: T, text: T, on: &impl Debug) -> Result<bool, String> {
    if ours == text {
        Ok(true)
    } else {
        Err(format!("{ours:?} is not {text:?} on {on:?}"))
    }
}

/// The bits of numbers, all that are none alike.
fn bits(numbers: &[f32]) -> Vec<Option<u32>> {
    numbers.iter().map(|number| (!number.is_nan()).then_some(number.to_bits())).collect()
}

fn mesh_bits(mesh: &Mesh) -> (&[u32], &[u32], Vec<Option<u32>>) {
    (&mesh.offsets, &mesh.corners, bits(&mesh.coordinates))
}

fn roots(random: &mut Random) -> Result<bool, String> {
    let argument = numbers::argument(random);
    let number = f32::from_bits(argument);
    if !number.is_finite() || number <= 0.0 {
        return Ok(false);
    }
    let root = arithmetic::root_bits(argument);
    equal(arithmetic::midpoints_enclose(argument, root), true, &argument)
}

fn faces(random: &mut Random) -> Result<bool, String> {
    let Case { mesh, .. } = numbers::face_case(Function::Regular, random);
    if mesh.corners.iter().any(|vertex| *vertex as usize >= mesh.position_count()) {
        return Ok(false);
    }
    let points = arithmetic::points_of(&mesh, &mesh.corners);
    equal(bits(&arithmetic::centroid(&points)), bits(&rust_side::centroid(&mesh)), &mesh)?;
    equal(bits(&arithmetic::average_normal(&points)), bits(&rust_side::normal(&mesh)), &mesh)?;
    equal(arithmetic::is_regular(&points), rust_side::is_regular(&mesh), &mesh)
}

fn edges(random: &mut Random) -> Result<bool, String> {
    let mesh = meshes::closed(random, 200);
    equal(table::edge_list(&mesh), rust_side::edges(&mesh), &mesh)
}

/// A result is closed if and only if its input is, but for triangulate's, which needn't be, and
/// dual's, in which an edge may come twice.
fn results(random: &mut Random) -> Result<bool, String> {
    let operator = random.pick(&OPERATORS);
    let case = calls::likely_done(operator, random, 100);
    let result = match answer::call(operator, &case.parameters, &case.mesh, AMPLE) {
        Ok(result) => result,
        Err(_) => return Ok(false),
    };
    equal(table::check_faces(&result), Ok(()), &case)?;
    if matches!(operator, Operator::Triangulate | Operator::Dual) {
        return Ok(true);
    }
    let is_closed = |mesh| table::check_closed(mesh).is_ok();
    equal(is_closed(&result), is_closed(&case.mesh), &case)
}

/// Where every step is let through, the text's own list gives the same mesh.
fn lists(random: &mut Random) -> Result<bool, String> {
    let list = random.pick(&LISTS);
    let mesh = meshes::fanned(random, 40);
    let parameters = calls::list_parameters(random);
    let lent = Lent { work: [AMPLE; 2], output: AMPLE };
    match recipe::run_steps(&list.steps(&parameters), &mesh, lent).outcome {
        Ok(result) => {
            let text = rust_side::apply_list(list, &parameters, &mesh);
            equal(mesh_bits(&result), mesh_bits(&text), &(list, parameters, &mesh))
        }
        Err(_) => Ok(false),
    }
}

fn streams(random: &mut Random) -> Result<bool, String> {
    let case = match random.below(3) {
        0 => runs::recipe_likely_refused(random, 30),
        1 => runs::list_likely_refused(random.pick(&LISTS), random, 30),
        _ => calls::likely_refused(random.pick(&OPERATORS), random, 60),
    };
    let words = case.words();
    let read = Case::take(&mut words.as_slice()).map(|case| case.map(|case| case.words()));
    equal(read, Ok(Some(words.clone())), &case)
}
