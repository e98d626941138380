//! The gate's fixed list: the cases of each code come from a seed of their own.
use crate::answer::{answer, Answer};
use crate::calls;
use crate::case::{Case, Function, Room};
use crate::damage;
use crate::kept;
use crate::made_files;
use crate::mesh::{Mesh, LIMIT};
use crate::meshes;
use crate::numbers;
use crate::operator::Operator;
use crate::random::Random;
use crate::shapes;
use crate::tally::Tally;

const ARGUMENTS: usize = 1000;
const ARGUMENTS_A_CASE: usize = 64;
const FACES_A_HELPER: usize = 300;
const DONE_AN_OPERATOR: usize = 150;
const GOOD_A_CHECK: usize = 60;
/// Of refusals so many are looked through, and of each kind so many kept.
const LOOKED_THROUGH: usize = 4000;
const KEPT_OF_A_KIND: usize = 3;
const MOST_CORNERS: usize = 36;

/// The cases of one code with their answers. Its seed is the code.
pub fn answered_cases(code: u32) -> Vec<(Case, Answer)> {
    let mut random = Random::new(u64::from(code));
    let random = &mut random;
    match Function::from_code(code).expect("a known code") {
        Function::Operator(operator) => operator_cases(operator, random),
        Function::List(list) => kept::list_cases(list, random),
        Function::Recipe => kept::recipe_cases(random),
        Function::File => answered(made_files::fixed(random)),
        Function::Root => answered(root_cases(random)),
        check @ (Function::CheckClosed | Function::CheckFans) => check_cases(check, random),
        Function::Edges => edge_cases(random),
        helper => {
            answered((0..FACES_A_HELPER).map(|_| numbers::face_case(helper, random)).collect())
        }
    }
}

fn answered(cases: Vec<Case>) -> Vec<(Case, Answer)> {
    let with_answer = |case| {
        let answer = answer(&case);
        (case, answer)
    };
    cases.into_iter().map(with_answer).collect()
}

fn root_cases(random: &mut Random) -> Vec<Case> {
    let mut arguments = numbers::chosen_arguments(random);
    arguments.extend((0..ARGUMENTS).map(|_| numbers::argument(random)));
    arguments.chunks(ARGUMENTS_A_CASE).map(numbers::root_case).collect()
}

fn operator_cases(operator: Operator, random: &mut Random) -> Vec<(Case, Answer)> {
    let mut cases = Vec::new();
    while cases.len() < DONE_AN_OPERATOR {
        let case = calls::likely_done(operator, random, MOST_CORNERS);
        let answer = answer(&case);
        if answer.is_done() {
            cases.push((case, answer));
        }
    }
    cases.extend(some_of_each_refusal(|| calls::likely_refused(operator, random, MOST_CORNERS)));
    cases.extend(answered(results_over_limits(operator)));
    cases
}

fn some_of_each_refusal(mut make: impl FnMut() -> Case) -> Vec<(Case, Answer)> {
    let mut tally = Tally::default();
    let mut kept = Vec::new();
    for _ in 0..LOOKED_THROUGH {
        let case = make();
        let answer = answer(&case);
        if !answer.is_done() && tally.count(&case, answer.outcome) <= KEPT_OF_A_KIND {
            kept.push((case, answer));
        }
    }
    kept
}

/// Number 12 at its three places, each by an operator that needs a small mesh for it.
fn results_over_limits(operator: Operator) -> Vec<Case> {
    let meshes = match operator {
        Operator::Propellor => vec![shapes::dense(223)],
        Operator::Whirl => {
            let positions = shapes::with_spares(&shapes::dense(79), 47_600);
            vec![shapes::dense(97), positions]
        }
        _ => Vec::new(),
    };
    meshes.into_iter().map(|mesh| Case::new(Function::Operator(operator), mesh)).collect()
}

fn check_cases(check: Function, random: &mut Random) -> Vec<(Case, Answer)> {
    let good = |random: &mut Random| match check {
        Function::CheckFans => meshes::fanned(random, MOST_CORNERS),
        _ => meshes::closed(random, MOST_CORNERS),
    };
    let good: Vec<Case> = (0..GOOD_A_CHECK).map(|_| Case::new(check, good(random))).collect();
    let mut cases = answered(good);
    cases.extend(some_of_each_refusal(|| {
        Case::new(check, damage::some_fault(random, MOST_CORNERS))
    }));
    let pairs = damage::all_pairs_of_triangles().step_by(17);
    let small = pairs.chain(damage::all_small_offsets().step_by(13));
    cases.extend(answered(small.map(|mesh| Case::new(check, mesh)).collect()));
    if check == Function::CheckClosed {
        cases.extend(answered(about_the_limits().map(|mesh| Case::new(check, mesh)).to_vec()));
    }
    cases
}

/// 60,000 corners, then one more; one face more; one position more.
fn about_the_limits() -> [Mesh; 4] {
    let tetrahedron = shapes::tetrahedron();
    [
        damage::one_face(LIMIT),
        damage::one_face(LIMIT + 1),
        damage::empty_faces(LIMIT + 1),
        shapes::with_spares(&tetrahedron, LIMIT + 1 - tetrahedron.position_count()),
    ]
}

fn edge_cases(random: &mut Random) -> Vec<(Case, Answer)> {
    let good = (0..GOOD_A_CHECK).map(|_| edge_case(meshes::closed(random, MOST_CORNERS), random));
    let mut cases = answered(good.collect());
    cases.extend(some_of_each_refusal(|| {
        let mesh = damage::some_fault(random, MOST_CORNERS);
        edge_case(mesh, random)
    }));
    cases
}

/// An edge list with room that is exact, larger, one short or none.
pub fn edge_case(mesh: Mesh, random: &mut Random) -> Case {
    let edges = mesh.corners.len() / 2;
    let pairs = random.pick(&[edges, edges, edges + 1, edges + 5, edges.saturating_sub(1), 0]);
    let room = Room { offsets: pairs, ..Room::default() };
    Case { room, fill: calls::fill(random), ..Case::new(Function::Edges, mesh) }
}
