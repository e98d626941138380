//! Calls of lists and recipes: some that are likely done, some that are likely refused.
use crate::answer;
use crate::calls;
use crate::case::{Case, Function, Room};
use crate::coordinates;
use crate::damage;
use crate::extra::Extra;
use crate::mesh::Mesh;
use crate::meshes::{self, AMPLE};
use crate::operator::{Operator, Parameters, OPERATORS};
use crate::random::Random;
use crate::recipe::{List, Step, MOST_STEPS};
use crate::table::Sizes;

/// The steps of a growing recipe make no more corners.
const ENOUGH_CORNERS: usize = 400;
/// After so many operators that cannot go on, a recipe takes one that always can.
const TRIES: usize = 12;

/// A list on a mesh that its first step may take, with room enough.
pub fn list_likely_done(list: List, random: &mut Random, most_corners: usize) -> Case {
    let parameters = calls::list_parameters(random);
    let mesh = meshes::fanned(random, most_corners);
    let steps = list.steps(&parameters);
    let case = Case { parameters, ..Case::new(Function::List(list), mesh) };
    with_room(case, &steps, random)
}

/// A list with a fault or two.
pub fn list_likely_refused(list: List, random: &mut Random, most_corners: usize) -> Case {
    let mut case = list_likely_done(list, random, most_corners);
    for _ in 0..random.between(1, 2) {
        match random.below(6) {
            0 => case.parameters.ratio = Some(coordinates::not_finite(random)),
            1 => case.parameters.height = Some(coordinates::not_finite(random)),
            2 => case.mesh = meshes::closed(random, most_corners),
            fault => spoil(&mut case, fault, random, most_corners),
        }
    }
    let steps = list.steps(&case.parameters);
    shortened_at_a_step(case, &steps, random)
}

/// A recipe of so many steps that go on, with room enough.
pub fn recipe_likely_done(count: usize, random: &mut Random, most_corners: usize) -> Case {
    let mesh = match random.below(4) {
        0 => meshes::loose(random, most_corners),
        1 => meshes::closed(random, most_corners),
        _ => meshes::fanned(random, most_corners),
    };
    let steps = steps_that_go_on(count, &mesh, random);
    recipe_case(steps, mesh, random)
}

/// A recipe with a fault or two.
pub fn recipe_likely_refused(random: &mut Random, most_corners: usize) -> Case {
    let count = random.between(0, MOST_STEPS);
    let mut case = recipe_likely_done(count, random, most_corners);
    for _ in 0..random.between(1, 2) {
        match random.below(7) {
            0 => number_not_finite(&mut case.extra.steps, random),
            1 => case.extra.ledger = random.below(count + 1),
            2 => case = with_any_step(case, random),
            fault => spoil(&mut case, fault - 1, random, most_corners),
        }
    }
    let steps = case.extra.steps.clone();
    let case = shortened_at_a_step(case, &steps, random);
    if random.once_in(12) {
        too_long(case, random)
    } else {
        case
    }
}

/// Faults that lists and recipes have in common.
fn spoil(case: &mut Case, fault: usize, random: &mut Random, most_corners: usize) {
    match fault {
        3 => calls::overflow(case, random),
        4 => case.mesh = damage::badly_fanned(random, most_corners),
        _ => case.mesh = damage::damaged(random, most_corners),
    }
}

/// The recipe on the mesh, with room for all that its steps make.
pub fn recipe_case(steps: Vec<Step>, mesh: Mesh, random: &mut Random) -> Case {
    let ledger = steps.len() + random.pick(&[0, 0, 1, 3]);
    let extra = Extra { ledger, steps: steps.clone(), ..Extra::default() };
    with_room(Case { extra, ..Case::new(Function::Recipe, mesh) }, &steps, random)
}

fn step(operator: Operator, random: &mut Random) -> Step {
    let parameters = Parameters {
        ratio: operator.takes_ratio().then(|| coordinates::parameter(random)).flatten(),
        height: operator.takes_height().then(|| coordinates::parameter(random)).flatten(),
        ..Parameters::default()
    };
    Step { operator, parameters }
}

fn steps_that_go_on(count: usize, mesh: &Mesh, random: &mut Random) -> Vec<Step> {
    let room = Room { corners: ENOUGH_CORNERS, ..AMPLE };
    let (mut steps, mut mesh) = (Vec::new(), mesh.clone());
    while steps.len() < count {
        let tried = (0..TRIES).map(|_| step(random.pick(&OPERATORS), random));
        let tried: Vec<Step> = tried.collect();
        let last = Step { operator: Operator::Reverse, parameters: Parameters::default() };
        let on = |step: Step| {
            let made = answer::call(step.operator, &step.parameters, &mesh, room).ok();
            made.map(|made| (step, made))
        };
        match tried.into_iter().chain([last]).find_map(on) {
            Some((step, made)) => {
                steps.push(step);
                mesh = made;
            }
            None => return steps,
        }
    }
    steps
}

/// One of the steps is another, that may be refused.
fn with_any_step(mut case: Case, random: &mut Random) -> Case {
    let count = case.extra.steps.len();
    if count > 0 {
        case.extra.steps[random.below(count)] = step(random.pick(&OPERATORS), random);
    }
    case
}

fn number_not_finite(steps: &mut [Step], random: &mut Random) {
    if !steps.is_empty() {
        let step = &mut steps[random.below(steps.len())];
        let parameters = std::mem::take(&mut step.parameters);
        step.parameters = calls::parameters_not_finite(parameters, step.operator, random);
    }
}

/// More steps than a recipe may have.
fn too_long(mut case: Case, random: &mut Random) -> Case {
    let count = random.between(MOST_STEPS + 1, MOST_STEPS + 4);
    case.extra.steps.resize_with(count, || step(Operator::Reverse, random));
    case.extra.ledger = random.pick(&[0, MOST_STEPS, count, count + 1]);
    case
}

/// The sizes of what the steps make, up to the first that is refused.
fn sizes_of(steps: &[Step], mesh: &Mesh) -> Vec<Sizes> {
    let (mut sizes, mut mesh) = (Vec::new(), mesh.clone());
    for step in steps {
        match answer::call(step.operator, &step.parameters, &mesh, AMPLE) {
            Ok(made) => mesh = made,
            Err(_) => break,
        }
        sizes.push(Sizes::of(&mesh));
    }
    sizes
}

/// Lends room for all that the steps make, exact or somewhat more.
fn with_room(mut case: Case, steps: &[Step], random: &mut Random) -> Case {
    let sizes = sizes_of(steps, &case.mesh);
    let mut work = [Room::default(); 2];
    let last = steps.len().saturating_sub(1);
    for (index, made) in sizes.iter().enumerate().filter(|(index, _)| *index != last) {
        work[index % 2] = at_least(work[index % 2], calls::enough(*made, random));
    }
    let copied =
        || (steps.is_empty() && !case.mesh.offsets.is_empty()).then(|| Sizes::of(&case.mesh));
    let result = sizes.get(last).copied().or_else(copied);
    let output = result.map_or(Room { offsets: 9, corners: 20, coordinates: 12 }, |result| {
        calls::enough(result, random)
    });
    case.extra.work = work;
    case.room = output.at_most(Room::MOST);
    case.fill = calls::fill(random);
    case
}

fn at_least(a: Room, b: Room) -> Room {
    Room {
        offsets: a.offsets.max(b.offsets),
        corners: a.corners.max(b.corners),
        coordinates: a.coordinates.max(b.coordinates),
    }
}

/// Now and then the room of one step is short, or a lent mesh has none at all.
fn shortened_at_a_step(mut case: Case, steps: &[Step], random: &mut Random) -> Case {
    let sizes = sizes_of(steps, &case.mesh);
    if !random.once_in(3) {
        return case;
    }
    let at = random.below(sizes.len() + 1);
    let short = match sizes.get(at) {
        Some(made) if !random.once_in(6) => calls::shortened(made.room(), random),
        _ => Room::default(),
    };
    match at + 1 == steps.len() {
        true => case.room = short,
        false => case.extra.work[at % 2] = short,
    }
    case
}
