//! Calls of the operators: some that are likely done, some that are likely refused.
use crate::case::{Case, Function, Room};
use crate::coordinates;
use crate::damage;
use crate::mesh::{Mesh, LIMIT};
use crate::meshes;
use crate::operator::{Operator, Parameters};
use crate::random::Random;
use crate::shapes;
use crate::table::{self, Sizes};

/// A call that numbers 1 to 13 let through, but for a result over a limit.
pub fn likely_done(operator: Operator, random: &mut Random, most_corners: usize) -> Case {
    let mesh = meshes::accepted_by(operator, random, most_corners);
    let parameters = parameters(operator, &mesh, random);
    let room = enough(table::result_sizes(operator, &parameters, &mesh), random);
    case(operator, parameters, mesh, room, random)
}

/// A call with a fault in its mesh, its numbers, its room or its result, or with two of them.
pub fn likely_refused(operator: Operator, random: &mut Random, most_corners: usize) -> Case {
    let mut case = likely_done(operator, random, most_corners);
    for _ in 0..random.between(1, 2) {
        match random.below(8) {
            0 => case.parameters = parameters_not_finite(case.parameters, operator, random),
            1 => case.room = shortened(case.room, random),
            2 => case.room = random.pick(&[Room::default(), halved(case.room)]),
            3 => overflow(&mut case, random),
            4 => case.mesh = damage::badly_fanned(random, most_corners),
            _ => case.mesh = damage::damaged(random, most_corners),
        }
    }
    case
}

fn case(
    operator: Operator,
    parameters: Parameters,
    mesh: Mesh,
    room: Room,
    random: &mut Random,
) -> Case {
    let function = Function::Operator(operator);
    Case { parameters, room, fill: fill(random), ..Case::new(function, mesh) }
}

/// What lent slices start from: small, about the largest, floats, infinities and no numbers.
pub fn fill(random: &mut Random) -> u32 {
    let chosen = [0, 1, 7, 0x3F80_0000, 0x7F7F_FFF0, 0x7F80_0000, 0x7FC0_0000, 0xFFFF_FFF8];
    if random.once_in(3) {
        random.word()
    } else {
        random.pick(&chosen)
    }
}

pub fn parameters(operator: Operator, mesh: &Mesh, random: &mut Random) -> Parameters {
    let kis = operator == Operator::Kis;
    Parameters {
        ratio: operator.takes_ratio().then(|| coordinates::parameter(random)).flatten(),
        height: operator.takes_height().then(|| coordinates::parameter(random)).flatten(),
        arities: if kis { mask(random, &[3, 4, 5, 6, 8, 0, 70_000]) } else { None },
        faces: if kis { face_mask(mesh, random) } else { None },
        regular: kis && random.once_in(3),
        longer: operator == Operator::Triangulate && random.once_in(2),
    }
}

/// Absent, empty, or some of `entries`, repeated and in any order.
fn mask(random: &mut Random, entries: &[u32]) -> Option<Vec<u32>> {
    if random.once_in(2) {
        return None;
    }
    let length = random.pick(&[0, 1, 2, 3, 8]);
    Some((0..length).map(|_| random.pick(entries)).collect())
}

fn face_mask(mesh: &Mesh, random: &mut Random) -> Option<Vec<u32>> {
    let past = mesh.face_count() as u32;
    let entries: Vec<u32> = (0..past).chain([past, past + 1, u32::MAX]).collect();
    mask(random, &entries)
}

pub fn parameters_not_finite(
    mut parameters: Parameters,
    operator: Operator,
    random: &mut Random,
) -> Parameters {
    if operator.takes_ratio() && random.once_in(2) {
        parameters.ratio = Some(coordinates::not_finite(random));
    }
    if operator.takes_height() && random.once_in(2) {
        parameters.height = Some(coordinates::not_finite(random));
    }
    parameters
}

/// Room for the result: exact or larger in some slices.
pub fn enough(sizes: Sizes, random: &mut Random) -> Room {
    let exact = sizes.room();
    let mut more = || if random.once_in(2) { 0 } else { random.between(1, 7) };
    Room {
        offsets: exact.offsets + more(),
        corners: exact.corners + more(),
        coordinates: exact.coordinates + more(),
    }
}

/// The room with one slice a little shorter.
pub fn shortened(mut room: Room, random: &mut Random) -> Room {
    let less = random.pick(&[1, 1, 2, 8]);
    let length = match random.below(3) {
        0 => &mut room.offsets,
        1 => &mut room.corners,
        _ => &mut room.coordinates,
    };
    *length = length.saturating_sub(less);
    room
}

fn halved(room: Room) -> Room {
    Room { offsets: room.offsets / 2, corners: room.corners / 2, coordinates: room.coordinates / 2 }
}

/// Coordinates and numbers so large, or a centre so near the origin, that results overflow.
pub fn overflow(case: &mut Case, random: &mut Random) {
    let huge = random.pick(&[f32::MAX, 3e38, 1e38, 1e30, 0.0]);
    let part = random.pick(&[1, 2, 10]);
    for number in &mut case.mesh.coordinates {
        if random.once_in(part) {
            *number = huge * random.pick(&[1.0, -1.0]);
        }
    }
    if case.parameters.height.is_some() {
        case.parameters.height = Some(random.pick(&[f32::MAX, -1e38, 1e20]));
    }
}

/// A call on an input over a limit, or with a result over one.
pub fn over_limits(operator: Operator, random: &mut Random) -> Case {
    let mesh = if random.once_in(2) {
        damage::over_limits(random)
    } else {
        with_result_over_limits(operator, random)
    };
    let parameters = Parameters::default();
    let room = Room { offsets: random.below(9), corners: 5, coordinates: 4 };
    case(operator, parameters, mesh, room, random)
}

/// Faces over the limit where the operator can, else corners; at times positions.
fn with_result_over_limits(operator: Operator, random: &mut Random) -> Mesh {
    match operator {
        Operator::Triangulate => many_loose_faces(),
        Operator::Ambo => shapes::torus(100, random.between(76, 80)),
        Operator::Dual | Operator::Reflect | Operator::Reverse => shapes::torus(100, 120),
        _ if random.once_in(4) => full_of_spares(random),
        _ => shapes::dense(random.pick(&[97, 127, 151, 223, 223, 223])),
    }
}

/// Faces of many corners on few vertices.
fn many_loose_faces() -> Mesh {
    let face: Vec<u32> = (0..60).collect();
    let points: Vec<[f32; 3]> = (0..60).map(|index| [index as f32, 1.0, -0.0]).collect();
    Mesh::new(&vec![face; 400], &points)
}

/// As many positions as a mesh may have.
pub fn full_of_spares(random: &mut Random) -> Mesh {
    let mesh = random.pick(&[shapes::tetrahedron(), shapes::dense(7)]);
    shapes::with_spares(&mesh, LIMIT - mesh.position_count())
}

/// What a list may be given.
pub fn list_parameters(random: &mut Random) -> Parameters {
    Parameters {
        ratio: random.pick(&[None, Some(0.25), Some(2.0)]),
        height: random.pick(&[None, Some(0.5), Some(-0.25)]),
        arities: random.pick(&[None, None, Some(vec![]), Some(vec![4]), Some(vec![3, 5])]),
        faces: None,
        regular: random.once_in(3),
        longer: false,
    }
}
