//! The table of numbers 1 to 14, read a second time from document 01: slow and plain.
use crate::arithmetic;
use crate::case::Room;
use crate::mesh::{Mesh, LIMIT};
use crate::operator::{Operator, Parameters};
use std::collections::{HashMap, HashSet};

#[derive(Clone, Copy, Debug, PartialEq, Eq)]
pub struct Refusal {
    pub number: u32,
    pub place: u32,
}

/// A rule on a mesh: its lowest place, where it holds.
type Rule = fn(&Mesh) -> Option<usize>;

const SHAPE_AND_LIMITS: &[(u32, Rule)] = &[(1, wrong_shape), (2, over_a_limit)];
const FACES: &[(u32, Rule)] = &[
    (4, coordinate_not_finite),
    (5, face_under_three_corners),
    (6, vertex_number_too_high),
    (7, vertex_twice_in_a_face),
];
const CLOSED: &[(u32, Rule)] = &[(8, edge_met_before), (9, edge_without_reverse)];
const FANS: &[(u32, Rule)] = &[(10, vertex_in_few_faces), (11, vertex_with_more_fans)];

/// Numbers 1, 2, 4 to 7.
pub fn check_faces(mesh: &Mesh) -> Result<(), Refusal> {
    check(mesh, &[SHAPE_AND_LIMITS, FACES])
}

/// Numbers 1, 2, 4 to 9.
pub fn check_closed(mesh: &Mesh) -> Result<(), Refusal> {
    check(mesh, &[SHAPE_AND_LIMITS, FACES, CLOSED])
}

/// Numbers 1, 2, 4 to 11.
pub fn check_fans(mesh: &Mesh) -> Result<(), Refusal> {
    check(mesh, &[SHAPE_AND_LIMITS, FACES, CLOSED, FANS])
}

fn check(mesh: &Mesh, parts: &[&[(u32, Rule)]]) -> Result<(), Refusal> {
    for (number, rule) in parts.iter().flat_map(|part| part.iter()) {
        refuse_where(*number, rule(mesh))?;
    }
    Ok(())
}

pub fn refuse_where(number: u32, place: Option<usize>) -> Result<(), Refusal> {
    match place {
        Some(place) => Err(Refusal { number, place: place as u32 }),
        None => Ok(()),
    }
}

/// Numbers 1 to 11 of a call.
pub fn check_input(
    operator: Operator,
    parameters: &Parameters,
    mesh: &Mesh,
) -> Result<(), Refusal> {
    check(mesh, &[SHAPE_AND_LIMITS])?;
    refuse_where(3, parameter_not_finite(operator, parameters))?;
    match operator {
        Operator::Reverse | Operator::Reflect | Operator::Triangulate => check_faces(mesh),
        Operator::Ambo | Operator::Dual => check_fans(mesh),
        _ => check_closed(mesh),
    }
}

/// The sizes of a result.
#[derive(Clone, Copy, Debug, PartialEq, Eq)]
pub struct Sizes {
    pub faces: usize,
    pub corners: usize,
    pub positions: usize,
}

impl Sizes {
    pub fn of(mesh: &Mesh) -> Sizes {
        Sizes {
            faces: mesh.face_count(),
            corners: mesh.corners.len(),
            positions: mesh.position_count(),
        }
    }

    /// The room that just holds it.
    pub fn room(self) -> Room {
        Room { offsets: self.faces + 1, corners: self.corners, coordinates: 3 * self.positions }
    }
}

/// Numbers 12 and 13.
pub fn check_sizes(sizes: Sizes, room: Room) -> Result<(), Refusal> {
    refuse_where(12, size_over_a_limit(sizes))?;
    check_room(sizes, room)
}

/// Number 13, places 0 to 2.
pub fn check_room(sizes: Sizes, room: Room) -> Result<(), Refusal> {
    let needed = sizes.room();
    let short = [
        needed.offsets > room.offsets,
        needed.corners > room.corners,
        needed.coordinates > room.coordinates,
    ];
    refuse_where(13, short.iter().position(|short| *short))
}

/// Number 14, of a result.
pub fn check_result(result: &Mesh) -> Result<(), Refusal> {
    refuse_where(14, coordinate_not_finite(result))
}

/// Number 1.
pub fn wrong_shape(mesh: &Mesh) -> Option<usize> {
    [has_wrong_offsets(mesh), mesh.coordinates.len() % 3 != 0].iter().position(|wrong| *wrong)
}

pub fn has_wrong_offsets(mesh: &Mesh) -> bool {
    let falls = mesh.offsets.windows(2).any(|ends| ends[1] < ends[0]);
    let first_is_zero = mesh.offsets.first() == Some(&0);
    let last_is_count = mesh.offsets.last().map(|last| *last as usize) == Some(mesh.corners.len());
    falls || !first_is_zero || !last_is_count
}

fn over_a_limit(mesh: &Mesh) -> Option<usize> {
    size_over_a_limit(Sizes::of(mesh))
}

fn size_over_a_limit(sizes: Sizes) -> Option<usize> {
    [sizes.faces, sizes.corners, sizes.positions].iter().position(|size| *size > LIMIT)
}

fn parameter_not_finite(operator: Operator, parameters: &Parameters) -> Option<usize> {
    let bad = |taken: bool, number: Option<f32>| {
        taken && number.map_or(false, |number| !number.is_finite())
    };
    let ratio = bad(operator.takes_ratio(), parameters.ratio);
    let height = bad(operator.takes_height(), parameters.height);
    [ratio, height].iter().position(|bad| *bad)
}

fn coordinate_not_finite(mesh: &Mesh) -> Option<usize> {
    mesh.coordinates.iter().position(|number| !number.is_finite())
}

fn face_under_three_corners(mesh: &Mesh) -> Option<usize> {
    mesh.runs().position(|run| run.len() < 3)
}

fn vertex_number_too_high(mesh: &Mesh) -> Option<usize> {
    mesh.corners.iter().position(|vertex| *vertex as usize >= mesh.position_count())
}

fn vertex_twice_in_a_face(mesh: &Mesh) -> Option<usize> {
    mesh.runs().position(|run| run.iter().collect::<HashSet<_>>().len() < run.len())
}

/// The directed edge that starts at each corner.
fn directed_edges(mesh: &Mesh) -> Vec<[u32; 2]> {
    let of_run = |run: &[u32]| -> Vec<[u32; 2]> {
        (0..run.len()).map(|start| [run[start], run[(start + 1) % run.len()]]).collect()
    };
    mesh.runs().flat_map(of_run).collect()
}

fn edge_met_before(mesh: &Mesh) -> Option<usize> {
    let mut met = HashSet::new();
    directed_edges(mesh).into_iter().position(|edge| !met.insert(edge))
}

fn edge_without_reverse(mesh: &Mesh) -> Option<usize> {
    let edges = directed_edges(mesh);
    let all: HashSet<[u32; 2]> = edges.iter().copied().collect();
    edges.into_iter().position(|[from, to]| !all.contains(&[to, from]))
}

/// For each vertex the faces that hold it, ascending.
fn faces_of_vertices(mesh: &Mesh) -> Vec<Vec<usize>> {
    let mut faces_of = vec![Vec::new(); mesh.position_count()];
    for (face, run) in mesh.runs().enumerate() {
        for vertex in run {
            faces_of[*vertex as usize].push(face);
        }
    }
    faces_of
}

fn vertex_in_few_faces(mesh: &Mesh) -> Option<usize> {
    faces_of_vertices(mesh).iter().position(|faces| faces.len() < 3)
}

/// On a closed mesh: the first fan is grown across shared edges until no face joins it.
fn vertex_with_more_fans(mesh: &Mesh) -> Option<usize> {
    let faces = mesh.faces();
    faces_of_vertices(mesh)
        .iter()
        .enumerate()
        .position(|(vertex, round)| first_fan(vertex as u32, round, &faces) < round.len())
}

/// How many of the faces round the vertex are joined to the first by edges at the vertex.
fn first_fan(vertex: u32, round: &[usize], faces: &[Vec<u32>]) -> usize {
    let mut at_neighbour: HashMap<u32, Vec<usize>> = HashMap::new();
    for face in round {
        for other in neighbours(vertex, &faces[*face]) {
            at_neighbour.entry(other).or_default().push(*face);
        }
    }
    let mut fan: HashSet<usize> = HashSet::new();
    let mut to_visit: Vec<usize> = round.iter().take(1).copied().collect();
    while let Some(face) = to_visit.pop() {
        if fan.insert(face) {
            to_visit.extend(neighbours(vertex, &faces[face]).iter().flat_map(|n| &at_neighbour[n]));
        }
    }
    fan.len()
}

/// The vertices before and after the vertex in a face that holds it.
fn neighbours(vertex: u32, run: &[u32]) -> [u32; 2] {
    let at = run.iter().position(|corner| *corner == vertex).expect("holds the vertex");
    [run[(at + run.len() - 1) % run.len()], run[(at + 1) % run.len()]]
}

/// Whether each mask of kis allows the face.
fn is_picked(mesh: &Mesh, face: usize, run: &[u32], parameters: &Parameters) -> bool {
    let allows = |list: &Option<Vec<u32>>, number: usize| match list {
        Some(list) => list.contains(&(number as u32)),
        None => true,
    };
    allows(&parameters.arities, run.len())
        && allows(&parameters.faces, face)
        && (!parameters.regular || arithmetic::is_regular(&arithmetic::points_of(mesh, run)))
}

/// The sizes of the result of a call that numbers 1 to 11 let through.
pub fn result_sizes(operator: Operator, parameters: &Parameters, mesh: &Mesh) -> Sizes {
    let Sizes { faces, corners, positions } = Sizes::of(mesh);
    let edges = corners / 2;
    let sized = |faces, corners, positions| Sizes { faces, corners, positions };
    match operator {
        Operator::Reverse | Operator::Reflect => sized(faces, corners, positions),
        Operator::Triangulate => {
            let triangles = corners - 2 * faces;
            sized(triangles, 3 * triangles, positions)
        }
        Operator::Ambo => sized(faces + positions, 2 * corners, edges),
        Operator::Dual => sized(positions, corners, faces),
        Operator::Kis => {
            let (picked, split) = picked_faces_and_corners(mesh, parameters);
            sized(faces - picked + split, corners + 2 * split, positions + picked)
        }
        Operator::Chamfer => sized(faces + edges, corners + 6 * edges, positions + corners),
        Operator::Gyro => sized(corners, 5 * corners, positions + faces + 2 * edges),
        Operator::Propellor => sized(faces + corners, 5 * corners, positions + 2 * edges),
        Operator::Whirl => sized(corners + faces, 7 * corners, positions + corners + 2 * edges),
        Operator::Quinto => sized(faces + corners, 6 * corners, positions + edges + corners),
    }
}

/// How many faces kis picks, and how many corners these have.
pub fn picked_faces_and_corners(mesh: &Mesh, parameters: &Parameters) -> (usize, usize) {
    let picked =
        mesh.runs().enumerate().filter(|(face, run)| is_picked(mesh, *face, run, parameters));
    picked.fold((0, 0), |(faces, corners), (_, run)| (faces + 1, corners + run.len()))
}

/// The edge list: for each face in order its ascending windows, the closing one last, each once.
pub fn edge_list(mesh: &Mesh) -> Vec<[u32; 2]> {
    let mut met = HashSet::new();
    directed_edges(mesh).into_iter().filter(|edge| edge[0] < edge[1] && met.insert(*edge)).collect()
}
