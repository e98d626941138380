//! Meshes with faults, for each number of the checks.
use crate::coordinates;
use crate::mesh::{Face, Mesh, LIMIT};
use crate::meshes;
use crate::random::Random;
use crate::shapes;
use crate::table;

type Fault = fn(&mut Mesh, &mut Random);

const FAULTS: [Fault; 14] = [
    offsets_cut,
    first_offset_raised,
    an_offset_moved,
    last_offset_moved,
    coordinates_cut,
    coordinate_not_finite,
    face_cut_short,
    vertex_too_high,
    vertex_twice,
    face_repeated,
    face_turned,
    face_removed,
    corner_changed,
    vertices_merged,
];

/// A mesh that one of the checks is likely to refuse.
pub fn some_fault(random: &mut Random, most_corners: usize) -> Mesh {
    if random.once_in(4) {
        badly_fanned(random, most_corners)
    } else {
        damaged(random, most_corners)
    }
}

/// A good mesh with one fault or two.
pub fn damaged(random: &mut Random, most_corners: usize) -> Mesh {
    let mut mesh = match random.below(4) {
        0 => meshes::closed(random, most_corners),
        1 => shapes::loose_faces(random),
        _ => meshes::fanned(random, most_corners),
    };
    for _ in 0..random.between(1, 2) {
        random.pick(&FAULTS)(&mut mesh, random);
    }
    mesh
}

/// Good for numbers 1 to 9, and often not for 10 or 11.
pub fn badly_fanned(random: &mut Random, most_corners: usize) -> Mesh {
    let mesh = meshes::fanned(random, most_corners);
    let other = meshes::fanned(random, most_corners);
    match random.below(4) {
        0 => meshes::closed(random, most_corners),
        1 => shapes::shuffled(&shapes::with_spares(&mesh, 1), random),
        _ if mesh.position_count() == 0 || other.position_count() == 0 => mesh,
        _ => shapes::shuffled(&shapes::sharing_a_hub(&mesh, &other, random), random),
    }
}

/// Sizes about the limits and up to what a case holds; cheap faces that mostly fail later.
pub fn over_limits(random: &mut Random) -> Mesh {
    let size = |random: &mut Random| match random.below(3) {
        0 => LIMIT,
        1 => LIMIT + 1,
        _ => random.between(LIMIT + 1, 65_535),
    };
    match random.below(8) {
        0..=2 => empty_faces(size(random)),
        3..=5 => one_face(size(random)),
        6 => shapes::with_spares(&shapes::tetrahedron(), size(random) - 4),
        _ => {
            let mut mesh = one_face(size(random));
            mesh.offsets.resize(size(random) + 1, mesh.corners.len() as u32);
            mesh
        }
    }
}

fn on_four_points(offsets: Vec<u32>, corners: Vec<u32>) -> Mesh {
    Mesh { offsets, corners, coordinates: shapes::tetrahedron().coordinates }
}

/// Faces without corners.
pub fn empty_faces(count: usize) -> Mesh {
    on_four_points(vec![0; count + 1], Vec::new())
}

/// A face that goes round four vertices again and again.
pub fn one_face(corners: usize) -> Mesh {
    let round = (0..corners as u32).map(|corner| corner % 4).collect();
    on_four_points(vec![0, corners as u32], round)
}

/// An index into a list, its ends more often than others; `None` for an empty list.
fn index(length: usize, random: &mut Random) -> Option<usize> {
    match random.below(4) {
        _ if length == 0 => None,
        0 => Some(0),
        1 => Some(length - 1),
        _ => Some(random.below(length)),
    }
}

fn offsets_cut(mesh: &mut Mesh, random: &mut Random) {
    let count = mesh.offsets.len();
    match random.below(4) {
        0 => mesh.offsets.clear(),
        1 => mesh.offsets.truncate(count.saturating_sub(1)),
        _ => drop(mesh.offsets.drain(..count.min(1))),
    }
}

fn first_offset_raised(mesh: &mut Mesh, random: &mut Random) {
    if let Some(first) = mesh.offsets.first_mut() {
        *first = random.pick(&[1, 3, u32::MAX]);
    }
}

fn an_offset_moved(mesh: &mut Mesh, random: &mut Random) {
    if let Some(at) = index(mesh.offsets.len(), random) {
        let to = random.below(mesh.corners.len() + 2) as u32;
        mesh.offsets[at] = random.pick(&[to, to, u32::MAX]);
    }
}

fn last_offset_moved(mesh: &mut Mesh, random: &mut Random) {
    if let Some(last) = mesh.offsets.last_mut() {
        *last = last.wrapping_add(random.pick(&[1, 3, u32::MAX]));
    }
}

fn coordinates_cut(mesh: &mut Mesh, random: &mut Random) {
    let left = mesh.coordinates.len().saturating_sub(random.between(1, 3));
    mesh.coordinates.truncate(left);
}

fn coordinate_not_finite(mesh: &mut Mesh, random: &mut Random) {
    if let Some(at) = index(mesh.coordinates.len(), random) {
        mesh.coordinates[at] = coordinates::not_finite(random);
    }
}

fn vertex_too_high(mesh: &mut Mesh, random: &mut Random) {
    let count = mesh.position_count() as u32;
    if let Some(at) = index(mesh.corners.len(), random) {
        mesh.corners[at] = random.pick(&[count, count, count + 1, u32::MAX, 1 << 30]);
    }
}

fn corner_changed(mesh: &mut Mesh, random: &mut Random) {
    let positions = mesh.position_count();
    if positions > 0 {
        if let Some(at) = index(mesh.corners.len(), random) {
            mesh.corners[at] = random.below(positions) as u32;
        }
    }
}

/// Changes the faces as lists; a mesh whose offsets are wrong by now stays as it is.
fn on_faces(mesh: &mut Mesh, random: &mut Random, change: fn(&mut Vec<Face>, usize, &mut Random)) {
    if table::has_wrong_offsets(mesh) {
        return;
    }
    let mut faces = mesh.faces();
    if let Some(face) = index(faces.len(), random) {
        change(&mut faces, face, random);
        let coordinates = std::mem::take(&mut mesh.coordinates);
        *mesh = Mesh { coordinates, ..Mesh::new(&faces, &[]) };
    }
}

fn face_cut_short(mesh: &mut Mesh, random: &mut Random) {
    on_faces(mesh, random, |faces, face, random| faces[face].truncate(random.below(3)));
}

fn vertex_twice(mesh: &mut Mesh, random: &mut Random) {
    on_faces(mesh, random, |faces, face, random| {
        let face = &mut faces[face];
        if !face.is_empty() {
            let (from, to) = (random.below(face.len()), random.below(face.len()));
            face[to] = face[from];
        }
    });
}

fn face_repeated(mesh: &mut Mesh, random: &mut Random) {
    on_faces(mesh, random, |faces, face, random| {
        let mut copy = faces[face].clone();
        let turn = random.below(copy.len().max(1));
        copy.rotate_left(turn);
        faces.insert(random.below(faces.len() + 1), copy);
    });
}

fn face_turned(mesh: &mut Mesh, random: &mut Random) {
    on_faces(mesh, random, |faces, face, _| faces[face].reverse());
}

fn face_removed(mesh: &mut Mesh, random: &mut Random) {
    on_faces(mesh, random, |faces, face, _| {
        faces.remove(face);
    });
}

fn vertices_merged(mesh: &mut Mesh, random: &mut Random) {
    let positions = mesh.position_count();
    if positions > 1 && mesh.coordinates.len() % 3 == 0 {
        let (kept, dropped) = (random.below(positions), random.below(positions));
        *mesh = shapes::merged(mesh, kept as u32, dropped as u32);
    }
}

/// Every list of up to four offsets to 4 over up to four corners.
pub fn all_small_offsets() -> impl Iterator<Item = Mesh> {
    let lists = (0..=4).flat_map(|length| all_lists(length, 5));
    lists.flat_map(|offsets| {
        (0..=4).map(move |corners| on_four_points(offsets.clone(), (0..corners).collect()))
    })
}

/// Every pair of triangles on four vertices.
pub fn all_pairs_of_triangles() -> impl Iterator<Item = Mesh> {
    all_lists(6, 4).map(|corners| on_four_points(vec![0, 3, 6], corners))
}

/// Every list of `length` numbers below `base`.
fn all_lists(length: usize, base: usize) -> impl Iterator<Item = Vec<u32>> {
    let digit = move |number: usize, place: usize| (number / base.pow(place as u32) % base) as u32;
    (0..base.pow(length as u32)).map(move |n| (0..length).map(|place| digit(n, place)).collect())
}
