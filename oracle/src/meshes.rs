//! Random meshes that the checks let through.
use crate::answer;
use crate::case::Room;
use crate::coordinates;
use crate::mesh::Mesh;
use crate::operator::{Operator, Parameters, OPERATORS};
use crate::random::Random;
use crate::shapes;
use crate::table;

/// Room for every result within the limits.
pub const AMPLE: Room = Room { offsets: 60_001, corners: 60_000, coordinates: 180_000 };

/// A mesh that numbers 1 to 9 let through: spare positions, pillows and shared hubs included.
pub fn closed(random: &mut Random, most_corners: usize) -> Mesh {
    let found = until(
        || assembled(random, true, most_corners),
        |mesh| mesh.corners.len() <= most_corners && table::check_closed(mesh).is_ok(),
    );
    finished(found, random)
}

/// A closed mesh of one or more parts, with handles, hubs and spare positions or without.
pub fn of_any_build(random: &mut Random, most_corners: usize) -> Mesh {
    if random.once_in(2) {
        return closed(random, most_corners);
    }
    let made = |random: &mut Random| {
        let mesh = shapes::handles(random.pick(&[1, 2, 2, 3, 3, 4, 5, 6]), random);
        match random.below(6) {
            0 => shapes::union(&mesh, &solid(random, true)),
            1 => hubbed(&mesh, random),
            2 => shapes::with_spares(&mesh, random.between(1, 5)),
            _ => mesh,
        }
    };
    let found = until(|| made(random), |mesh| table::check_closed(mesh).is_ok());
    finished(found, random)
}

/// A mesh that numbers 1 to 11 let through.
pub fn fanned(random: &mut Random, most_corners: usize) -> Mesh {
    let found = until(
        || assembled(random, false, most_corners),
        |mesh| mesh.corners.len() <= most_corners && table::check_fans(mesh).is_ok(),
    );
    finished(found, random)
}

/// A mesh that numbers 1 to 7 let through, closed or not.
pub fn loose(random: &mut Random, most_corners: usize) -> Mesh {
    if random.once_in(2) {
        return closed(random, most_corners);
    }
    let found = until(|| shapes::loose_faces(random), |mesh| mesh.corners.len() <= most_corners);
    finished(found, random)
}

/// A mesh that the operator's numbers 1 to 11 let through.
pub fn accepted_by(operator: Operator, random: &mut Random, most_corners: usize) -> Mesh {
    match operator {
        Operator::Reverse | Operator::Reflect | Operator::Triangulate => {
            loose(random, most_corners)
        }
        Operator::Ambo | Operator::Dual => fanned(random, most_corners),
        _ => closed(random, most_corners),
    }
}

fn until(mut make: impl FnMut() -> Mesh, fits: impl Fn(&Mesh) -> bool) -> Mesh {
    loop {
        let mesh = make();
        if fits(&mesh) {
            return mesh;
        }
    }
}

/// Numbered anew and with coordinates of some kind.
fn finished(mut mesh: Mesh, random: &mut Random) -> Mesh {
    if !random.once_in(4) {
        mesh = shapes::shuffled(&mesh, random);
    }
    if random.once_in(6) {
        mesh = shapes::turned_over(&mesh);
    }
    loop {
        let mut spread = mesh.clone();
        coordinates::respread(&mut spread, random);
        if spread.coordinates.iter().all(|number| number.is_finite()) {
            return spread;
        }
    }
}

fn assembled(random: &mut Random, any_fans: bool, most_corners: usize) -> Mesh {
    let solid = solid(random, any_fans);
    match random.below(8) {
        0 => shapes::union(&solid, &self::solid(random, any_fans)),
        1 | 2 => grown(solid, random, most_corners),
        3 if any_fans => shapes::with_spares(&solid, random.between(1, 5)),
        4 if any_fans && solid.position_count() > 0 => hubbed(&solid, random),
        _ => solid,
    }
}

fn hubbed(mesh: &Mesh, random: &mut Random) -> Mesh {
    let other = until(|| solid(random, true), |mesh| mesh.position_count() > 0);
    shapes::sharing_a_hub(mesh, &other, random)
}

fn solid(random: &mut Random, any_fans: bool) -> Mesh {
    match random.below(if any_fans { 14 } else { 12 }) {
        0 | 1 => shapes::tetrahedron(),
        2 => shapes::cube(),
        3 => shapes::octahedron(),
        4 | 5 => shapes::prism(random.between(3, 8)),
        6 => shapes::pyramid(random.between(3, 12)),
        7 => shapes::bipyramid(random.between(3, 7)),
        8 => shapes::torus(random.between(3, 4), random.between(3, 5)),
        9 => shapes::three_hexagons(),
        10 => shapes::dense(7),
        11 => random.pick(&[empty(), shapes::dense(13), shapes::pyramid(40)]),
        _ => shapes::pillow(random.between(3, 8)),
    }
}

fn empty() -> Mesh {
    Mesh::new(&[], &[])
}

/// The result of one or two operators, as far as they are accepted and not too large.
fn grown(mut mesh: Mesh, random: &mut Random, most_corners: usize) -> Mesh {
    let room = Room { corners: most_corners, ..AMPLE };
    for _ in 0..random.between(1, 2) {
        let operator = random.pick(&OPERATORS);
        let parameters = Parameters {
            ratio: random.pick(&[None, Some(0.25), Some(0.75)]),
            height: random.pick(&[None, Some(0.25), Some(-0.125)]),
            ..Parameters::default()
        };
        if let Ok(result) = answer::call(operator, &parameters, &mesh, room) {
            mesh = result;
        }
    }
    mesh
}
