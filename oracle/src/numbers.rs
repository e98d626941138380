//! Arguments of the root, and cases of the helpers on one face.
use crate::case::{Case, Function};
use crate::coordinates;
use crate::mesh::{Mesh, Point};
use crate::random::Random;

/// Document 01's four, zeros, infinities and some that are no numbers.
const NAMED_ARGUMENTS: [u32; 15] = [
    0x4000_0000,
    0x0000_0001,
    0x0000_0002,
    0x7F7F_FFFF,
    0x0000_0000,
    0x8000_0000,
    0x7F80_0000,
    0xFF80_0000,
    0x7FC0_0000,
    0xFFC0_0000,
    0x7F80_0001,
    0xFFFF_FFFF,
    0x8000_0001,
    0xBF80_0000,
    0xFF7F_FFFF,
];

/// The named ones, every exponent with fractions at its ends, every subnormal of one bit.
pub fn chosen_arguments(random: &mut Random) -> Vec<u32> {
    let mut arguments = NAMED_ARGUMENTS.to_vec();
    for exponent in 0..=255 {
        let fractions = [0, 1, 2, 0x40_0000, 0x7F_FFFE, 0x7F_FFFF];
        let some = (0..4).map(|_| random.word() & 0x7F_FFFF);
        arguments.extend(fractions.into_iter().chain(some).map(|f| exponent << 23 | f));
        arguments.push(1 << 31 | exponent << 23 | random.word() & 0x7F_FFFF);
    }
    arguments.extend((0..23).flat_map(|bit| [1 << bit, (1 << bit) + 1, (2 << bit) - 1]));
    arguments.extend((0..200).map(|_| square_and_next(random)));
    arguments
}

/// A square, or a neighbour of one, where the root lies near an f32.
fn square_and_next(random: &mut Random) -> u32 {
    let side = 1.0 + random.below(4096) as f32;
    ((side * side).to_bits() + random.below(3) as u32).wrapping_sub(1)
}

pub fn argument(random: &mut Random) -> u32 {
    match random.below(8) {
        0 => random.word() & 0x7F_FFFF,
        1 => square_and_next(random),
        2 => random.word(),
        _ => random.word() & 0x7FFF_FFFF,
    }
}

pub fn root_case(arguments: &[u32]) -> Case {
    let coordinates = arguments.iter().map(|bits| f32::from_bits(*bits)).collect();
    Case::new(Function::Root, Mesh { coordinates, ..Mesh::default() })
}

/// One face for centroid, normal or regular test.
pub fn face_case(function: Function, random: &mut Random) -> Case {
    let arity = usual_arity(random);
    let mesh = match random.below(8) {
        0 => turning_run(random, arity),
        1 | 2 => nearly_regular(random),
        3 => tiny_square(random),
        4 if random.once_in(50) => unfit_run(random),
        4 if function != Function::Regular && random.once_in(4) => not_finite_run(random),
        _ => plain_run(random, arity),
    };
    Case::new(function, mesh)
}

fn usual_arity(random: &mut Random) -> usize {
    if random.once_in(40) {
        random.pick(&[0, 1, 2, 30, 100])
    } else {
        random.between(3, 8)
    }
}

/// Each corner its own point, of one kind of numbers.
fn plain_run(random: &mut Random, arity: usize) -> Mesh {
    let points: Vec<Point> =
        (0..arity).map(|_| std::array::from_fn(|_| random.signed_unit())).collect();
    let mut mesh = run_over(points);
    coordinates::respread(&mut mesh, random);
    mesh
}

/// Corners that go to and fro over points of mixed kinds.
fn turning_run(random: &mut Random, arity: usize) -> Mesh {
    let positions = random.between(1, 9);
    Mesh {
        offsets: Vec::new(),
        corners: (0..arity).map(|_| random.below(positions) as u32).collect(),
        coordinates: (0..3 * positions).map(|_| coordinates::any_finite(random)).collect(),
    }
}

/// A rectangle whose sides are about as 1 to 1.1, where the regular test turns.
fn nearly_regular(random: &mut Random) -> Mesh {
    let short = 0.001 + random.signed_unit().abs() * random.pick(&[1.0, 100.0]);
    let steps = random.below(9) as u32;
    let long = f32::from_bits((short * 1.1).to_bits() + steps - 4);
    run_over(vec![[0.0, 0.0, 0.0], [short, 0.0, 0.0], [short, long, 0.0], [0.0, long, 0.0]])
}

/// A square whose corners' cross products have squares about the normal's limit.
fn tiny_square(random: &mut Random) -> Mesh {
    let side = f32::from_bits(0.01_f32.to_bits() + random.below(9) as u32 - 4);
    let lift = random.pick(&[0.0, 0.5, -2.0]);
    run_over(vec![[0.0, 0.0, lift], [side, 0.0, lift], [side, side, lift], [0.0, side, lift]])
}

fn not_finite_run(random: &mut Random) -> Mesh {
    let mut mesh = plain_run(random, 4);
    let index = random.below(mesh.coordinates.len());
    mesh.coordinates[index] = coordinates::not_finite(random);
    mesh
}

/// A corner past the points, by little or by much.
fn unfit_run(random: &mut Random) -> Mesh {
    let mut mesh = plain_run(random, 5);
    let corner = random.below(5);
    mesh.corners[corner] = random.pick(&[5, 6, u32::MAX, 0x5555_5556]);
    mesh.coordinates.truncate(mesh.coordinates.len() - random.below(2));
    mesh
}

fn run_over(points: Vec<Point>) -> Mesh {
    Mesh {
        offsets: Vec::new(),
        corners: (0..points.len() as u32).collect(),
        coordinates: points.concat(),
    }
}
