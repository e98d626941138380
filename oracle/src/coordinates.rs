//! Coordinates of all kinds, and the other numbers a call carries.
use crate::mesh::Mesh;
use crate::random::Random;

const SCALES: [f32; 9] = [0.01, 0.009, 1e-3, 1e-20, 1e-30, 1e-42, 1e15, 1e19, 1e30];
const SPECIAL: [f32; 12] = [
    0.0,
    -0.0,
    1.0,
    -1.0,
    2.0,
    0.1,
    f32::MIN_POSITIVE,
    -f32::MIN_POSITIVE,
    1e19,
    -1e15,
    f32::MAX,
    -f32::MAX,
];

/// Gives the mesh coordinates of some kind, half of the time those it has.
pub fn respread(mesh: &mut Mesh, random: &mut Random) {
    let kind = random.below(16);
    let scale = random.pick(&SCALES);
    for number in &mut mesh.coordinates {
        match kind {
            0 | 1 => *number *= scale,
            2 => *number = random.signed_unit(),
            3 => *number = random.below(7) as f32 - 3.0,
            4 => *number = subnormal(random),
            5 => *number = random.pick(&[0.0, -0.0]),
            6 => *number = 0.0,
            7 if random.once_in(4) => *number = random.pick(&[0.0, -0.0, f32::from_bits(1), 1e15]),
            8 => *number = random.signed_unit() * 1e9,
            _ => {}
        }
    }
}

pub fn subnormal(random: &mut Random) -> f32 {
    let sign = random.word() & 0x8000_0000;
    f32::from_bits(sign | random.word() & 0x7F_FFFF)
}

/// A finite number from far apart kinds.
pub fn any_finite(random: &mut Random) -> f32 {
    match random.below(6) {
        0 => random.pick(&SPECIAL),
        1 => subnormal(random),
        2 => random.finite(),
        3 => random.below(9) as f32 - 4.0,
        _ => random.signed_unit(),
    }
}

pub fn not_finite(random: &mut Random) -> f32 {
    let patterns = [0x7F80_0000, 0xFF80_0000, 0x7FC0_0000, 0x7F80_0001, 0xFFFF_FFFF];
    f32::from_bits(random.pick(&patterns))
}

/// A ratio or a height, often absent.
pub fn parameter(random: &mut Random) -> Option<f32> {
    let usual = [-0.0, 0.0, 1.0, 2.0, -1.0, 0.5, 1.0 / 3.0, 0.25, f32::from_bits(1)];
    match random.below(8) {
        0..=2 => None,
        3..=5 => Some(random.pick(&usual)),
        6 => Some(random.signed_unit()),
        _ => Some(any_finite(random)),
    }
}
