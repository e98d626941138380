//! The arithmetic of document 01 read a second time, apart from the Rust text.
use crate::mesh::{Mesh, Point};

/// What NaN and every argument below zero give.
const NO_ROOT: u32 = 0x7FC0_0000;

/// The root's bits: the machine's rounding is IEEE 754's, the case of no root is the paper's.
pub fn root_bits(bits: u32) -> u32 {
    let argument = f32::from_bits(bits);
    if argument.is_nan() || argument < 0.0 {
        NO_ROOT
    } else {
        argument.sqrt().to_bits()
    }
}

/// The paper's promise over whole numbers, for a positive finite argument: the squares of the
/// two midpoints around the answer enclose the argument.
pub fn midpoints_enclose(argument: u32, root: u32) -> bool {
    let (significand, exponent) = parts(argument);
    let (answer, answer_exponent) = parts(root);
    // In steps of a quarter of the answer's last place; below a power of two the lower
    // neighbour is half as far.
    let upper = 4 * answer + 2;
    let lower = if answer == 1 << 23 { 4 * answer - 1 } else { 4 * answer - 2 };
    let shift = exponent - (2 * answer_exponent - 4);
    let argument = significand << shift;
    lower * lower <= argument && argument <= upper * upper
}

/// (significand, exponent) with number = significand · 2^exponent.
fn parts(bits: u32) -> (u128, i32) {
    let (exponent, fraction) = ((bits >> 23 & 0xFF) as i32, u128::from(bits & 0x7F_FFFF));
    if exponent == 0 {
        (fraction, -149)
    } else {
        (fraction | 1 << 23, exponent - 150)
    }
}

pub fn root(number: f32) -> f32 {
    f32::from_bits(root_bits(number.to_bits()))
}

fn fields(field: impl Fn(usize) -> f32) -> Point {
    [field(0), field(1), field(2)]
}

fn add(a: Point, b: Point) -> Point {
    fields(|i| a[i] + b[i])
}

fn subtract(a: Point, b: Point) -> Point {
    fields(|i| a[i] - b[i])
}

fn divide(a: Point, by: f32) -> Point {
    fields(|i| a[i] / by)
}

fn dot(a: Point, b: Point) -> f32 {
    (a[0] * b[0] + a[1] * b[1]) + a[2] * b[2]
}

fn cross(a: Point, b: Point) -> Point {
    [a[1] * b[2] - a[2] * b[1], a[2] * b[0] - a[0] * b[2], a[0] * b[1] - a[1] * b[0]]
}

fn normalized(a: Point) -> Point {
    divide(a, root(dot(a, a)))
}

pub fn centroid(points: &[Point]) -> Point {
    let sum = points.iter().fold([0.0; 3], |sum, point| add(sum, *point));
    divide(sum, points.len() as f32)
}

pub fn average_normal(points: &[Point]) -> Point {
    let at = |corner: usize| points[corner % points.len()];
    let mut normal = [0.0; 3];
    let mut considered = 0;
    for corner in 0..points.len() {
        let (p, q, r) = (at(corner), at(corner + 1), at(corner + 2));
        let orthogonal = cross(subtract(q, p), subtract(r, q));
        let square = dot(orthogonal, orthogonal);
        // A square that is no number is not under the limit, so it counts.
        if square < 0.00000001 {
            continue;
        }
        considered += 1;
        normal = subtract(normal, divide(orthogonal, root(square)));
    }
    match considered {
        0 => normalized(centroid(points)),
        count => divide(normal, count as f32),
    }
}

/// Longest side over shortest, minus 1, in absolute value under 0.1. For finite coordinates.
pub fn is_regular(points: &[Point]) -> bool {
    let mut longest = 0.0;
    let mut shortest = f32::INFINITY;
    for corner in 0..points.len() {
        let side = subtract(points[corner], points[(corner + 1) % points.len()]);
        let length = root(dot(side, side));
        longest = if length > longest { length } else { longest };
        shortest = if length < shortest { length } else { shortest };
    }
    (longest / shortest - 1.0).abs() < 0.1
}

/// The points of a run of corners.
pub fn points_of(mesh: &Mesh, run: &[u32]) -> Vec<Point> {
    let point = |vertex: &u32| {
        let start = 3 * *vertex as usize;
        fields(|i| mesh.coordinates[start + i])
    };
    run.iter().map(point).collect()
}
