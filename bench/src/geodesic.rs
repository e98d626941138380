//! A geodesic sphere: an icosahedron whose faces are cut into n times n triangles.
use crate::mesh::{Face, Mesh, Point};
use std::collections::HashMap;

/// Twelve vertices and twenty faces, the outer side counter-clockwise.
const FACES: [[usize; 3]; 20] = [
    [0, 11, 5],
    [0, 5, 1],
    [0, 1, 7],
    [0, 7, 10],
    [0, 10, 11],
    [1, 5, 9],
    [5, 11, 4],
    [11, 10, 2],
    [10, 7, 6],
    [7, 1, 8],
    [3, 9, 4],
    [3, 4, 2],
    [3, 2, 6],
    [3, 6, 8],
    [3, 8, 9],
    [4, 9, 5],
    [2, 4, 11],
    [6, 2, 10],
    [8, 6, 7],
    [9, 8, 1],
];

fn corners() -> [Point; 12] {
    let t = (1.0 + 5.0_f32.sqrt()) / 2.0;
    [
        [-1.0, t, 0.0],
        [1.0, t, 0.0],
        [-1.0, -t, 0.0],
        [1.0, -t, 0.0],
        [0.0, -1.0, t],
        [0.0, 1.0, t],
        [0.0, -1.0, -t],
        [0.0, 1.0, -t],
        [t, 0.0, -1.0],
        [t, 0.0, 1.0],
        [-t, 0.0, -1.0],
        [-t, 0.0, 1.0],
    ]
}

/// Vertices by their weights on the icosahedron's, so that neighbouring faces share them.
#[derive(Default)]
struct Vertices {
    numbers: HashMap<Vec<(usize, usize)>, u32>,
    points: Vec<Point>,
}

impl Vertices {
    fn number(&mut self, face: [usize; 3], weights: [usize; 3]) -> u32 {
        let mut key: Vec<(usize, usize)> =
            face.into_iter().zip(weights).filter(|part| part.1 > 0).collect();
        key.sort_unstable();
        let points = &mut self.points;
        *self.numbers.entry(key).or_insert_with_key(|key| {
            let corners = corners();
            let sum = |field: usize| {
                key.iter().map(|(v, weight)| corners[*v][field] * *weight as f32).sum::<f32>()
            };
            let point = [sum(0), sum(1), sum(2)];
            let length = point.iter().map(|number| number * number).sum::<f32>().sqrt();
            points.push(point.map(|number| number / length));
            points.len() as u32 - 1
        })
    }
}

pub fn sphere(n: usize) -> Mesh {
    let mut vertices = Vertices::default();
    let mut faces: Vec<Face> = Vec::new();
    for face in FACES {
        let mut at = |i: usize, j: usize| vertices.number(face, [n - i - j, i, j]);
        for i in 0..n {
            for j in 0..n - i {
                faces.push(vec![at(i, j), at(i + 1, j), at(i, j + 1)]);
                if i + j + 1 < n {
                    faces.push(vec![at(i + 1, j), at(i + 1, j + 1), at(i, j + 1)]);
                }
            }
        }
    }
    Mesh::new(&faces, &vertices.points)
}
