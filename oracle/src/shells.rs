//! The shells that are shipped, as panel files; their faces run clockwise seen from outside.
use crate::mesh::{Face, Mesh, Point};
use crate::operator::{Operator, Parameters};
use crate::panel;
use crate::recipe::Step;
use crate::shapes;

use Operator::*;

/// Name and bytes of each.
pub fn all() -> Vec<(&'static str, Vec<u8>)> {
    let geodesic = panel::write(&[plain(Dual), raised(Kis, 0.05)], &geodesic(2));
    let damaged = geodesic[..geodesic.len() / 2].to_vec();
    vec![
        ("tetrahedron", panel::write(&[plain(Gyro), plain(Chamfer)], &shapes::tetrahedron())),
        ("cube", panel::write(&[raised(Kis, 0.5), plain(Propellor)], &cube())),
        ("octahedron", panel::write(&[plain(Ambo), cut(Whirl, 0.25)], &octahedron())),
        ("dodecahedron", panel::write(&[raised(Quinto, 0.5), plain(Dual)], &dodecahedron())),
        ("icosahedron", panel::write(&[plain(Dual), cut(Chamfer, 0.4)], &icosahedron())),
        ("geodesic", geodesic),
        ("torus", panel::write(&[plain(Whirl), plain(Propellor)], &shapes::torus(12, 16))),
        ("two-spheres", panel::write(&[plain(Gyro), plain(Quinto)], &two_spheres())),
        ("shared-hub", panel::write(&[plain(Gyro), plain(Dual)], &shared_hub())),
        ("open-shell", panel::write(&[plain(Triangulate), plain(Chamfer)], &open_shell())),
        ("damaged", damaged),
    ]
}

// ---- steps

pub fn plain(operator: Operator) -> Step {
    Step { operator, parameters: Parameters::default() }
}

pub fn cut(operator: Operator, ratio: f32) -> Step {
    Step { operator, parameters: Parameters { ratio: Some(ratio), ..Parameters::default() } }
}

pub fn raised(operator: Operator, height: f32) -> Step {
    Step { operator, parameters: Parameters { height: Some(height), ..Parameters::default() } }
}

// ---- meshes

type Wide = [f64; 3];

fn dot(a: Wide, b: Wide) -> f64 {
    a[0] * b[0] + a[1] * b[1] + a[2] * b[2]
}

fn minus(a: Wide, b: Wide) -> Wide {
    [a[0] - b[0], a[1] - b[1], a[2] - b[2]]
}

fn cross(a: Wide, b: Wide) -> Wide {
    [a[1] * b[2] - a[2] * b[1], a[2] * b[0] - a[0] * b[2], a[0] * b[1] - a[1] * b[0]]
}

fn rounded(points: &[Wide]) -> Vec<Point> {
    points.iter().map(|point| point.map(|number| number as f32)).collect()
}

/// A convex solid of these points, with a face towards each direction; its corners go round
/// clockwise seen from outside, from the lowest on.
fn solid(points: &[Wide], directions: &[Wide]) -> Mesh {
    let faces: Vec<Face> = directions.iter().map(|&out| face_towards(points, out)).collect();
    Mesh::new(&faces, &rounded(points))
}

fn face_towards(points: &[Wide], out: Wide) -> Face {
    let far = points.iter().map(|&point| dot(point, out)).fold(f64::MIN, f64::max);
    let mut left: Vec<usize> =
        (0..points.len()).filter(|&i| far - dot(points[i], out) < 1e-6).collect();
    let mut face = vec![left.remove(0)];
    while !left.is_empty() {
        let here = points[face[face.len() - 1]];
        // The next corner has all the others to its right.
        let next = left.iter().position(|&i| {
            let side = minus(points[i], here);
            let others = left.iter().filter(|&&j| j != i);
            others.clone().all(|&j| dot(cross(side, minus(points[j], here)), out) < 0.0)
        });
        face.push(left.remove(next.expect("a convex face")));
    }
    face.into_iter().map(|corner| corner as u32).collect()
}

/// The points whose coordinates are these three up to a turn of the axes and the signs.
fn turned(point: Wide) -> Vec<Wide> {
    let mut points: Vec<Wide> = Vec::new();
    for shift in 0..3 {
        for signs in 0..8 {
            let signed = |i: usize| if signs >> i & 1 == 1 { -point[i] } else { point[i] };
            let new = [0, 1, 2].map(|i| signed((i + shift) % 3));
            if !points.contains(&new) {
                points.push(new);
            }
        }
    }
    points
}

fn golden() -> f64 {
    (1.0 + 5f64.sqrt()) / 2.0
}

fn cube_points() -> Vec<Wide> {
    turned([1.0, 1.0, 1.0])
}

fn octahedron_points() -> Vec<Wide> {
    turned([1.0, 0.0, 0.0])
}

fn icosahedron_points() -> Vec<Wide> {
    turned([0.0, 1.0, golden()])
}

fn dodecahedron_points() -> Vec<Wide> {
    [cube_points(), turned([0.0, golden(), golden() - 1.0])].concat()
}

fn cube() -> Mesh {
    solid(&cube_points(), &octahedron_points())
}

fn octahedron() -> Mesh {
    solid(&octahedron_points(), &cube_points())
}

fn dodecahedron() -> Mesh {
    solid(&dodecahedron_points(), &icosahedron_points())
}

fn icosahedron() -> Mesh {
    solid(&icosahedron_points(), &dodecahedron_points())
}

/// An icosahedron whose triangles are cut into four so many times, its points drawn to a sphere.
fn geodesic(times: usize) -> Mesh {
    let mut points: Vec<Wide> = icosahedron_points().into_iter().map(on_sphere).collect();
    let mut faces = icosahedron().faces();
    for _ in 0..times {
        let mut middles: Vec<[u32; 2]> = Vec::new();
        let old = points.len() as u32;
        let mut middle = |a: u32, b: u32| {
            let edge = [a.min(b), a.max(b)];
            let known = middles.iter().position(|&known| known == edge);
            old + known.unwrap_or_else(|| {
                middles.push(edge);
                middles.len() - 1
            }) as u32
        };
        faces = faces
            .iter()
            .flat_map(|face| {
                let [a, b, c] = [face[0], face[1], face[2]];
                let [d, e, f] = [middle(a, b), middle(b, c), middle(c, a)];
                [vec![a, d, f], vec![d, b, e], vec![f, e, c], vec![d, e, f]]
            })
            .collect();
        for [a, b] in middles {
            let [p, q] = [a, b].map(|i| points[i as usize]);
            points.push(on_sphere([p[0] + q[0], p[1] + q[1], p[2] + q[2]]));
        }
    }
    Mesh::new(&faces, &rounded(&points))
}

fn on_sphere(point: Wide) -> Wide {
    let length = dot(point, point).sqrt();
    point.map(|number| number / length)
}

fn two_spheres() -> Mesh {
    shapes::union(&geodesic(0), &octahedron())
}

/// Two tetrahedra that meet in one vertex.
fn shared_hub() -> Mesh {
    let both = shapes::union(&shapes::tetrahedron(), &shapes::tetrahedron());
    shapes::merged(&both, 0, 5)
}

/// A cube without one of its faces.
fn open_shell() -> Mesh {
    let cube = cube();
    let mut faces = cube.faces();
    faces.pop();
    Mesh::new(&faces, &cube.points())
}
