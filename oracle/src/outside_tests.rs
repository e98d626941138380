//! The shipped shells seen from outside: faces run clockwise, in each part, at the start and after each step.
use crate::answer;
use crate::mesh::{Face, Mesh, Point};
use crate::meshes::AMPLE;
use crate::operator::Operator::Kis;
use crate::panel::{self, Panel};
use crate::shells::{self, raised};
use crate::table;
use std::collections::HashMap;

/// The closed shells, how many parts each has and how many of its steps are done.
const CLOSED: [(&str, usize, usize); 9] = [
    ("tetrahedron", 1, 2),
    ("cube", 1, 2),
    ("octahedron", 1, 2),
    ("dodecahedron", 1, 2),
    ("icosahedron", 1, 2),
    ("geodesic", 1, 2),
    ("torus", 1, 2),
    ("two-spheres", 2, 2),
    ("shared-hub", 2, 1),
];

const CONVEX: [&str; 6] =
    ["tetrahedron", "cube", "octahedron", "dodecahedron", "icosahedron", "geodesic"];

/// The volume inside the faces of a closed part: the sum of a · (b × c) / 6 over the triangles
/// (a, b, c) of each face's fan. Faces that run clockwise seen from outside make it negative.
fn volume(part: &[Face], points: &[Point]) -> f64 {
    let point = |vertex: u32| points[vertex as usize].map(f64::from);
    let six_fold = |a: u32, b: u32, c: u32| {
        let ([x, y, z], [p, q, r], [u, v, w]) = (point(a), point(b), point(c));
        x * (q * w - r * v) + y * (r * u - p * w) + z * (p * v - q * u)
    };
    let fan = |face: &Face| -> f64 {
        face[1..].windows(2).map(|side| six_fold(face[0], side[0], side[1])).sum()
    };
    part.iter().map(fan).sum::<f64>() / 6.0
}

fn windows(face: &Face) -> impl Iterator<Item = [u32; 2]> + '_ {
    face.iter().copied().zip(face.iter().cycle().skip(1).copied()).map(|(a, b)| [a, b])
}

/// The faces of a closed mesh, those joined across edges together.
fn parts(mesh: &Mesh) -> Vec<Vec<Face>> {
    let faces = mesh.faces();
    let numbered = faces.iter().enumerate();
    let face_at: HashMap<[u32; 2], usize> =
        numbered.flat_map(|(index, face)| windows(face).map(move |edge| (edge, index))).collect();
    let mut met = vec![false; faces.len()];
    let mut parts = Vec::new();
    for first in 0..faces.len() {
        let (mut part, mut next) = (Vec::new(), vec![first]);
        while let Some(index) = next.pop() {
            if !std::mem::replace(&mut met[index], true) {
                next.extend(windows(&faces[index]).map(|[a, b]| face_at[&[b, a]]));
                part.push(faces[index].clone());
            }
        }
        parts.push(part);
    }
    parts.retain(|part| !part.is_empty());
    parts
}

fn volumes(mesh: &Mesh) -> Vec<f64> {
    parts(mesh).iter().map(|part| volume(part, &mesh.points())).collect()
}

fn shell(name: &str) -> Panel {
    let (_, bytes) = shells::all().into_iter().find(|(known, _)| *known == name).expect("a shell");
    panel::read(&bytes).expect("a good file")
}

/// The mesh at the start and after each step, as the Rust text makes it, up to one that is refused.
fn stages(panel: Panel) -> Vec<Mesh> {
    let mut stages = vec![panel.mesh];
    for step in &panel.steps {
        let before = &stages[stages.len() - 1];
        match answer::call(step.operator, &step.parameters, before, AMPLE) {
            Ok(made) => stages.push(made),
            Err(_) => break,
        }
    }
    stages
}

#[test]
fn all_closed_shells_are_looked_at() {
    let is_closed = |bytes: &[u8]| {
        panel::read(bytes).map(|panel| table::check_closed(&panel.mesh)) == Ok(Ok(()))
    };
    let closed = shells::all().into_iter().filter(|(_, bytes)| is_closed(bytes));
    assert_eq!(closed.map(|(name, _)| name).collect::<Vec<_>>(), CLOSED.map(|(name, ..)| name));
}

#[test]
fn faces_run_clockwise_at_every_stage() {
    for (name, parts, done) in CLOSED {
        let stages = stages(shell(name));
        assert_eq!(stages.len(), 1 + done, "{name}");
        for (stage, mesh) in stages.iter().enumerate() {
            let volumes = volumes(mesh);
            assert_eq!(volumes.len(), parts, "{name} after {stage} steps");
            assert!(
                volumes.iter().all(|volume| *volume < 0.0),
                "{name} after {stage} steps: {volumes:?}"
            );
        }
    }
}

#[test]
fn a_height_goes_out() {
    for name in CONVEX {
        let mesh = shell(name).mesh;
        let step = raised(Kis, 0.05);
        let made = answer::call(Kis, &step.parameters, &mesh, AMPLE).expect("done");
        let [before, after] = [&mesh, &made].map(|mesh| volumes(mesh)[0].abs());
        assert!(before < after, "{name}: {before} to {after}");
    }
    // Half a unit up from each of the cube's six faces.
    let stages = stages(shell("cube"));
    assert_eq!((volumes(&stages[0]), volumes(&stages[1])), (vec![-8.0], vec![-12.0]));
}

/// The open shell is the cube without its last face.
#[test]
fn the_open_shell_runs_as_the_cube() {
    let (open, mut cube) = (shell("open-shell").mesh, shell("cube").mesh.faces());
    cube.pop();
    assert_eq!(open.faces(), cube);
}
