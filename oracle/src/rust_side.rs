//! The Rust text called on our meshes. Only for what the table has let through.
use crate::mesh::{Mesh, Point};
use crate::operator::{Operator, Parameters};
use crate::recipe::List;
use polyhedron_ops::Polyhedron;

/// Deep enough for the text's recursion, one call a face round a vertex.
const STACK: usize = 1 << 30;

/// Runs `work` where the text's parallel loops and its recursion find their threads.
pub fn with_threads<R: Send>(work: impl FnOnce() -> R + Send) -> R {
    let pool = rayon::ThreadPoolBuilder::new().num_threads(1).stack_size(STACK).build();
    pool.expect("one thread").install(work)
}

pub fn apply(operator: Operator, parameters: &Parameters, mesh: &Mesh) -> Mesh {
    let mut polyhedron = to_polyhedron(mesh);
    let Parameters { ratio, height, .. } = *parameters;
    let arities = arities(parameters);
    let (arities, faces) = (arities.as_deref(), parameters.faces.as_deref());
    let regular = parameters.regular.then_some(true);
    let shortest = parameters.longer.then_some(false);
    match operator {
        Operator::Ambo => polyhedron.ambo(ratio, false),
        Operator::Chamfer => polyhedron.chamfer(ratio, false),
        Operator::Dual => polyhedron.dual(false),
        Operator::Gyro => polyhedron.gyro(ratio, height, false),
        Operator::Kis => polyhedron.kis(height, arities, faces, regular, false),
        Operator::Propellor => polyhedron.propellor(ratio, false),
        Operator::Quinto => polyhedron.quinto(height, false),
        Operator::Reflect => polyhedron.reflect(false),
        Operator::Reverse => polyhedron.reverse(),
        Operator::Whirl => polyhedron.whirl(ratio, height, false),
        Operator::Triangulate => polyhedron.triangulate(shortest),
    };
    to_mesh(&polyhedron)
}

pub fn apply_list(list: List, parameters: &Parameters, mesh: &Mesh) -> Mesh {
    let mut polyhedron = to_polyhedron(mesh);
    let Parameters { ratio, height, .. } = *parameters;
    let arities = arities(parameters);
    let arities = arities.as_deref();
    let regular = parameters.regular.then_some(true);
    match list {
        List::Bevel => polyhedron.bevel(ratio, height, arities, regular, false),
        List::Expand => polyhedron.expand(ratio, false),
        List::Join => polyhedron.join(ratio, false),
        List::Medial => polyhedron.medial(ratio, height, arities, regular, false),
        List::Meta => polyhedron.meta(ratio, height, arities, regular, false),
        List::Needle => polyhedron.needle(height, arities, regular, false),
        List::Ortho => polyhedron.ortho(ratio, false),
        List::Snub => polyhedron.snub(ratio, height, false),
        List::Truncate => polyhedron.truncate(height, arities, regular, false),
        List::Zip => polyhedron.zip(height, arities, regular, false),
    };
    to_mesh(&polyhedron)
}

pub fn edges(mesh: &Mesh) -> Vec<[u32; 2]> {
    to_polyhedron(mesh).to_edges()
}

pub fn centroid(mesh: &Mesh) -> Point {
    let point = cloud(mesh).probe_centroid(&mesh.corners);
    [point.x, point.y, point.z]
}

pub fn normal(mesh: &Mesh) -> Point {
    let normal = cloud(mesh).probe_normal(&mesh.corners);
    [normal.x, normal.y, normal.z]
}

pub fn is_regular(mesh: &Mesh) -> bool {
    cloud(mesh).probe_regular(&mesh.corners)
}

fn arities(parameters: &Parameters) -> Option<Vec<usize>> {
    let list = parameters.arities.as_ref()?;
    Some(list.iter().map(|arity| *arity as usize).collect())
}

fn to_polyhedron(mesh: &Mesh) -> Polyhedron {
    Polyhedron::from("", to_points(mesh), mesh.faces(), None)
}

/// The positions alone, for the helpers on one face.
fn cloud(mesh: &Mesh) -> Polyhedron {
    Polyhedron::from("", to_points(mesh), Vec::new(), None)
}

fn to_points(mesh: &Mesh) -> Vec<polyhedron_ops::Point> {
    mesh.points().iter().map(|[x, y, z]| polyhedron_ops::Point::new(*x, *y, *z)).collect()
}

fn to_mesh(polyhedron: &Polyhedron) -> Mesh {
    let points: Vec<Point> =
        polyhedron.positions().iter().map(|point| [point.x, point.y, point.z]).collect();
    Mesh::new(polyhedron.faces(), &points)
}
