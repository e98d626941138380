//! Small panel files for the gate: every number, every count of steps and every kind of line that `report` can print.
use crate::case::to_bytes;
use crate::mesh::{Face, Mesh};
use crate::operator::Operator::{self, *};
use crate::panel;
use crate::recipe::Step;
use crate::shapes;
use crate::shells::{cut, plain, raised};

/// Name and bytes of a file.
type Named = (String, Vec<u8>);

pub fn all() -> Vec<Named> {
    [
        counts_of_steps(),
        without_steps(),
        refused_steps(),
        characteristics(),
        refused_files(),
        lengths(),
    ]
    .concat()
}

fn named(name: impl Into<String>, steps: &[Step], mesh: &Mesh) -> Named {
    (name.into(), panel::write(steps, mesh))
}

// ---- good recipes

/// The first step, the first two and so on, up to all sixteen.
fn counts_of_steps() -> Vec<Named> {
    let steps = [
        plain(Reverse),
        plain(Reflect),
        plain(Triangulate),
        plain(Dual),
        cut(Ambo, 0.25),
        plain(Dual),
        raised(Kis, 0.5),
        plain(Dual),
        plain(Reflect),
        plain(Reverse),
        cut(Gyro, 0.25),
        plain(Dual),
        plain(Reverse),
        plain(Triangulate),
        plain(Reflect),
        cut(Propellor, 0.25),
    ];
    let file =
        |count: usize| named(format!("steps-{count:02}"), &steps[..count], &shapes::tetrahedron());
    (1..=steps.len()).map(file).collect()
}

/// X from -2 to 5: tori and tetrahedra, the odd ones with a spare position.
fn characteristics() -> Vec<Named> {
    let (torus, tetrahedron) = (shapes::torus(3, 3), shapes::tetrahedron());
    let two_handles = shapes::sewn(&torus, 0, &torus, 0, 0);
    let two_parts = shapes::union(&tetrahedron, &tetrahedron);
    let even = [("minus-2", two_handles), ("0", torus), ("2", tetrahedron), ("4", two_parts)];
    let odd = ["minus-1", "1", "3", "5"];
    let both = |((even, mesh), odd): ((&str, Mesh), &str)| {
        let with_spare = shapes::with_spares(&mesh, 1);
        [(even, mesh), (odd, with_spare)]
            .map(|(x, mesh)| named(format!("x-{x}"), &[plain(Kis)], &mesh))
    };
    even.into_iter().zip(odd).flat_map(both).collect()
}

// ---- refused meshes and steps

fn without_steps() -> Vec<Named> {
    let good = named("no-steps", &[], &shapes::tetrahedron());
    let empty = named("no-steps-no-mesh", &[], &Mesh::new(&[], &[]));
    let refused = bad_meshes().into_iter();
    let refused =
        refused.map(|(number, mesh)| named(format!("no-steps-refused-{number}"), &[], &mesh));
    [good, empty].into_iter().chain(refused).collect()
}

/// What numbers 4 to 7 refuse.
fn bad_meshes() -> Vec<(u32, Mesh)> {
    let changed = |change: fn(&mut Mesh)| {
        let mut mesh = shapes::tetrahedron();
        change(&mut mesh);
        mesh
    };
    vec![
        (4, changed(|mesh| mesh.coordinates[7] = f32::INFINITY)),
        (5, with_faces(&[vec![0, 1, 2], vec![0, 3]])),
        (6, changed(|mesh| mesh.corners[8] = 4)),
        (7, changed(|mesh| mesh.corners[5] = 3)),
    ]
}

/// These faces on T's positions.
fn with_faces(faces: &[Face]) -> Mesh {
    Mesh::new(faces, &shapes::tetrahedron().points())
}

fn refused_steps() -> Vec<Named> {
    let tetrahedron = shapes::tetrahedron();
    let by_mesh = bad_meshes().into_iter();
    let by_mesh =
        by_mesh.map(|(number, mesh)| named(format!("refused-{number}"), &[plain(Reverse)], &mesh));
    let hub = shapes::merged(&shapes::union(&tetrahedron, &tetrahedron), 0, 4);
    let twice = with_faces(&[vec![0, 1, 2], vec![0, 2, 3], vec![0, 1, 3]]);
    let triangle = with_faces(&[vec![0, 1, 2]]);
    let centred = Mesh::new(
        &[vec![0, 1, 2], vec![2, 1, 0]],
        &[[1.0, 0.0, 0.0], [-1.0, 1.0, 0.0], [0.0, -1.0, 0.0]],
    );
    let last = [vec![plain(Reflect); 15], vec![raised(Kis, f32::INFINITY)]].concat();
    let by_number = [
        named("refused-3-ratio", &[cut(Ambo, f32::INFINITY)], &tetrahedron),
        named("refused-3-height", &[raised(Gyro, f32::NAN)], &tetrahedron),
    ];
    let others = [
        named("refused-8", &[plain(Chamfer)], &twice),
        named("refused-9", &[plain(Dual)], &triangle),
        named("refused-10", &[plain(Dual)], &shapes::pillow(3)),
        named("refused-11", &[plain(Ambo)], &hub),
        named(
            "refused-12-faces",
            &in_turn(&[Whirl, Whirl, Whirl, Chamfer, Kis, Propellor]),
            &tetrahedron,
        ),
        named("refused-12-corners", &in_turn(&[Whirl; 5]), &tetrahedron),
        named("refused-14", &[plain(Gyro)], &centred),
        named("refused-at-16", &last, &tetrahedron),
    ];
    by_number.into_iter().chain(by_mesh).chain(others).collect()
}

fn in_turn(operators: &[Operator]) -> Vec<Step> {
    operators.iter().copied().map(plain).collect()
}

// ---- refused files

/// The example of docs/PANEL-FILE.md, 156 bytes.
fn example() -> Vec<u8> {
    panel::write(&in_turn(&[Gyro, Chamfer]), &shapes::tetrahedron())
}

fn refused_files() -> Vec<Named> {
    let cut_after = |length: usize| example()[..length].to_vec();
    let longer = [example(), vec![0]].concat();
    let files = [
        ("15-count", cut_after(38)),
        ("15-step", cut_after(35)),
        ("15-position", cut_after(60)),
        ("15-arity", cut_after(108)),
        ("15-corner", cut_after(150)),
        ("16-steps", to_bytes(&[17])),
        ("16-positions", to_bytes(&[0, 401])),
        ("16-faces", to_bytes(&[0, 0, 401])),
        ("16-corners", to_bytes(&[0, 0, 2, 1, 0, 1200])),
        ("17-code", to_bytes(&[1, 12, 0, 0, 0])),
        ("17-flag", to_bytes(&[1, 3, 1, 0, 0])),
        ("17-number", to_bytes(&[1, 1, 0, 0x8000_0000, 0])),
        ("18", longer),
    ];
    files.map(|(name, bytes)| (format!("file-{name}"), bytes)).to_vec()
}

// ---- lengths

fn lengths() -> Vec<Named> {
    let longest = longest();
    let and_a_byte = [longest.clone(), vec![0]].concat();
    let files = [("empty", Vec::new()), ("longest", longest), ("longest-and-a-byte", and_a_byte)];
    files.map(|(name, bytes)| (name.to_string(), bytes)).to_vec()
}

/// A hundred tetrahedra in a row: as many steps, positions, faces and corners as a file may have.
fn longest() -> Vec<u8> {
    let steps = vec![in_turn(&[Dual, Reverse, Reflect, Triangulate]); 4].concat();
    let tetrahedron = shapes::tetrahedron();
    let (mut faces, mut points) = (Vec::new(), Vec::new());
    for index in 0..100u32 {
        let moved =
            |face: Face| face.into_iter().map(|vertex| vertex + 4 * index).collect::<Face>();
        faces.extend(tetrahedron.faces().into_iter().map(moved));
        points.extend(
            tetrahedron.points().into_iter().map(|[x, y, z]| [x + 3.0 * index as f32, y, z]),
        );
    }
    panel::write(&steps, &Mesh::new(&faces, &points))
}
