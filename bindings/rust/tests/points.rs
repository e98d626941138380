//! The points of a mesh: read one by one and in order, which way is out, and what a file keeps of them.
use crossglimmer::{Masks, Mesh, Panel, Step};

fn dot(p: [f32; 3], q: [f32; 3]) -> f32 {
    p[0] * q[0] + p[1] * q[1] + p[2] * q[2]
}

fn cross(p: [f32; 3], q: [f32; 3]) -> [f32; 3] {
    [p[1] * q[2] - p[2] * q[1], p[2] * q[0] - p[0] * q[2], p[0] * q[1] - p[1] * q[0]]
}

/// Six times the volume inside: above 0 where the faces, triangles round the origin, run clockwise seen from outside.
fn clockwise(mesh: &Mesh) -> f32 {
    let triangles = mesh.faces().map(|face| [mesh.point(face[0]), mesh.point(face[1]), mesh.point(face[2])]);
    triangles.map(|[a, b, c]| dot(a, cross(c, b))).sum()
}

/// How far vertices 4 to 7, the first that are made from a tetrahedron, are from the origin, squared.
fn reach(mesh: &Mesh) -> f32 {
    (4..8).map(|vertex| dot(mesh.point(vertex), mesh.point(vertex))).fold(0.0, f32::max)
}

#[test]
fn points_in_order() {
    let mesh = Mesh::tetrahedron().gyro(None, None).unwrap();
    let points: Vec<[f32; 3]> = mesh.points().collect();
    assert_eq!((points.len(), points.concat()), (mesh.positions(), mesh.coords.clone()));
    assert!(points.iter().zip(0..).all(|(point, vertex)| *point == mesh.point(vertex)));
    let faces: Vec<&[u32]> = mesh.faces().collect();
    assert_eq!(Mesh::new(&faces, &points), mesh);
}

#[test]
fn points_of_any_numbers() {
    assert_eq!(Mesh::default().points().len(), 0);
    let uneven = Mesh { coords: vec![1.0, 2.0, 3.0, 4.0], ..Mesh::default() };
    assert_eq!((uneven.points().collect::<Vec<_>>(), uneven.positions()), (vec![[1.0, 2.0, 3.0]], 1));
    assert_eq!(uneven.point(0), [1.0, 2.0, 3.0]);
}

#[test]
#[should_panic]
fn no_such_point() {
    Mesh::tetrahedron().point(4);
}

#[test]
fn out_is_where_heights_go() {
    let mesh = Mesh::tetrahedron();
    assert!(clockwise(&mesh) > 0.0);
    let heights = [-0.2, 0.0, 0.2];
    let kis = |mesh: &Mesh| heights.map(|h| reach(&mesh.kis(Some(h), Masks::default()).unwrap()));
    let gyro = |mesh: &Mesh| heights.map(|h| reach(&mesh.gyro(None, Some(h)).unwrap()));
    let whirl = |mesh: &Mesh| heights.map(|h| reach(&mesh.whirl(None, Some(h)).unwrap()));
    for [lower, level, upper] in [kis(&mesh), gyro(&mesh), whirl(&mesh)] {
        assert!(lower < level && level < upper);
    }
    let turned = mesh.reverse().unwrap();
    assert!(clockwise(&turned) < 0.0);
    let [upper, level, lower] = kis(&turned);
    assert!(lower < level && level < upper);
}

/// The way that the front page names for a mesh whose faces run counter-clockwise.
#[test]
fn reversed_before_and_after() {
    let clock = Mesh::tetrahedron();
    let counter = clock.reverse().unwrap();
    let domed = counter.reverse().and_then(|mesh| mesh.kis(Some(0.2), Masks::default())).unwrap();
    assert_eq!(Ok(&domed), clock.kis(Some(0.2), Masks::default()).as_ref());
    assert!(reach(&domed) > reach(&clock.kis(None, Masks::default()).unwrap()));
    let back = domed.reverse().unwrap();
    assert!(clockwise(&domed) > 0.0 && clockwise(&back) < 0.0);
    assert_eq!(back.coords, domed.coords);
}

/// A NaN is written as one NaN; every other number keeps its bits.
#[test]
fn nans_in_files() {
    let nans = [0x7FC0_0000, 0x7FC0_1234, 0xFFC0_0000, 0x7F80_0001, u32::MAX];
    for bits in nans.into_iter().chain([0x7F80_0000, 0xFF80_0000, 0x8000_0000, 1]) {
        let number = f32::from_bits(bits);
        let written = if number.is_nan() { 0x7FC0_0000 } else { bits };
        let steps = vec![Step::Gyro(Some(number), Some(number))];
        let file = Panel { steps, mesh: Mesh::new::<[u32; 3]>(&[], &[[number; 3]]) }.write().unwrap();
        let words = file.chunks_exact(4).map(|word| u32::from_le_bytes([word[0], word[1], word[2], word[3]]));
        assert_eq!(words.collect::<Vec<_>>(), [1, 4, 3, written, written, 1, written, written, written, 0]);
    }
}
