//! Meshes and rooms that reverse and reflect refuse: each number of the table that they have, at each kind of place.
use crate::byhand::Checked;
use crate::mesh::{Mesh, LIMIT};
use crate::operators::Operation;
use crate::sides::{read, Room, Rooms};

/// Gives or takes corners at the end of the last face.
fn cut(mesh: &mut Mesh, corners: usize) {
    mesh.corners.resize(corners, 0);
    *mesh.offsets.last_mut().expect("an offset") = corners as u32;
}

/// Each spoils a mesh of nine faces or more.
const MESHES: [fn(&mut Mesh); 16] = [
    |m| m.offsets.clear(),
    |m| m.offsets[0] = 1,
    |m| m.offsets.swap(7, 8),
    |m| m.corners.truncate(9),
    |m| m.coordinates.truncate(10),
    |m| m.offsets.resize(LIMIT + 2, m.corners.len() as u32),
    |m| cut(m, LIMIT + 1),
    |m| m.coordinates.resize(3 * LIMIT + 3, 0.0),
    |m| m.coordinates[8] = f32::NAN,
    |m| *m.coordinates.last_mut().expect("a coordinate") = f32::NEG_INFINITY,
    |m| m.offsets.insert(8, m.offsets[7]),
    |m| cut(m, m.corners.len() - 2),
    |m| m.corners[9] = m.position_count() as u32,
    |m| *m.corners.last_mut().expect("a corner") = u32::MAX,
    |m| m.corners[1] = m.corners[0],
    |m| m.corners[0] = m.corners[2],
];

/// Each makes a room too small for any mesh.
const ROOMS: [fn(&mut Room); 3] =
    [|r| r.offsets.truncate(1), |r| r.corners.truncate(1), |r| r.coords.truncate(1)];

/// Refuses all of these by the library and by hand, which must answer the same.
pub fn compare(operation: &Operation, hand: Checked, mesh: &Mesh) {
    let same = |mesh: &Mesh, mut rooms: Rooms| {
        let library = (operation.library)(read(mesh), &mut rooms).err();
        assert!(library.is_some(), "{} takes what is spoilt", operation.name);
        assert_eq!(hand(mesh, &mut rooms.output).err(), library, "{}", operation.name);
    };
    for spoil in MESHES {
        let mut spoilt = mesh.clone();
        spoil(&mut spoilt);
        same(&spoilt, Rooms::new());
    }
    for spoil in ROOMS {
        let mut rooms = Rooms::new();
        spoil(&mut rooms.output);
        same(mesh, rooms);
    }
}
