//! One operator or list on one mesh: the seconds of each side, whose results must be the same bits.
use crate::byhand;
use crate::mesh::{Mesh, LIMIT};
use crate::operators::Operation;
use crate::spoilt;
use crossglimmer::slices::Work;
use crossglimmer::{Counts, Lent, Read};
use polyhedron_ops::{Point, Polyhedron};

/// Slices for the largest result.
pub struct Room {
    pub offsets: Vec<u32>,
    pub corners: Vec<u32>,
    pub coords: Vec<f32>,
}

impl Room {
    pub fn new() -> Room {
        Room { offsets: vec![0; LIMIT + 1], corners: vec![0; LIMIT], coords: vec![0.0; 3 * LIMIT] }
    }

    fn lent(&mut self) -> Lent<'_> {
        Lent { offsets: &mut self.offsets, corners: &mut self.corners, coords: &mut self.coords }
    }

    fn mesh(&self, faces: usize, positions: usize) -> Mesh {
        let offsets = self.offsets[..=faces].to_vec();
        let corners = self.corners[..offsets[faces] as usize].to_vec();
        Mesh { offsets, corners, coordinates: self.coords[..3 * positions].to_vec() }
    }
}

/// The output, and the two work meshes of a list.
pub struct Rooms {
    pub output: Room,
    work: [Room; 2],
}

impl Rooms {
    pub fn new() -> Rooms {
        Rooms { output: Room::new(), work: [Room::new(), Room::new()] }
    }

    pub fn out(&mut self) -> Lent<'_> {
        self.output.lent()
    }

    pub fn all(&mut self) -> (Work<'_>, Lent<'_>) {
        let [first, second] = &mut self.work;
        (Work { first: first.lent(), second: second.lent() }, self.output.lent())
    }
}

/// Seconds, and what the call takes beside them.
#[derive(Clone, Copy)]
pub struct Times {
    pub library: f64,
    /// The Rust text on a mesh of its own, in place.
    pub text: f64,
    /// The same with the copy that keeps its input, as the library's call does.
    pub kept: f64,
    pub hand: Option<f64>,
    /// By hand behind the checks of the library.
    pub checked: Option<f64>,
    pub stack: usize,
    pub lent: usize,
}

pub fn read(mesh: &Mesh) -> Read<'_> {
    Read { offsets: &mesh.offsets, corners: &mesh.corners, coords: &mesh.coordinates }
}

/// Runs up to nine times, fewer where the runs are long; each says its seconds, and the least is handed back.
fn least(mut run: impl FnMut() -> f64) -> f64 {
    const ENOUGH: f64 = 0.4;
    let (mut best, mut spent) = (f64::INFINITY, 0.0);
    for _ in 0..9 {
        let time = run();
        (best, spent) = (best.min(time), spent + time);
        if spent > ENOUGH {
            break;
        }
    }
    best
}

fn timed(run: impl FnOnce()) -> f64 {
    let started = byhand::clock();
    run();
    byhand::clock() - started
}

/// The least time of a call, and the most stack that one of the runs took: all are on one thread, so that only the first
/// finds what it reads pushed out of the caches by the painting.
pub fn time_and_stack(mut call: impl FnMut()) -> (f64, usize) {
    let mut time = 0.0;
    let stack = byhand::stack(&mut || time = least(|| timed(&mut call)));
    (time, stack)
}

fn polyhedron(mesh: &Mesh) -> Polyhedron {
    let points = mesh.points().iter().map(|[x, y, z]| Point::new(*x, *y, *z)).collect();
    Polyhedron::from("", points, mesh.faces(), None)
}

fn made(polyhedron: &Polyhedron) -> Mesh {
    let points: Vec<[f32; 3]> = polyhedron.positions().iter().map(|p| [p.x, p.y, p.z]).collect();
    Mesh::new(polyhedron.faces(), &points)
}

fn same(ours: &Mesh, theirs: &Mesh) -> bool {
    let bits =
        |mesh: &Mesh| mesh.coordinates.iter().map(|number| number.to_bits()).collect::<Vec<_>>();
    ours.offsets == theirs.offsets && ours.corners == theirs.corners && bits(ours) == bits(theirs)
}

/// The Rust text: its own time, and that of the copy before it.
fn time_text(operation: &Operation, mesh: &Mesh, result: &Mesh) -> (f64, f64) {
    let input = polyhedron(mesh);
    let copying = least(|| {
        let mut copy = None;
        timed(|| copy = Some(input.clone()))
    });
    let mut copy = input.clone();
    let text = least(|| {
        copy = input.clone();
        timed(|| {
            (operation.text)(&mut copy);
        })
    });
    assert!(same(result, &made(&copy)), "{} differs from the Rust text", operation.name);
    (text, copying)
}

pub fn measure(operation: &Operation, mesh: &Mesh) -> Times {
    let mut rooms = Rooms::new();
    let mut counts = Counts::default();
    let (library, stack) = time_and_stack(|| {
        counts = (operation.library)(read(mesh), &mut rooms).expect("a mesh that is accepted")
    });
    let (faces, positions) = (counts.faces as usize, counts.positions as usize);
    let result = rooms.output.mesh(faces, positions);
    let (text, copying) = time_text(operation, mesh, &result);

    let by_hand = |call: &dyn Fn(&Mesh, &mut Room)| {
        let mut room = Room::new();
        let time = least(|| timed(|| call(mesh, &mut room)));
        let made = room.mesh(faces, positions);
        assert!(same(&result, &made), "{} differs from C by hand", operation.name);
        time
    };
    let hand = byhand::written(operation.name).map(|hand| by_hand(&hand));
    let checked = byhand::checked(operation.name).map(|hand| {
        spoilt::compare(operation, hand, mesh);
        by_hand(&|mesh, room| hand(mesh, room).expect("a mesh that is accepted"))
    });
    let lent = 4 * (result.offsets.len() + result.corners.len() + result.coordinates.len());
    Times { library, text, kept: text + copying, hand, checked, stack, lent }
}
