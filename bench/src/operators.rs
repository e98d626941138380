//! The operators and lists with no numbers given, on the sides, and the largest torus that each can take.
use crate::mesh::Mesh;
use crate::shapes;
use crate::sides::Rooms;
use crossglimmer::slices::{self, ListMasks};
use crossglimmer::{Counts, List, Masks, Read, Refusal};
use polyhedron_ops::Polyhedron;

pub struct Operation {
    pub name: &'static str,
    pub library: fn(Read, &mut Rooms) -> Result<Counts, Refusal>,
    pub text: fn(&mut Polyhedron) -> &mut Polyhedron,
    /// Quads across and round of the largest torus whose result fits; the first is a multiple of 4.
    pub torus: [usize; 2],
    /// Corners of the result for a corner of a torus, of a sphere of triangles, and of a pyramid's four a side.
    pub growth: usize,
}

fn list(list: List, mesh: Read, rooms: &mut Rooms) -> Result<Counts, Refusal> {
    let (work, out) = rooms.all();
    slices::list(list, mesh, None, None, ListMasks::default(), work, out)
}

pub const OPERATORS: [Operation; 11] = [
    Operation {
        name: "reverse",
        library: |m, r| slices::reverse(m, r.out()),
        text: |p| p.reverse(),
        torus: [100, 150],
        growth: 1,
    },
    Operation {
        name: "reflect",
        library: |m, r| slices::reflect(m, r.out()),
        text: |p| p.reflect(false),
        torus: [100, 150],
        growth: 1,
    },
    Operation {
        name: "triangulate",
        library: |m, r| slices::triangulate(m, true, r.out()),
        text: |p| p.triangulate(None),
        torus: [100, 100],
        growth: 2,
    },
    Operation {
        name: "ambo",
        library: |m, r| slices::ambo(m, None, r.out()),
        text: |p| p.ambo(None, false),
        torus: [60, 125],
        growth: 2,
    },
    Operation {
        name: "dual",
        library: |m, r| slices::dual(m, r.out()),
        text: |p| p.dual(false),
        torus: [100, 150],
        growth: 1,
    },
    Operation {
        name: "kis",
        library: |m, r| slices::kis(m, None, Masks::default(), r.out()),
        text: |p| p.kis(None, None, None, None, false),
        torus: [40, 125],
        growth: 3,
    },
    Operation {
        name: "chamfer",
        library: |m, r| slices::chamfer(m, None, r.out()),
        text: |p| p.chamfer(None, false),
        torus: [36, 104],
        growth: 4,
    },
    Operation {
        name: "gyro",
        library: |m, r| slices::gyro(m, None, None, r.out()),
        text: |p| p.gyro(None, None, false),
        torus: [60, 50],
        growth: 5,
    },
    Operation {
        name: "propellor",
        library: |m, r| slices::propellor(m, None, r.out()),
        text: |p| p.propellor(None, false),
        torus: [60, 50],
        growth: 5,
    },
    Operation {
        name: "whirl",
        library: |m, r| slices::whirl(m, None, None, r.out()),
        text: |p| p.whirl(None, None, false),
        torus: [20, 107],
        growth: 7,
    },
    Operation {
        name: "quinto",
        library: |m, r| slices::quinto(m, None, r.out()),
        text: |p| p.quinto(None, false),
        torus: [20, 125],
        growth: 6,
    },
];

pub const LISTS: [Operation; 10] = [
    Operation {
        name: "bevel",
        library: |m, r| list(List::Bevel, m, r),
        text: |p| p.bevel(None, None, None, None, false),
        torus: [20, 125],
        growth: 6,
    },
    Operation {
        name: "expand",
        library: |m, r| list(List::Expand, m, r),
        text: |p| p.expand(None, false),
        torus: [60, 62],
        growth: 4,
    },
    Operation {
        name: "join",
        library: |m, r| list(List::Join, m, r),
        text: |p| p.join(None, false),
        torus: [60, 125],
        growth: 2,
    },
    Operation {
        name: "medial",
        library: |m, r| list(List::Medial, m, r),
        text: |p| p.medial(None, None, None, None, false),
        torus: [20, 125],
        growth: 6,
    },
    Operation {
        name: "meta",
        library: |m, r| list(List::Meta, m, r),
        text: |p| p.meta(None, None, None, None, false),
        torus: [60, 125],
        growth: 2,
    },
    Operation {
        name: "needle",
        library: |m, r| list(List::Needle, m, r),
        text: |p| p.needle(None, None, None, false),
        torus: [40, 125],
        growth: 3,
    },
    Operation {
        name: "ortho",
        library: |m, r| list(List::Ortho, m, r),
        text: |p| p.ortho(None, false),
        torus: [60, 62],
        growth: 4,
    },
    Operation {
        name: "snub",
        library: |m, r| list(List::Snub, m, r),
        text: |p| p.snub(None, None, false),
        torus: [60, 50],
        growth: 5,
    },
    Operation {
        name: "truncate",
        library: |m, r| list(List::Truncate, m, r),
        text: |p| p.truncate(None, None, None, false),
        torus: [40, 125],
        growth: 3,
    },
    Operation {
        name: "zip",
        library: |m, r| list(List::Zip, m, r),
        text: |p| p.zip(None, None, None, false),
        torus: [40, 125],
        growth: 3,
    },
];

impl Operation {
    /// A quarter, a half and the whole of the largest torus.
    pub fn tori(&self) -> [Mesh; 3] {
        [4, 2, 1].map(|part| shapes::torus(self.torus[0] / part, self.torus[1]))
    }

    /// The largest number of sides of a pyramid whose result fits.
    pub fn sides(&self) -> usize {
        crate::mesh::LIMIT / 4 / self.growth
    }

    /// The largest frequency of a sphere whose result fits.
    pub fn frequency(&self) -> usize {
        (1..).take_while(|n| 60 * n * n * self.growth <= crate::mesh::LIMIT).last().unwrap_or(1)
    }
}
