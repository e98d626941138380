//! The mesh of document 01: offsets, corners and coordinates.

pub const LIMIT: usize = 60_000;

#[derive(Clone, Debug, Default, PartialEq)]
pub struct Mesh {
    pub offsets: Vec<u32>,
    pub corners: Vec<u32>,
    pub coordinates: Vec<f32>,
}

pub type Face = Vec<u32>;
pub type Point = [f32; 3];

impl Mesh {
    pub fn new(faces: &[Face], points: &[Point]) -> Mesh {
        let mut offsets = vec![0];
        let mut corners = Vec::new();
        for face in faces {
            corners.extend(face);
            offsets.push(corners.len() as u32);
        }
        Mesh { offsets, corners, coordinates: points.concat() }
    }

    /// The faces of a mesh whose offsets have the right shape.
    pub fn faces(&self) -> Vec<Face> {
        self.runs().map(<[u32]>::to_vec).collect()
    }

    pub fn runs(&self) -> impl Iterator<Item = &[u32]> {
        self.offsets.windows(2).map(|ends| &self.corners[ends[0] as usize..ends[1] as usize])
    }

    pub fn face_count(&self) -> usize {
        self.offsets.len() - 1
    }

    pub fn position_count(&self) -> usize {
        self.coordinates.len() / 3
    }

    pub fn points(&self) -> Vec<Point> {
        self.coordinates.chunks_exact(3).map(|point| [point[0], point[1], point[2]]).collect()
    }

    /// V, E and F.
    pub fn counts(&self) -> [usize; 3] {
        [self.position_count(), self.corners.len() / 2, self.face_count()]
    }
}
