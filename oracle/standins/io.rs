// Opens the text's private helpers on one face. The text declares this module, its file is
// not among those given, so the door stands inside the crate without a change to the text.
use crate::{helpers::*, selection::is_face_selected, *};

impl Polyhedron {
    pub fn probe_centroid(&self, face: &[VertexKey]) -> Point {
        centroid_ref(&index_as_positions(face, &self.positions))
    }

    pub fn probe_normal(&self, face: &[VertexKey]) -> Normal {
        average_normal_ref(&index_as_positions(face, &self.positions))
            .expect("the text gives every face a normal")
    }

    /// Whether `kis` with nothing but `regular_faces_only` picks the face.
    pub fn probe_regular(&self, face: &[VertexKey]) -> bool {
        is_face_selected(&face.to_vec(), 0, &self.positions, None, None, Some(true))
    }
}
