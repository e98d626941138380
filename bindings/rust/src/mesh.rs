//! A mesh that owns its numbers, and the operators as methods that hand back a new one.
use crate::slices::{self, Lent, Read};
use crate::{Counts, Masks, Refusal, LIMIT};

/// A mesh in three vectors. They may hold any numbers; [`Mesh::check`] and every operator say what is wrong with them.
///
/// ```
/// use crossglimmer::Mesh;
/// let shell = Mesh::tetrahedron().gyro(None, None)?.chamfer(None)?;
/// assert_eq!((shell.positions(), shell.edge_count(), shell.face_count()), (80, 120, 42));
/// # Ok::<(), crossglimmer::Refusal>(())
/// ```
#[derive(Clone, Debug, PartialEq)]
pub struct Mesh {
    /// Where each face starts in the corners, and their number at the end.
    pub offsets: Vec<u32>,
    /// Vertex numbers.
    pub corners: Vec<u32>,
    /// x, y and z of each position.
    pub coords: Vec<f32>,
}

impl Default for Mesh {
    /// The empty mesh.
    fn default() -> Mesh {
        Mesh { offsets: vec![0], corners: Vec::new(), coords: Vec::new() }
    }
}

/// The largest sizes that a result may have: faces, corners, positions.
type Sizes = [usize; 3];

impl Mesh {
    /// A mesh of faces and positions.
    ///
    /// ```
    /// let mesh = crossglimmer::Mesh::new(&[[0, 1, 2]], &[[0.0; 3], [1.0; 3], [2.0; 3]]);
    /// assert_eq!(mesh.offsets, [0, 3]);
    /// ```
    pub fn new<Face: AsRef<[u32]>>(faces: &[Face], positions: &[[f32; 3]]) -> Mesh {
        let mut mesh = Mesh { coords: positions.concat(), ..Mesh::default() };
        for face in faces {
            mesh.corners.extend_from_slice(face.as_ref());
            mesh.offsets.push(mesh.corners.len() as u32);
        }
        mesh
    }

    /// Document 01's T.
    ///
    /// ```
    /// assert_eq!(crossglimmer::Mesh::tetrahedron().face_count(), 4);
    /// ```
    pub fn tetrahedron() -> Mesh {
        let faces = [[0, 1, 2], [0, 3, 1], [0, 2, 3], [1, 3, 2]];
        Mesh::new(&faces, &[[1.0, 1.0, 1.0], [-1.0, 1.0, -1.0], [1.0, -1.0, -1.0], [-1.0, -1.0, 1.0]])
    }

    /// Its numbers as slices.
    ///
    /// ```
    /// assert_eq!(crossglimmer::Mesh::tetrahedron().read().offsets, [0, 3, 6, 9, 12]);
    /// ```
    pub fn read(&self) -> Read<'_> {
        Read { offsets: &self.offsets, corners: &self.corners, coords: &self.coords }
    }

    /// How many positions it has; [`Mesh::points`] has the positions themselves.
    ///
    /// ```
    /// assert_eq!(crossglimmer::Mesh::tetrahedron().positions(), 4);
    /// ```
    pub fn positions(&self) -> usize {
        self.coords.len() / 3
    }

    /// x, y and z of a vertex, by its number as the corners have it.
    ///
    /// ```
    /// let mesh = crossglimmer::Mesh::tetrahedron();
    /// assert_eq!(mesh.point(1), [-1.0, 1.0, -1.0]);
    /// assert_eq!(mesh.point(mesh.corners[5]), mesh.point(1));
    /// ```
    ///
    /// # Panics
    /// Where the mesh has no such vertex, as indexing does. The corners of a mesh that was checked, or that a call has
    /// made, are all below [`Mesh::positions`].
    pub fn point(&self, vertex: u32) -> [f32; 3] {
        let at = 3 * vertex as usize;
        [self.coords[at], self.coords[at + 1], self.coords[at + 2]]
    }

    /// The points of all its positions, in order; numbers at the end that are not three are left out.
    ///
    /// ```
    /// let mesh = crossglimmer::Mesh::tetrahedron();
    /// assert_eq!(mesh.points().len(), mesh.positions());
    /// let highest = mesh.points().map(|[_, _, z]| z).fold(f32::MIN, f32::max);
    /// assert_eq!(highest, 1.0);
    /// ```
    pub fn points(&self) -> impl ExactSizeIterator<Item = [f32; 3]> + '_ {
        self.coords.chunks_exact(3).map(|point| [point[0], point[1], point[2]])
    }

    /// How many faces it has.
    ///
    /// ```
    /// assert_eq!(crossglimmer::Mesh::default().face_count(), 0);
    /// ```
    pub fn face_count(&self) -> usize {
        self.offsets.len().saturating_sub(1)
    }

    /// Half the corners, rounded down.
    ///
    /// ```
    /// assert_eq!(crossglimmer::Mesh::tetrahedron().edge_count(), 6);
    /// ```
    pub fn edge_count(&self) -> usize {
        self.corners.len() / 2
    }

    /// The faces, each as its corners; a run that the offsets do not give is empty.
    ///
    /// ```
    /// assert_eq!(crossglimmer::Mesh::tetrahedron().faces().nth(1), Some(&[0, 3, 1][..]));
    /// ```
    pub fn faces(&self) -> impl Iterator<Item = &[u32]> {
        let run = |ends: &[u32]| self.corners.get(ends[0] as usize..ends[1] as usize);
        self.offsets.windows(2).map(move |ends| run(ends).unwrap_or(&[]))
    }

    /// Numbers 1, 2, 4 to 9 of the table: what every closed operator asks.
    ///
    /// ```
    /// # use crossglimmer::Mesh;
    /// let open = Mesh::new(&[[0, 1, 2]], &[[0.0; 3], [1.0; 3], [2.0; 3]]);
    /// assert_eq!(open.check().unwrap_err().to_string(), "9 at 0: edge from corner 0 has no reverse");
    /// ```
    pub fn check(&self) -> Result<(), Refusal> {
        slices::check(self.read())
    }

    /// Numbers 1, 2, 4 to 11: what ambo and dual ask.
    ///
    /// ```
    /// assert!(crossglimmer::Mesh::tetrahedron().check_full().is_ok());
    /// ```
    pub fn check_full(&self) -> Result<(), Refusal> {
        slices::check_full(self.read())
    }

    /// Its edges, the smaller number first, in the order in which the faces first have them ascending.
    ///
    /// ```
    /// assert_eq!(crossglimmer::Mesh::tetrahedron().edges()?[..2], [[0, 1], [1, 2]]);
    /// # Ok::<(), crossglimmer::Refusal>(())
    /// ```
    pub fn edges(&self) -> Result<Vec<[u32; 2]>, Refusal> {
        let mut edges = vec![[0; 2]; self.edge_count()];
        let listed = slices::edges(self.read(), &mut edges)?;
        edges.truncate(listed);
        Ok(edges)
    }

    /// Room for a mesh of these sizes.
    pub(crate) fn room(sizes: Sizes) -> Mesh {
        let [faces, corners, positions] = sizes;
        Mesh { offsets: vec![0; faces + 1], corners: vec![0; corners], coords: vec![0.0; 3 * positions] }
    }

    /// Lends it to be written.
    pub(crate) fn lent(&mut self) -> Lent<'_> {
        Lent { offsets: &mut self.offsets, corners: &mut self.corners, coords: &mut self.coords }
    }

    /// Cuts the room to what was written.
    pub(crate) fn cut(&mut self, sizes: Sizes) {
        let [faces, corners, positions] = sizes;
        self.offsets.truncate(faces + 1);
        self.corners.truncate(corners);
        self.coords.truncate(3 * positions);
    }

    /// Makes room for a result, has it written and cuts the room to it.
    pub(crate) fn written(sizes: Sizes, write: impl FnOnce(Lent) -> Result<Counts, Refusal>) -> Result<Mesh, Refusal> {
        let mut mesh = Mesh::room(sizes.map(|size| size.min(LIMIT)));
        let counts = write(mesh.lent())?;
        let corners = mesh.offsets.get(counts.faces as usize).map_or(0, |corners| *corners as usize);
        mesh.cut([counts.faces as usize, corners, counts.positions as usize]);
        Ok(mesh)
    }

    /// Each face in the other order.
    ///
    /// ```
    /// # use crossglimmer::{Mesh};
    /// let made = Mesh::tetrahedron().reverse()?;
    /// assert_eq!((made.positions(), made.edge_count(), made.face_count()), (4, 6, 4));
    /// # Ok::<(), crossglimmer::Refusal>(())
    /// ```
    pub fn reverse(&self) -> Result<Mesh, Refusal> {
        let (f, c, v) = (self.face_count(), self.corners.len(), self.positions());
        Mesh::written([f, c, v], |out| slices::reverse(self.read(), out))
    }

    /// Each face in the other order, and y of each position turned round.
    ///
    /// ```
    /// # use crossglimmer::{Mesh};
    /// let made = Mesh::tetrahedron().reflect()?;
    /// assert_eq!((made.positions(), made.edge_count(), made.face_count()), (4, 6, 4));
    /// # Ok::<(), crossglimmer::Refusal>(())
    /// ```
    pub fn reflect(&self) -> Result<Mesh, Refusal> {
        let (f, c, v) = (self.face_count(), self.corners.len(), self.positions());
        Mesh::written([f, c, v], |out| slices::reflect(self.read(), out))
    }

    /// Triangles on the same positions: four corners by the shorter diagonal (`shorter`) or the longer, five in a fixed way, others a fan from their first corner.
    ///
    /// ```
    /// # use crossglimmer::{Mesh};
    /// let made = Mesh::tetrahedron().triangulate(true)?;
    /// assert_eq!((made.positions(), made.edge_count(), made.face_count()), (4, 6, 4));
    /// # Ok::<(), crossglimmer::Refusal>(())
    /// ```
    pub fn triangulate(&self, shorter: bool) -> Result<Mesh, Refusal> {
        let (f, c, v) = (self.face_count(), self.corners.len(), self.positions());
        Mesh::written([c.saturating_sub(2 * f), 3 * c.saturating_sub(2 * f), v], |out| {
            slices::triangulate(self.read(), shorter, out)
        })
    }

    /// A vertex an edge, at `ratio` of its first end (absent: 1/2); a face a face, then a face a vertex.
    ///
    /// ```
    /// # use crossglimmer::{Mesh};
    /// let made = Mesh::tetrahedron().ambo(None)?;
    /// assert_eq!((made.positions(), made.edge_count(), made.face_count()), (6, 12, 8));
    /// # Ok::<(), crossglimmer::Refusal>(())
    /// ```
    pub fn ambo(&self, ratio: Option<f32>) -> Result<Mesh, Refusal> {
        let (f, c, e, v) = (self.face_count(), self.corners.len(), self.edge_count(), self.positions());
        Mesh::written([f + v, 2 * c, e], |out| slices::ambo(self.read(), ratio, out))
    }

    /// A vertex a face, at its centroid; a face a vertex.
    ///
    /// ```
    /// # use crossglimmer::{Mesh};
    /// let made = Mesh::tetrahedron().dual()?;
    /// assert_eq!((made.positions(), made.edge_count(), made.face_count()), (4, 6, 4));
    /// # Ok::<(), crossglimmer::Refusal>(())
    /// ```
    pub fn dual(&self) -> Result<Mesh, Refusal> {
        let (f, c, v) = (self.face_count(), self.corners.len(), self.positions());
        Mesh::written([v, c, f], |out| slices::dual(self.read(), out))
    }

    /// An apex over each picked face, at `height` along its normal (absent: 0), and triangles to it.
    ///
    /// ```
    /// # use crossglimmer::{Masks, Mesh};
    /// let made = Mesh::tetrahedron().kis(Some(0.5), Masks::default())?;
    /// assert_eq!((made.positions(), made.edge_count(), made.face_count()), (8, 18, 12));
    /// # Ok::<(), crossglimmer::Refusal>(())
    /// ```
    pub fn kis(&self, height: Option<f32>, masks: Masks) -> Result<Mesh, Refusal> {
        let (f, c, v) = (self.face_count(), self.corners.len(), self.positions());
        Mesh::written([c.max(f), 3 * c, v + f], |out| slices::kis(self.read(), height, masks, out))
    }

    /// A vertex a corner, `ratio` of the way to the centroid (absent: 1/2); inner faces, then a hexagon an edge.
    ///
    /// ```
    /// # use crossglimmer::{Mesh};
    /// let made = Mesh::tetrahedron().chamfer(Some(0.5))?;
    /// assert_eq!((made.positions(), made.edge_count(), made.face_count()), (16, 24, 10));
    /// # Ok::<(), crossglimmer::Refusal>(())
    /// ```
    pub fn chamfer(&self, ratio: Option<f32>) -> Result<Mesh, Refusal> {
        let (f, c, e, v) = (self.face_count(), self.corners.len(), self.edge_count(), self.positions());
        Mesh::written([f + e, c + 6 * e, v + c], |out| slices::chamfer(self.read(), ratio, out))
    }

    /// A vertex a face, then two an edge (ratio absent: 1/3, height 0); a pentagon a corner.
    ///
    /// ```
    /// # use crossglimmer::{Mesh};
    /// let made = Mesh::tetrahedron().gyro(None, None)?;
    /// assert_eq!((made.positions(), made.edge_count(), made.face_count()), (20, 30, 12));
    /// # Ok::<(), crossglimmer::Refusal>(())
    /// ```
    pub fn gyro(&self, ratio: Option<f32>, height: Option<f32>) -> Result<Mesh, Refusal> {
        let (f, c, e, v) = (self.face_count(), self.corners.len(), self.edge_count(), self.positions());
        Mesh::written([c, 5 * c, v + f + 2 * e], |out| slices::gyro(self.read(), ratio, height, out))
    }

    /// Two vertices an edge (ratio absent: 1/3); inner faces, then a quadrilateral a corner.
    ///
    /// ```
    /// # use crossglimmer::{Mesh};
    /// let made = Mesh::tetrahedron().propellor(None)?;
    /// assert_eq!((made.positions(), made.edge_count(), made.face_count()), (16, 30, 16));
    /// # Ok::<(), crossglimmer::Refusal>(())
    /// ```
    pub fn propellor(&self, ratio: Option<f32>) -> Result<Mesh, Refusal> {
        let (f, c, e, v) = (self.face_count(), self.corners.len(), self.edge_count(), self.positions());
        Mesh::written([f + c, 5 * c, v + 2 * e], |out| slices::propellor(self.read(), ratio, out))
    }

    /// A vertex a corner, then two an edge (ratio absent: 1/3, height 0); a hexagon a corner, then inner faces.
    ///
    /// ```
    /// # use crossglimmer::{Mesh};
    /// let made = Mesh::tetrahedron().whirl(None, Some(0.1))?;
    /// assert_eq!((made.positions(), made.edge_count(), made.face_count()), (28, 42, 16));
    /// # Ok::<(), crossglimmer::Refusal>(())
    /// ```
    pub fn whirl(&self, ratio: Option<f32>, height: Option<f32>) -> Result<Mesh, Refusal> {
        let (f, c, e, v) = (self.face_count(), self.corners.len(), self.edge_count(), self.positions());
        Mesh::written([f + c, 7 * c, v + c + 2 * e], |out| slices::whirl(self.read(), ratio, height, out))
    }

    /// A vertex an edge, at `height` times the sum of its ends (absent: 0.5), then one a corner; inner faces, then a pentagon a corner.
    ///
    /// ```
    /// # use crossglimmer::{Mesh};
    /// let made = Mesh::tetrahedron().quinto(None)?;
    /// assert_eq!((made.positions(), made.edge_count(), made.face_count()), (22, 36, 16));
    /// # Ok::<(), crossglimmer::Refusal>(())
    /// ```
    pub fn quinto(&self, height: Option<f32>) -> Result<Mesh, Refusal> {
        let (f, c, e, v) = (self.face_count(), self.corners.len(), self.edge_count(), self.positions());
        Mesh::written([f + c, 6 * c, v + e + c], |out| slices::quinto(self.read(), height, out))
    }
}
