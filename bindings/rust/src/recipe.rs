//! Lists and recipes: their names, steps and ledger rows, and the methods of a mesh that run them.
use crate::slices::{self, Lent, ListMasks, Work};
use crate::{Counts, Mesh, Refusal, LIMIT};

/// The ten lists, each several operators one after the other.
#[derive(Clone, Copy, Debug, PartialEq, Eq, Hash)]
pub enum List {
    /// Ambo, dual, kis, dual.
    Bevel = 1,
    /// Ambo, ambo.
    Expand = 2,
    /// Dual, ambo, dual.
    Join = 3,
    /// Ambo, dual, kis, dual, dual.
    Medial = 4,
    /// Dual, ambo, dual, kis; where no arities are given kis takes the arity 3.
    Meta = 5,
    /// Dual, kis, dual, dual.
    Needle = 6,
    /// Dual, ambo, dual, dual, ambo, dual.
    Ortho = 7,
    /// Dual, gyro, dual.
    Snub = 8,
    /// Dual, kis, dual.
    Truncate = 9,
    /// Kis, dual.
    Zip = 10,
}

impl List {
    /// The number that the library knows it by, from 1.
    ///
    /// ```
    /// assert_eq!(crossglimmer::List::Zip.code(), 10);
    /// ```
    pub fn code(self) -> u32 {
        self as u32
    }
}

/// A step of a recipe: an operator with just the numbers that it takes, a ratio, a height, or both in this order. Kis
/// picks all faces, triangulate takes the shorter diagonals.
#[derive(Clone, Copy, Debug, PartialEq)]
pub enum Step {
    /// [`Mesh::ambo`] with its ratio.
    Ambo(Option<f32>),
    /// [`Mesh::chamfer`] with its ratio.
    Chamfer(Option<f32>),
    /// [`Mesh::dual`].
    Dual,
    /// [`Mesh::gyro`] with its ratio and height.
    Gyro(Option<f32>, Option<f32>),
    /// [`Mesh::kis`] with its height.
    Kis(Option<f32>),
    /// [`Mesh::propellor`] with its ratio.
    Propellor(Option<f32>),
    /// [`Mesh::quinto`] with its height.
    Quinto(Option<f32>),
    /// [`Mesh::reflect`].
    Reflect,
    /// [`Mesh::reverse`].
    Reverse,
    /// [`Mesh::whirl`] with its ratio and height.
    Whirl(Option<f32>, Option<f32>),
    /// [`Mesh::triangulate`].
    Triangulate,
}

impl Step {
    /// Its code, ratio and height.
    fn parts(self) -> (u32, Option<f32>, Option<f32>) {
        match self {
            Step::Ambo(ratio) => (1, ratio, None),
            Step::Chamfer(ratio) => (2, ratio, None),
            Step::Dual => (3, None, None),
            Step::Gyro(ratio, height) => (4, ratio, height),
            Step::Kis(height) => (5, None, height),
            Step::Propellor(ratio) => (6, ratio, None),
            Step::Quinto(height) => (7, None, height),
            Step::Reflect => (8, None, None),
            Step::Reverse => (9, None, None),
            Step::Whirl(ratio, height) => (10, ratio, height),
            Step::Triangulate => (11, None, None),
        }
    }

    /// The four words of a panel file: code, flags (1 ratio, 2 height), ratio bits, height bits; an absent number's
    /// are 0.
    ///
    /// ```
    /// # use crossglimmer::Step;
    /// assert_eq!(Step::Gyro(None, Some(1.0)).words(), [4, 2, 0, 0x3F80_0000]);
    /// ```
    pub fn words(self) -> [u32; 4] {
        let (code, ratio, height) = self.parts();
        let flags = u32::from(ratio.is_some()) + 2 * u32::from(height.is_some());
        [code, flags, ratio.map_or(0, f32::to_bits), height.map_or(0, f32::to_bits)]
    }

    /// The step that has these words, if one has.
    ///
    /// ```
    /// # use crossglimmer::Step;
    /// assert_eq!(Step::from_words([4, 2, 0, 0x3F80_0000]), Some(Step::Gyro(None, Some(1.0))));
    /// assert_eq!(Step::from_words([3, 2, 0, 0x3F80_0000]), None);
    /// ```
    pub fn from_words(words: [u32; 4]) -> Option<Step> {
        let [code, flags, ratio, height] = words;
        let ratio = if flags & 1 == 1 { Some(f32::from_bits(ratio)) } else { None };
        let height = if flags & 2 == 2 { Some(f32::from_bits(height)) } else { None };
        let step = match code {
            1 => Step::Ambo(ratio),
            2 => Step::Chamfer(ratio),
            3 => Step::Dual,
            4 => Step::Gyro(ratio, height),
            5 => Step::Kis(height),
            6 => Step::Propellor(ratio),
            7 => Step::Quinto(height),
            8 => Step::Reflect,
            9 => Step::Reverse,
            10 => Step::Whirl(ratio, height),
            11 => Step::Triangulate,
            _ => return None,
        };
        // A word that the step does not keep is none of its own.
        (step.words() == words).then_some(step)
    }
}

/// What the ledger says of a finished step.
#[derive(Clone, Copy, Debug, PartialEq, Eq, Hash)]
pub struct Row {
    /// The step's code, as in its words.
    pub code: u32,
    /// V of its result.
    pub positions: u32,
    /// E.
    pub edges: u32,
    /// F.
    pub faces: u32,
}

/// The rows of the first `finished` steps.
fn rows(ledger: &[u32], finished: usize) -> Vec<Row> {
    let row = |row: &[u32]| Row { code: row[0], positions: row[1], edges: row[2], faces: row[3] };
    ledger.chunks_exact(4).take(finished).map(row).collect()
}

/// No mesh on the way through a list has over six times the corners of the one that is read, nor more faces or
/// positions than that and all that this one has.
const LIST_GROWTH: usize = 6;
/// Faces, corners and positions together become at most so many times as many in any step.
const STEP_GROWTH: usize = 10;

/// Has a list or recipe on a mesh written, each of whose results has at most `growth` times what the mesh has in all.
fn carried(
    mesh: &Mesh,
    growth: usize,
    write: impl FnOnce(Work, Lent) -> Result<Counts, Refusal>,
) -> Result<Mesh, Refusal> {
    let all = mesh.face_count() + mesh.corners.len() + mesh.positions();
    let sizes = [all.saturating_mul(growth).min(LIMIT); 3];
    let (mut first, mut second) = (Mesh::room(sizes), Mesh::room(sizes));
    let mut made = Mesh::written(sizes, |out| write(Work { first: first.lent(), second: second.lent() }, out))?;
    made.offsets.shrink_to_fit();
    made.corners.shrink_to_fit();
    made.coords.shrink_to_fit();
    Ok(made)
}

impl Mesh {
    /// Runs up to sixteen steps. The rows are those of the finished steps, also where a later one is refused.
    ///
    /// ```
    /// # use crossglimmer::{Mesh, Row, Step};
    /// let (rows, made) = Mesh::tetrahedron().recipe(&[Step::Gyro(None, None), Step::Chamfer(None)]);
    /// assert_eq!(rows[0], Row { code: 4, positions: 20, edges: 30, faces: 12 });
    /// assert_eq!(made?.face_count(), 42);
    ///
    /// let (rows, made) = Mesh::tetrahedron().recipe(&[Step::Dual, Step::Ambo(Some(f32::NAN))]);
    /// assert_eq!(rows.len(), 1);
    /// assert_eq!(made.unwrap_err().to_string(), "3 at 0 in step 2: ratio is not finite");
    /// # Ok::<(), crossglimmer::Refusal>(())
    /// ```
    pub fn recipe(&self, steps: &[Step]) -> (Vec<Row>, Result<Mesh, Refusal>) {
        let words: Vec<[u32; 4]> = steps.iter().map(|step| step.words()).collect();
        let mut ledger = vec![0; 4 * words.len()];
        let growth = STEP_GROWTH.saturating_pow(words.len().min(16) as u32);
        let made = carried(self, growth, |work, out| slices::recipe(&words, &mut ledger, self.read(), work, out));
        let finished = match &made {
            Ok(_) => words.len(),
            Err(refusal) => (refusal.step as usize).saturating_sub(1),
        };
        (rows(&ledger, finished), made)
    }

    /// A list by its name's value, with numbers and masks that it may take.
    fn list(&self, list: List, ratio: Option<f32>, height: Option<f32>, masks: ListMasks) -> Result<Mesh, Refusal> {
        carried(self, LIST_GROWTH, |work, out| slices::list(list, self.read(), ratio, height, masks, work, out))
    }

    /// Ambo, dual, kis, dual: the ratio goes to ambo, the height and the masks to kis.
    ///
    /// ```
    /// # use crossglimmer::{ListMasks, Mesh};
    /// let made = Mesh::tetrahedron().bevel(None, Some(0.5), ListMasks::default())?;
    /// assert_eq!((made.positions(), made.edge_count(), made.face_count()), (24, 36, 14));
    /// # Ok::<(), crossglimmer::Refusal>(())
    /// ```
    pub fn bevel(&self, ratio: Option<f32>, height: Option<f32>, masks: ListMasks) -> Result<Mesh, Refusal> {
        self.list(List::Bevel, ratio, height, masks)
    }

    /// Ambo, ambo, each with the ratio.
    ///
    /// ```
    /// # use crossglimmer::{Mesh};
    /// let made = Mesh::tetrahedron().expand(Some(0.5))?;
    /// assert_eq!((made.positions(), made.edge_count(), made.face_count()), (12, 24, 14));
    /// # Ok::<(), crossglimmer::Refusal>(())
    /// ```
    pub fn expand(&self, ratio: Option<f32>) -> Result<Mesh, Refusal> {
        self.list(List::Expand, ratio, None, ListMasks::default())
    }

    /// Dual, ambo, dual: the ratio goes to ambo.
    ///
    /// ```
    /// # use crossglimmer::{Mesh};
    /// let made = Mesh::tetrahedron().join(None)?;
    /// assert_eq!((made.positions(), made.edge_count(), made.face_count()), (8, 12, 6));
    /// # Ok::<(), crossglimmer::Refusal>(())
    /// ```
    pub fn join(&self, ratio: Option<f32>) -> Result<Mesh, Refusal> {
        self.list(List::Join, ratio, None, ListMasks::default())
    }

    /// Ambo, dual, kis, dual, dual: the ratio goes to ambo, the height and the masks to kis.
    ///
    /// ```
    /// # use crossglimmer::{ListMasks, Mesh};
    /// let made = Mesh::tetrahedron().medial(None, None, ListMasks::default())?;
    /// assert_eq!((made.positions(), made.edge_count(), made.face_count()), (14, 36, 24));
    /// # Ok::<(), crossglimmer::Refusal>(())
    /// ```
    pub fn medial(&self, ratio: Option<f32>, height: Option<f32>, masks: ListMasks) -> Result<Mesh, Refusal> {
        self.list(List::Medial, ratio, height, masks)
    }

    /// Dual, ambo, dual, kis: the ratio goes to ambo, the height and the masks to kis, which takes the arity 3 where
    /// none is given.
    ///
    /// ```
    /// # use crossglimmer::{ListMasks, Mesh};
    /// let made = Mesh::tetrahedron().meta(None, None, ListMasks { arities: Some(&[4]), regular: false })?;
    /// assert_eq!((made.positions(), made.edge_count(), made.face_count()), (14, 36, 24));
    /// # Ok::<(), crossglimmer::Refusal>(())
    /// ```
    pub fn meta(&self, ratio: Option<f32>, height: Option<f32>, masks: ListMasks) -> Result<Mesh, Refusal> {
        self.list(List::Meta, ratio, height, masks)
    }

    /// Dual, kis, dual, dual: the height and the masks go to kis.
    ///
    /// ```
    /// # use crossglimmer::{ListMasks, Mesh};
    /// let made = Mesh::tetrahedron().needle(None, ListMasks::default())?;
    /// assert_eq!((made.positions(), made.edge_count(), made.face_count()), (8, 18, 12));
    /// # Ok::<(), crossglimmer::Refusal>(())
    /// ```
    pub fn needle(&self, height: Option<f32>, masks: ListMasks) -> Result<Mesh, Refusal> {
        self.list(List::Needle, None, height, masks)
    }

    /// Dual, ambo, dual, dual, ambo, dual: the ratio goes to both ambos.
    ///
    /// ```
    /// # use crossglimmer::{Mesh};
    /// let made = Mesh::tetrahedron().ortho(None)?;
    /// assert_eq!((made.positions(), made.edge_count(), made.face_count()), (14, 24, 12));
    /// # Ok::<(), crossglimmer::Refusal>(())
    /// ```
    pub fn ortho(&self, ratio: Option<f32>) -> Result<Mesh, Refusal> {
        self.list(List::Ortho, ratio, None, ListMasks::default())
    }

    /// Dual, gyro, dual: the ratio and the height go to gyro.
    ///
    /// ```
    /// # use crossglimmer::{Mesh};
    /// let made = Mesh::tetrahedron().snub(None, None)?;
    /// assert_eq!((made.positions(), made.edge_count(), made.face_count()), (12, 30, 20));
    /// # Ok::<(), crossglimmer::Refusal>(())
    /// ```
    pub fn snub(&self, ratio: Option<f32>, height: Option<f32>) -> Result<Mesh, Refusal> {
        self.list(List::Snub, ratio, height, ListMasks::default())
    }

    /// Dual, kis, dual: the height and the masks go to kis.
    ///
    /// ```
    /// # use crossglimmer::{ListMasks, Mesh};
    /// let made = Mesh::tetrahedron().truncate(Some(0.5), ListMasks::default())?;
    /// assert_eq!((made.positions(), made.edge_count(), made.face_count()), (12, 18, 8));
    /// # Ok::<(), crossglimmer::Refusal>(())
    /// ```
    pub fn truncate(&self, height: Option<f32>, masks: ListMasks) -> Result<Mesh, Refusal> {
        self.list(List::Truncate, None, height, masks)
    }

    /// Kis, dual: the height and the masks go to kis.
    ///
    /// ```
    /// # use crossglimmer::{ListMasks, Mesh};
    /// let made = Mesh::tetrahedron().zip(None, ListMasks::default())?;
    /// assert_eq!((made.positions(), made.edge_count(), made.face_count()), (12, 18, 8));
    /// # Ok::<(), crossglimmer::Refusal>(())
    /// ```
    pub fn zip(&self, height: Option<f32>, masks: ListMasks) -> Result<Mesh, Refusal> {
        self.list(List::Zip, None, height, masks)
    }
}
