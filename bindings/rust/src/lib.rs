//! Crossglimmer from Rust: Conway's operators on panel meshes, proved.
//!
//! The work is done by a static library that was proved to answer every call: with the mesh that its definition gives,
//! or with a [`Refusal`] that says what is wrong and where. This crate hands slices over and answers back; it adds no
//! rule of its own. [`Mesh`] owns its numbers and has the operators as methods; [`slices`] has them over lent slices.
//! All that a call may refuse stands in [the table of numbers](Refusal#the-table-of-numbers).
//!
//! Faces run clockwise seen from outside, and a height above 0 then goes out; data from OFF, OBJ or STL files run
//! counter-clockwise as a rule: `reverse` them before, and `reverse` the result after.
//!
//! ```
//! use crossglimmer::{Masks, Mesh};
//! let domed = Mesh::tetrahedron().kis(Some(0.5), Masks::default())?;
//! assert_eq!(domed.face_count(), 12);
//! for face in domed.faces() {
//!     let [a, b, c] = [face[0], face[1], face[2]].map(|vertex| domed.point(vertex));
//!     println!("{a:?} {b:?} {c:?}");
//! }
//!
//! let mut torn = domed;
//! torn.corners.swap(0, 1);
//! let refusal = torn.dual().unwrap_err();
//! assert_eq!(refusal.to_string(), "8 at 5: edge from corner 5 was met before");
//! # Ok::<(), crossglimmer::Refusal>(())
//! ```
//!
//! Ten lists run several operators one after the other, such as [`Mesh::truncate`] and [`Mesh::snub`].
//! [`Mesh::recipe`] runs up to sixteen [`Step`]s and hands back a [`Row`] of counts for each that was finished.
//! A [`Panel`] is such steps and a mesh, and is read from and written to the bytes of a panel file.
//!
//! ```
//! use crossglimmer::{ListMasks, Mesh, Panel, Step};
//! let mesh = Mesh::tetrahedron().truncate(None, ListMasks::default())?;
//! let file = Panel { steps: vec![Step::Kis(Some(0.2)), Step::Dual], mesh }.write()?;
//!
//! let Panel { steps, mesh } = Panel::read(&file)?;
//! let (rows, made) = mesh.recipe(&steps);
//! assert_eq!((rows[0].faces, rows[1].faces), (36, 20));
//! assert_eq!(made?.positions(), 36);
//! # Ok::<(), crossglimmer::Refusal>(())
//! ```
#![warn(missing_docs)]

mod mesh;
mod panel;
mod recipe;
mod refusal;
pub mod slices;
mod sys;

pub use mesh::Mesh;
pub use panel::{Filed, Panel};
pub use recipe::{List, Row, Step};
pub use refusal::Refusal;
pub use slices::{Lent, ListMasks, Read, Work};

/// The most positions, faces and corners that a mesh may have.
pub const LIMIT: usize = 60_000;

/// The counts of the mesh written.
#[derive(Clone, Copy, Debug, Default, PartialEq, Eq, Hash)]
pub struct Counts {
    /// V: its positions, used or not.
    pub positions: u32,
    /// E: half its corners, rounded down.
    pub edges: u32,
    /// F: its faces.
    pub faces: u32,
}

/// Which faces kis picks: those that each mask allows. An absent one allows all, an empty list none.
///
/// ```
/// use crossglimmer::{Masks, Mesh};
/// let only = Masks { numbers: Some(&[2]), ..Masks::default() };
/// assert_eq!(Mesh::tetrahedron().kis(None, only)?.face_count(), 6);
/// # Ok::<(), crossglimmer::Refusal>(())
/// ```
#[derive(Clone, Copy, Debug, Default)]
pub struct Masks<'a> {
    /// How many corners a face may have.
    pub arities: Option<&'a [u32]>,
    /// Which faces, by number; those past the end are ignored.
    pub numbers: Option<&'a [u32]>,
    /// Only faces whose sides are nearly of one length.
    pub regular: bool,
}
