//! The functions over lent slices: nothing is allocated, and what a call writes stands at the front.
use crate::{sys, Counts, Filed, List, Masks, Refusal};

/// A mesh to be read, as three slices. They may hold any numbers: a mesh that is not good is refused.
#[derive(Clone, Copy, Debug)]
pub struct Read<'a> {
    /// F + 1 numbers, the first 0, none smaller than the one before, the last the number of corners.
    pub offsets: &'a [u32],
    /// Vertex numbers.
    pub corners: &'a [u32],
    /// x, y and z of each position.
    pub coords: &'a [f32],
}

/// Slices lent to be written. What lies past the result stays; a refused call changes nothing.
#[derive(Debug)]
pub struct Lent<'a> {
    /// Room for the offsets: one more than the faces.
    pub offsets: &'a mut [u32],
    /// Room for the corners.
    pub corners: &'a mut [u32],
    /// Room for the coordinates: three a position.
    pub coords: &'a mut [f32],
}

/// Two work meshes lent to a list or a recipe: step 1 writes the first, step 2 the second, in turn, and the last step
/// what is lent for the result. Whatever came of the call, every element of both reads 0 afterwards.
#[derive(Debug)]
pub struct Work<'a> {
    /// What steps 1, 3, 5 and so on write.
    pub first: Lent<'a>,
    /// What steps 2, 4, 6 and so on write.
    pub second: Lent<'a>,
}

/// Which faces kis picks in a list: those that each mask allows. Absent arities allow all, an empty list none.
#[derive(Clone, Copy, Debug, Default)]
pub struct ListMasks<'a> {
    /// How many corners a face may have.
    pub arities: Option<&'a [u32]>,
    /// Only faces whose sides are nearly of one length.
    pub regular: bool,
}

/// Calls a function of the library: the mesh, the numbers between, and the lent slices where there are some.
macro_rules! call {
    ($function:ident, $mesh:expr, [$($number:expr),*]) => {{
        let Read { offsets, corners, coords } = $mesh;
        // SAFETY: pointer and length are a slice's own, and the borrow checker keeps the lent ones apart.
        answered(unsafe {
            sys::$function(
                offsets.as_ptr(), offsets.len(), corners.as_ptr(), corners.len(), coords.as_ptr(), coords.len(),
                $($number),*
            )
        })
    }};
    ($function:ident, $mesh:expr, [$($number:expr),*], $out:expr) => {{
        let Lent { offsets, corners, coords } = $out;
        let out = (offsets.as_mut_ptr(), corners.as_mut_ptr(), coords.as_mut_ptr());
        call!($function, $mesh, [$($number,)* out.0, offsets.len(), out.1, corners.len(), out.2, coords.len()])
    }};
}

/// Calls a list or a recipe: what stands before the mesh, the mesh, the numbers between, the work meshes and the lent
/// slices.
macro_rules! carry {
    ($function:ident, [$($before:expr),*], $mesh:expr, [$($number:expr),*], $work:expr, $out:expr) => {{
        let Read { offsets, corners, coords } = $mesh;
        let (Work { first: a, second: b }, z) = ($work, $out);
        let [ao, ac, bo, bc, zo, zc] =
            [a.offsets, a.corners, b.offsets, b.corners, z.offsets, z.corners].map(pointed);
        let [ax, bx, zx] = [a.coords, b.coords, z.coords].map(pointed);
        // SAFETY: as in `call`.
        answered(unsafe {
            sys::$function(
                $($before,)*
                offsets.as_ptr(), offsets.len(), corners.as_ptr(), corners.len(), coords.as_ptr(), coords.len(),
                $($number,)*
                ao.0, ao.1, ac.0, ac.1, ax.0, ax.1,
                bo.0, bo.1, bc.0, bc.1, bx.0, bx.1,
                zo.0, zo.1, zc.0, zc.1, zx.0, zx.1
            )
        })
    }};
}

/// A lent slice as the library takes it.
fn pointed<T>(lent: &mut [T]) -> (*mut T, usize) {
    let length = lent.len();
    (lent.as_mut_ptr(), length)
}

fn answered(answer: sys::Answer) -> Result<Counts, Refusal> {
    let sys::Answer { number, place, step, v, e, f } = answer;
    match number {
        0 => Ok(Counts { positions: v, edges: e, faces: f }),
        _ => Err(Refusal { number, place, step }),
    }
}

fn filed(filing: sys::Filing) -> Result<Filed, Refusal> {
    let sys::Filing { number, place, steps, positions, faces, corners } = filing;
    match number {
        0 => Ok(Filed { steps, positions, faces, corners }),
        _ => Err(Refusal { number, place, step: 0 }),
    }
}

/// The value that stands for an absent number: it is not looked at.
fn value(number: Option<f32>) -> f32 {
    number.unwrap_or(0.0)
}

/// Numbers 1, 2, 4 to 9 of the table.
///
/// ```
/// # use crossglimmer::{slices, Mesh};
/// let mut mesh = Mesh::tetrahedron();
/// assert!(slices::check(mesh.read()).is_ok());
/// mesh.corners[7] = 4;
/// let refusal = slices::check(mesh.read()).unwrap_err();
/// assert_eq!((refusal.number, refusal.place), (6, 7));
/// ```
pub fn check(mesh: Read) -> Result<(), Refusal> {
    call!(cg_check, mesh, []).map(|_| ())
}

/// Numbers 1, 2, 4 to 11: what ambo and dual ask of a mesh.
///
/// ```
/// # use crossglimmer::{slices, Mesh};
/// assert!(slices::check_full(Mesh::tetrahedron().read()).is_ok());
/// let spare = Mesh::new(&[[0, 1, 2], [0, 2, 1]], &[[1.0, 0.0, 0.0], [0.0, 1.0, 0.0], [0.0, 0.0, 1.0]]);
/// assert_eq!(slices::check_full(spare.read()).unwrap_err().to_string(), "10 at 0: vertex 0 is in fewer than three faces");
/// ```
pub fn check_full(mesh: Read) -> Result<(), Refusal> {
    call!(cg_check_full, mesh, []).map(|_| ())
}

/// Writes the edges, the smaller number first; hands back how many there are.
///
/// ```
/// # use crossglimmer::{slices, Mesh};
/// let mut out = [[0; 2]; 6];
/// assert_eq!(slices::edges(Mesh::tetrahedron().read(), &mut out), Ok(6));
/// assert_eq!(out, [[0, 1], [1, 2], [0, 3], [0, 2], [2, 3], [1, 3]]);
/// ```
pub fn edges(mesh: Read, out: &mut [[u32; 2]]) -> Result<usize, Refusal> {
    call!(cg_edges, mesh, [out.as_mut_ptr(), out.len()]).map(|counts| counts.edges as usize)
}

/// Each face in the other order.
///
/// ```
/// # use crossglimmer::{slices, Lent, Mesh};
/// let (mut offsets, mut corners, mut coords) = ([0; 17], [0; 84], [0.0; 84]);
/// let out = Lent { offsets: &mut offsets, corners: &mut corners, coords: &mut coords };
/// let counts = slices::reverse(Mesh::tetrahedron().read(), out)?;
/// assert_eq!((counts.positions, counts.edges, counts.faces), (4, 6, 4));
/// assert_eq!(offsets[counts.faces as usize], 12);
/// # Ok::<(), crossglimmer::Refusal>(())
/// ```
pub fn reverse(mesh: Read, out: Lent) -> Result<Counts, Refusal> {
    call!(cg_reverse, mesh, [], out)
}

/// Each face in the other order, and y of each position turned round.
///
/// ```
/// # use crossglimmer::{slices, Lent, Mesh};
/// let (mut offsets, mut corners, mut coords) = ([0; 17], [0; 84], [0.0; 84]);
/// let out = Lent { offsets: &mut offsets, corners: &mut corners, coords: &mut coords };
/// let counts = slices::reflect(Mesh::tetrahedron().read(), out)?;
/// assert_eq!((counts.positions, counts.edges, counts.faces), (4, 6, 4));
/// assert_eq!(offsets[counts.faces as usize], 12);
/// # Ok::<(), crossglimmer::Refusal>(())
/// ```
pub fn reflect(mesh: Read, out: Lent) -> Result<Counts, Refusal> {
    call!(cg_reflect, mesh, [], out)
}

/// Triangles on the same positions: four corners by the shorter diagonal (`shorter`) or the longer, five in a fixed way, others a fan from their first corner.
///
/// ```
/// # use crossglimmer::{slices, Lent, Mesh};
/// let (mut offsets, mut corners, mut coords) = ([0; 17], [0; 84], [0.0; 84]);
/// let out = Lent { offsets: &mut offsets, corners: &mut corners, coords: &mut coords };
/// let counts = slices::triangulate(Mesh::tetrahedron().read(), true, out)?;
/// assert_eq!((counts.positions, counts.edges, counts.faces), (4, 6, 4));
/// assert_eq!(offsets[counts.faces as usize], 12);
/// # Ok::<(), crossglimmer::Refusal>(())
/// ```
pub fn triangulate(mesh: Read, shorter: bool, out: Lent) -> Result<Counts, Refusal> {
    call!(cg_triangulate, mesh, [shorter], out)
}

/// A vertex an edge, at `ratio` of its first end (absent: 1/2); a face a face, then a face a vertex.
///
/// ```
/// # use crossglimmer::{slices, Lent, Mesh};
/// let (mut offsets, mut corners, mut coords) = ([0; 17], [0; 84], [0.0; 84]);
/// let out = Lent { offsets: &mut offsets, corners: &mut corners, coords: &mut coords };
/// let counts = slices::ambo(Mesh::tetrahedron().read(), None, out)?;
/// assert_eq!((counts.positions, counts.edges, counts.faces), (6, 12, 8));
/// assert_eq!(offsets[counts.faces as usize], 24);
/// # Ok::<(), crossglimmer::Refusal>(())
/// ```
pub fn ambo(mesh: Read, ratio: Option<f32>, out: Lent) -> Result<Counts, Refusal> {
    call!(cg_ambo, mesh, [ratio.is_some(), value(ratio)], out)
}

/// A vertex a face, at its centroid; a face a vertex.
///
/// ```
/// # use crossglimmer::{slices, Lent, Mesh};
/// let (mut offsets, mut corners, mut coords) = ([0; 17], [0; 84], [0.0; 84]);
/// let out = Lent { offsets: &mut offsets, corners: &mut corners, coords: &mut coords };
/// let counts = slices::dual(Mesh::tetrahedron().read(), out)?;
/// assert_eq!((counts.positions, counts.edges, counts.faces), (4, 6, 4));
/// assert_eq!(offsets[counts.faces as usize], 12);
/// # Ok::<(), crossglimmer::Refusal>(())
/// ```
pub fn dual(mesh: Read, out: Lent) -> Result<Counts, Refusal> {
    call!(cg_dual, mesh, [], out)
}

/// An apex over each picked face, at `height` along its normal (absent: 0), and triangles to it.
///
/// ```
/// # use crossglimmer::{slices, Lent, Mesh, Masks};
/// let (mut offsets, mut corners, mut coords) = ([0; 17], [0; 84], [0.0; 84]);
/// let out = Lent { offsets: &mut offsets, corners: &mut corners, coords: &mut coords };
/// let counts = slices::kis(Mesh::tetrahedron().read(), Some(0.5), Masks::default(), out)?;
/// assert_eq!((counts.positions, counts.edges, counts.faces), (8, 18, 12));
/// assert_eq!(offsets[counts.faces as usize], 36);
/// # Ok::<(), crossglimmer::Refusal>(())
/// ```
pub fn kis(mesh: Read, height: Option<f32>, masks: Masks, out: Lent) -> Result<Counts, Refusal> {
    let (arities, numbers) = (masks.arities.unwrap_or(&[]), masks.numbers.unwrap_or(&[]));
    call!(
        cg_kis,
        mesh,
        [
            height.is_some(),
            value(height),
            masks.arities.is_some(),
            arities.as_ptr(),
            arities.len(),
            masks.numbers.is_some(),
            numbers.as_ptr(),
            numbers.len(),
            masks.regular
        ],
        out
    )
}

/// A vertex a corner, `ratio` of the way to the centroid (absent: 1/2); inner faces, then a hexagon an edge.
///
/// ```
/// # use crossglimmer::{slices, Lent, Mesh};
/// let (mut offsets, mut corners, mut coords) = ([0; 17], [0; 84], [0.0; 84]);
/// let out = Lent { offsets: &mut offsets, corners: &mut corners, coords: &mut coords };
/// let counts = slices::chamfer(Mesh::tetrahedron().read(), Some(0.5), out)?;
/// assert_eq!((counts.positions, counts.edges, counts.faces), (16, 24, 10));
/// assert_eq!(offsets[counts.faces as usize], 48);
/// # Ok::<(), crossglimmer::Refusal>(())
/// ```
pub fn chamfer(mesh: Read, ratio: Option<f32>, out: Lent) -> Result<Counts, Refusal> {
    call!(cg_chamfer, mesh, [ratio.is_some(), value(ratio)], out)
}

/// A vertex a face, then two an edge (ratio absent: 1/3, height 0); a pentagon a corner.
///
/// ```
/// # use crossglimmer::{slices, Lent, Mesh};
/// let (mut offsets, mut corners, mut coords) = ([0; 17], [0; 84], [0.0; 84]);
/// let out = Lent { offsets: &mut offsets, corners: &mut corners, coords: &mut coords };
/// let counts = slices::gyro(Mesh::tetrahedron().read(), None, None, out)?;
/// assert_eq!((counts.positions, counts.edges, counts.faces), (20, 30, 12));
/// assert_eq!(offsets[counts.faces as usize], 60);
/// # Ok::<(), crossglimmer::Refusal>(())
/// ```
pub fn gyro(mesh: Read, ratio: Option<f32>, height: Option<f32>, out: Lent) -> Result<Counts, Refusal> {
    call!(cg_gyro, mesh, [ratio.is_some(), value(ratio), height.is_some(), value(height)], out)
}

/// Two vertices an edge (ratio absent: 1/3); inner faces, then a quadrilateral a corner.
///
/// ```
/// # use crossglimmer::{slices, Lent, Mesh};
/// let (mut offsets, mut corners, mut coords) = ([0; 17], [0; 84], [0.0; 84]);
/// let out = Lent { offsets: &mut offsets, corners: &mut corners, coords: &mut coords };
/// let counts = slices::propellor(Mesh::tetrahedron().read(), None, out)?;
/// assert_eq!((counts.positions, counts.edges, counts.faces), (16, 30, 16));
/// assert_eq!(offsets[counts.faces as usize], 60);
/// # Ok::<(), crossglimmer::Refusal>(())
/// ```
pub fn propellor(mesh: Read, ratio: Option<f32>, out: Lent) -> Result<Counts, Refusal> {
    call!(cg_propellor, mesh, [ratio.is_some(), value(ratio)], out)
}

/// A vertex a corner, then two an edge (ratio absent: 1/3, height 0); a hexagon a corner, then inner faces.
///
/// ```
/// # use crossglimmer::{slices, Lent, Mesh};
/// let (mut offsets, mut corners, mut coords) = ([0; 17], [0; 84], [0.0; 84]);
/// let out = Lent { offsets: &mut offsets, corners: &mut corners, coords: &mut coords };
/// let counts = slices::whirl(Mesh::tetrahedron().read(), None, Some(0.1), out)?;
/// assert_eq!((counts.positions, counts.edges, counts.faces), (28, 42, 16));
/// assert_eq!(offsets[counts.faces as usize], 84);
/// # Ok::<(), crossglimmer::Refusal>(())
/// ```
pub fn whirl(mesh: Read, ratio: Option<f32>, height: Option<f32>, out: Lent) -> Result<Counts, Refusal> {
    call!(cg_whirl, mesh, [ratio.is_some(), value(ratio), height.is_some(), value(height)], out)
}

/// A vertex an edge, at `height` times the sum of its ends (absent: 0.5), then one a corner; inner faces, then a pentagon a corner.
///
/// ```
/// # use crossglimmer::{slices, Lent, Mesh};
/// let (mut offsets, mut corners, mut coords) = ([0; 17], [0; 84], [0.0; 84]);
/// let out = Lent { offsets: &mut offsets, corners: &mut corners, coords: &mut coords };
/// let counts = slices::quinto(Mesh::tetrahedron().read(), None, out)?;
/// assert_eq!((counts.positions, counts.edges, counts.faces), (22, 36, 16));
/// assert_eq!(offsets[counts.faces as usize], 72);
/// # Ok::<(), crossglimmer::Refusal>(())
/// ```
pub fn quinto(mesh: Read, height: Option<f32>, out: Lent) -> Result<Counts, Refusal> {
    call!(cg_quinto, mesh, [height.is_some(), value(height)], out)
}

/// A list of operators. The ratio goes to each ambo and to gyro, the height to kis and gyro, the masks to kis; what the
/// list's operators do not take is not looked at.
///
/// ```
/// # use crossglimmer::{slices, Lent, List, ListMasks, Mesh, Work};
/// let (mut offsets, mut corners, mut coords) = ([[7; 17]; 3], [[7; 84]; 3], [[7.0; 84]; 3]);
/// let mut lent = offsets.iter_mut().zip(&mut corners).zip(&mut coords);
/// let mut lend = || lent.next().map(|((offsets, corners), coords)| Lent { offsets, corners, coords }).unwrap();
/// let work = Work { first: lend(), second: lend() };
/// let counts = slices::list(
///     List::Truncate,
///     Mesh::tetrahedron().read(),
///     None,
///     Some(0.5),
///     ListMasks::default(),
///     work,
///     lend(),
/// )?;
/// assert_eq!((counts.positions, counts.edges, counts.faces), (12, 18, 8));
/// assert_eq!(offsets[2][counts.faces as usize], 36);
/// assert_eq!((offsets[0], coords[1]), ([0; 17], [0.0; 84]));
/// # Ok::<(), crossglimmer::Refusal>(())
/// ```
pub fn list(
    list: List,
    mesh: Read,
    ratio: Option<f32>,
    height: Option<f32>,
    masks: ListMasks,
    work: Work,
    out: Lent,
) -> Result<Counts, Refusal> {
    let arities = masks.arities.unwrap_or(&[]);
    carry!(
        cg_list,
        [list.code()],
        mesh,
        [
            ratio.is_some(),
            value(ratio),
            height.is_some(),
            value(height),
            masks.arities.is_some(),
            arities.as_ptr(),
            arities.len(),
            masks.regular
        ],
        work,
        out
    )
}

/// Runs up to sixteen steps, each given as [`Step::words`](crate::Step::words). Each finished step writes four numbers
/// of the ledger: code, positions, edges, faces; on a refusal these stay, and the rest of the ledger is as it was.
///
/// ```
/// # use crossglimmer::{slices, Lent, Mesh, Step, Work};
/// let (mut offsets, mut corners, mut coords) = ([[7; 64]; 3], [[7; 256]; 3], [[7.0; 256]; 3]);
/// let mut lent = offsets.iter_mut().zip(&mut corners).zip(&mut coords);
/// let mut lend = || lent.next().map(|((offsets, corners), coords)| Lent { offsets, corners, coords }).unwrap();
/// let work = Work { first: lend(), second: lend() };
/// let steps = [Step::Gyro(None, None).words(), Step::Chamfer(None).words()];
/// let mut ledger = [7; 9];
/// let counts = slices::recipe(&steps, &mut ledger, Mesh::tetrahedron().read(), work, lend())?;
/// assert_eq!((counts.positions, counts.edges, counts.faces), (80, 120, 42));
/// assert_eq!(ledger, [4, 20, 30, 12, 2, 80, 120, 42, 7]);
/// # Ok::<(), crossglimmer::Refusal>(())
/// ```
pub fn recipe(steps: &[[u32; 4]], ledger: &mut [u32], mesh: Read, work: Work, out: Lent) -> Result<Counts, Refusal> {
    let (rows, numbers) = pointed(ledger);
    carry!(cg_recipe, [steps.as_ptr(), steps.len(), rows, numbers], mesh, [], work, out)
}

/// Reads a panel file and writes its mesh, which is not checked.
///
/// ```
/// # use crossglimmer::{slices, Lent, Mesh, Panel};
/// let file = Panel { steps: vec![], mesh: Mesh::tetrahedron() }.write()?;
/// let (mut offsets, mut corners, mut coords) = ([7; 6], [7; 13], [7.0; 13]);
/// let out = Lent { offsets: &mut offsets, corners: &mut corners, coords: &mut coords };
/// let filed = slices::panel_read(&file, out)?;
/// assert_eq!((filed.steps, filed.positions, filed.faces, filed.corners), (0, 4, 4, 12));
/// assert_eq!(offsets, [0, 3, 6, 9, 12, 7]);
/// # Ok::<(), crossglimmer::Refusal>(())
/// ```
pub fn panel_read(bytes: &[u8], out: Lent) -> Result<Filed, Refusal> {
    let [(o, no), (c, nc)] = [out.offsets, out.corners].map(pointed);
    let (x, nx) = pointed(out.coords);
    // SAFETY: as in `call`.
    filed(unsafe { sys::cg_panel_read(bytes.as_ptr(), bytes.len(), o, no, c, nc, x, nx) })
}

/// Reads a panel file and writes its steps, each as [`Step::words`](crate::Step::words).
///
/// ```
/// # use crossglimmer::{slices, Mesh, Panel, Step};
/// let file = Panel { steps: vec![Step::Dual], mesh: Mesh::tetrahedron() }.write()?;
/// let mut steps = [[7; 4]; 2];
/// assert_eq!(slices::panel_steps(&file, &mut steps)?.steps, 1);
/// assert_eq!(steps, [[3, 0, 0, 0], [7; 4]]);
/// # Ok::<(), crossglimmer::Refusal>(())
/// ```
pub fn panel_steps(bytes: &[u8], out: &mut [[u32; 4]]) -> Result<Filed, Refusal> {
    let (steps, length) = pointed(out);
    // SAFETY: as in `call`.
    filed(unsafe { sys::cg_panel_steps(bytes.as_ptr(), bytes.len(), steps, length) })
}

/// Writes steps and a mesh, of which only the shape is checked, as a panel file; hands back how many bytes it has.
/// Which NaN a NaN is, its payload and sign, is not kept: each is written as 0x7FC00000.
///
/// ```
/// # use crossglimmer::{slices, Mesh, Step};
/// let mut out = [7; 200];
/// let bytes = slices::panel_write(&[Step::Dual.words()], Mesh::tetrahedron().read(), &mut out)?;
/// assert_eq!(bytes, 140);
/// assert_eq!(out[..8], [1, 0, 0, 0, 3, 0, 0, 0]);
/// # Ok::<(), crossglimmer::Refusal>(())
/// ```
pub fn panel_write(steps: &[[u32; 4]], mesh: Read, out: &mut [u8]) -> Result<usize, Refusal> {
    let Read { offsets, corners, coords } = mesh;
    let (o, no, c, nc) = (offsets.as_ptr(), offsets.len(), corners.as_ptr(), corners.len());
    let (bytes, room) = pointed(out);
    // SAFETY: as in `call`.
    let writing = unsafe {
        sys::cg_panel_write(steps.as_ptr(), steps.len(), o, no, c, nc, coords.as_ptr(), coords.len(), bytes, room)
    };
    let sys::Writing { number, place, bytes } = writing;
    match number {
        0 => Ok(bytes as usize),
        _ => Err(Refusal { number, place, step: 0 }),
    }
}
