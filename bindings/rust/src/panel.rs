//! The panel file: steps and a mesh in bytes.
use crate::{slices, Mesh, Refusal, Step};

/// How much a panel file holds.
#[derive(Clone, Copy, Debug, PartialEq, Eq, Hash)]
pub struct Filed {
    /// Its steps.
    pub steps: u32,
    /// The positions of its mesh.
    pub positions: u32,
    /// The faces.
    pub faces: u32,
    /// The corners.
    pub corners: u32,
}

/// What a file may hold: steps, positions, faces, corners; and the bytes of one that holds all that.
const STEPS: usize = 16;
const POSITIONS: usize = 400;
const FACES: usize = 400;
const CORNERS: usize = 1200;
const BYTES: usize = 12 + 16 * STEPS + 12 * POSITIONS + 4 * FACES + 4 * CORNERS;

/// What a panel file says: a recipe and the mesh that it is for.
#[derive(Clone, Debug, Default, PartialEq)]
pub struct Panel {
    /// At most 16.
    pub steps: Vec<Step>,
    /// At most 400 positions, 400 faces and 1,200 corners; it need not be a good one.
    pub mesh: Mesh,
}

impl Panel {
    /// Reads a file.
    ///
    /// ```
    /// # use crossglimmer::{Mesh, Panel, Step};
    /// let panel = Panel { steps: vec![Step::Kis(Some(0.5)), Step::Dual], mesh: Mesh::tetrahedron() };
    /// let mut file = panel.write()?;
    /// assert_eq!(Panel::read(&file), Ok(panel));
    ///
    /// file.push(0);
    /// assert_eq!(Panel::read(&file).unwrap_err().to_string(), "18 at 156: bytes are left over from byte 156 on");
    /// # Ok::<(), crossglimmer::Refusal>(())
    /// ```
    pub fn read(bytes: &[u8]) -> Result<Panel, Refusal> {
        let mut words = [[0; 4]; STEPS];
        slices::panel_steps(bytes, &mut words)?;
        let mut mesh = Mesh::room([FACES, CORNERS, POSITIONS]);
        let filed = slices::panel_read(bytes, mesh.lent())?;
        mesh.cut([filed.faces, filed.corners, filed.positions].map(|size| size as usize));
        let unknown = |at: usize| Refusal { number: 17, place: 4 + 16 * at as u32, step: 0 };
        let known = |(at, words): (usize, &[u32; 4])| Step::from_words(*words).ok_or_else(|| unknown(at));
        let steps = words.iter().enumerate().take(filed.steps as usize).map(known).collect::<Result<_, _>>()?;
        Ok(Panel { steps, mesh })
    }

    /// Writes it as a file. Which NaN a NaN is, its payload and sign, is not kept: each is written as 0x7FC00000.
    ///
    /// ```
    /// # use crossglimmer::{Mesh, Panel, Step};
    /// let mut panel = Panel { steps: vec![Step::Reflect; 16], mesh: Mesh::tetrahedron() };
    /// assert_eq!(panel.write()?.len(), 380);
    ///
    /// panel.steps.push(Step::Dual);
    /// assert_eq!(panel.write().unwrap_err().to_string(), "2 at 3: recipe has over 16 steps");
    /// # Ok::<(), crossglimmer::Refusal>(())
    /// ```
    pub fn write(&self) -> Result<Vec<u8>, Refusal> {
        let words: Vec<[u32; 4]> = self.steps.iter().map(|step| step.words()).collect();
        let mut file = vec![0; BYTES];
        let length = slices::panel_write(&words, self.mesh.read(), &mut file)?;
        file.truncate(length);
        Ok(file)
    }
}
