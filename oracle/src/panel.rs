//! The panel file and the program `report`, read a second time from document 01.
use crate::case::to_bytes;
use crate::extra::step_words;
use crate::mesh::{Face, Mesh, Point};
use crate::meshes::AMPLE;
use crate::operator::{Operator, Parameters};
use crate::recipe::{self, Lent, RefusedAt, Row, Step, MOST_STEPS};
use crate::table::Refusal;

pub const MOST_POSITIONS: usize = 400;
pub const MOST_FACES: usize = 400;
pub const MOST_CORNERS: usize = 1200;

const RATIO_PRESENT: u32 = 1;
const HEIGHT_PRESENT: u32 = 2;

#[derive(Debug, Default, PartialEq)]
pub struct Panel {
    pub steps: Vec<Step>,
    pub mesh: Mesh,
}

/// Numbers 15 to 18; the place is a byte offset.
fn refused<T>(number: u32, at: usize) -> Result<T, Refusal> {
    Err(Refusal { number, place: at as u32 })
}

/// Reads a file item by item.
struct Reader<'a> {
    bytes: &'a [u8],
    at: usize,
}

impl Reader<'_> {
    /// The words of the next item.
    fn item<const N: usize>(&mut self) -> Result<[u32; N], Refusal> {
        let end = self.at + 4 * N;
        let bytes = self.bytes.get(self.at..end).map_or_else(|| refused(15, self.at), Ok)?;
        self.at = end;
        Ok(std::array::from_fn(|word| {
            u32::from_le_bytes(std::array::from_fn(|byte| bytes[4 * word + byte]))
        }))
    }

    /// A count or an arity, which may not pass what is left for it.
    fn count(&mut self, most: usize) -> Result<usize, Refusal> {
        let start = self.at;
        let [count] = self.item()?;
        if count as usize > most {
            return refused(16, start);
        }
        Ok(count as usize)
    }

    fn step(&mut self) -> Result<Step, Refusal> {
        let start = self.at;
        let words = self.item()?;
        step_of(words).map_or_else(|| refused(17, start), Ok)
    }

    fn position(&mut self) -> Result<Point, Refusal> {
        Ok(self.item()?.map(f32::from_bits))
    }

    fn face(&mut self, corners_left: usize) -> Result<Face, Refusal> {
        let arity = self.count(corners_left)?;
        (0..arity).map(|_| self.item().map(|[corner]| corner)).collect()
    }
}

/// The step, unless its code is unknown, a flag forbidden or an absent number not zero.
pub fn step_of([code, flags, ratio, height]: [u32; 4]) -> Option<Step> {
    let operator = Operator::from_code(code)?;
    let mut allowed = 0;
    if operator.takes_ratio() {
        allowed |= RATIO_PRESENT;
    }
    if operator.takes_height() {
        allowed |= HEIGHT_PRESENT;
    }
    if flags & !allowed != 0 {
        return None;
    }
    let number = |present: u32, bits: u32| match (flags & present != 0, bits) {
        (true, bits) => Some(Some(f32::from_bits(bits))),
        (false, 0) => Some(None),
        (false, _) => None,
    };
    let parameters = Parameters {
        ratio: number(RATIO_PRESENT, ratio)?,
        height: number(HEIGHT_PRESENT, height)?,
        ..Parameters::default()
    };
    Some(Step { operator, parameters })
}

pub fn read(bytes: &[u8]) -> Result<Panel, Refusal> {
    let mut reader = Reader { bytes, at: 0 };
    let steps = reader.count(MOST_STEPS)?;
    let steps = (0..steps).map(|_| reader.step()).collect::<Result<Vec<_>, _>>()?;
    let positions = reader.count(MOST_POSITIONS)?;
    let points = (0..positions).map(|_| reader.position()).collect::<Result<Vec<_>, _>>()?;
    let count = reader.count(MOST_FACES)?;
    let mut faces: Vec<Face> = Vec::new();
    let mut corners_left = MOST_CORNERS;
    for _ in 0..count {
        let face = reader.face(corners_left)?;
        corners_left -= face.len();
        faces.push(face);
    }
    if reader.at < bytes.len() {
        return refused(18, reader.at);
    }
    Ok(Panel { steps, mesh: Mesh::new(&faces, &points) })
}

/// The file of the steps and the mesh: each part after its count.
pub fn write(steps: &[Step], mesh: &Mesh) -> Vec<u8> {
    let mut words = vec![steps.len() as u32];
    words.extend(steps.iter().flat_map(step_words));
    words.push(mesh.position_count() as u32);
    words.extend(mesh.coordinates.iter().map(|number| number.to_bits()));
    words.push(mesh.face_count() as u32);
    for run in mesh.runs() {
        words.push(run.len() as u32);
        words.extend(run);
    }
    to_bytes(&words)
}

/// What `report` prints for a file.
pub fn report(bytes: &[u8]) -> String {
    let panel = match read(bytes) {
        Ok(panel) => panel,
        Err(Refusal { number, place }) => return format!("file {number} {place}\n"),
    };
    let lent = Lent { work: [AMPLE; 2], output: AMPLE };
    let ran = recipe::run_recipe(&panel.steps, &panel.mesh, lent, MOST_STEPS);
    let mut text: String =
        ran.rows.iter().zip(1..).map(|(row, step)| row_line(step, row)).collect();
    if let Err(RefusedAt { step, refusal: Refusal { number, place } }) = ran.outcome {
        text += &format!("{step} refused {number} {place}\n");
    }
    text
}

fn row_line(step: usize, row: &Row) -> String {
    let [code, positions, edges, faces] = row.map(i64::from);
    let characteristic = positions - edges + faces;
    let handles = (2 - characteristic) / 2;
    format!("{step} {code} {positions} {edges} {faces} {characteristic} {handles}\n")
}
