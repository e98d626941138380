//! A refusal: its number, its place, and what they mean in words.
use std::error::Error;
use std::fmt;

/// Why a call was refused. No element of a result was written.
///
/// It prints in words, also by `Debug`: a `main` that answers `Result<(), Refusal>` ends with them.
///
/// ```
/// use crossglimmer::Refusal;
/// let refusal = Refusal { number: 9, place: 17, step: 0 };
/// assert_eq!(refusal.to_string(), "9 at 17: edge from corner 17 has no reverse");
/// let refusal = Refusal { number: 12, place: 1, step: 3 };
/// assert_eq!(format!("{refusal:?}"), "12 at 1 in step 3: result has over 60000 corners");
/// ```
///
/// # The table of numbers
///
/// | number | when | place |
/// |---|---|---|
/// | 1 | offsets or coordinates of wrong shape | 0 offsets, 1 coordinates |
/// | 2 | input over a limit | 0 faces, 1 corners, 2 positions, 3 steps |
/// | 3 | ratio or height not finite | 0 ratio, 1 height |
/// | 4 | coordinate not finite | its index in coords |
/// | 5 | face under three corners | the face |
/// | 6 | vertex number not below the positions | the corner |
/// | 7 | vertex twice in one face | the face |
/// | 8 | directed edge met before | the corner it starts at |
/// | 9 | directed edge without reverse | the corner it starts at |
/// | 10 | vertex in fewer than three faces | the vertex |
/// | 11 | faces round a vertex form more than one fan | the vertex |
/// | 12 | result over a limit | 0 faces, 1 corners, 2 positions |
/// | 13 | result does not fit the lent output | 0 offsets, edges or bytes, 1 corners, 2 coordinates, 3 ledger or steps |
/// | 14 | result coordinate not finite | its index in the result's coords |
/// | 15 | file ends before an item is whole | the byte that the item starts at |
/// | 16 | count of a file over its limit | the byte that the count starts at |
/// | 17 | unknown code, forbidden flag or non-zero absent number | the byte that the step starts at: 16 i for step i, from 0, of a run of steps; 0 for an unknown list |
/// | 18 | bytes left over | the first of them |
///
/// The limits are [`LIMIT`](crate::LIMIT) faces, corners and positions each, and 16 steps; the panel file has its own.
/// The first number that holds is answered, at its lowest place.
#[derive(Clone, Copy, PartialEq, Eq, Hash)]
pub struct Refusal {
    /// 1 to 18.
    pub number: u32,
    /// Where: an index, 0 for faces, 1 for corners and the like, or in a file and in steps a byte.
    pub place: u32,
    /// In a list or a recipe the step, from 1; else 0, and where they are refused before their first step.
    pub step: u32,
}

const SIZES: [&str; 4] = ["faces", "corners", "positions", "steps"];
const RUNS: [&str; 4] = ["offsets, edges or bytes", "corners", "coordinates", "ledger or steps"];

fn name(names: [&'static str; 4], place: u32) -> &'static str {
    names.get(place as usize).copied().unwrap_or("elements")
}

/// The table's words for numbers 1 to 18.
const WHEN: [&str; 18] = [
    "offsets or coordinates of wrong shape",
    "input over a limit",
    "ratio or height not finite",
    "coordinate not finite",
    "face under three corners",
    "vertex number not below the positions",
    "vertex twice in one face",
    "directed edge met before",
    "directed edge without reverse",
    "vertex in fewer than three faces",
    "faces round a vertex form more than one fan",
    "result over a limit",
    "result does not fit the lent output",
    "result coordinate not finite",
    "file ends before an item is whole",
    "count of a file over its limit",
    "unknown code, forbidden flag or non-zero absent number",
    "bytes left over",
];

impl Refusal {
    /// When the number is answered, in the words of the table.
    ///
    /// ```
    /// let refusal = crossglimmer::Refusal { number: 5, place: 2, step: 0 };
    /// assert_eq!(refusal.when(), "face under three corners");
    /// ```
    pub fn when(&self) -> &'static str {
        WHEN.get((self.number as usize).wrapping_sub(1)).copied().unwrap_or("not a number of the table")
    }

    /// What the number and the place mean.
    ///
    /// ```
    /// let refusal = crossglimmer::Refusal { number: 5, place: 2, step: 0 };
    /// assert_eq!(refusal.meaning(), "face 2 has under three corners");
    /// ```
    pub fn meaning(&self) -> String {
        let place = self.place;
        match self.number {
            1 => format!("{} of wrong shape", if place == 0 { "offsets" } else { "coordinates" }),
            2 if place == 3 => "recipe has over 16 steps".to_string(),
            2 => format!("mesh has too many {}", name(SIZES, place)),
            3 => format!("{} is not finite", if place == 0 { "ratio" } else { "height" }),
            4 => format!("coordinate {place} is not finite"),
            5 => format!("face {place} has under three corners"),
            6 => format!("corner {place} has a vertex number past the positions"),
            7 => format!("face {place} has a vertex twice"),
            8 => format!("edge from corner {place} was met before"),
            9 => format!("edge from corner {place} has no reverse"),
            10 => format!("vertex {place} is in fewer than three faces"),
            11 => format!("faces round vertex {place} form more than one fan"),
            12 => format!("result has over 60000 {}", name(SIZES, place)),
            13 => format!("result does not fit the lent {}", name(RUNS, place)),
            14 => format!("coordinate {place} of the result is not finite"),
            15 => format!("file ends before the item at byte {place} is whole"),
            16 => format!("count at byte {place} is over the program's"),
            17 => {
                format!("step at byte {place} has an unknown code, a forbidden flag or a number that should be absent")
            }
            18 => format!("bytes are left over from byte {place} on"),
            number => format!("number {number} is not in the table"),
        }
    }
}

impl fmt::Display for Refusal {
    fn fmt(&self, to: &mut fmt::Formatter) -> fmt::Result {
        write!(to, "{} at {}", self.number, self.place)?;
        if self.step > 0 {
            write!(to, " in step {}", self.step)?;
        }
        write!(to, ": {}", self.meaning())
    }
}

impl fmt::Debug for Refusal {
    fn fmt(&self, to: &mut fmt::Formatter) -> fmt::Result {
        fmt::Display::fmt(self, to)
    }
}

impl Error for Refusal {}
