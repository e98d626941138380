//! One case of the programs `replay` and `rerun`, and its words (docs/REPLAY.md).
use crate::extra::{self, Extra};
use crate::mesh::Mesh;
use crate::operator::{Operator, Parameters};
use crate::recipe::{List, LISTS};

/// The program that has a function.
#[derive(Clone, Copy, Debug, PartialEq, Eq)]
pub enum Program {
    Replay,
    Rerun,
}

impl Program {
    pub const BOTH: [Program; 2] = [Program::Replay, Program::Rerun];

    pub fn name(self) -> String {
        format!("{self:?}").to_lowercase()
    }

    /// The codes that the program has, ascending.
    pub fn codes(self) -> Vec<u32> {
        let of = |code: &u32| Function::from_code(*code).map(Function::program) == Some(self);
        (0..=LAST_CODE).filter(of).collect()
    }
}

#[derive(Clone, Copy, Debug, PartialEq, Eq)]
pub enum Function {
    Operator(Operator),
    List(List),
    Recipe,
    File,
    Root,
    Centroid,
    Normal,
    Regular,
    CheckClosed,
    CheckFans,
    Edges,
}

const HELPERS: [(u32, Function, &str); 9] = [
    (20, Function::Root, "root"),
    (21, Function::Centroid, "centroid"),
    (22, Function::Normal, "normal"),
    (23, Function::Regular, "regular"),
    (24, Function::CheckClosed, "check of 1, 2, 4 to 9"),
    (25, Function::CheckFans, "check of 1, 2, 4 to 11"),
    (26, Function::Edges, "edge list"),
    (41, Function::Recipe, "recipe"),
    (LAST_CODE, Function::File, "file"),
];
const LAST_CODE: u32 = 42;

/// The code of the first list; the others follow in the order of `LISTS`.
const FIRST_LIST: u32 = 31;

fn list_codes() -> impl Iterator<Item = (u32, List)> {
    (FIRST_LIST..).zip(LISTS)
}

fn list_code(list: List) -> u32 {
    list_codes().find(|coded| coded.1 == list).expect("every list is listed").0
}

impl Function {
    pub fn code(self) -> u32 {
        match self {
            Function::Operator(operator) => operator.code(),
            Function::List(list) => list_code(list),
            helper => helper.listed().0,
        }
    }

    pub fn name(self) -> String {
        match self {
            Function::Operator(operator) => operator.name(),
            Function::List(list) => format!("{list:?}").to_lowercase(),
            helper => helper.listed().2.to_string(),
        }
    }

    fn listed(self) -> &'static (u32, Function, &'static str) {
        HELPERS.iter().find(|listed| listed.1 == self).expect("every helper is listed")
    }

    pub fn from_code(code: u32) -> Option<Function> {
        let helper = HELPERS.iter().find(|listed| listed.0 == code).map(|listed| listed.1);
        let list =
            || list_codes().find(|coded| coded.0 == code).map(|coded| Function::List(coded.1));
        helper.or_else(list).or_else(|| Operator::from_code(code).map(Function::Operator))
    }

    pub fn program(self) -> Program {
        if self.code() < FIRST_LIST {
            Program::Replay
        } else {
            Program::Rerun
        }
    }
}

/// The lengths of the lent slices.
#[derive(Clone, Copy, Debug, Default, PartialEq, Eq)]
pub struct Room {
    pub offsets: usize,
    pub corners: usize,
    pub coordinates: usize,
}

impl Room {
    /// The longest slices that a program lends.
    pub const MOST: Room = Room { offsets: 65_536, corners: 65_536, coordinates: 196_608 };

    pub fn at_most(self, most: Room) -> Room {
        Room {
            offsets: self.offsets.min(most.offsets),
            corners: self.corners.min(most.corners),
            coordinates: self.coordinates.min(most.coordinates),
        }
    }

    pub fn lengths(self) -> [usize; 3] {
        [self.offsets, self.corners, self.coordinates]
    }
}

#[derive(Clone, Debug)]
pub struct Case {
    pub function: Function,
    pub parameters: Parameters,
    pub mesh: Mesh,
    pub room: Room,
    pub fill: u32,
    pub extra: Extra,
}

const RATIO: u32 = 1;
const HEIGHT: u32 = 2;
const ARITIES: u32 = 4;
const FACES: u32 = 8;
const REGULAR: u32 = 16;
const LONGER: u32 = 32;

pub const HEADER: usize = 14;
pub const NUMBERS_AT_MOST: u32 = Room::MOST.offsets as u32;
pub const COORDINATES_AT_MOST: u32 = Room::MOST.coordinates as u32;

/// A header over a limit, a case cut short or an unknown code.
#[derive(Debug, PartialEq)]
pub struct BadCase;

impl Case {
    pub fn new(function: Function, mesh: Mesh) -> Case {
        Case {
            function,
            parameters: Parameters::default(),
            mesh,
            room: Room::default(),
            fill: 0,
            extra: Extra::default(),
        }
    }

    /// The code, the flags and the numbers.
    pub fn first_words(&self) -> [u32; 4] {
        let bits = |number: Option<f32>| number.map_or(0, f32::to_bits);
        let Parameters { ratio, height, .. } = self.parameters;
        [self.function.code(), self.flags(), bits(ratio), bits(height)]
    }

    pub fn words(&self) -> Vec<u32> {
        let list = |list: &Option<Vec<u32>>| list.clone().unwrap_or_default();
        let parameters = &self.parameters;
        let (arities, faces) = (list(&parameters.arities), list(&parameters.faces));
        let mut words = self.first_words().to_vec();
        words.extend([
            self.mesh.offsets.len() as u32,
            self.mesh.corners.len() as u32,
            self.mesh.coordinates.len() as u32,
            arities.len() as u32,
            faces.len() as u32,
            self.room.offsets as u32,
            self.room.corners as u32,
            self.room.coordinates as u32,
            self.fill,
            0,
        ]);
        let more = self.function.program() == Program::Rerun;
        if more {
            words.extend(self.extra.header());
        }
        words.extend(&self.mesh.offsets);
        words.extend(&self.mesh.corners);
        words.extend(self.mesh.coordinates.iter().map(|number| number.to_bits()));
        words.extend(arities);
        words.extend(faces);
        if more {
            words.extend(self.extra.body());
        }
        words
    }

    fn flags(&self) -> u32 {
        let parameters = &self.parameters;
        let given = [
            (RATIO, parameters.ratio.is_some()),
            (HEIGHT, parameters.height.is_some()),
            (ARITIES, parameters.arities.is_some()),
            (FACES, parameters.faces.is_some()),
            (REGULAR, parameters.regular),
            (LONGER, parameters.longer),
        ];
        given.iter().filter(|flag| flag.1).map(|flag| flag.0).sum()
    }

    /// Takes the next case off the front of `words`; `None` at their end.
    pub fn take(words: &mut &[u32]) -> Result<Option<Case>, BadCase> {
        if words.is_empty() {
            return Ok(None);
        }
        let header = take(words, HEADER)?;
        let function = Function::from_code(header[0]).ok_or(BadCase)?;
        if header_over_a_limit(header) {
            return Err(BadCase);
        }
        let (mut extra, steps, bytes) = match function.program() {
            Program::Replay => (Extra::default(), 0, 0),
            Program::Rerun => Extra::from_header(take(words, extra::WORDS)?)?,
        };
        let count = |index: usize| header[index] as usize;
        let number = |flag: u32, index: usize| {
            (header[1] & flag != 0).then(|| f32::from_bits(header[index]))
        };
        let mesh = Mesh {
            offsets: take(words, count(4))?.to_vec(),
            corners: take(words, count(5))?.to_vec(),
            coordinates: take(words, count(6))?.iter().map(|bits| f32::from_bits(*bits)).collect(),
        };
        let arities = take(words, count(7))?.to_vec();
        let faces = take(words, count(8))?.to_vec();
        extra.take_body(words, steps, bytes)?;
        let parameters = Parameters {
            ratio: number(RATIO, 2),
            height: number(HEIGHT, 3),
            arities: (header[1] & ARITIES != 0).then_some(arities),
            faces: (header[1] & FACES != 0).then_some(faces),
            regular: header[1] & REGULAR != 0,
            longer: header[1] & LONGER != 0,
        };
        let room = Room { offsets: count(9), corners: count(10), coordinates: count(11) };
        Ok(Some(Case { function, parameters, mesh, room, fill: header[12], extra }))
    }
}

/// The words of a header that count something, each with the most it may say.
pub const COUNTS: [(usize, u32); 8] = [
    (4, NUMBERS_AT_MOST),
    (5, NUMBERS_AT_MOST),
    (6, COORDINATES_AT_MOST),
    (7, NUMBERS_AT_MOST),
    (8, NUMBERS_AT_MOST),
    (9, NUMBERS_AT_MOST),
    (10, NUMBERS_AT_MOST),
    (11, COORDINATES_AT_MOST),
];

fn header_over_a_limit(header: &[u32]) -> bool {
    COUNTS.iter().any(|(index, most)| header[*index] > *most)
}

pub fn take<'a>(words: &mut &'a [u32], count: usize) -> Result<&'a [u32], BadCase> {
    if words.len() < count {
        return Err(BadCase);
    }
    let (taken, rest) = words.split_at(count);
    *words = rest;
    Ok(taken)
}

pub fn to_bytes(words: &[u32]) -> Vec<u8> {
    words.iter().flat_map(|word| word.to_le_bytes()).collect()
}

/// The whole words of a stream, and whether it is cut inside one.
pub fn to_words(bytes: &[u8]) -> (Vec<u32>, bool) {
    let chunks = bytes.chunks_exact(4);
    let cut_inside_a_word = !chunks.remainder().is_empty();
    let word = |chunk: &[u8]| u32::from_le_bytes(chunk.try_into().expect("four bytes"));
    (chunks.map(word).collect(), cut_inside_a_word)
}

/// The cases of a stream, and whether it ends in a bad one.
pub fn read_stream(bytes: &[u8]) -> (Vec<Case>, bool) {
    let (words, cut_inside_a_word) = to_words(bytes);
    let mut rest = words.as_slice();
    let mut cases = Vec::new();
    loop {
        match Case::take(&mut rest) {
            Ok(Some(case)) => cases.push(case),
            Ok(None) => return (cases, cut_inside_a_word),
            Err(BadCase) => return (cases, true),
        }
    }
}
