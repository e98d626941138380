//! What a case of `rerun` has beside a case of `replay`: its words, its steps and its file.
use crate::case::{take, BadCase, Room, COORDINATES_AT_MOST, HEADER, NUMBERS_AT_MOST};
use crate::operator::{Operator, Parameters};
use crate::recipe::Step;

/// The words after the header of `replay`.
pub const WORDS: usize = 10;
const STEPS_AT_MOST: u32 = 32;
const ROWS_AT_MOST: u32 = 64;
const BYTES_AT_MOST: u32 = 16_384;

/// The words that count something, each with the most it may say.
pub const COUNTS: [(usize, u32); 9] = [
    (14, NUMBERS_AT_MOST),
    (15, NUMBERS_AT_MOST),
    (16, COORDINATES_AT_MOST),
    (17, NUMBERS_AT_MOST),
    (18, NUMBERS_AT_MOST),
    (19, COORDINATES_AT_MOST),
    (20, ROWS_AT_MOST),
    (21, STEPS_AT_MOST),
    (22, BYTES_AT_MOST),
];

const RATIO: u32 = 1;
const HEIGHT: u32 = 2;

#[derive(Clone, Debug, Default)]
pub struct Extra {
    pub work: [Room; 2],
    /// How many rows the lent ledger has.
    pub ledger: usize,
    pub steps: Vec<Step>,
    pub file: Vec<u8>,
}

impl Extra {
    /// The words that follow the header.
    pub fn header(&self) -> Vec<u32> {
        let rooms = self.work.iter().flat_map(|room| room.lengths());
        let counts = [self.ledger, self.steps.len(), self.file.len(), 0];
        rooms.chain(counts).map(|length| length as u32).collect()
    }

    /// The words that follow the lists.
    pub fn body(&self) -> Vec<u32> {
        let steps = self.steps.iter().flat_map(step_words);
        let word = |bytes: &[u8]| {
            u32::from_le_bytes(std::array::from_fn(|index| {
                bytes.get(index).map_or(0, |byte| *byte)
            }))
        };
        steps.chain(self.file.chunks(4).map(word)).collect()
    }

    /// What the words after the header say; the steps and the file are still to be read.
    pub fn from_header(words: &[u32]) -> Result<(Extra, usize, usize), BadCase> {
        if COUNTS.iter().any(|(index, most)| words[index - HEADER] > *most) {
            return Err(BadCase);
        }
        let count = |index: usize| words[index] as usize;
        let room = |start: usize| Room {
            offsets: count(start),
            corners: count(start + 1),
            coordinates: count(start + 2),
        };
        let work = [room(0), room(3)];
        Ok((Extra { work, ledger: count(6), ..Extra::default() }, count(7), count(8)))
    }

    /// Takes the steps and the file off the front of `words`.
    pub fn take_body(
        &mut self,
        words: &mut &[u32],
        steps: usize,
        bytes: usize,
    ) -> Result<(), BadCase> {
        let steps = take(words, 4 * steps)?.chunks(4).map(step_of);
        self.steps = steps.collect::<Option<_>>().ok_or(BadCase)?;
        let file = take(words, (bytes + 3) / 4)?;
        self.file = file.iter().flat_map(|word| word.to_le_bytes()).take(bytes).collect();
        Ok(())
    }
}

/// Code, flags, ratio and height.
pub fn step_words(step: &Step) -> [u32; 4] {
    let Parameters { ratio, height, .. } = step.parameters;
    let bits = |number: Option<f32>| number.map_or(0, f32::to_bits);
    let flag = |flag: u32, number: Option<f32>| if number.is_some() { flag } else { 0 };
    let flags = flag(RATIO, ratio) + flag(HEIGHT, height);
    [step.operator.code(), flags, bits(ratio), bits(height)]
}

fn step_of(words: &[u32]) -> Option<Step> {
    let number = |flag: u32, bits: u32| (words[1] & flag != 0).then(|| f32::from_bits(bits));
    let parameters = Parameters {
        ratio: number(RATIO, words[2]),
        height: number(HEIGHT, words[3]),
        ..Parameters::default()
    };
    Some(Step { operator: Operator::from_code(words[0])?, parameters })
}
