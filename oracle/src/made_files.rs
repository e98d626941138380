//! Panel files, good and bad, as cases.
use crate::calls;
use crate::case::{Case, Function, Room};
use crate::coordinates;
use crate::extra::Extra;
use crate::mesh::Mesh;
use crate::meshes;
use crate::operator::{Parameters, OPERATORS};
use crate::panel;
use crate::random::Random;
use crate::recipe::{Step, MOST_STEPS};
use crate::table::Sizes;

const MOST_CORNERS: usize = 60;
/// Of so many files one has counts about the limits.
const LARGE: usize = 200;

/// The files of the gate's list.
pub fn fixed(random: &mut Random) -> Vec<Case> {
    let mut files = cuts(&small(random));
    for _ in 0..40 {
        files.push(good(random));
        files.push(damaged(good(random), random));
        files.push(random_bytes(random));
    }
    files.extend((0..6).map(|_| about_the_limits(random)));
    files.into_iter().map(|file| case(file, random)).collect()
}

/// One kind of files: a good one, damaged ones, one cut at every byte, random ones.
pub fn some(random: &mut Random) -> Vec<Vec<u8>> {
    match random.below(LARGE) {
        0 => vec![about_the_limits(random)],
        1 => cuts(&small(random)),
        kind if kind % 4 == 0 => vec![random_bytes(random)],
        kind if kind % 4 == 1 => vec![good(random)],
        _ => vec![damaged(good(random), random)],
    }
}

/// The file in a case, with room that is enough or short.
pub fn case(file: Vec<u8>, random: &mut Random) -> Case {
    let sizes = panel::read(&file).map(|panel| Sizes::of(&panel.mesh));
    let enough = match sizes {
        Ok(sizes) => calls::enough(sizes, random),
        Err(_) => Room { offsets: random.below(4), corners: 3, coordinates: 5 },
    };
    let room = if random.once_in(6) { calls::shortened(enough, random) } else { enough };
    let extra = Extra { file, ..Extra::default() };
    let function = Function::File;
    Case { room, fill: calls::fill(random), extra, ..Case::new(function, Mesh::default()) }
}

pub fn good(random: &mut Random) -> Vec<u8> {
    let count = random.pick(&[0, 1, 2, 3, MOST_STEPS]);
    let mesh = match random.below(5) {
        0 => any_faces(random),
        1 => Mesh::new(&[], &[]),
        _ => meshes::closed(random, MOST_CORNERS),
    };
    let steps: Vec<Step> = (0..count).map(|_| step(random)).collect();
    panel::write(&steps, &mesh)
}

fn small(random: &mut Random) -> Vec<u8> {
    let steps: Vec<Step> = (0..random.between(0, 3)).map(|_| step(random)).collect();
    panel::write(&steps, &meshes::closed(random, 24))
}

/// Any operator, its numbers finite or not.
pub fn step(random: &mut Random) -> Step {
    let operator = random.pick(&OPERATORS);
    let number = |taken: bool, random: &mut Random| match random.below(6) {
        _ if !taken => None,
        0 => Some(coordinates::not_finite(random)),
        _ => coordinates::parameter(random),
    };
    let parameters = Parameters {
        ratio: number(operator.takes_ratio(), random),
        height: number(operator.takes_height(), random),
        ..Parameters::default()
    };
    Step { operator, parameters }
}

/// Faces of any arity and any vertex numbers, coordinates of all kinds: no matter of the file.
pub fn any_faces(random: &mut Random) -> Mesh {
    let corner = |random: &mut Random| random.pick(&[0, 1, 2, 7, u32::MAX]);
    let face = |random: &mut Random| {
        let arity = random.below(7);
        (0..arity).map(|_| corner(random)).collect::<Vec<u32>>()
    };
    let faces: Vec<Vec<u32>> = (0..random.below(9)).map(|_| face(random)).collect();
    let point = |random: &mut Random| std::array::from_fn(|_| f32::from_bits(random.word()));
    Mesh::new(&faces, &(0..random.below(9)).map(|_| point(random)).collect::<Vec<_>>())
}

/// The file cut at every byte.
fn cuts(file: &[u8]) -> Vec<Vec<u8>> {
    (0..=file.len()).map(|length| file[..length].to_vec()).collect()
}

/// A file with one word, byte or end changed, or two.
pub fn damaged(mut file: Vec<u8>, random: &mut Random) -> Vec<u8> {
    for _ in 0..random.between(1, 2) {
        let at = random.below(file.len().max(1));
        match random.below(5) {
            0 => file.truncate(at),
            1 => file.extend((0..random.between(1, 9)).map(|byte| byte as u8)),
            2 if at < file.len() => file[at] = random.word() as u8,
            _ => change_word(&mut file, at / 4, random),
        }
    }
    file
}

/// A word of the file, the first ones more often than others, says something else.
fn change_word(file: &mut [u8], index: usize, random: &mut Random) {
    let index = if random.once_in(2) { random.below(10) } else { index };
    let words = [0, 1, 2, 3, 4, 11, 12, 16, 17, 400, 401, 1200, 1201, 0x8000_0000, u32::MAX];
    let word = random.pick(&words).to_le_bytes();
    if let Some(bytes) = file.get_mut(4 * index..4 * index + 4) {
        bytes.copy_from_slice(&word);
    }
}

fn random_bytes(random: &mut Random) -> Vec<u8> {
    let length = random.below(60);
    let byte = |any: u8, random: &mut Random| random.pick(&[0, 0, 0, 1, 3, any]);
    (0..length).map(|_| byte(random.word() as u8, random)).collect()
}

/// 400 positions or faces, 1,200 corners, 16 steps, or one more of them.
pub fn about_the_limits(random: &mut Random) -> Vec<u8> {
    let more = |random: &mut Random| usize::from(random.once_in(4));
    let steps: Vec<Step> = (0..MOST_STEPS + more(random)).map(|_| step(random)).collect();
    let points = vec![[1.0, -0.0, 2.5]; 400 + more(random)];
    let mut faces = vec![vec![0, 1, 2]; 400];
    match random.below(4) {
        0 => faces.push(Vec::new()),
        1 => faces[random.below(400)].push(3),
        2 => faces = vec![vec![7; 1200 + more(random)]],
        _ => {}
    }
    panel::write(&steps, &Mesh::new(&faces, &points))
}
