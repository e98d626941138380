//! Random calls of everything that the library exports, over small meshes.
use crate::calls;
use crate::case::{to_bytes, Case, Function, Room};
use crate::damage;
use crate::extra::{step_words, Extra};
use crate::made_files;
use crate::mesh::Mesh;
use crate::meshes;
use crate::operator::OPERATORS;
use crate::panel;
use crate::random::Random;
use crate::recipe::{Step, LISTS, MOST_STEPS};
use crate::runs;
use crate::table;

const MOST_CORNERS: usize = 60;
/// What lists and recipes start from: their steps make it larger.
const FEW_CORNERS: usize = 40;
/// Of so many calls of an operator or a list one is on a mesh over a limit, or has a result over one.
const LARGE_ONE_IN: usize = 5_000;

/// Which function of the library a case goes to: the one that it names, or one of the two for a file that no case
/// names.
#[derive(Clone, Copy, Debug, PartialEq, Eq, PartialOrd, Ord)]
pub enum Entry {
    Named,
    /// The steps of the case's file, into as many steps as its ledger has rows.
    FileSteps,
    /// A file of the case's steps and mesh, into as many bytes as its room has offsets.
    FileWrite,
}

#[derive(Clone, Debug)]
pub struct Call {
    pub entry: Entry,
    pub case: Case,
}

type Maker = Box<dyn Fn(bool, &mut Random) -> Case>;

/// The functions in turn; half of the calls are likely done.
pub fn call(random: &mut Random, index: u64) -> Call {
    let mut makers: Vec<Maker> = vec![
        Box::new(|good, random| Case::new(Function::CheckClosed, checked(good, random))),
        Box::new(|good, random| Case::new(Function::CheckFans, checked(good, random))),
        Box::new(edges),
        Box::new(recipe),
        Box::new(file),
    ];
    for operator in OPERATORS {
        makers.push(Box::new(move |good, random| match good {
            _ if random.once_in(LARGE_ONE_IN) => calls::over_limits(operator, random),
            true => calls::likely_done(operator, random, MOST_CORNERS),
            false => calls::likely_refused(operator, random, MOST_CORNERS),
        }));
    }
    for list in LISTS {
        makers.push(Box::new(move |good, random| match good {
            _ if random.once_in(LARGE_ONE_IN) => {
                Case::new(Function::List(list), damage::over_limits(random))
            }
            true => runs::list_likely_done(list, random, FEW_CORNERS),
            false => runs::list_likely_refused(list, random, FEW_CORNERS),
        }));
    }
    let good = random.once_in(2);
    let turn = (index % (makers.len() as u64 + 2)) as usize;
    match turn.checked_sub(makers.len()) {
        None => Call { entry: Entry::Named, case: makers[turn](good, random) },
        Some(0) => Call { entry: Entry::FileSteps, case: file_steps(good, random) },
        Some(_) => Call { entry: Entry::FileWrite, case: file_write(good, random) },
    }
}

fn checked(good: bool, random: &mut Random) -> Mesh {
    match good {
        true => meshes::fanned(random, MOST_CORNERS),
        false => damage::some_fault(random, MOST_CORNERS),
    }
}

fn edges(good: bool, random: &mut Random) -> Case {
    let mesh = match good {
        true => meshes::closed(random, MOST_CORNERS),
        false => damage::some_fault(random, MOST_CORNERS),
    };
    let exact =
        if table::check_closed(&mesh).is_ok() { mesh.corners.len() / 2 } else { random.below(9) };
    let room = Room { offsets: about(exact, good, random), ..Room::default() };
    Case { room, fill: calls::fill(random), ..Case::new(Function::Edges, mesh) }
}

/// Exact or larger; short only for a call that need not be done.
fn about(exact: usize, good: bool, random: &mut Random) -> usize {
    match random.below(4) {
        0 if !good => exact.saturating_sub(random.between(1, 3)),
        1 => exact + random.between(1, 5),
        _ => exact,
    }
}

fn recipe(good: bool, random: &mut Random) -> Case {
    let count = random.between(0, MOST_STEPS);
    match good {
        true => runs::recipe_likely_done(count, random, FEW_CORNERS),
        false if random.once_in(6) => {
            let case = runs::recipe_likely_done(count, random, FEW_CORNERS);
            with_strange_words(case, random)
        }
        false => runs::recipe_likely_refused(random, FEW_CORNERS),
    }
}

/// The steps as words in place of steps, one word another one, so that some step may be none.
fn with_strange_words(mut case: Case, random: &mut Random) -> Case {
    let mut words: Vec<u32> = case.extra.steps.iter().flat_map(step_words).collect();
    if !words.is_empty() {
        let at = random.below(words.len());
        words[at] = random.pick(&[0, 1, 2, 3, 4, 8, 11, 12, 0x3F00_0000, u32::MAX]);
    }
    case.extra.file = to_bytes(&words);
    case
}

fn file(good: bool, random: &mut Random) -> Case {
    let bytes = match good {
        true => made_files::good(random),
        false => {
            let mut files = made_files::some(random);
            files.swap_remove(random.below(files.len()))
        }
    };
    made_files::case(bytes, random)
}

fn file_steps(good: bool, random: &mut Random) -> Case {
    let mut case = file(good, random);
    let steps = panel::read(&case.extra.file).map_or(2, |panel| panel.steps.len());
    case.extra.ledger = about(steps, good, random);
    case
}

fn file_write(good: bool, random: &mut Random) -> Case {
    let count = random.pick(&[0, 1, 2, 3, MOST_STEPS]);
    let steps: Vec<Step> = (0..count).map(|_| made_files::step(random)).collect();
    let mesh = match random.below(6) {
        0 => made_files::any_faces(random),
        1 => Mesh::new(&[], &[]),
        _ => meshes::closed(random, MOST_CORNERS),
    };
    let room =
        Room { offsets: about(panel::write(&steps, &mesh).len(), good, random), ..Room::default() };
    let extra = Extra { steps, ..Extra::default() };
    let case = Case { room, extra, fill: calls::fill(random), ..Case::new(Function::File, mesh) };
    if good {
        case
    } else {
        badly_written(case, random)
    }
}

/// A file over a limit, of a mesh of another shape or of steps that are none; or one that the room may be short for.
fn badly_written(mut case: Case, random: &mut Random) -> Case {
    match random.below(5) {
        0 => case.mesh = damage::damaged(random, MOST_CORNERS),
        1 => return with_strange_words(case, random),
        2 => case.extra.steps.resize_with(random.between(17, 19), || made_files::step(random)),
        3 => case = over_a_limit_of_files(case, random),
        _ => {}
    }
    case
}

/// As many faces, corners and positions as a file may have, or one more of them.
fn over_a_limit_of_files(mut case: Case, random: &mut Random) -> Case {
    let more = |random: &mut Random| usize::from(random.once_in(2));
    let mut faces = vec![vec![0, 1, 2]; 400 + more(random)];
    faces[random.below(400)].extend((0..more(random)).map(|_| 3));
    case.mesh = Mesh::new(&faces, &vec![[0.5, -0.0, 3.0]; 400 + more(random)]);
    case.room.offsets = about(panel::write(&case.extra.steps, &case.mesh).len(), false, random);
    case
}
