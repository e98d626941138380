//! The fixed list's cases of lists and recipes: some done, and some refusals at each step.
use crate::answer::{answer, Answer};
use crate::case::Case;
use crate::operator::{Operator, Parameters};
use crate::random::Random;
use crate::recipe::{List, Step, MOST_STEPS};
use crate::runs;
use crate::shapes;
use std::collections::HashMap;

const MOST_CORNERS: usize = 24;
const DONE_A_LIST: usize = 40;
const DONE_A_LENGTH: usize = 4;
/// Of refusals so many are looked through, and of each kind at each step so many kept.
const LOOKED_THROUGH: usize = 1500;
const KEPT_OF_A_KIND: usize = 2;

pub fn list_cases(list: List, random: &mut Random) -> Vec<(Case, Answer)> {
    let mut cases = some_done(DONE_A_LIST, || runs::list_likely_done(list, random, MOST_CORNERS));
    let refused = || runs::list_likely_refused(list, random, MOST_CORNERS);
    cases.extend(some_at_each_step(LOOKED_THROUGH, refused));
    cases
}

pub fn recipe_cases(random: &mut Random) -> Vec<(Case, Answer)> {
    let mut cases = Vec::new();
    for count in 0..=MOST_STEPS {
        let likely = || runs::recipe_likely_done(count, random, MOST_CORNERS);
        cases.extend(some_done(DONE_A_LENGTH, likely));
    }
    let refused = || runs::recipe_likely_refused(random, MOST_CORNERS);
    cases.extend(some_at_each_step(3 * LOOKED_THROUGH, refused));
    let over = over_a_limit(random);
    let over_answer = answer(&over);
    cases.push((over, over_answer));
    cases
}

/// The second step has a result over a limit.
fn over_a_limit(random: &mut Random) -> Case {
    let plain = |operator| Step { operator, parameters: Parameters::default() };
    let steps = [Operator::Reverse, Operator::Whirl].map(plain).to_vec();
    runs::recipe_case(steps, shapes::dense(97), random)
}

fn some_done(count: usize, mut make: impl FnMut() -> Case) -> Vec<(Case, Answer)> {
    let mut cases = Vec::new();
    while cases.len() < count {
        let case = make();
        let answer = answer(&case);
        if answer.is_done() {
            cases.push((case, answer));
        }
    }
    cases
}

fn some_at_each_step(looked: usize, mut make: impl FnMut() -> Case) -> Vec<(Case, Answer)> {
    let mut met: HashMap<[u32; 3], usize> = HashMap::new();
    let mut kept = Vec::new();
    for _ in 0..looked {
        let case = make();
        let answer = answer(&case);
        let count = met.entry(kind(&answer.line)).or_default();
        *count += 1;
        if !answer.is_done() && *count <= KEPT_OF_A_KIND {
            kept.push((case, answer));
        }
    }
    kept
}

/// Number, step and, where it is a name, place.
fn kind(line: &str) -> [u32; 3] {
    let mut fields = line.split(' ').map(|field| field.parse().expect("a number"));
    let [number, place, step] = [(); 3].map(|()| fields.next().expect("three numbers"));
    match number {
        1 | 2 | 3 | 12 | 13 => [number, step, place],
        _ => [number, step, 0],
    }
}
