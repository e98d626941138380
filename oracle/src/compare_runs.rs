//! Lists and recipes at scale, against the Rust text and the second reading.
use crate::answer::{answer, Outcome};
use crate::case::{Case, Function, Program, COUNTS};
use crate::commands::{compare_bad_streams, demand, Done};
use crate::damage;
use crate::extra;
use crate::mesh::Mesh;
use crate::meshes::AMPLE;
use crate::random::Random;
use crate::recipe::{self, Lent, List, LISTS, MOST_STEPS};
use crate::replay::Comparison;
use crate::runs;
use crate::rust_side;
use crate::shapes;

const MOST_CORNERS: usize = 40;

/// So many lists, a half of them likely done. The text's own list is held against those that are.
pub fn lists(count: usize) -> Done {
    let mut random = Random::new(6);
    let mut comparison = Comparison::new(Program::Rerun)?;
    let mut by_text = 0;
    for case in over_a_limit_between_steps() {
        comparison.add(case)?;
    }
    for list in LISTS {
        let mesh = damage::over_limits(&mut random);
        comparison.add(Case::new(Function::List(list), mesh))?;
    }
    for (list, index) in LISTS.iter().cycle().zip(0..count) {
        let case = if index / LISTS.len() % 2 == 0 {
            runs::list_likely_done(*list, &mut random, MOST_CORNERS)
        } else {
            runs::list_likely_refused(*list, &mut random, MOST_CORNERS)
        };
        let answer = answer(&case);
        if answer.outcome == Outcome::Done {
            same_as_the_text(*list, &case)?;
            by_text += 1;
        }
        comparison.add_answered(case, answer)?;
    }
    println!("{by_text} lists as the text has them\n{}", comparison.finish()?);
    demand(&comparison.tally, 1..=14, 1)
}

/// The text's own list and the list's steps make the same mesh.
fn same_as_the_text(list: List, case: &Case) -> Done {
    let lent = Lent { work: [AMPLE; 2], output: AMPLE };
    let ran = recipe::run_steps(&list.steps(&case.parameters), &case.mesh, lent);
    let bits = |mesh: &Mesh| mesh.coordinates.iter().map(|x| x.to_bits()).collect::<Vec<_>>();
    let ours = ran.outcome.unwrap_or_default();
    let text = rust_side::apply_list(list, &case.parameters, &case.mesh);
    if (&ours.offsets, &ours.corners, bits(&ours)) == (&text.offsets, &text.corners, bits(&text)) {
        Ok(())
    } else {
        Err(format!("{list:?}: the text makes another mesh than the steps of {case:?}").into())
    }
}

/// The second ambo of an expand has a result over a limit.
fn over_a_limit_between_steps() -> Vec<Case> {
    let meshes = [shapes::torus(62, 65), shapes::union(&shapes::torus(61, 62), &shapes::cube())];
    let case = |mesh| {
        let mut case = Case::new(Function::List(List::Expand), mesh);
        case.extra.work = [AMPLE; 2];
        case
    };
    meshes.map(case).to_vec()
}

/// So many recipes, a half of them likely done.
pub fn recipes(count: usize) -> Done {
    let mut random = Random::new(7);
    let mut comparison = Comparison::new(Program::Rerun)?;
    for index in 0..count {
        let case = if index % 2 == 0 {
            let length = random.between(0, MOST_STEPS);
            runs::recipe_likely_done(length, &mut random, MOST_CORNERS)
        } else {
            runs::recipe_likely_refused(&mut random, MOST_CORNERS)
        };
        comparison.add(case)?;
    }
    println!("{}", comparison.finish()?);
    let mut good = runs::recipe_likely_done(2, &mut random, 12);
    good.extra.file = vec![1, 2, 3, 4, 5];
    let counts = [&COUNTS[..], &extra::COUNTS].concat();
    compare_bad_streams(&comparison, good, &[0, 11, 26, 30, 43, u32::MAX], &counts)?;
    demand(&comparison.tally, (1..=14).filter(|number| *number != 12), 1)
}
