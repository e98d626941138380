//! Chains of the six closed operators: every step is answered as document 01's third demand says.
use crate::answer;
use crate::calls;
use crate::case::{Case, Function, Program, Room};
use crate::commands::{demand, Done};
use crate::genus::{self, Build};
use crate::mesh::{Mesh, LIMIT};
use crate::meshes;
use crate::operator::{Operator, Parameters};
use crate::random::Random;
use crate::recipe::RefusedAt;
use crate::replay::Comparison;
use crate::shapes;
use crate::table::{self, Refusal};
use std::collections::BTreeMap;

const OPERATORS: [Operator; 6] = [
    Operator::Chamfer,
    Operator::Gyro,
    Operator::Propellor,
    Operator::Whirl,
    Operator::Quinto,
    Operator::Kis,
];
/// What a closed mesh may be refused with.
const ALLOWED: [u32; 4] = [3, 12, 13, 14];
const MOST_STEPS: usize = 8;
const MOST_CORNERS: usize = 60;
/// A chain takes no step whose result has more corners, but for one over a limit of a mesh.
const ENOUGH_CORNERS: usize = 3_000;
/// Of so many chains one starts large.
const LARGE: usize = 100;

/// Of which builds the chains' meshes were.
#[derive(Default)]
struct Builds {
    handles: BTreeMap<usize, usize>,
    several_parts: usize,
    pinched: usize,
    spare: usize,
}

impl Builds {
    fn count(&mut self, build: Build) {
        *self.handles.entry(build.handles).or_default() += 1;
        self.several_parts += usize::from(build.parts > 1);
        self.pinched += usize::from(build.pinched > 0);
        self.spare += usize::from(build.spare > 0);
    }

    fn text(&self) -> String {
        let handles = self.handles.iter().map(|(handles, chains)| format!("{handles}: {chains}"));
        format!(
            "chains by handles: {}; with several parts {}, pinched hubs {}, spare positions {}",
            handles.collect::<Vec<_>>().join(", "),
            self.several_parts,
            self.pinched,
            self.spare
        )
    }
}

/// So many chains, each step against `replay` and against what closed meshes promise.
pub fn compare(chains: usize) -> Done {
    let mut random = Random::new(5);
    let mut comparison = Comparison::new(Program::Replay)?;
    let mut builds = Builds::default();
    for chain in 0..chains {
        let start = start(chain, &mut random);
        builds.count(genus::build(&start));
        run(start, &mut random, &mut comparison)?;
    }
    let compared = comparison.finish()?;
    let met = |number: u32| format!("{number}: {}", comparison.tally.met(number));
    let numbers = [0].iter().chain(&ALLOWED).map(|number| met(*number)).collect::<Vec<_>>();
    println!("{chains} chains, {} steps; numbers {}", comparison.compared, numbers.join(", "));
    println!("{}\n{compared}", builds.text());
    demand(&comparison.tally, ALLOWED, 1)
}

fn start(chain: usize, random: &mut Random) -> Mesh {
    if chain % LARGE > 0 {
        return meshes::of_any_build(random, MOST_CORNERS);
    }
    match chain / LARGE % 4 {
        0 => shapes::dense(223),
        1 => shapes::dense(151),
        _ => calls::full_of_spares(random),
    }
}

/// A refused step leaves the mesh as it is, and the chain goes on.
fn run(mut mesh: Mesh, random: &mut Random, comparison: &mut Comparison) -> Done {
    for _ in 0..random.between(1, MOST_STEPS) {
        let operator = random.pick(&OPERATORS);
        let mut parameters = calls::parameters(operator, &mesh, random);
        if random.once_in(12) {
            parameters = calls::parameters_not_finite(parameters, operator, random);
        }
        let corners = table::result_sizes(operator, &parameters, &mesh).corners;
        if corners <= ENOUGH_CORNERS || corners > LIMIT {
            let result = step(operator, parameters, &mesh, random, comparison)?;
            mesh = result.unwrap_or(mesh);
        }
    }
    Ok(())
}

/// The mesh made, unless the step is refused.
fn step(
    operator: Operator,
    parameters: Parameters,
    mesh: &Mesh,
    random: &mut Random,
    comparison: &mut Comparison,
) -> Result<Option<Mesh>, String> {
    let room = room(operator, &parameters, mesh, random);
    let result = answer::call(operator, &parameters, mesh, room);
    holds(operator, &parameters, mesh, &result)
        .map_err(|law| format!("{law} of {} on {mesh:?}", operator.name()))?;
    let function = Function::Operator(operator);
    let fill = calls::fill(random);
    let case = Case { parameters, room, fill, ..Case::new(function, mesh.clone()) };
    let refused = |refusal| RefusedAt { step: 0, refusal };
    let answer = answer::mesh_answer(result.clone().map_err(refused), &case);
    comparison.add_answered(case, answer)?;
    Ok(result.ok())
}

/// Exact, larger or short, as far as `replay` can lend it.
fn room(operator: Operator, parameters: &Parameters, mesh: &Mesh, random: &mut Random) -> Room {
    let enough = calls::enough(table::result_sizes(operator, parameters, mesh), random);
    let room = if random.once_in(8) { calls::shortened(enough, random) } else { enough };
    room.at_most(Room::MOST)
}

/// What a closed mesh promises of a step: it is refused for nothing in the mesh, and what it
/// makes is closed, has the edges that the operator's row says and V - E + F as before.
fn holds(
    operator: Operator,
    parameters: &Parameters,
    mesh: &Mesh,
    result: &Result<Mesh, Refusal>,
) -> Result<(), &'static str> {
    let made = match result {
        Ok(made) => made,
        Err(refusal) if ALLOWED.contains(&refusal.number) => return Ok(()),
        Err(_) => return Err("another refusal"),
    };
    if table::check_closed(made).is_err() {
        return Err("a result that is not closed");
    }
    if made.counts()[1] != edges(operator, parameters, mesh) {
        return Err("another number of edges");
    }
    if characteristic(made) != characteristic(mesh) {
        return Err("another V - E + F");
    }
    Ok(())
}

/// E of the result.
fn edges(operator: Operator, parameters: &Parameters, mesh: &Mesh) -> usize {
    let edges = mesh.counts()[1];
    match operator {
        Operator::Chamfer => 4 * edges,
        Operator::Gyro | Operator::Propellor => 5 * edges,
        Operator::Quinto => 6 * edges,
        Operator::Whirl => 7 * edges,
        _ => edges + table::picked_faces_and_corners(mesh, parameters).1,
    }
}

fn characteristic(mesh: &Mesh) -> i64 {
    let [positions, edges, faces] = mesh.counts().map(|count| count as i64);
    positions - edges + faces
}
