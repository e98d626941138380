//! Each operator at the largest result within the limits.
use crate::answer::answer;
use crate::case::{Case, Function, Program};
use crate::commands::Done;
use crate::mesh::{Mesh, LIMIT};
use crate::operator::{Operator, Parameters, OPERATORS};
use crate::replay::Comparison;
use crate::shapes;
use crate::table::{self, Sizes};
use std::time::Instant;

pub fn compare() -> Done {
    let mut comparison = Comparison::new(Program::Replay)?;
    for operator in OPERATORS {
        compare_one(&mut comparison, operator, largest(operator))?;
    }
    // A fan of 15,000 faces round one vertex.
    compare_one(&mut comparison, Operator::Dual, shapes::pyramid(LIMIT / 4))?;
    println!("{}", comparison.finish()?);
    Ok(())
}

fn compare_one(comparison: &mut Comparison, operator: Operator, mesh: Mesh) -> Done {
    let parameters = Parameters::default();
    let sizes = table::result_sizes(operator, &parameters, &mesh);
    let function = Function::Operator(operator);
    let case = Case { parameters, room: sizes.room(), ..Case::new(function, mesh) };
    let started = Instant::now();
    let answer = answer(&case);
    let text = started.elapsed();
    let started = Instant::now();
    comparison.compare_now(case, answer)?;
    let replay = started.elapsed();
    let Sizes { faces, corners, positions } = sizes;
    let name = operator.name();
    println!(
        "{name}: to {faces} faces, {corners} corners, {positions} positions; Rust {:.2} s, replay {:.2} s",
        text.as_secs_f64(),
        replay.as_secs_f64()
    );
    Ok(())
}

/// Of quads round a torus, the largest mesh whose result has up to 60,000 corners.
fn largest(operator: Operator) -> Mesh {
    match operator {
        Operator::Ambo => shapes::torus(75, 100),
        Operator::Chamfer => shapes::torus(50, 75),
        Operator::Dual | Operator::Reflect | Operator::Reverse => shapes::torus(100, 150),
        Operator::Gyro | Operator::Propellor => shapes::torus(50, 60),
        Operator::Kis => shapes::torus(50, 100),
        Operator::Quinto => shapes::torus(50, 50),
        // 7 times 8,570 corners; the pillow brings ten of them.
        Operator::Whirl => shapes::union(&shapes::torus(20, 107), &shapes::pillow(5)),
        Operator::Triangulate => shapes::torus(100, 100),
    }
}
