//! The line that the programs must print for a case.
use crate::arithmetic;
use crate::case::{Case, Function};
use crate::mesh::{Mesh, Point, LIMIT};
use crate::operator::{Operator, Parameters};
use crate::recipe::RefusedAt;
use crate::run_answer;
use crate::rust_side;
use crate::table::{self, Refusal};
use std::fmt::Write;

/// A line and, for the tally, what it stands for.
pub struct Answer {
    pub line: String,
    pub outcome: Outcome,
}

impl Answer {
    pub fn is_done(&self) -> bool {
        self.outcome == Outcome::Done
    }
}

#[derive(Clone, Copy, Debug, PartialEq, Eq)]
pub enum Outcome {
    /// Done, or answered by a helper that refuses nothing.
    Done,
    Refused(Refusal),
    Unfit,
}

pub fn answer(case: &Case) -> Answer {
    match case.function {
        Function::Operator(operator) => operator_answer(operator, case),
        Function::List(list) => run_answer::list(list, case),
        Function::Recipe => run_answer::recipe(case),
        Function::File => run_answer::file(case),
        Function::Root => done(root_line(&case.mesh.coordinates)),
        Function::Centroid => face_answer(case, |mesh| point_line(rust_side::centroid(mesh))),
        Function::Normal => face_answer(case, |mesh| point_line(rust_side::normal(mesh))),
        Function::Regular => {
            face_answer(case, |mesh| u8::from(rust_side::is_regular(mesh)).to_string())
        }
        Function::CheckClosed => check_answer(table::check_closed(&case.mesh)),
        Function::CheckFans => check_answer(table::check_fans(&case.mesh)),
        Function::Edges => edges_answer(case),
    }
}

/// The result of a call, numbers 1 to 14 applied.
pub fn call(
    operator: Operator,
    parameters: &Parameters,
    mesh: &Mesh,
    room: crate::case::Room,
) -> Result<Mesh, Refusal> {
    table::check_input(operator, parameters, mesh)?;
    let sizes = table::result_sizes(operator, parameters, mesh);
    table::check_sizes(sizes, room)?;
    let result = rust_side::apply(operator, parameters, mesh);
    assert_eq!(sizes, table::Sizes::of(&result), "sizes of {operator:?} on {mesh:?}");
    table::check_result(&result)?;
    Ok(result)
}

fn done(line: String) -> Answer {
    Answer { line, outcome: Outcome::Done }
}

fn operator_answer(operator: Operator, case: &Case) -> Answer {
    let result = call(operator, &case.parameters, &case.mesh, case.room);
    mesh_answer(result.map_err(|refusal| RefusedAt { step: 0, refusal }), case)
}

/// The line of a call that makes a mesh.
pub fn mesh_answer(result: Result<Mesh, RefusedAt>, case: &Case) -> Answer {
    let (mut line, outcome) = begun(&result);
    put_output(&mut line, &result.unwrap_or_default(), case);
    Answer { line, outcome }
}

/// The line's start: number, place, step, V, E and F.
pub fn begun(result: &Result<Mesh, RefusedAt>) -> (String, Outcome) {
    match result {
        Ok(mesh) => {
            let [positions, edges, faces] = mesh.counts();
            (format!("0 0 0 {positions} {edges} {faces}"), Outcome::Done)
        }
        Err(RefusedAt { step, refusal }) => {
            let Refusal { number, place } = refusal;
            (format!("{number} {place} {step} 0 0 0"), Outcome::Refused(*refusal))
        }
    }
}

/// The lent output after the call.
pub fn put_output(line: &mut String, written: &Mesh, case: &Case) {
    let room = case.room;
    put(line, 'o', lent(&written.offsets, room.offsets, case.fill), |n| n.to_string());
    put(line, 'c', lent(&written.corners, room.corners, case.fill), |n| n.to_string());
    let bits: Vec<u32> = written.coordinates.iter().map(|number| number.to_bits()).collect();
    put(line, 'x', lent(&bits, room.coordinates, case.fill), float_text);
}

/// A lent slice after the call: what was written, then the fill as it was.
pub fn lent(written: &[u32], length: usize, fill: u32) -> Vec<u32> {
    let untouched = (written.len()..length).map(|index| fill.wrapping_add(index as u32));
    written.iter().copied().chain(untouched).collect()
}

pub fn put<T>(line: &mut String, name: char, items: Vec<T>, text: impl Fn(T) -> String) {
    write!(line, " {name}").expect("a string");
    for item in items {
        write!(line, " {}", text(item)).expect("a string");
    }
}

pub fn float_text(bits: u32) -> String {
    if f32::from_bits(bits).is_nan() {
        "nan".to_string()
    } else {
        format!("{bits:08x}")
    }
}

fn root_line(arguments: &[f32]) -> String {
    let roots = arguments.iter().map(|argument| arithmetic::root_bits(argument.to_bits()));
    roots.map(|root| format!("{root:08x}")).collect::<Vec<_>>().join(" ")
}

fn point_line(point: Point) -> String {
    point.map(|field| float_text(field.to_bits())).join(" ")
}

/// The answer of a helper on the one face whose run is the corners.
fn face_answer(case: &Case, helper: impl Fn(&Mesh) -> String) -> Answer {
    let mesh = &case.mesh;
    let fits = mesh.corners.iter().all(|vertex| (*vertex as usize) < mesh.position_count());
    let none_to_measure = case.function == Function::Regular && mesh.corners.is_empty();
    if !fits || mesh.corners.len() > LIMIT || none_to_measure {
        Answer { line: "unfit".to_string(), outcome: Outcome::Unfit }
    } else {
        done(helper(mesh))
    }
}

fn check_answer(checked: Result<(), Refusal>) -> Answer {
    match checked {
        Ok(()) => done("0 0".to_string()),
        Err(refusal) => Answer {
            line: format!("{} {}", refusal.number, refusal.place),
            outcome: Outcome::Refused(refusal),
        },
    }
}

fn edges_answer(case: &Case) -> Answer {
    let pairs = case.room.offsets;
    let edges = table::check_closed(&case.mesh).and_then(|()| {
        let edges = rust_side::edges(&case.mesh);
        if edges.len() <= pairs {
            Ok(edges)
        } else {
            Err(Refusal { number: 13, place: 0 })
        }
    });
    let (mut answer, edges) = match edges {
        Ok(edges) => (done(format!("0 0 {}", edges.len())), edges),
        Err(refusal) => {
            let mut refused = check_answer(Err(refusal));
            refused.line.push_str(" 0");
            (refused, Vec::new())
        }
    };
    let numbers = lent(&edges.concat(), 2 * pairs, case.fill);
    let pairs = numbers.chunks(2).map(|pair| format!("{}-{}", pair[0], pair[1])).collect();
    put(&mut answer.line, 'e', pairs, |pair: String| pair);
    answer
}
