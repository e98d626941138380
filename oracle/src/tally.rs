//! How often each number and kind of place was met, by function.
use crate::answer::Outcome;
use crate::case::{Case, Function};
use crate::table::{self, Refusal};
use std::collections::BTreeMap;
use std::fmt;

#[derive(Clone, Copy, PartialEq, Eq, PartialOrd, Ord)]
enum Kind {
    Done,
    Unfit,
    /// A place that is a name: of numbers 1, 2, 3, 12 and 13.
    Named(u32, u32),
    /// A place that is an index: the first, the last or another.
    First(u32),
    Inside(u32),
    Last(u32),
}

impl Kind {
    fn number(self) -> u32 {
        match self {
            Kind::Done | Kind::Unfit => 0,
            Kind::Named(number, _) => number,
            Kind::First(number) | Kind::Inside(number) | Kind::Last(number) => number,
        }
    }

    fn text(self) -> String {
        match self {
            Kind::Done => "done".to_string(),
            Kind::Unfit => "unfit".to_string(),
            Kind::Named(number, place) => format!("{number}/{place}"),
            Kind::First(number) => format!("{number}/first"),
            Kind::Inside(number) => format!("{number}/inside"),
            Kind::Last(number) => format!("{number}/last"),
        }
    }
}

#[derive(Default)]
pub struct Tally(BTreeMap<u32, BTreeMap<(u32, Kind), usize>>);

impl Tally {
    /// Counts an outcome; hands back how often its kind was met by now.
    pub fn count(&mut self, case: &Case, outcome: Outcome) -> usize {
        let kind = match outcome {
            Outcome::Done => Kind::Done,
            Outcome::Unfit => Kind::Unfit,
            Outcome::Refused(refusal) => kind_of(case, refusal),
        };
        let kinds = self.0.entry(case.function.code()).or_default();
        let met = kinds.entry((kind.number(), kind)).or_default();
        *met += 1;
        *met
    }

    /// How often a number was met, all functions together.
    pub fn met(&self, number: u32) -> usize {
        let all = self.0.values().flatten();
        all.filter(|((met, _), _)| *met == number).map(|(_, count)| count).sum()
    }
}

/// The place of a first or last item counts as such.
fn kind_of(case: &Case, refusal: Refusal) -> Kind {
    let Refusal { number, place } = refusal;
    let mesh = &case.mesh;
    let length = match number {
        4 => mesh.coordinates.len(),
        5 | 7 => mesh.face_count(),
        6 | 8 | 9 => mesh.corners.len(),
        10 | 11 => mesh.position_count(),
        14 => result_coordinates(case),
        15..=18 => case.extra.file.len(),
        _ => return Kind::Named(number, place),
    };
    match place as usize {
        0 => Kind::First(number),
        place if place + 1 == length => Kind::Last(number),
        _ => Kind::Inside(number),
    }
}

fn result_coordinates(case: &Case) -> usize {
    match case.function {
        Function::Operator(operator) => {
            table::result_sizes(operator, &case.parameters, &case.mesh).room().coordinates
        }
        // The size of a step's result isn't known here: no place of it counts as the last.
        Function::List(_) | Function::Recipe => usize::MAX,
        _ => unreachable!("only these have results"),
    }
}

impl fmt::Display for Tally {
    fn fmt(&self, to: &mut fmt::Formatter) -> fmt::Result {
        for (code, kinds) in &self.0 {
            let name = Function::from_code(*code).expect("counted").name();
            let counts = kinds.iter().map(|((_, kind), count)| format!("{} {count}", kind.text()));
            writeln!(to, "{code} {name}: {}", counts.collect::<Vec<_>>().join(", "))?;
        }
        Ok(())
    }
}
