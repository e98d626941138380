//! The smallest case that can be made of one that differs: faces and positions dropped, numbers made plain.
use crate::case::{Case, Room};
use crate::extra::Extra;
use crate::mesh::Mesh;
use crate::meshes::AMPLE;
use crate::operator::Parameters;
use crate::table;

/// Takes every change that keeps the case differing, until none does.
pub fn smallest(case: &Case, differs: impl Fn(&Case) -> bool) -> Case {
    let mut best = case.clone();
    loop {
        let smaller = changes(&best).find(|changed| differs(changed));
        match smaller {
            Some(smaller) => best = smaller,
            None => return best,
        }
    }
}

/// The cases a step smaller, those that drop most first.
fn changes(case: &Case) -> impl Iterator<Item = Case> + '_ {
    let meshes = smaller_meshes(&case.mesh).map(move |mesh| Case { mesh, ..case.clone() });
    let parameters =
        plainer(&case.parameters).map(move |parameters| Case { parameters, ..case.clone() });
    let rooms = rooms(case.room).map(move |room| Case { room, ..case.clone() });
    let fills = (case.fill != 0).then(|| Case { fill: 0, ..case.clone() });
    let numbers = rounded(&case.mesh).map(move |mesh| Case { mesh, ..case.clone() });
    let extras = smaller_extras(&case.extra).map(move |extra| Case { extra, ..case.clone() });
    meshes.chain(extras).chain(parameters).chain(rooms).chain(fills).chain(numbers)
}

/// Fewer steps, plainer numbers in them, fewer bytes of a file, and work meshes with room enough.
fn smaller_extras(extra: &Extra) -> impl Iterator<Item = Extra> + '_ {
    let steps = without_parts(&extra.steps).map(move |steps| Extra { steps, ..extra.clone() });
    let files = without_parts(&extra.file).map(move |file| Extra { file, ..extra.clone() });
    let plain = extra.steps.iter().enumerate().flat_map(move |(at, step)| {
        plainer(&step.parameters).map(move |parameters| {
            let mut extra = extra.clone();
            extra.steps[at].parameters = parameters;
            extra
        })
    });
    let work = (0..2).flat_map(move |at| {
        rooms(extra.work[at]).map(move |room| {
            let mut extra = extra.clone();
            extra.work[at] = room;
            extra
        })
    });
    steps.chain(files).chain(plain).chain(work)
}

/// The items without a half, a quarter and so on down to one of them.
fn without_parts<T: Clone>(items: &[T]) -> impl Iterator<Item = Vec<T>> + '_ {
    let sizes = std::iter::successors(Some(items.len()), |size| Some(size / 2));
    let sizes = sizes.take_while(|size| *size > 0);
    sizes.flat_map(move |size| {
        (0..items.len()).step_by(size).map(move |start| {
            let end = items.len().min(start + size);
            [&items[..start], &items[end..]].concat()
        })
    })
}

fn smaller_meshes(mesh: &Mesh) -> impl Iterator<Item = Mesh> + '_ {
    let shaped = !table::has_wrong_offsets(mesh);
    let faces = if shaped { mesh.face_count() } else { 0 };
    let without_some =
        [2, 4, 8].into_iter().flat_map(move |parts| (0..parts).map(move |part| (part, parts)));
    let parts = without_some
        .filter(move |(_, parts)| faces > *parts)
        .map(move |(part, parts)| without_faces(mesh, |face| face * parts / faces == part));
    let single = (0..faces).map(move |dropped| without_faces(mesh, |face| face == dropped));
    let positions = (0..mesh.position_count())
        .rev()
        .filter_map(move |vertex| without_position(mesh, vertex as u32));
    let odd = (mesh.coordinates.len() % 3 != 0).then(|| {
        let mut mesh = mesh.clone();
        mesh.coordinates.pop();
        mesh
    });
    parts.chain(single).chain(positions).chain(odd)
}

fn without_faces(mesh: &Mesh, dropped: impl Fn(usize) -> bool) -> Mesh {
    let kept = mesh.runs().enumerate().filter(|(face, _)| !dropped(*face));
    let faces: Vec<Vec<u32>> = kept.map(|(_, run)| run.to_vec()).collect();
    Mesh { coordinates: mesh.coordinates.clone(), ..Mesh::new(&faces, &[]) }
}

/// A position that no corner names goes, and the later vertices move down.
fn without_position(mesh: &Mesh, vertex: u32) -> Option<Mesh> {
    if mesh.corners.contains(&vertex) {
        return None;
    }
    let mut mesh = mesh.clone();
    mesh.corners.iter_mut().filter(|corner| **corner > vertex).for_each(|corner| *corner -= 1);
    let start = 3 * vertex as usize;
    mesh.coordinates.drain(start..start + 3);
    Some(mesh)
}

fn plainer(parameters: &Parameters) -> impl Iterator<Item = Parameters> + '_ {
    let with = move |change: &dyn Fn(&mut Parameters)| {
        let mut plain = parameters.clone();
        change(&mut plain);
        plain
    };
    let mut all = vec![
        with(&|p| p.ratio = None),
        with(&|p| p.height = None),
        with(&|p| p.arities = None),
        with(&|p| p.faces = None),
        with(&|p| p.regular = false),
        with(&|p| p.longer = false),
        with(&|p| p.ratio = p.ratio.map(plain)),
        with(&|p| p.height = p.height.map(plain)),
    ];
    for list in [parameters.arities.as_ref(), parameters.faces.as_ref()].into_iter().flatten() {
        for at in 0..list.len() {
            let same = |other: &Option<Vec<u32>>| other.as_ref() == Some(list);
            all.push(with(&|p| {
                let list = if same(&p.arities) { &mut p.arities } else { &mut p.faces };
                list.as_mut().map(|list| list.remove(at));
            }));
        }
    }
    all.into_iter().filter(move |plain| !same_numbers(plain, parameters))
}

fn same_numbers(a: &Parameters, b: &Parameters) -> bool {
    let bits = |number: Option<f32>| number.map(f32::to_bits);
    let numbers = |p: &Parameters| (bits(p.ratio), bits(p.height));
    numbers(a) == numbers(b)
        && a.arities == b.arities
        && a.faces == b.faces
        && (a.regular, a.longer) == (b.regular, b.longer)
}

fn rooms(room: Room) -> impl Iterator<Item = Room> {
    let some = Room { offsets: 600, corners: 600, coordinates: 1800 };
    let larger = |wanted: Room| room.offsets < wanted.offsets && room.corners < wanted.corners;
    let enough = if larger(some) { Some(some) } else { None };
    let ample = if larger(AMPLE) && room.offsets < some.offsets { Some(AMPLE) } else { None };
    enough.into_iter().chain(ample)
}

/// A plain number near it: a whole one, or 1 for what is far off.
fn plain(number: f32) -> f32 {
    match number {
        number if !number.is_finite() => number,
        number if number.abs() < 1000.0 => number.round(),
        _ => 1.0,
    }
}

/// All coordinates made plain, or one of them.
fn rounded(mesh: &Mesh) -> impl Iterator<Item = Mesh> + '_ {
    let all = Mesh {
        coordinates: mesh.coordinates.iter().map(|number| plain(*number)).collect(),
        ..mesh.clone()
    };
    let set = move |at: usize, number: f32| {
        let mut mesh = mesh.clone();
        mesh.coordinates[at] = number;
        mesh
    };
    let one = (0..mesh.coordinates.len()).flat_map(move |at| {
        let number = mesh.coordinates[at];
        [plain(number), 0.0]
            .into_iter()
            .map(move |plain| (at, plain))
            .filter(move |(_, plain)| plain.to_bits() != number.to_bits() && number.to_bits() != 0)
    });
    let changed = |mesh: &Mesh, other: &Mesh| {
        mesh.coordinates.iter().zip(&other.coordinates).any(|(a, b)| a.to_bits() != b.to_bits())
    };
    let all = changed(mesh, &all).then_some(all);
    all.into_iter().chain(one.map(move |(at, plain)| set(at, plain)))
}

#[cfg(test)]
mod tests {
    use super::*;
    use crate::case::Function;
    use crate::shapes;

    #[test]
    fn one_byte_is_left() {
        let mut case = Case::new(Function::File, Mesh::default());
        case.extra.file = (0..100).collect();
        let small = smallest(&case, |case| case.extra.file.contains(&77));
        assert_eq!(small.extra.file, [77]);
    }

    #[test]
    fn a_pentagon_is_left() {
        let mesh = shapes::union(&shapes::prism(5), &shapes::torus(3, 4));
        let case = Case { fill: 9, ..Case::new(Function::CheckClosed, mesh) };
        let pentagon = |case: &Case| {
            !table::has_wrong_offsets(&case.mesh) && case.mesh.runs().any(|run| run.len() == 5)
        };
        let small = smallest(&case, pentagon);
        assert_eq!((small.mesh.face_count(), small.mesh.position_count(), small.fill), (1, 5, 0));
        assert!(small.mesh.coordinates.iter().all(|number| *number == 0.0));
    }
}
