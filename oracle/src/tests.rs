//! Examples worked out by hand: the bench pieces of document 01 and the corners of its readings.
use crate::answer::{self, answer};
use crate::arithmetic;
use crate::case::{Case, Function, Room};
use crate::commands;
use crate::damage;
use crate::failure::Failure;
use crate::genus::{self, Build};
use crate::mesh::{Face, Mesh};
use crate::meshes::AMPLE;
use crate::numbers;
use crate::operator::Operator::{self, *};
use crate::operator::{Parameters, OPERATORS};
use crate::panel;
use crate::random::Random;
use crate::recipe::{self, Lent, List, RefusedAt, Step};
use crate::rust_side;
use crate::shapes;
use crate::table::{self, Refusal};
use crate::tally::Tally;

const LENT: Lent = Lent { work: [AMPLE; 2], output: AMPLE };

fn plain() -> Parameters {
    Parameters::default()
}

fn ratio(ratio: f32) -> Parameters {
    Parameters { ratio: Some(ratio), ..plain() }
}

fn height(height: f32) -> Parameters {
    Parameters { height: Some(height), ..plain() }
}

fn call(operator: Operator, mesh: &Mesh) -> Result<Mesh, Refusal> {
    answer::call(operator, &plain(), mesh, AMPLE)
}

fn faces(operator: Operator, mesh: &Mesh) -> Vec<Face> {
    call(operator, mesh).expect("done").faces()
}

fn refusal(number: u32, place: u32) -> Refusal {
    Refusal { number, place }
}

fn at_step(step: usize, number: u32, place: u32) -> RefusedAt {
    RefusedAt { step, refusal: refusal(number, place) }
}

fn run_list(list: List, parameters: &Parameters, mesh: &Mesh) -> Result<Mesh, RefusedAt> {
    recipe::run_steps(&list.steps(parameters), mesh, LENT).outcome
}

fn step(operator: Operator) -> Step {
    Step { operator, parameters: plain() }
}

/// A mesh on T's positions and others like them.
fn with_faces(faces: &[Face]) -> Mesh {
    let positions = 1 + faces.iter().flatten().max().copied().unwrap_or(0);
    let point = |index: u32| [index as f32, (index * index % 7) as f32, (index % 3) as f32];
    Mesh::new(faces, &(0..positions).map(point).collect::<Vec<_>>())
}

#[test]
fn edges_of_t() {
    let edges = [[0, 1], [1, 2], [0, 3], [0, 2], [2, 3], [1, 3]];
    assert_eq!(table::edge_list(&shapes::tetrahedron()), edges);
    assert_eq!(rust_side::edges(&shapes::tetrahedron()), edges);
}

#[test]
fn faces_of_t_under_the_operators() {
    let t = shapes::tetrahedron();
    assert_eq!(faces(Dual, &t), [[0, 2, 1], [0, 1, 3], [0, 3, 2], [1, 2, 3]]);
    let ambo =
        [[0, 1, 3], [2, 5, 0], [3, 4, 2], [5, 4, 1], [3, 2, 0], [0, 5, 1], [1, 4, 3], [2, 4, 5]];
    assert_eq!(faces(Ambo, &t), ambo);
    assert_eq!(faces(Gyro, &t)[0], [0, 8, 4, 15, 14]);
    assert_eq!(faces(Quinto, &t)[4], [0, 4, 10, 12, 7]);
    assert_eq!(faces(Propellor, &t)[0], [4, 6, 11]);
    assert_eq!(faces(Propellor, &t)[4], [0, 5, 4, 11]);
    assert_eq!(faces(Whirl, &t)[0], [16, 17, 1, 18, 5, 4]);
    assert_eq!(faces(Chamfer, &t)[4], [0, 7, 9, 1, 5, 4]);
}

#[test]
fn roots_of_the_table() {
    let pieces = [
        (0x4000_0000, 0x3FB5_04F3),
        (0x0000_0001, 0x1A35_04F3),
        (0x0000_0002, 0x1A80_0000),
        (0x7F7F_FFFF, 0x5F7F_FFFF),
    ];
    for (argument, root) in pieces {
        assert_eq!(arithmetic::root_bits(argument), root);
        assert!(arithmetic::midpoints_enclose(argument, root));
        assert!(!arithmetic::midpoints_enclose(argument, root + 1));
        assert!(!arithmetic::midpoints_enclose(argument, root - 1));
    }
    for no_root in [0x7F80_0001, 0xFFC0_0000, 0x8000_0001, 0xFF80_0000] {
        assert_eq!(arithmetic::root_bits(no_root), 0x7FC0_0000);
    }
    for itself in [0x0000_0000, 0x8000_0000, 0x7F80_0000] {
        assert_eq!(arithmetic::root_bits(itself), itself);
    }
}

#[test]
fn one_triangle_and_a_pillow() {
    assert_eq!(call(Dual, &with_faces(&[vec![0, 1, 2]])), Err(refusal(9, 0)));
    let points = shapes::tetrahedron().points();
    let pillow = Mesh::new(&[vec![0, 1, 2], vec![0, 2, 1]], &points[..3]);
    assert_eq!(call(Gyro, &pillow).expect("done").counts(), [11, 15, 6]);
    assert_eq!(call(Dual, &pillow), Err(refusal(10, 0)));
}

#[test]
fn two_shells_with_a_hub() {
    let t = shapes::tetrahedron();
    let mut doubled = t.clone();
    doubled.coordinates.iter_mut().skip(3).for_each(|number| *number *= 2.0);
    let hub = shapes::merged(&shapes::union(&t, &doubled), 0, 4);
    assert_eq!(hub.position_count(), 7);
    assert!(call(Gyro, &hub).is_ok());
    assert_eq!(call(Dual, &hub), Err(refusal(11, 0)));
    assert_eq!(call(Ambo, &hub), Err(refusal(11, 0)));
}

#[test]
fn limits_of_the_input() {
    assert_eq!(table::check_closed(&damage::one_face(60_000)), Err(refusal(7, 0)));
    assert_eq!(table::check_closed(&damage::one_face(60_001)), Err(refusal(2, 1)));
    assert_eq!(table::check_closed(&damage::empty_faces(60_000)), Err(refusal(5, 0)));
    assert_eq!(table::check_closed(&damage::empty_faces(60_001)), Err(refusal(2, 0)));
    let t = shapes::tetrahedron();
    assert_eq!(table::check_closed(&shapes::with_spares(&t, 59_996)), Ok(()));
    assert_eq!(table::check_closed(&shapes::with_spares(&t, 59_997)), Err(refusal(2, 2)));
}

#[test]
fn numbers_of_a_call() {
    let t = shapes::tetrahedron();
    let ambo = |number: f32| answer::call(Ambo, &ratio(number), &t, AMPLE);
    assert_eq!(ambo(2.0), ambo(1.0));
    assert_eq!(ambo(f32::INFINITY), Err(refusal(3, 0)));
    assert_eq!(answer::call(Gyro, &height(f32::NAN), &t, AMPLE), Err(refusal(3, 1)));
    // Dual takes no ratio and looks at none.
    assert!(answer::call(Dual, &ratio(f32::NAN), &t, AMPLE).is_ok());
}

#[test]
fn ambo_goes_from_the_high_end() {
    let t = shapes::tetrahedron();
    let result = answer::call(Ambo, &ratio(0.0), &t, AMPLE).expect("done");
    assert_eq!(result.points()[0], t.points()[1]);
}

#[test]
fn results_over_the_limits() {
    let few_faces = shapes::dense(97);
    assert_eq!(call(Whirl, &few_faces), Err(refusal(12, 1)));
    for operator in [Propellor, Whirl, Quinto] {
        assert_eq!(call(operator, &shapes::dense(223)), Err(refusal(12, 0)));
    }
    let spares = shapes::with_spares(&shapes::tetrahedron(), 59_996);
    assert_eq!(call(Kis, &spares), Err(refusal(12, 2)));
}

#[test]
fn lent_slices_in_order() {
    let t = shapes::tetrahedron();
    let exact = Room { offsets: 5, corners: 12, coordinates: 12 };
    let dual = |room| answer::call(Dual, &plain(), &t, room);
    assert!(dual(exact).is_ok());
    assert_eq!(dual(Room { offsets: 4, corners: 11, ..exact }), Err(refusal(13, 0)));
    assert_eq!(dual(Room { corners: 11, coordinates: 11, ..exact }), Err(refusal(13, 1)));
    assert_eq!(dual(Room { coordinates: 11, ..exact }), Err(refusal(13, 2)));
}

#[test]
fn the_line_of_a_call() {
    let triangle = with_faces(&[vec![0, 1, 2]]);
    let room = Room { offsets: 3, corners: 3, coordinates: 10 };
    let mut case = Case::new(Function::Operator(Reverse), triangle);
    (case.room, case.fill) = (room, 0x7F7F_FFF7);
    let coordinates =
        case.mesh.coordinates.iter().map(|number| format!(" {:08x}", number.to_bits()));
    let coordinates: String = coordinates.collect();
    let done = format!("0 0 0 3 1 1 o 0 3 2139095033 c 2 1 0 x{coordinates} nan");
    // The tenth coordinate starts as the pattern 0x7F800000.
    assert_eq!(answer(&case).line, done.replace("nan", "7f800000"));
    case.fill += 1;
    assert_eq!(answer(&case).line, done.replace("2139095033", "2139095034"));
    case.room.offsets = 1;
    assert!(answer(&case).line.starts_with("13 0 0 0 0 0 o 2139095032 c 2139095032 2139095033 "));
}

#[test]
fn the_line_of_an_edge_list() {
    let mut case = Case::new(Function::Edges, shapes::pillow(3));
    (case.room.offsets, case.fill) = (4, u32::MAX - 6);
    assert_eq!(answer(&case).line, "0 0 3 e 0-1 1-2 0-2 4294967295-0");
    case.room.offsets = 2;
    assert_eq!(answer(&case).line, "13 0 0 e 4294967289-4294967290 4294967291-4294967292");
}

#[test]
fn lists_are_checked_between_their_steps() {
    let torus = shapes::three_hexagons();
    assert_eq!(faces(Dual, &torus)[..2], [[0, 2, 1], [0, 1, 2]]);
    let sphere = with_faces(&[
        vec![0, 1, 2, 3, 4, 5],
        vec![1, 0, 7, 4, 3, 6],
        vec![2, 1, 6],
        vec![3, 2, 6],
        vec![5, 4, 7],
        vec![0, 5, 7],
    ]);
    use List::*;
    for list in [Join, Meta, Needle, Ortho, Snub, Truncate] {
        assert_eq!(run_list(list, &plain(), &torus), Err(at_step(2, 8, 6)), "{list:?}");
        assert_eq!(run_list(list, &plain(), &sphere), Err(at_step(2, 8, 11)), "{list:?}");
    }
    for list in [Bevel, Expand, Medial, Zip] {
        assert!(run_list(list, &plain(), &torus).is_ok(), "{list:?}");
    }
}

#[test]
fn lists_have_their_steps() {
    use List::*;
    let lengths = [
        (Bevel, 4),
        (Expand, 2),
        (Join, 3),
        (Medial, 5),
        (Meta, 4),
        (Needle, 4),
        (Ortho, 6),
        (Snub, 3),
        (Truncate, 3),
        (Zip, 2),
    ];
    for (list, length) in lengths {
        assert_eq!(list.steps(&plain()).len(), length, "{list:?}");
    }
    let given = Parameters { arities: Some(vec![]), ..plain() };
    assert_eq!(Meta.steps(&plain())[3].parameters.arities, Some(vec![3]));
    assert_eq!(Meta.steps(&given)[3].parameters.arities, Some(vec![]));
}

#[test]
fn a_list_looks_at_a_number_at_its_step() {
    let t = shapes::tetrahedron();
    assert_eq!(run_list(List::Bevel, &height(f32::INFINITY), &t), Err(at_step(3, 3, 1)));
    assert_eq!(run_list(List::Bevel, &ratio(f32::INFINITY), &t), Err(at_step(1, 3, 0)));
}

#[test]
fn a_list_writes_its_meshes_in_turn() {
    let t = shapes::tetrahedron();
    let steps = List::Join.steps(&plain());
    let none = Room::default();
    let short = |lent| recipe::run_steps(&steps, &t, lent).outcome;
    assert_eq!(short(Lent { work: [none, AMPLE], output: AMPLE }), Err(at_step(1, 13, 0)));
    assert_eq!(short(Lent { work: [AMPLE, none], output: AMPLE }), Err(at_step(2, 13, 0)));
    assert_eq!(short(Lent { work: [AMPLE; 2], output: none }), Err(at_step(3, 13, 0)));
    let zip = recipe::run_steps(
        &List::Zip.steps(&plain()),
        &t,
        Lent { work: [AMPLE, none], output: AMPLE },
    );
    assert!(zip.outcome.is_ok());
}

#[test]
fn a_recipe_before_its_first_step() {
    let broken = Mesh::default();
    let run = |steps: usize, ledger| {
        recipe::run_recipe(&vec![step(Dual); steps], &broken, LENT, ledger).outcome
    };
    assert_eq!(run(17, 0), Err(at_step(0, 2, 3)));
    assert_eq!(run(16, 15), Err(at_step(0, 13, 3)));
    assert_eq!(run(16, 16), Err(at_step(1, 1, 0)));
}

#[test]
fn a_recipe_without_steps_copies() {
    let copy =
        |mesh: &Mesh, output| recipe::run_recipe(&[], mesh, Lent { output, ..LENT }, 0).outcome;
    let open = with_faces(&[vec![0, 1, 2]]);
    assert_eq!(copy(&open, AMPLE), Ok(open.clone()));
    assert_eq!(copy(&open, Room { coordinates: 8, ..AMPLE }), Err(at_step(0, 13, 2)));
    assert_eq!(copy(&with_faces(&[vec![0, 1]]), AMPLE), Err(at_step(0, 5, 0)));
}

#[test]
fn a_refused_recipe_keeps_its_finished_rows() {
    let pillow = shapes::pillow(4);
    let ran = recipe::run_recipe(&[step(Reverse), step(Dual), step(Gyro)], &pillow, LENT, 3);
    assert_eq!(ran.rows, [[9, 4, 4, 2]]);
    assert_eq!(ran.outcome, Err(at_step(2, 10, 0)));
}

/// A pillow of quads whose diagonal 0-2 is the shorter.
fn quad_pillow() -> Mesh {
    let points = [[1.0, 0.0, 0.0], [0.0, 2.0, 0.0], [-1.0, 0.0, 0.0], [0.0, -2.0, 0.0]];
    Mesh::new(&[vec![0, 1, 2, 3], vec![3, 2, 1, 0]], &points)
}

#[test]
fn triangulate_may_leave_an_edge_twice() {
    let result = call(Triangulate, &quad_pillow()).expect("done");
    assert_eq!(result.faces(), [[0, 1, 2], [0, 2, 3], [2, 1, 0], [2, 0, 3]]);
    assert_eq!(call(Kis, &result), Err(refusal(8, 8)));
}

#[test]
fn equal_diagonals_count_as_not_shorter() {
    let square = Mesh::new(
        &[vec![0, 1, 2, 3]],
        &[[1.0, 0.0, 0.0], [0.0, 1.0, 0.0], [-1.0, 0.0, 0.0], [0.0, -1.0, 0.0]],
    );
    let mut overflowing = square.clone();
    overflowing.coordinates.iter_mut().for_each(|number| *number *= 1e30);
    let longer = Parameters { longer: true, ..plain() };
    for mesh in [square, overflowing] {
        assert_eq!(faces(Triangulate, &mesh), [[1, 2, 3], [1, 3, 0]]);
        let other = answer::call(Triangulate, &longer, &mesh, AMPLE).expect("done");
        assert_eq!(other.faces(), [[0, 1, 2], [0, 2, 3]]);
    }
}

#[test]
fn triangles_of_five_and_of_more() {
    let pentagon = with_faces(&[vec![0, 1, 2, 3, 4]]);
    assert_eq!(faces(Triangulate, &pentagon), [[0, 1, 4], [1, 2, 4], [4, 2, 3]]);
    let hexagon = with_faces(&[vec![0, 1, 2, 3, 4, 5]]);
    assert_eq!(faces(Triangulate, &hexagon), [[0, 1, 2], [0, 2, 3], [0, 3, 4], [0, 4, 5]]);
}

#[test]
fn results_that_are_not_finite() {
    let points = [[1.0, 0.0, 0.0], [-1.0, 1.0, 0.0], [0.0, -1.0, 0.0]];
    let centred = Mesh::new(&[vec![0, 1, 2], vec![2, 1, 0]], &points);
    assert_eq!(call(Gyro, &centred), Err(refusal(14, 9)));
    let mut tiny = shapes::tetrahedron();
    tiny.coordinates.iter_mut().for_each(|number| *number *= 1e-30);
    assert_eq!(call(Gyro, &tiny), Err(refusal(14, 12)));
    let little_room = Room { coordinates: 0, ..AMPLE };
    assert_eq!(answer::call(Gyro, &plain(), &tiny, little_room), Err(refusal(13, 2)));
}

#[test]
fn kis_by_its_masks() {
    let cube = shapes::cube();
    let kis = |parameters: Parameters| {
        answer::call(Kis, &parameters, &cube, AMPLE).expect("done").face_count()
    };
    let arities = |list: &[u32]| Parameters { arities: Some(list.to_vec()), ..plain() };
    let numbers = |list: &[u32]| Parameters { faces: Some(list.to_vec()), ..plain() };
    assert_eq!(kis(plain()), 24);
    assert_eq!(kis(arities(&[])), 6);
    assert_eq!(kis(arities(&[5, 4, 4])), 24);
    assert_eq!(kis(numbers(&[1, 1, 6, u32::MAX])), 9);
    assert_eq!(kis(Parameters { regular: true, ..plain() }), 24);
    let tall = shapes::pyramid(4);
    let regular = Parameters { regular: true, ..plain() };
    assert_eq!(answer::call(Kis, &regular, &tall, AMPLE).expect("done").face_count(), 8);
}

#[test]
fn wrong_shapes() {
    let t = shapes::tetrahedron();
    let offsets =
        |offsets: &[u32]| table::check_closed(&Mesh { offsets: offsets.to_vec(), ..t.clone() });
    let wrong: [&[u32]; 5] = [&[], &[12], &[1, 12], &[0, 6, 3, 12], &[0, 11]];
    for list in wrong {
        assert_eq!(offsets(list), Err(refusal(1, 0)), "{list:?}");
    }
    assert_eq!(offsets(&[0, 0, 12]), Err(refusal(5, 0)));
    let mut cut = t.clone();
    cut.coordinates.pop();
    assert_eq!(table::check_closed(&cut), Err(refusal(1, 1)));
}

#[test]
fn places_of_directed_edges() {
    // The later copy counts, and all of number 8 comes before number 9.
    let twice = with_faces(&[vec![0, 1, 2], vec![3, 0, 1]]);
    assert_eq!(table::check_closed(&twice), Err(refusal(8, 4)));
    let open = with_faces(&[vec![0, 1, 2], vec![0, 2, 3], vec![1, 0, 3]]);
    assert_eq!(table::check_closed(&open), Err(refusal(9, 1)));
    let repeated_vertex = with_faces(&[vec![0, 1, 2], vec![0, 1, 2], vec![0, 1, 0]]);
    assert_eq!(table::check_closed(&repeated_vertex), Err(refusal(7, 2)));
}

#[test]
fn few_faces_come_before_fans() {
    let t = shapes::tetrahedron();
    let hub = shapes::merged(&shapes::union(&t, &t), 0, 4);
    assert_eq!(table::check_fans(&hub), Err(refusal(11, 0)));
    assert_eq!(table::check_fans(&shapes::with_spares(&hub, 1)), Err(refusal(10, 7)));
}

#[test]
fn empty_meshes() {
    let empty = Mesh::new(&[], &[]);
    let one_offset = Room { offsets: 1, ..Room::default() };
    let spares = shapes::with_spares(&empty, 2);
    for operator in OPERATORS {
        assert_eq!(answer::call(operator, &plain(), &empty, one_offset), Ok(empty.clone()));
        let refused = answer::call(operator, &plain(), &empty, Room::default());
        assert_eq!(refused, Err(refusal(13, 0)));
        match (operator, call(operator, &spares)) {
            (Ambo | Dual, answer) => assert_eq!(answer, Err(refusal(10, 0))),
            (_, answer) => assert_eq!(answer.expect("done").position_count(), 2),
        }
    }
}

#[test]
fn made_meshes_are_what_they_say() {
    for mesh in [
        shapes::tetrahedron(),
        shapes::cube(),
        shapes::octahedron(),
        shapes::prism(5),
        shapes::pyramid(7),
        shapes::torus(3, 4),
        shapes::three_hexagons(),
        shapes::dense(7),
    ] {
        assert_eq!(table::check_fans(&mesh), Ok(()), "{mesh:?}");
    }
    assert_eq!(table::check_closed(&shapes::dense(97)), Ok(()));
    assert_eq!(table::check_closed(&shapes::pillow(8)), Ok(()));
    assert_eq!(damage::all_pairs_of_triangles().count(), 4096);
    assert_eq!(damage::all_small_offsets().count(), 781 * 5);
}

#[test]
fn unfit_faces() {
    let run = |function, corners: &[u32], coordinates: usize| {
        let mesh = Mesh {
            offsets: Vec::new(),
            corners: corners.to_vec(),
            coordinates: vec![1.0; coordinates],
        };
        answer(&Case::new(function, mesh)).line
    };
    assert_eq!(run(Function::Centroid, &[0, 1], 6), "3f800000 3f800000 3f800000");
    assert_eq!(run(Function::Centroid, &[0, 1], 5), "unfit");
    assert_eq!(run(Function::Centroid, &[], 0), "nan nan nan");
    assert_eq!(run(Function::Regular, &[], 3), "unfit");
    assert_eq!(answer(&Case::new(Function::Normal, damage::one_face(60_001))).line, "unfit");
    let line = answer(&numbers::root_case(&[0x4000_0000, 0xBF80_0000])).line;
    assert_eq!(line, "3fb504f3 7fc00000");
}

/// The bytes of words.
fn file(words: &[u32]) -> Vec<u8> {
    crate::case::to_bytes(words)
}

/// T after the steps of words.
fn panel_of_t(steps: &[[u32; 4]]) -> Vec<u8> {
    let t = shapes::tetrahedron();
    let mut words = vec![steps.len() as u32];
    words.extend(steps.concat());
    words.push(4);
    words.extend(t.coordinates.iter().map(|number| number.to_bits()));
    words.push(4);
    words.extend(t.faces().iter().flat_map(|face| [3, face[0], face[1], face[2]]));
    file(&words)
}

#[test]
fn report_of_t() {
    let bytes = panel_of_t(&[[4, 0, 0, 0], [2, 0, 0, 0]]);
    assert_eq!(panel::report(&bytes), "1 4 20 30 12 2 0\n2 2 80 120 42 2 0\n");
    let bytes = panel_of_t(&[[8, 0, 0, 0], [4, 2, 0, 0x7F80_0000]]);
    assert_eq!(panel::report(&bytes), "1 8 4 6 4 2 0\n2 refused 3 1\n");
    assert_eq!(panel::report(&panel_of_t(&[[4, 0, 0, 0]; 3])).lines().count(), 3);
}

#[test]
fn report_without_steps() {
    assert_eq!(panel::report(&file(&[0, 0, 0])), "");
    assert_eq!(panel::report(&file(&[0, 0, 1, 2, 0, 0])), "0 refused 5 0\n");
}

#[test]
fn report_of_an_open_mesh() {
    let mut words = vec![1, 9, 0, 0, 0, 3];
    words.extend([0; 9]);
    words.extend([1, 3, 0, 1, 2]);
    assert_eq!(panel::report(&file(&words)), "1 9 3 1 1 3 0\n");
}

#[test]
fn files_that_are_refused() {
    let refused = |words: &[u32], number, place| {
        assert_eq!(panel::read(&file(words)), Err(refusal(number, place)), "{words:?}");
    };
    assert_eq!(panel::read(&[]), Err(refusal(15, 0)));
    assert_eq!(panel::read(&[0, 0, 0]), Err(refusal(15, 0)));
    refused(&[17], 16, 0);
    // A step: cut before its code is looked at; then code, flags and absent numbers.
    refused(&[1, 99, 0, 0], 15, 4);
    refused(&[1, 12, 0, 0, 0], 17, 4);
    refused(&[1, 3, 1, 0, 0], 17, 4);
    refused(&[1, 5, 4, 0, 0], 17, 4);
    refused(&[1, 1, 0, 0x8000_0000, 0], 17, 4);
    refused(&[2, 1, 1, 0x7FC0_0000, 0, 1, 1, 0, 1], 17, 20);
    // Positions.
    refused(&[0, 401], 16, 4);
    refused(&[0, 1, 0, 0], 15, 8);
    // Faces: the arity that passes the rest of the corners, before they are read.
    refused(&[0, 0, 401], 16, 8);
    refused(&[0, 0, 1, 1201], 16, 12);
    refused(&[0, 0, 2, 1, 0, 1200], 16, 20);
    refused(&[0, 0, 1, u32::MAX], 16, 12);
    refused(&[0, 0, 1, 2, 0], 15, 20);
    refused(&[0, 0, 1], 15, 12);
    // Bytes left over.
    refused(&[0, 0, 0, 0], 18, 12);
    assert_eq!(panel::read(&[0; 13]), Err(refusal(18, 12)));
    // Small arities, high corners and bits of no number are no error of the file.
    assert!(panel::read(&file(&[0, 1, 0x7FC0_0000, 0, 0, 2, 0, 1, 7])).is_ok());
}

#[test]
fn parts_handles_hubs_and_spares() {
    let build = |mesh: &Mesh| genus::build(mesh);
    let plain = Build { parts: 1, handles: 0, pinched: 0, spare: 0 };
    assert_eq!(build(&shapes::cube()), plain);
    assert_eq!(build(&shapes::pillow(5)), plain);
    assert_eq!(build(&Mesh::new(&[], &[])), Build { parts: 0, ..plain });
    assert_eq!(build(&shapes::three_hexagons()), Build { handles: 1, ..plain });
    let mut random = Random::new(0);
    for handles in 1..7 {
        let mesh = shapes::handles(handles, &mut random);
        assert_eq!(table::check_closed(&mesh), Ok(()));
        assert_eq!(build(&mesh), Build { handles, ..plain });
    }
    let apart = shapes::union(&shapes::cube(), &shapes::torus(3, 3));
    assert_eq!(build(&apart), Build { parts: 2, handles: 1, ..plain });
    let hub = shapes::merged(&apart, 0, 8);
    assert_eq!(build(&hub), Build { parts: 2, handles: 1, pinched: 1, ..plain });
    assert_eq!(build(&shapes::with_spares(&hub, 3)), Build { spare: 3, ..build(&hub) });
}

#[test]
fn too_few_cases_are_no_difference() {
    let mut tally = Tally::default();
    let too_few = |tally: &Tally, often| {
        commands::demand(tally, [8, 9], often).map_err(|failure| {
            assert_eq!(failure.status(), 3);
            failure.to_string()
        })
    };
    let each = "N is too small to meet each number";
    assert_eq!(too_few(&tally, 1), Err(format!("{each}: 8 was not met, 9 was not met")));
    let case = Case::new(Function::CheckClosed, with_faces(&[vec![0, 1, 2]]));
    for _ in 0..2 {
        tally.count(&case, answer(&case).outcome);
    }
    assert_eq!(too_few(&tally, 1), Err(format!("{each}: 8 was not met")));
    assert_eq!(commands::demand(&tally, [9], 2), Ok(()));
    assert_eq!(
        too_few(&tally, 3),
        Err(format!("{each} 3 times: 8 was not met, 9 was met 2 times"))
    );
    assert_eq!(Failure::from("a difference").status(), 1);
}
