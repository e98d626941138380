//! Every number of the table as an error value, through the methods of a mesh and through lent slices.
use crossglimmer::{slices, Lent, List, ListMasks, Masks, Mesh, Panel, Refusal, Row, Step, Work};

type Operator = fn(&Mesh) -> Result<Mesh, Refusal>;

const OPERATORS: [(&str, Operator); 11] = [
    ("reverse", |mesh| mesh.reverse()),
    ("reflect", |mesh| mesh.reflect()),
    ("triangulate", |mesh| mesh.triangulate(true)),
    ("kis", |mesh| mesh.kis(None, Masks::default())),
    ("chamfer", |mesh| mesh.chamfer(None)),
    ("gyro", |mesh| mesh.gyro(None, None)),
    ("propellor", |mesh| mesh.propellor(None)),
    ("whirl", |mesh| mesh.whirl(None, None)),
    ("quinto", |mesh| mesh.quinto(None)),
    ("ambo", |mesh| mesh.ambo(None)),
    ("dual", |mesh| mesh.dual()),
];
/// The first three skip 8 to 11, the last two have 10 and 11.
const OPEN: usize = 3;
const CLOSED: usize = 9;

fn changed(change: impl Fn(&mut Mesh)) -> Mesh {
    let mut mesh = Mesh::tetrahedron();
    change(&mut mesh);
    mesh
}

fn refused_from(first: usize, mesh: &Mesh, number: u32, place: u32) {
    for (name, operator) in &OPERATORS[first..] {
        assert_eq!(operator(mesh), Err(Refusal { number, place, step: 0 }), "{name}");
    }
}

#[test]
fn shape_and_limits() {
    refused_from(0, &changed(|mesh| mesh.offsets.clear()), 1, 0);
    refused_from(0, &changed(|mesh| mesh.offsets[1] = u32::MAX), 1, 0);
    refused_from(0, &changed(|mesh| mesh.coords.truncate(11)), 1, 1);
    refused_from(0, &Mesh { offsets: vec![0; 60_002], ..Mesh::default() }, 2, 0);
    refused_from(0, &Mesh { offsets: vec![0, 60_001], corners: vec![0; 60_001], coords: vec![] }, 2, 1);
    refused_from(0, &Mesh { coords: vec![0.0; 180_003], ..Mesh::default() }, 2, 2);
}

#[test]
fn faces() {
    refused_from(0, &changed(|mesh| mesh.coords[5] = f32::NAN), 4, 5);
    refused_from(0, &changed(|mesh| mesh.offsets[3] = 11), 5, 3);
    refused_from(0, &changed(|mesh| mesh.corners[7] = u32::MAX), 6, 7);
    refused_from(0, &changed(|mesh| mesh.corners[7] = 0), 7, 2);
}

#[test]
fn edges_and_fans() {
    let triangle = [[0, 1, 2]];
    let points = [[1.0, 1.0, 1.0], [-1.0, 1.0, -1.0], [1.0, -1.0, -1.0]];
    refused_from(OPEN, &Mesh::new(&[triangle[0], triangle[0]], &points), 8, 3);
    refused_from(OPEN, &Mesh::new(&triangle, &points), 9, 0);
    refused_from(CLOSED, &pillow(), 10, 0);
    refused_from(CLOSED, &pinched(), 11, 0);
}

#[test]
fn numbers() {
    let mesh = Mesh::tetrahedron();
    for loose in [f32::NAN, f32::INFINITY, f32::NEG_INFINITY] {
        let (ratio, height) = (Some(loose), Some(loose));
        let by_ratio = [
            mesh.ambo(ratio),
            mesh.chamfer(ratio),
            mesh.gyro(ratio, height),
            mesh.propellor(ratio),
            mesh.whirl(ratio, None),
        ];
        let by_height = [
            mesh.gyro(None, height),
            mesh.kis(height, Masks::default()),
            mesh.quinto(height),
            mesh.whirl(None, height),
        ];
        assert!(by_ratio.iter().all(|made| *made == Err(Refusal { number: 3, place: 0, step: 0 })));
        assert!(by_height.iter().all(|made| *made == Err(Refusal { number: 3, place: 1, step: 0 })));
    }
}

#[test]
fn results() {
    let spares = changed(|mesh| mesh.coords.resize(180_000, 0.0));
    for (name, operator) in &OPERATORS[OPEN..CLOSED] {
        assert_eq!(operator(&spares), Err(Refusal { number: 12, place: 2, step: 0 }), "{name}");
    }
    let fans = Mesh::new(&vec![(0..60).collect::<Vec<u32>>(); 400], &[[1.0; 3]; 60]);
    assert_eq!(fans.triangulate(false), Err(Refusal { number: 12, place: 1, step: 0 }));
    let huge = changed(|mesh| mesh.coords.fill(f32::MAX));
    let refusal = huge.dual().unwrap_err();
    assert_eq!(refusal.to_string(), "14 at 0: coordinate 0 of the result is not finite");
}

#[test]
fn room() {
    let mesh = Mesh::tetrahedron();
    for (lengths, place) in [([4, 12, 12], 0), ([5, 11, 12], 1), ([5, 12, 11], 2)] {
        let (mut offsets, mut corners, mut coords) = (vec![7; lengths[0]], vec![7; lengths[1]], vec![7.0; lengths[2]]);
        let out = Lent { offsets: &mut offsets, corners: &mut corners, coords: &mut coords };
        assert_eq!(slices::dual(mesh.read(), out), Err(Refusal { number: 13, place, step: 0 }));
        assert!(
            offsets.iter().chain(&corners).all(|number| *number == 7) && coords.iter().all(|number| *number == 7.0)
        );
    }
    assert_eq!(slices::edges(mesh.read(), &mut [[0; 2]; 5]), Err(Refusal { number: 13, place: 0, step: 0 }));
}

type Named = fn(&Mesh, Option<f32>, Option<f32>, ListMasks) -> Result<Mesh, Refusal>;

/// With the first step that takes the ratio and the first that takes the height, or 0.
const LISTS: [(List, Named, u32, u32); 10] = [
    (List::Bevel, |mesh, ratio, height, masks| mesh.bevel(ratio, height, masks), 1, 3),
    (List::Expand, |mesh, ratio, _, _| mesh.expand(ratio), 1, 0),
    (List::Join, |mesh, ratio, _, _| mesh.join(ratio), 2, 0),
    (List::Medial, |mesh, ratio, height, masks| mesh.medial(ratio, height, masks), 1, 3),
    (List::Meta, |mesh, ratio, height, masks| mesh.meta(ratio, height, masks), 2, 4),
    (List::Needle, |mesh, _, height, masks| mesh.needle(height, masks), 0, 2),
    (List::Ortho, |mesh, ratio, _, _| mesh.ortho(ratio), 2, 0),
    (List::Snub, |mesh, ratio, height, _| mesh.snub(ratio, height), 2, 2),
    (List::Truncate, |mesh, _, height, masks| mesh.truncate(height, masks), 0, 2),
    (List::Zip, |mesh, _, height, masks| mesh.zip(height, masks), 0, 1),
];

fn pillow() -> Mesh {
    Mesh::new(&[[0, 1, 2], [0, 2, 1]], &[[1.0, 1.0, 1.0], [-1.0, 1.0, -1.0], [1.0, -1.0, -1.0]])
}

/// Two tetrahedra that share vertex 0.
fn pinched() -> Mesh {
    changed(|mesh| {
        mesh.corners.extend([0, 4, 5, 0, 6, 4, 0, 5, 6, 4, 6, 5]);
        mesh.offsets.extend([15, 18, 21, 24]);
        mesh.coords.extend([-2.0, 2.0, -2.0, 2.0, -2.0, -2.0, -2.0, -2.0, 2.0]);
    })
}

/// Meshes that dual refuses, each with number and place.
fn faults() -> Vec<(Mesh, u32, u32)> {
    vec![
        (changed(|mesh| mesh.offsets.clear()), 1, 0),
        (changed(|mesh| mesh.coords.truncate(11)), 1, 1),
        (Mesh { offsets: vec![0; 60_002], ..Mesh::default() }, 2, 0),
        (Mesh { offsets: vec![0, 60_001], corners: vec![0; 60_001], coords: vec![] }, 2, 1),
        (Mesh { coords: vec![0.0; 180_003], ..Mesh::default() }, 2, 2),
        (changed(|mesh| mesh.coords[5] = f32::NAN), 4, 5),
        (changed(|mesh| mesh.offsets[3] = 11), 5, 3),
        (changed(|mesh| mesh.corners[7] = u32::MAX), 6, 7),
        (changed(|mesh| mesh.corners[7] = 0), 7, 2),
        (Mesh::new(&[[0, 1, 2], [0, 1, 2]], &[[1.0; 3]; 3]), 8, 3),
        (Mesh::new(&[[0, 1, 2]], &[[1.0; 3]; 3]), 9, 0),
        (pillow(), 10, 0),
        (pinched(), 11, 0),
    ]
}

#[test]
fn lists() {
    let (mesh, masks) = (Mesh::tetrahedron(), ListMasks::default());
    for (list, call, ratio, height) in LISTS {
        for (mesh, number, place) in faults().iter().filter(|fault| list != List::Zip || fault.1 < 10) {
            let refusal = Refusal { number: *number, place: *place, step: 1 };
            assert_eq!(call(mesh, None, None, masks), Err(refusal), "{list:?}");
        }
        let by_ratio = call(&mesh, Some(f32::INFINITY), None, masks);
        let by_height = call(&mesh, None, Some(f32::NAN), masks);
        assert_eq!(by_ratio.err(), (ratio > 0).then_some(Refusal { number: 3, place: 0, step: ratio }), "{list:?}");
        assert_eq!(by_height.err(), (height > 0).then_some(Refusal { number: 3, place: 1, step: height }), "{list:?}");
    }
    assert_eq!(pinched().zip(None, masks), Err(Refusal { number: 11, place: 0, step: 2 }));
    let none = ListMasks { arities: Some(&[]), regular: false };
    assert_eq!(pillow().zip(None, none), Err(Refusal { number: 10, place: 0, step: 2 }));
    let spares = changed(|mesh| mesh.coords.resize(180_000, 0.0));
    assert_eq!(spares.zip(None, masks), Err(Refusal { number: 12, place: 2, step: 1 }));
    let huge = changed(|mesh| mesh.coords.fill(f32::MAX));
    assert_eq!(huge.bevel(None, None, masks), Err(Refusal { number: 14, place: 0, step: 2 }));
}

/// A list is its operators one after the other.
fn lists_are_steps(mesh: &Mesh) {
    let (t, h) = (Some(0.25), Some(0.5));
    let masks = ListMasks { arities: Some(&[3, 4]), regular: false };
    let kis = |mesh: Mesh| mesh.kis(h, Masks { arities: Some(&[3, 4]), numbers: None, regular: false });
    let join = |mesh: &Mesh| mesh.dual()?.ambo(t)?.dual();
    let bevel = || kis(mesh.ambo(t)?.dual()?)?.dual();
    assert_eq!(mesh.bevel(t, h, masks), bevel());
    assert_eq!(mesh.expand(t), mesh.ambo(t).and_then(|mesh| mesh.ambo(t)));
    assert_eq!(mesh.join(t), join(mesh));
    assert_eq!(mesh.medial(t, h, masks), bevel().and_then(|mesh| mesh.dual()));
    assert_eq!(mesh.meta(t, h, masks), join(mesh).and_then(kis));
    assert_eq!(mesh.needle(h, masks), mesh.truncate(h, masks).and_then(|mesh| mesh.dual()));
    assert_eq!(mesh.ortho(t), join(mesh).and_then(|mesh| join(&mesh)));
    assert_eq!(mesh.snub(t, h), mesh.dual().and_then(|mesh| mesh.gyro(t, h)).and_then(|mesh| mesh.dual()));
    assert_eq!(mesh.truncate(h, masks), mesh.dual().and_then(kis).and_then(|mesh| mesh.dual()));
    assert_eq!(mesh.zip(h, masks), kis(mesh.clone()).and_then(|mesh| mesh.dual()));
}

#[test]
fn lists_done() {
    let mesh = Mesh::tetrahedron();
    lists_are_steps(&mesh);
    lists_are_steps(&Mesh::default());
    for made in [mesh.dual(), mesh.ambo(None), mesh.kis(None, Masks::default()), mesh.gyro(None, None)] {
        lists_are_steps(&made.unwrap());
    }
}

const STEPS: [Step; 11] = [
    Step::Ambo(Some(0.25)),
    Step::Chamfer(None),
    Step::Dual,
    Step::Gyro(None, Some(-0.0)),
    Step::Kis(Some(0.5)),
    Step::Propellor(None),
    Step::Quinto(Some(0.75)),
    Step::Reflect,
    Step::Reverse,
    Step::Whirl(Some(0.5), Some(0.5)),
    Step::Triangulate,
];

#[test]
fn recipes() {
    let mesh = Mesh::tetrahedron();
    for (step, code) in STEPS.into_iter().zip(1..) {
        let (rows, made) = mesh.recipe(&[Step::Reverse, step]);
        let counts = made.map(|made| (made.positions(), made.edge_count(), made.face_count()));
        assert_eq!((rows.len(), rows[1].code), (2, code));
        assert_eq!(counts, Ok((rows[1].positions as usize, rows[1].edges as usize, rows[1].faces as usize)));
    }
    assert_eq!(mesh.recipe(&[]), (vec![], Ok(mesh.clone())));
    assert_eq!(mesh.recipe(&[Step::Dual; 17]), (vec![], Err(Refusal { number: 2, place: 3, step: 0 })));
    for (mesh, number, place) in faults() {
        let turned = Row { code: 9, positions: mesh.positions() as u32, edges: mesh.edge_count() as u32, faces: 0 };
        let (rows, made) = mesh.recipe(&[Step::Reverse, Step::Dual, Step::Dual]);
        assert_eq!(made, Err(Refusal { number, place, step: if number < 8 { 1 } else { 2 } }));
        let finished = if number < 8 { vec![] } else { vec![Row { faces: mesh.face_count() as u32, ..turned }] };
        assert_eq!(rows, finished);
    }
    let wild = [Step::Dual, Step::Whirl(None, Some(f32::INFINITY))];
    assert_eq!(mesh.recipe(&wild).1, Err(Refusal { number: 3, place: 1, step: 2 }));
    let spares = changed(|mesh| mesh.coords.resize(179_970, 0.0));
    assert_eq!(spares.recipe(&[Step::Kis(None); 2]).1, Err(Refusal { number: 12, place: 2, step: 2 }));
    let huge = changed(|mesh| mesh.coords.fill(f32::MAX));
    assert_eq!(huge.recipe(&[Step::Reflect, Step::Dual]).1, Err(Refusal { number: 14, place: 0, step: 2 }));
}

/// Work meshes read zero and the result's room stays, whatever was too short.
#[test]
fn lent_rooms() {
    let mesh = Mesh::tetrahedron();
    let steps = [Step::Dual, Step::Ambo(None), Step::Dual].map(Step::words);
    let cases: [(usize, [usize; 3], u32, u32); 6] = [
        (0, [4, 12, 12], 0, 1),
        (0, [5, 11, 12], 1, 1),
        (0, [5, 12, 11], 2, 1),
        (1, [9, 23, 18], 1, 2),
        (2, [6, 24, 24], 0, 3),
        (2, [7, 24, 23], 2, 3),
    ];
    for (which, sizes, place, step) in cases {
        let mut rooms = [[100; 3]; 3];
        rooms[which] = sizes;
        let made = |[o, c, x]: [usize; 3]| Mesh { offsets: vec![7; o], corners: vec![7; c], coords: vec![7.0; x] };
        for recipe in [false, true] {
            let [mut first, mut second, mut out] = rooms.map(made);
            let work = Work { first: lent(&mut first), second: lent(&mut second) };
            let mut ledger = [7; 12];
            let answer = if recipe {
                slices::recipe(&steps, &mut ledger, mesh.read(), work, lent(&mut out))
            } else {
                slices::list(List::Join, mesh.read(), None, None, ListMasks::default(), work, lent(&mut out))
            };
            assert_eq!(answer, Err(Refusal { number: 13, place, step }));
            assert_eq!(out, made(rooms[2]));
            assert!([&first, &second].iter().all(|mesh| zero(mesh)));
            let finished = if recipe { 4 * (step as usize - 1) } else { 0 };
            assert!(ledger[finished..].iter().all(|number| *number == 7));
        }
    }
}

fn lent(mesh: &mut Mesh) -> Lent<'_> {
    Lent { offsets: &mut mesh.offsets, corners: &mut mesh.corners, coords: &mut mesh.coords }
}

fn zero(mesh: &Mesh) -> bool {
    mesh.offsets.iter().chain(&mesh.corners).all(|number| *number == 0)
        && mesh.coords.iter().all(|number| *number == 0.0)
}

/// Words that are no step.
const UNKNOWN: [[u32; 4]; 7] =
    [[0, 0, 0, 0], [12, 0, 0, 0], [4, 4, 0, 0], [3, 1, 0, 0], [1, 2, 0, 0], [1, 0, 1, 0], [7, 2, 0x8000_0000, 0]];

#[test]
fn early() {
    let mesh = Mesh::tetrahedron();
    let refused = |steps: &[[u32; 4]], numbers: usize, number, place| {
        let [mut first, mut second, mut out] = [(); 3].map(|_| mesh.clone());
        let mut ledger = vec![7; numbers];
        let work = Work { first: lent(&mut first), second: lent(&mut second) };
        let answer = slices::recipe(steps, &mut ledger, mesh.read(), work, lent(&mut out));
        assert_eq!(answer, Err(Refusal { number, place, step: 0 }));
        assert!(out == mesh && zero(&first) && zero(&second) && ledger.iter().all(|number| *number == 7));
    };
    let dual = Step::Dual.words();
    refused(&[dual; 17], 68, 2, 3);
    refused(&[dual; 2], 7, 13, 3);
    for words in UNKNOWN {
        assert_eq!(Step::from_words(words), None);
        refused(&[dual, words, dual], 0, 17, 16);
    }
}

#[test]
fn files() {
    let panel = Panel { steps: STEPS.to_vec(), mesh: Mesh::tetrahedron() };
    let file = panel.write().unwrap();
    assert_eq!(Panel::read(&file), Ok(panel.clone()));
    for length in 0..file.len() {
        let refusal = Panel::read(&file[..length]).unwrap_err();
        assert!(refusal.number == 15 && refusal.step == 0 && refusal.place as usize <= length);
    }
    assert_eq!(Panel::read(&file[..21]), Err(Refusal { number: 15, place: 20, step: 0 }));
    let read = |at: usize, word: u32| {
        let mut other = file.clone();
        other[at..at + 4].copy_from_slice(&word.to_le_bytes());
        Panel::read(&other).map_err(|refusal| (refusal.number, refusal.place)).err()
    };
    assert_eq!(read(0, 17), Some((16, 0)));
    assert_eq!(read(180, 401), Some((16, 180)));
    assert_eq!(read(232, u32::MAX), Some((16, 232)));
    assert_eq!(read(236, 1201), Some((16, 236)));
    assert_eq!(read(20, 12), Some((17, 20)));
    assert_eq!(read(232, 3), Some((18, 284)));
}

#[test]
fn files_refused() {
    let refused = |mesh: Mesh, number, place| {
        let panel = Panel { steps: vec![Step::Dual; 16], mesh };
        assert_eq!(panel.write(), Err(Refusal { number, place, step: 0 }));
    };
    refused(changed(|mesh| mesh.offsets.clear()), 1, 0);
    refused(changed(|mesh| mesh.coords.truncate(11)), 1, 1);
    refused(Mesh::new(&[[0; 2]; 401], &[]), 2, 0);
    refused(Mesh::new(&[[0; 1201]], &[]), 2, 1);
    refused(changed(|mesh| mesh.coords.resize(1203, 0.0)), 2, 2);
    let (mesh, dual) = (Mesh::tetrahedron(), Step::Dual.words());
    let mut out = [7; 140];
    let short = slices::panel_write(&[dual], mesh.read(), &mut out[..139]);
    assert_eq!(short, Err(Refusal { number: 13, place: 0, step: 0 }));
    for words in UNKNOWN {
        let unknown = slices::panel_write(&[dual, words], mesh.read(), &mut out);
        assert_eq!(unknown, Err(Refusal { number: 17, place: 16, step: 0 }));
    }
    assert_eq!(out, [7; 140]);
    assert_eq!(slices::panel_write(&[dual], mesh.read(), &mut out), Ok(140));
    let mut steps = [[7; 4]; 1];
    let none = slices::panel_steps(&out, &mut steps[..0]);
    assert_eq!(none, Err(Refusal { number: 13, place: 3, step: 0 }));
    for (sizes, place) in [([4, 12, 12], 0), ([5, 11, 12], 1), ([5, 12, 11], 2)] {
        let [o, c, x] = sizes;
        let mut room = Mesh { offsets: vec![7; o], corners: vec![7; c], coords: vec![7.0; x] };
        let kept = room.clone();
        let read = slices::panel_read(&out, lent(&mut room));
        assert_eq!((read, room), (Err(Refusal { number: 13, place, step: 0 }), kept));
    }
}

#[test]
fn empty() {
    let empty = Mesh::default();
    for (name, operator) in OPERATORS {
        assert_eq!(operator(&empty).as_ref(), Ok(&empty), "{name}");
    }
    assert_eq!(empty.edges(), Ok(vec![]));
}

#[test]
fn every_number_has_words() {
    let words: Vec<String> = (1..=18).map(|number| Refusal { number, place: 1, step: 0 }.meaning()).collect();
    assert!(words.iter().all(|text| !text.contains("not in the table")));
    assert_eq!(Refusal { number: 9, place: 17, step: 0 }.meaning(), "edge from corner 17 has no reverse");
}
