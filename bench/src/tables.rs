//! The tables, as they stand in docs/BENCHMARKS.md.
use crate::geodesic;
use crate::mesh::Mesh;
use crate::operators::{Operation, LISTS, OPERATORS};
use crate::shapes;
use crate::sides::{measure, read, time_and_stack, Rooms, Times};
use crossglimmer::{slices, Step};

/// The parts of the page, which may be made side by side.
pub const PARTS: [(&str, fn()); 5] = [
    ("operators", operators),
    ("lists", lists),
    ("operators-elsewhere", operators_elsewhere),
    ("lists-elsewhere", lists_elsewhere),
    ("rest", rest),
];

fn operators() {
    println!("### Operators on torus grids, three sizes\n");
    let rows = tori(&OPERATORS);
    println!("\n### Reverse and reflect by hand, in the same runs\n");
    flips(&rows);
}

fn lists() {
    println!("### Lists on torus grids, three sizes\n");
    tori(&LISTS);
}

fn seconds(time: f64) -> String {
    match time {
        time if time >= 0.1 => format!("{time:.2} s"),
        time if time >= 0.000_1 => format!("{:.2} ms", 1e3 * time),
        _ => format!("{:.1} µs", 1e6 * time),
    }
}

fn ratio(a: f64, b: f64) -> String {
    match a / b {
        ratio if ratio >= 10.0 => format!("{ratio:.0}"),
        ratio => format!("{ratio:.2}"),
    }
}

const COLUMNS: [&str; 11] = [
    "corners in",
    "library",
    "Rust in place",
    "Rust, input kept",
    "C by hand",
    "in place / library",
    "kept / library",
    "library / C",
    "stack",
    "result",
    "input",
];

/// The names of the columns, with others before and after them, and the line under them.
fn head(before: &[&str], after: &[&str]) {
    let names: Vec<&str> = before.iter().chain(&COLUMNS).chain(after).copied().collect();
    println!("| {} |\n|{}", names.join(" | "), "---|".repeat(names.len()));
}

fn columns(mesh: &Mesh, times: &Times) -> String {
    let hand = |text: &dyn Fn(f64) -> String| times.hand.map_or("-".to_string(), text);
    let input = 4 * (mesh.offsets.len() + mesh.corners.len() + mesh.coordinates.len());
    [
        mesh.corners.len().to_string(),
        seconds(times.library),
        seconds(times.text),
        seconds(times.kept),
        hand(&|hand| seconds(hand)),
        ratio(times.text, times.library),
        ratio(times.kept, times.library),
        hand(&|hand| ratio(times.library, hand)),
        format!("{} B", times.stack),
        format!("{} B", times.lent),
        format!("{input} B"),
    ]
    .join(" | ")
}

/// An operator on a mesh of so many corners.
type Row = (&'static str, usize, Times);

/// Three sizes of torus, each twice the one before.
fn tori(operations: &[Operation]) -> Vec<Row> {
    let mut rows = Vec::new();
    head(&["name"], &["grows: library", "grows: Rust"]);
    for operation in operations {
        let mut before: Option<Times> = None;
        for mesh in operation.tori() {
            let times = measure(operation, &mesh);
            let grows = |side: fn(&Times) -> f64| {
                before.as_ref().map_or("-".to_string(), |b| ratio(side(&times), side(b)))
            };
            let (ours, theirs) = (grows(|times| times.library), grows(|times| times.text));
            println!("| {} | {} | {ours} | {theirs} |", operation.name, columns(&mesh, &times));
            before = Some(times);
            rows.push((operation.name, mesh.corners.len(), times));
        }
    }
    rows
}

/// The operators that are written by hand with the checks too.
fn flips(rows: &[Row]) {
    println!(
        "| name | corners in | Rust in place | library | C by hand | C by hand with the checks |"
    );
    println!("|---|---|---|---|---|---|");
    for (name, corners, times) in rows {
        if let (Some(hand), Some(checked)) = (times.hand, times.checked) {
            let times = [times.text, times.library, hand, checked].map(seconds).join(" | ");
            println!("| {name} | {corners} | {times} |");
        }
    }
}

fn operators_elsewhere() {
    println!("### Operators on a geodesic sphere, and on a pyramid with one hub\n");
    elsewhere(&OPERATORS);
}

fn lists_elsewhere() {
    println!("### Lists on a geodesic sphere, and on a pyramid with one hub\n");
    elsewhere(&LISTS);
}

/// The largest sphere and the largest pyramid.
fn elsewhere(operations: &[Operation]) {
    head(&["name", "mesh"], &[]);
    for operation in operations {
        let sphere = geodesic::sphere(operation.frequency());
        let pyramid = shapes::pyramid(operation.sides());
        for (name, mesh) in [("sphere", sphere), ("pyramid", pyramid)] {
            let times = measure(operation, &mesh);
            println!("| {} | {name} | {} |", operation.name, columns(&mesh, &times));
        }
    }
}

/// What the Rust does not have.
fn rest() {
    checks();
    println!();
    recipes();
    println!();
    files();
}

fn checks() {
    println!("### The checks and the edge list alone, on torus grids\n");
    println!("| corners in | check | check_full | edges | stack of check_full |");
    println!("|---|---|---|---|---|");
    for across in [25, 50, 100] {
        let mesh = shapes::torus(across, 150);
        let mut pairs = vec![[0; 2]; mesh.corners.len() / 2];
        let (check, _) = time_and_stack(|| slices::check(read(&mesh)).expect("a good mesh"));
        let (full, stack) =
            time_and_stack(|| slices::check_full(read(&mesh)).expect("a good mesh"));
        let (edges, _) = time_and_stack(|| assert!(slices::edges(read(&mesh), &mut pairs).is_ok()));
        println!(
            "| {} | {} | {} | {} | {stack} B |",
            mesh.corners.len(),
            seconds(check),
            seconds(full),
            seconds(edges)
        );
    }
}

/// The last steps of these, on a tetrahedron; all sixteen give 30,240 corners.
const STEPS: [Step; 16] = [
    Step::Ambo(None),
    Step::Dual,
    Step::Reverse,
    Step::Reflect,
    Step::Triangulate,
    Step::Dual,
    Step::Dual,
    Step::Reverse,
    Step::Dual,
    Step::Dual,
    Step::Reverse,
    Step::Reflect,
    Step::Chamfer(None),
    Step::Quinto(None),
    Step::Gyro(None, None),
    Step::Whirl(None, None),
];

fn recipes() {
    println!("### Recipes on a tetrahedron, by the number of steps\n");
    println!("| steps | corners of the result | library | stack |\n|---|---|---|---|");
    let (mesh, mut rooms) = (shapes::tetrahedron(), Rooms::new());
    for steps in [1, 2, 4, 8, 16] {
        let words: Vec<[u32; 4]> =
            STEPS[STEPS.len() - steps..].iter().map(|step| step.words()).collect();
        let (mut ledger, mut edges) = (vec![0; 4 * steps], 0);
        let (time, stack) = time_and_stack(|| {
            let (work, out) = rooms.all();
            let made = slices::recipe(&words, &mut ledger, read(&mesh), work, out);
            edges = made.expect("a recipe that is accepted").edges;
        });
        println!("| {steps} | {} | {} | {stack} B |", 2 * edges, seconds(time));
    }
}

fn files() {
    println!("### The largest panel file: 16 steps, 400 positions, 400 faces, 1,200 corners\n");
    println!("| call | library | stack |\n|---|---|---|");
    let mesh = Mesh::new(&vec![vec![0, 1, 2]; 400], &vec![[0.5, 0.25, 1.0]; 400]);
    let (mut file, mut rooms) = (vec![0; 20_000], Rooms::new());
    let mut steps = STEPS.map(|step| step.words());
    let mut length = 0;
    let print = |call: &str, (time, stack): (f64, usize)| {
        println!("| {call} | {} | {stack} B |", seconds(time));
    };
    print(
        "written",
        time_and_stack(|| {
            length = slices::panel_write(&steps, read(&mesh), &mut file).expect("a file");
        }),
    );
    let file = &file[..length];
    print("mesh read", time_and_stack(|| assert!(slices::panel_read(file, rooms.out()).is_ok())));
    print("steps read", time_and_stack(|| assert!(slices::panel_steps(file, &mut steps).is_ok())));
}
