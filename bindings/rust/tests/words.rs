//! The words for the numbers are one: in the header's table, in its `cg_meaning`, in the docs of `Refusal` and in `when`.
use crossglimmer::{Mesh, Refusal};
use std::collections::BTreeMap;

const HEADER: &str = include_str!("../../../include/crossglimmer.h");
const FRONT: &str = include_str!("../src/lib.rs");
const REFUSAL: &str = include_str!("../src/refusal.rs");

/// When and place, by number.
type Table = BTreeMap<u32, (String, String)>;

fn refusal(number: u32) -> Refusal {
    Refusal { number, place: 0, step: 0 }
}

/// The cells of the table in the header's first comment: columns as wide as its heading, some cells over two lines.
fn header_table() -> Table {
    let mut lines = HEADER.lines().skip_while(|line| !line.starts_with(" *   number  when"));
    let heading = lines.next().expect("the heading of the table");
    let [when_at, place_at] = ["when", "place"].map(|name| heading.find(name).expect("a column"));
    let mut table = Table::new();
    let mut last = 0;
    for line in lines.take_while(|line| line.len() > when_at) {
        let cell = |from: usize, to: usize| line.get(from..to.min(line.len())).unwrap_or("").trim();
        let number = cell(2, when_at);
        if number.is_empty() {
            let (when, place) = table.get_mut(&last).expect("a row above");
            *place = format!("{place} {}", cell(place_at, usize::MAX));
            assert_eq!(cell(when_at, place_at), "", "{when}");
        } else {
            last = number.parse().expect("a number");
            table.insert(last, (cell(when_at, place_at).to_string(), cell(place_at, usize::MAX).to_string()));
        }
    }
    table
}

/// The rows of the table in the docs.
fn docs_table() -> Table {
    let rows = REFUSAL.lines().filter_map(|line| line.strip_prefix("/// | ")?.strip_suffix(" |"));
    let cells = rows.map(|row| row.split(" | ").collect::<Vec<_>>());
    let numbered = cells.filter_map(|cells| Some((cells[0].parse().ok()?, cells)));
    numbered.map(|(number, cells)| (number, (cells[1].to_string(), cells[2].to_string()))).collect()
}

/// The cases of `cg_meaning`, one a line.
fn header_cases() -> BTreeMap<u32, String> {
    let case = |line: &str| {
        let (number, words) = line.strip_prefix("    case ")?.strip_suffix("\";")?.split_once(": return \"")?;
        Some((number.parse().ok()?, words.to_string()))
    };
    HEADER.lines().filter_map(case).collect()
}

#[test]
fn one_table() {
    let table = header_table();
    assert!(table.keys().copied().eq(1..=18));
    assert_eq!(docs_table(), table);
    let cases = header_cases();
    assert!(cases.keys().copied().eq(0..=18));
    assert_eq!(cases[&0], "done");
    for (number, (when, _)) in &table {
        assert_eq!((when, when.as_str()), (&cases[number], refusal(*number).when()));
    }
    let other = format!("    default: return \"{}\";\n", refusal(19).when());
    assert!(HEADER.contains(&other));
    assert!([0, 19, u32::MAX].iter().all(|number| refusal(*number).when() == "not a number of the table"));
}

/// `?` in `main` prints what `Debug` says.
#[test]
fn debug_is_display() {
    for number in 0..=19 {
        for step in [0, 3] {
            let refusal = Refusal { number, place: 2, step };
            assert_eq!(format!("{refusal:?}"), refusal.to_string());
            assert_eq!(format!("{refusal:#?}"), refusal.to_string());
        }
    }
    let main = || -> Result<(), Refusal> {
        Mesh::new(&[[0, 1, 2]], &[[0.0; 3]; 3]).dual()?;
        Ok(())
    };
    assert_eq!(format!("{:?}", main()), "Err(9 at 0: edge from corner 0 has no reverse)");
}

/// The text of a comment, its lines joined.
fn joined(text: &str, mark: &str) -> String {
    let lines = text.lines().map_while(|line| line.strip_prefix(mark));
    lines.flat_map(str::split_whitespace).collect::<Vec<_>>().join(" ")
}

/// Which way faces run is said at the front of both.
#[test]
fn one_sentence() {
    let sentence =
        "Faces run clockwise seen from outside, and a height above 0 then goes out; data from OFF, OBJ or STL \
        files run counter-clockwise as a rule: `reverse` them before, and `reverse` the result after.";
    let comment = HEADER.split_once("\n").map_or("", |(_, rest)| rest);
    assert!(joined(comment, " *").contains(sentence));
    assert!(joined(FRONT, "//!").contains(sentence));
}
