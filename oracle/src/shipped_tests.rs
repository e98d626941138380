//! What the gate shows `report`: every number, every count of steps and every kind of line, as it stands in crates/.
use crate::panel;
use crate::shipped;
use std::collections::{BTreeMap, BTreeSet};
use std::path::{Path, PathBuf};

/// A line of a report, taken apart.
#[derive(Clone, Copy)]
enum Line {
    /// Code, X and H.
    Done([i64; 3]),
    /// Step, number and place.
    Refused([i64; 3]),
    /// Number and place.
    File([i64; 2]),
}

fn line(text: &str) -> Line {
    let fields: Vec<&str> = text.split(' ').collect();
    let number = |index: usize| fields[index].parse().expect("a number");
    match fields[..] {
        ["file", _, _] => Line::File([number(1), number(2)]),
        [_, "refused", _, _] => Line::Refused([number(0), number(2), number(3)]),
        [_, _, _, _, _, _, _] => Line::Done([number(1), number(5), number(6)]),
        _ => panic!("a line of another kind: {text}"),
    }
}

fn crates() -> PathBuf {
    Path::new(env!("CARGO_MANIFEST_DIR")).join("../crates")
}

/// What the gate holds `report` to: the lines under each file's name.
fn reports() -> BTreeMap<String, Vec<Line>> {
    let text = std::fs::read_to_string(crates().join("report/stdout")).expect("a text");
    let (mut reports, mut name) = (BTreeMap::new(), String::new());
    for text in text.lines() {
        if let Some(file) = text.strip_suffix(".panel") {
            name = file.to_string();
            reports.insert(name.clone(), Vec::new());
        } else {
            reports.get_mut(&name).expect("a name before it").push(line(text));
        }
    }
    reports
}

fn set<T: Ord>(items: impl IntoIterator<Item = T>) -> BTreeSet<T> {
    items.into_iter().collect()
}

/// What is wanted of the lines of all reports.
fn of_lines<T: Ord>(of: impl Fn(Line) -> Option<T>) -> BTreeSet<T> {
    set(reports().into_values().flatten().filter_map(of))
}

#[test]
fn every_refusal_is_met() {
    let file = of_lines(|line| match line {
        Line::File([number, _]) => Some(number),
        _ => None,
    });
    assert_eq!(file, set(15..=18));
    let refused = |steps: std::ops::RangeInclusive<i64>| {
        of_lines(|line| match line {
            Line::Refused([step, number, _]) if steps.contains(&step) => Some(number),
            _ => None,
        })
    };
    assert_eq!(refused(0..=0), set([4, 5, 6, 7]));
    assert_eq!(refused(1..=16), set([3, 4, 5, 6, 7, 8, 9, 10, 11, 12, 14]));
    assert!(!refused(16..=16).is_empty());
    // Ratio and height; faces and corners.
    let places = of_lines(|line| match line {
        Line::Refused([_, number @ (3 | 12), place]) => Some((number, place)),
        _ => None,
    });
    assert_eq!(places, set([(3, 0), (3, 1), (12, 0), (12, 1)]));
}

#[test]
fn every_code_and_sign_is_met() {
    let done = |of: fn([i64; 3]) -> i64| {
        of_lines(|line| match line {
            Line::Done(fields) => Some(of(fields)),
            _ => None,
        })
    };
    assert_eq!(done(|[code, _, _]| code), set(1..=11));
    assert!(done(|[_, x, _]| x).is_superset(&set(-2..=5)));
    assert!(done(|[_, _, handles]| handles).is_superset(&set(-1..=2)));
}

#[test]
fn every_count_of_steps_is_met() {
    let reports = reports();
    let all_done = |(name, bytes): shipped::Shipped| {
        let steps = panel::read(&bytes).ok()?.steps.len();
        let done = reports[&name].iter().filter(|line| matches!(line, Line::Done(_))).count();
        (done == steps && reports[&name].len() == steps).then_some(steps)
    };
    assert_eq!(set(shipped::panel_files().into_iter().filter_map(all_done)), set(0..=16));
}

#[test]
fn the_shortest_and_the_longest_are_met() {
    let (files, reports) = (shipped::panel_files(), reports());
    let report = |length: usize| {
        let (name, _) = files.iter().find(|(_, bytes)| bytes.len() == length).expect("a file");
        &reports[name][..]
    };
    assert!(matches!(report(0), [Line::File([15, 0])]));
    assert_eq!(report(11_468).len(), 16);
    assert!(matches!(report(11_469), [Line::File([18, 11_468])]));
}

/// The files under a folder.
fn under(folder: &Path) -> Vec<PathBuf> {
    let entries = std::fs::read_dir(folder).expect("a folder");
    let paths = entries.map(|entry| entry.expect("an entry").path());
    paths.flat_map(|path| if path.is_dir() { under(&path) } else { vec![path] }).collect()
}

/// `oracle/run shells` gives just what is there.
#[test]
fn the_crates_have_what_is_shipped() {
    let shipped = shipped::all();
    for (path, bytes) in &shipped {
        assert!(std::fs::read(crates().join(path)).ok().as_ref() == Some(bytes), "{path}");
    }
    let made = set(shipped.iter().map(|(path, _)| crates().join(path)));
    for path in under(&crates().join("report/data")) {
        assert!(path.ends_with("README.md") || made.contains(&path), "{path:?} is not made");
    }
}
