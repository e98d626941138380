//! What is shipped for the program `report`: its panel files, the arguments that name them and what it must print.
use crate::commands::{variable, Done};
use crate::panel;
use crate::report_cases;
use crate::shells;
use std::path::Path;

/// A file's name or path, and its bytes.
pub type Shipped = (String, Vec<u8>);

/// The cases stand in a folder of their own, beside the shells.
const CASES: &str = "cases/";

/// Writes all of it into the folder of crates.
pub fn write_all() -> Done {
    let crates = variable("LISTS")?;
    for (path, bytes) in all() {
        let to = Path::new(&crates).join(&path);
        std::fs::create_dir_all(to.parent().expect("in a folder"))?;
        println!("{path}: {} bytes", bytes.len());
        std::fs::write(to, bytes)?;
    }
    Ok(())
}

/// Of each shell NAME.panel and NAME.report, of each case the file alone; beside them the arguments
/// that name them all and what is then printed; and one file for standard input.
pub fn all() -> Vec<Shipped> {
    let (mut shipped, mut arguments, mut printed) = (Vec::new(), String::new(), String::new());
    for (name, bytes) in panel_files() {
        let report = panel::report(&bytes);
        arguments += &format!("{name}.panel\n");
        printed += &format!("{name}.panel\n{report}");
        shipped.push((format!("report/data/{name}.panel"), bytes));
        if !name.starts_with(CASES) {
            shipped.push((format!("report/data/{name}.report"), report.into_bytes()));
        }
    }
    shipped.push(("report/args".to_string(), arguments.into_bytes()));
    shipped.push(("report/stdout".to_string(), printed.into_bytes()));
    // The first shell, the tetrahedron.
    let (_, input) = shells::all().swap_remove(0);
    let report = panel::report(&input);
    shipped.push(("report_input/stdin".to_string(), input));
    shipped.push(("report_input/stdout".to_string(), report.into_bytes()));
    shipped
}

/// The shells, then the cases; `report` is given these names with `.panel`.
pub fn panel_files() -> Vec<Shipped> {
    let shells = shells::all().into_iter().map(|(name, bytes)| (name.to_string(), bytes));
    let cases = report_cases::all().into_iter();
    shells.chain(cases.map(|(name, bytes)| (format!("{CASES}{name}"), bytes))).collect()
}
