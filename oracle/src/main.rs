//! The oracle: the Rust text, and a second reading of document 01, against the programs `replay` and `rerun`.
mod agreement;
mod answer;
mod arithmetic;
mod calls;
mod case;
mod chains;
mod commands;
mod compare_runs;
mod coordinates;
mod damage;
mod extra;
mod failure;
mod files;
mod genus;
mod kept;
mod large;
mod list;
mod made_files;
mod mesh;
mod meshes;
mod numbers;
mod operator;
mod panel;
mod random;
mod recipe;
mod replay;
mod report_cases;
mod run_answer;
mod runs;
mod rust_side;
mod shapes;
mod shells;
mod shipped;
mod show;
mod table;
mod tally;

#[cfg(test)]
mod outside_tests;
#[cfg(test)]
mod shipped_tests;
#[cfg(test)]
mod tests;

const USAGE: &str = "commands: list [CODE ..], numbers [N], checks [N], operators [N], chains [N],
  lists [N], recipes [N], files [N], large,
  case FILE, answer, report FILE, shells, self [N]";

fn main() {
    let arguments: Vec<String> = std::env::args().skip(1).collect();
    if let Err(failure) = rust_side::with_threads(|| run(&arguments)) {
        eprintln!("oracle: {failure}");
        std::process::exit(failure.status());
    }
}

fn run(arguments: &[String]) -> commands::Done {
    let (name, rest) = arguments.split_first().ok_or(USAGE)?;
    let count = |default: usize| match rest.first() {
        Some(count) => count.parse().map_err(|_| format!("not a count: {count}")),
        None => Ok(default),
    };
    match name.as_str() {
        "list" => commands::write_lists(rest),
        "numbers" => commands::compare_numbers(count(1_000_000)?),
        "checks" => commands::compare_checks(count(200_000)?),
        "operators" => commands::compare_operators(count(50_000)?),
        "chains" => chains::compare(count(10_000)?),
        "lists" => compare_runs::lists(count(20_000)?),
        "recipes" => compare_runs::recipes(count(20_000)?),
        "files" => files::compare(count(100_000)?),
        "large" => large::compare(),
        "self" => agreement::all(count(2_000)?),
        "case" => commands::show_cases(rest.first()),
        "answer" => commands::answer_stream(),
        "report" => commands::report_file(rest.first()),
        "shells" => shipped::write_all(),
        _ => Err(USAGE.into()),
    }
}
