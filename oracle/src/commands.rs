//! What each command of the oracle does; a difference is an error, and so is a number that was not met.
use crate::answer::{answer, Outcome};
use crate::calls;
use crate::case::{read_stream, to_bytes, Case, Function, Program, COUNTS};
use crate::damage;
use crate::failure::Failure;
use crate::list;
use crate::mesh::Mesh;
use crate::numbers;
use crate::operator::OPERATORS;
use crate::panel;
use crate::random::Random;
use crate::replay::Comparison;
use crate::shapes;
use crate::show;
use crate::tally::Tally;
use std::io::{Read, Write};
use std::path::Path;

pub type Done = Result<(), Failure>;

/// Writes the fixed lists, of all codes or of those named.
pub fn write_lists(codes: &[String]) -> Done {
    let named: Result<Vec<u32>, String> =
        codes.iter().map(|code| code.parse().map_err(|_| format!("not a code: {code}"))).collect();
    let named = named?;
    if let Some(code) = named.iter().find(|code| Function::from_code(**code).is_none()) {
        return Err(format!("no function has code {code}").into());
    }
    for program in Program::BOTH {
        let wanted = |code: &u32| named.is_empty() || named.contains(code);
        let codes: Vec<u32> = program.codes().into_iter().filter(wanted).collect();
        if !codes.is_empty() {
            write_list(program, &codes)?;
        }
    }
    Ok(())
}

/// The list of one program, in its folder.
fn write_list(program: Program, codes: &[u32]) -> Done {
    let (mut bytes, mut lines, mut tally) = (Vec::new(), String::new(), Tally::default());
    for (case, answer) in codes.iter().flat_map(|code| list::answered_cases(*code)) {
        tally.count(&case, answer.outcome);
        bytes.extend(to_bytes(&case.words()));
        lines += &answer.line;
        lines += "\n";
    }
    let folder = Path::new(&variable("LISTS")?).join(program.name());
    std::fs::create_dir_all(&folder)?;
    println!("{tally}{} bytes in, {} bytes out", bytes.len(), lines.len());
    std::fs::write(folder.join("stdin"), bytes)?;
    std::fs::write(folder.join("stdout"), lines)?;
    Ok(())
}

/// Roots, and a tenth as many of each of centroids, normals and regular tests.
pub fn compare_numbers(roots: usize) -> Done {
    const ARGUMENTS_A_CASE: usize = 1000;
    let mut random = Random::new(1);
    let mut comparison = Comparison::new(Program::Replay)?;
    let mut arguments = numbers::chosen_arguments(&mut random);
    arguments.resize_with(roots.max(arguments.len()), || numbers::argument(&mut random));
    for chunk in arguments.chunks(ARGUMENTS_A_CASE) {
        comparison.add(numbers::root_case(chunk))?;
    }
    for helper in [Function::Centroid, Function::Normal, Function::Regular] {
        for _ in 0..roots / 10 {
            comparison.add(numbers::face_case(helper, &mut random))?;
        }
        for corners in [60_000, 60_001] {
            comparison.add(Case::new(helper, damage::one_face(corners)))?;
        }
    }
    println!("{} roots", arguments.len());
    println!("{}", comparison.finish()?);
    Ok(())
}

/// Meshes with faults against both checks, a tenth of them against the edge list too.
pub fn compare_checks(meshes: usize) -> Done {
    const MOST_CORNERS: usize = 80;
    const LARGE_ONES: usize = 400;
    let mut random = Random::new(2);
    let mut comparison = Comparison::new(Program::Replay)?;
    let mut compare = |mesh: Mesh, random: &mut Random| {
        if random.once_in(10) {
            comparison.add(list::edge_case(mesh.clone(), random))?;
        }
        comparison.add(Case::new(Function::CheckClosed, mesh.clone()))?;
        comparison.add(Case::new(Function::CheckFans, mesh))
    };
    let small = || damage::all_pairs_of_triangles().chain(damage::all_small_offsets());
    for mesh in small() {
        compare(mesh, &mut random)?;
    }
    for _ in 0..LARGE_ONES {
        compare(damage::over_limits(&mut random), &mut random)?;
    }
    for _ in small().count() + LARGE_ONES..meshes {
        compare(damage::some_fault(&mut random, MOST_CORNERS), &mut random)?;
    }
    println!("{}", comparison.finish()?);
    let good = Case::new(Function::CheckClosed, shapes::tetrahedron());
    compare_bad_streams(&comparison, good, &[0, 12, 19, 27, u32::MAX], &COUNTS)?;
    demand(&comparison.tally, [1, 2, 4, 5, 6, 7, 8, 9, 10, 11], 500)
}

/// Streams that end in a bad case after a good one: cut, of an unknown code, over a limit.
pub fn compare_bad_streams(
    comparison: &Comparison,
    good: Case,
    unknown: &[u32],
    counts: &[(usize, u32)],
) -> Done {
    let expected = format!("{}\nbad case\n", answer(&good).line);
    let good = to_bytes(&good.words());
    let streams = bad_cases(&good, unknown, counts);
    for bad in &streams {
        let given = comparison.run(&[good.as_slice(), bad].concat())?;
        if given != expected {
            let header = show::words(bad);
            return Err(format!("a bad case of {header} after a good one gives\n{given}").into());
        }
    }
    println!("{} bad streams, 0 differences", streams.len());
    Ok(())
}

fn bad_cases(good: &[u8], unknown: &[u32], counts: &[(usize, u32)]) -> Vec<Vec<u8>> {
    let with_word = |index: usize, word: u32| {
        let mut bytes = good.to_vec();
        bytes[4 * index..4 * index + 4].copy_from_slice(&word.to_le_bytes());
        bytes
    };
    let cut = (1..good.len()).map(|length| good[..length].to_vec());
    let unknown = unknown.iter().map(|code| with_word(0, *code));
    let over = counts
        .iter()
        .flat_map(|(index, most)| [most + 1, u32::MAX].map(|count| with_word(*index, count)));
    cut.chain(unknown).chain(over).collect()
}

/// Calls done and twice as many refused, the operators in turn.
pub fn compare_operators(done: usize) -> Done {
    const MOST_CORNERS: usize = 160;
    const LARGE_ONES: usize = 220;
    let mut random = Random::new(3);
    let mut comparison = Comparison::new(Program::Replay)?;
    let in_turn = || OPERATORS.iter().cycle().copied();
    for operator in in_turn().take(done) {
        let make = |random: &mut Random| calls::likely_done(operator, random, MOST_CORNERS);
        add_one(&mut comparison, &mut random, make, |outcome| outcome == Outcome::Done)?;
    }
    for (operator, index) in in_turn().zip(0..2 * done) {
        let make = |random: &mut Random| {
            if index < LARGE_ONES {
                calls::over_limits(operator, random)
            } else {
                calls::likely_refused(operator, random, MOST_CORNERS)
            }
        };
        add_one(&mut comparison, &mut random, make, |outcome| outcome != Outcome::Done)?;
    }
    println!("{}", comparison.finish()?);
    demand(&comparison.tally, 1..=14, 1)
}

/// Each number was met so often. Asked last, so that there is no difference where it was not.
pub fn demand(tally: &Tally, numbers: impl IntoIterator<Item = u32>, often: usize) -> Done {
    let seldom = |number: u32| match tally.met(number) {
        0 => Some(format!("{number} was not met")),
        met if met < often => Some(format!("{number} was met {met} times")),
        _ => None,
    };
    let seldom: Vec<String> = numbers.into_iter().filter_map(seldom).collect();
    if seldom.is_empty() {
        return Ok(());
    }
    let times = if often > 1 { format!(" {often} times") } else { String::new() };
    let seldom = seldom.join(", ");
    Err(Failure::TooFew(format!("N is too small to meet each number{times}: {seldom}")))
}

/// Makes cases until one has the wanted outcome, and adds that one.
fn add_one(
    comparison: &mut Comparison,
    random: &mut Random,
    make: impl Fn(&mut Random) -> Case,
    wanted: fn(Outcome) -> bool,
) -> Done {
    while !comparison.add_if(make(random), wanted)? {}
    Ok(())
}

/// Prints the cases of a file.
pub fn show_cases(file: Option<&String>) -> Done {
    let bytes = read_file(file)?;
    let (cases, bad_end) = read_stream(&bytes);
    for case in &cases {
        print!("{}", show::case(case));
    }
    if bad_end {
        println!("bad case");
    }
    Ok(())
}

/// Prints what the program `report` must print for a panel file.
pub fn report_file(file: Option<&String>) -> Done {
    print!("{}", panel::report(&read_file(file)?));
    Ok(())
}

fn read_file(file: Option<&String>) -> Result<Vec<u8>, Failure> {
    Ok(std::fs::read(file.ok_or("this command needs a file")?)?)
}

/// Answers a stream of cases as the program that has their codes must.
pub fn answer_stream() -> Done {
    let mut bytes = Vec::new();
    std::io::stdin().read_to_end(&mut bytes)?;
    let (cases, bad_end) = read_stream(&bytes);
    let mut lines: Vec<String> = cases.iter().map(|case| answer(case).line + "\n").collect();
    if bad_end {
        lines.push("bad case\n".to_string());
    }
    std::io::stdout().write_all(lines.concat().as_bytes())?;
    Ok(())
}

pub fn variable(name: &str) -> Result<String, String> {
    std::env::var(name).map_err(|_| format!("{name} is not set; start the oracle by oracle/run"))
}
