//! The proved implementation beside the oracle, a second one written from the papers alone, over vectors and
//! generated cases; a fast form of the second one; measurements.

mod bench;
mod bench_calls;
mod bench_counts;
mod bench_edits;
mod bench_peers;
mod damaged_edits;
mod differ;
mod differ_edits;
mod differ_sets;
mod differ_turns;
mod edits;
mod fast_bounds;
mod fast_check;
mod fast_code;
mod fast_editor;
mod fast_facts;
mod fast_run;
mod fast_sets;
mod fast_turns;
mod generate;
mod linked;
mod linked_editor;
mod noninterference;
mod parallel;
mod promises;
mod proved;
mod rng;
mod sets;
mod shrink;
mod stack;
mod stats;
mod turns;
mod vectors;

use std::path::Path;
use std::process::ExitCode;

const USAGE: &str = "usage: compare vectors DIR
       compare stats SEED COUNT
       compare differ SEED COUNT [FIRST]
       compare edits SEED COUNT [FIRST]
       compare show SEED NUMBER [turns|edits|sets]
       compare bench [check|run|rows|sizes|facts|turns|edits|calls|peers]
       compare stack [KIB]";

fn main() -> ExitCode {
    let args: Vec<String> = std::env::args().skip(1).collect();
    let args: Vec<&str> = args.iter().map(String::as_str).collect();
    let outcome = match args[..] {
        ["vectors", directory] => check_vectors(Path::new(directory)),
        ["stats", seed, count] => show_stats(seed, count),
        ["differ", seed, count] => search(seed, count, "0"),
        ["differ", seed, count, first] => search(seed, count, first),
        ["edits", seed, count] => search_edits(seed, count, "0"),
        ["edits", seed, count, first] => search_edits(seed, count, first),
        ["show", seed, number] => show(seed, number),
        ["show", seed, number, "turns"] => show_turns(seed, number),
        ["show", seed, number, "edits"] => show_edits(seed, number),
        ["show", seed, number, "sets"] => show_sets(seed, number),
        ["bench"] => {
            for (_, part) in bench::PARTS {
                part();
            }
            Ok(true)
        }
        ["bench", name] => {
            let part = bench::PARTS.iter().find(|(part, _)| *part == name).map(|(_, part)| part());
            part.map(|()| true).ok_or(USAGE.to_string())
        }
        ["work", work, form, amount] => {
            number(amount).and_then(|amount| bench_counts::work(work, form, amount as u32))
        }
        ["stack"] => Ok(match stack::least() {
            Some(kib) => {
                println!("{kib} KiB of stack are enough for all calls with the deepest tables");
                true
            }
            None => {
                println!("the proved implementation does not run the deepest tables to their end");
                false
            }
        }),
        ["stack", kib] => number(kib).map(|kib| stack::probe(kib as usize)).map(|()| true),
        _ => Err(USAGE.to_string()),
    };
    match outcome {
        Ok(true) => ExitCode::SUCCESS,
        Ok(false) => ExitCode::from(1),
        Err(message) => {
            eprintln!("{message}");
            ExitCode::from(2)
        }
    }
}

fn number(text: &str) -> Result<u64, String> {
    text.parse().map_err(|_| format!("not a number: {text}\n{USAGE}"))
}

/// Checks both forms of this implementation, and all behind the seam, against all cases of the files.
fn check_vectors(directory: &Path) -> Result<bool, String> {
    let mut counts = Vec::new();
    let mut differences = Vec::new();
    for file in ["named.txt", "near_misses.txt", "random.txt"] {
        let cases = vectors::read_file(&directory.join(file))?;
        let look = |n: u64| Some(all_differences(&cases[n as usize])).filter(|d| !d.is_empty());
        let before = differences.len();
        // From each wrong case on to the next, so they come in the order of the file.
        let mut first = 0;
        while let Some((number, wrong)) = parallel::lowest(first..cases.len() as u64, look) {
            differences.push(wrong);
            first = number + 1;
        }
        counts.push(format!("{file}: {} of {} right", cases.len() + before - differences.len(), cases.len()));
    }
    println!("{}", counts.join(", "));
    for line in differences.iter().flatten().take(6) {
        println!("{line}");
    }
    Ok(differences.is_empty())
}

/// The differences of one case of the files, of both forms and of every implementation behind the seam.
fn all_differences(vector: &vectors::Vector) -> Vec<String> {
    let mut found = vector.differences();
    found.extend(proved::implementations().iter().filter_map(|other| vector.difference(other.as_ref())));
    found
}

fn show_stats(seed: &str, count: &str) -> Result<bool, String> {
    let stats = stats::gather(number(seed)?, number(count)?);
    println!("{stats}");
    for line in stats.differences.iter().take(6) {
        println!("{line}");
    }
    Ok(stats.differences.is_empty())
}

/// The first difference from a number on among so many cases of a seed.
type Search = fn(u64, u64, u64, &dyn proved::Implementation) -> Option<String>;

/// For so many runs of a routine one set of routines in turn, and one with calls.
const RUNS_A_SET: u64 = 8;

/// For so many runs of a routine one table that is edited, and one while it is damaged.
const RUNS_AN_EDITED: u64 = 16;

/// Compares every implementation behind the seam with the plain form.
fn search(seed: &str, count: &str, first: &str) -> Result<bool, String> {
    let (seed, count, first) = (number(seed)?, number(count)?, number(first)?);
    let kinds: [(&str, Search, u64); 3] = [
        ("cases", differ::search, count),
        ("sets of routines in turn", differ_turns::search, count.div_ceil(RUNS_A_SET)),
        ("sets of routines with calls", differ_sets::search, count.div_ceil(RUNS_A_SET)),
    ];
    let is_same = search_kinds(seed, first, &kinds);
    Ok(edits_agree(seed, count.div_ceil(RUNS_AN_EDITED), first) && is_same)
}

/// The same for tables that are edited alone.
fn search_edits(seed: &str, count: &str, first: &str) -> Result<bool, String> {
    Ok(edits_agree(number(seed)?, number(count)?, number(first)?))
}

fn edits_agree(seed: u64, count: u64, first: u64) -> bool {
    let is_same = search_kinds(seed, first, &[("edited tables", differ_edits::search, count)]);
    let damaged: Search = |seed, first, count, _| damaged_edits::search(seed, first, count);
    let proved: &dyn proved::Implementation = &linked::Proved;
    search_kind(seed, first, ("edited tables with damage", damaged, count), proved) && is_same
}

fn search_kinds(seed: u64, first: u64, kinds: &[(&str, Search, u64)]) -> bool {
    let mut is_same = true;
    for other in proved::implementations() {
        for kind in kinds {
            is_same &= search_kind(seed, first, *kind, other.as_ref());
        }
    }
    is_same
}

/// One sort of cases of one implementation; true where all agree.
fn search_kind(
    seed: u64,
    first: u64,
    (kind, search, count): (&str, Search, u64),
    other: &dyn proved::Implementation,
) -> bool {
    let report = search(seed, first, count, other);
    match &report {
        None => println!("{}: {count} {kind} of seed {seed} from {first}, no difference", other.name()),
        Some(report) => print!("{report}"),
    }
    report.is_none()
}

fn show(seed: &str, case: &str) -> Result<bool, String> {
    print!("{}", differ::vector(&generate::case(number(seed)?, number(case)?)));
    Ok(true)
}

fn show_turns(seed: &str, case: &str) -> Result<bool, String> {
    print!("{}", differ_turns::vector(&generate::turns_case(number(seed)?, number(case)?).turns()));
    Ok(true)
}

fn show_edits(seed: &str, case: &str) -> Result<bool, String> {
    print!("{}", differ_edits::vector(&generate::edits_case(number(seed)?, number(case)?)));
    Ok(true)
}

fn show_sets(seed: &str, case: &str) -> Result<bool, String> {
    print!("{}", differ_sets::vector(&generate::sets_case(number(seed)?, number(case)?).case()));
    Ok(true)
}
