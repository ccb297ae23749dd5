//! The time from a change to its diagnostics, as a client of `mizzengrape lsp` sees it, for routines of 1,024 statements.

#[path = "../tests/support/mod.rs"]
mod support;

use mizzengrape_tool::lsp::json::Json;
use std::time::{Duration, Instant};
use support::client::{replaced, Client};
use support::numbers;

/// The most statements that a routine may have.
const STATEMENTS: usize = 1024;
const URI: &str = "file:///score.c";

/// A change costs at most this, in milliseconds: the median.
const GOAL: f64 = 5.0;

/// Where the text changes.
#[derive(Clone, Copy)]
enum Place {
    /// The declarations: the whole routine is checked.
    Declared,
    /// One statement, in so many parts of ten at the end: the editor service goes on from its places.
    Last(usize),
}

fn main() {
    let [changes, _] = numbers([200, 0]);
    let refused = |s: usize| if s + 1 == STATEMENTS { "rows = rows + 1;".to_string() } else { plain(s) };
    let routines = [("accepted", routine(&plain), 0), ("refused at its end", routine(&refused), 1)];
    let places = [
        ("checked as a whole", Place::Declared),
        ("a statement anywhere", Place::Last(10)),
        ("a statement of the last tenth", Place::Last(1)),
    ];
    for (what, text, refusals) in &routines {
        for (how, place) in places {
            let mut times = measured(text, place, changes as u32, *refusals);
            times.sort();
            let [median, most] =
                [times[times.len() / 2], times[times.len() - 1]].map(|time| time.as_secs_f64() * 1e3);
            let goal = if median < GOAL { "below" } else { "NOT below" };
            println!(
                "{STATEMENTS} statements, {what}, {how}: {changes} changes, median {median:.2} ms, {goal} {GOAL}, \
                 most {most:.2} ms"
            );
        }
    }
}

/// Checks, sums, accesses and bundles: what routines are made of.
fn plain(s: usize) -> String {
    match s % 8 {
        0 => "dynamic_check(rows > 2);".to_string(),
        1 => format!("x = row[{}];", s % 3),
        2 => "y = x + 1;".to_string(),
        3 => "row[0] = y;".to_string(),
        4 => "bundled {".to_string(),
        5 => "row = row + 1;".to_string(),
        6 => "rows = rows - 1; }".to_string(),
        _ => format!("z = x + {s};"),
    }
}

fn routine(statement: &dyn Fn(usize) -> String) -> String {
    let body: String = (0..STATEMENTS).map(|s| format!("    {}\n", statement(s))).collect();
    // As many variables as a routine may have: the facts are about each two of them.
    let others: String = (0..11).map(|v| format!(", unsigned v{v}")).collect();
    let variables =
        "array_ptr<unsigned> row : count(rows), unsigned rows, unsigned x, unsigned y, unsigned z";
    format!("void score({variables}{others})\n{{\n{body}}}\n")
}

/// An edit: another number of as many digits in a sum, or a variable of another kind and back.
fn edit(text: &str, place: Place, change: u32) -> Json {
    let lines: Vec<(u32, &str)> = (0..).zip(text.lines()).collect();
    match place {
        Place::Declared => {
            let kinds = ["unsigned v10)", "array_ptr<unsigned> v10 : count(0))"];
            let [old, new] = if change.is_multiple_of(2) { kinds } else { [kinds[1], kinds[0]] };
            let (line, content) = lines[0];
            let from = content.find(kinds[0]).expect("a variable") as u32;
            replaced(line, from, from + old.len() as u32, new)
        }
        Place::Last(tenths) => {
            let mut sums = lines;
            sums.retain(|(_, line)| line.contains("z = x + "));
            let sums = &sums[sums.len() * (10 - tenths) / 10..];
            let (line, content) = sums[(change as usize * 37) % sums.len()];
            let [from, to] = ["+ ", ";"].map(|mark| content.find(mark).expect("a sum") as u32);
            let least = 10u32.pow(to - from - 3);
            replaced(line, from + 2, to, &(least + change % (9 * least)).to_string())
        }
    }
}

/// Changes the text again and again; so many refusals are found each time.
fn measured(text: &str, place: Place, changes: u32, refusals: usize) -> Vec<Duration> {
    let own = std::env::current_exe().expect("a path");
    let mut client = Client::start(&own.ancestors().nth(2).expect("a folder").join("mizzengrape"));
    client.initialize();
    client.open(URI, text);
    client.diagnostics();
    let time = |change: u32| {
        let edit = edit(text, place, change);
        let begun = Instant::now();
        client.change(URI, change + 2, vec![edit]);
        let found = client.diagnostics();
        let time = begun.elapsed();
        assert_eq!(found.len(), refusals, "{found:?}");
        time
    };
    let times = (0..changes).map(time).collect();
    assert_eq!(client.end(), 0);
    times
}
