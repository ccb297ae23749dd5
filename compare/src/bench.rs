//! Measurements of the fast forms and of the proved implementation, as ratios in one run.

use crate::bench_counts::{counts, Work};
use crate::generate::{accepted, accepted_with_rows, accepted_with_sizes};
use crate::linked::Proved;
use crate::proved::{Fast, Implementation};
use crate::turns::Parts;
use crate::{bench_calls, bench_edits, bench_peers, fast_check, fast_run};
use oracle::answer::{RunAnswer, RunInput};
use oracle::dispatch::{Member, Turns};
use oracle::draft::*;
use oracle::table::decode;
use oracle::{checker, machine};
use std::hint::black_box;
use std::time::Instant;

const STATEMENTS: usize = 1_024;

/// The parts of the benchmark, in their order.
pub const PARTS: [(&str, fn()); 9] = [
    ("check", check),
    ("run", run),
    ("rows", rows),
    ("sizes", sizes),
    ("facts", facts),
    ("turns", turns),
    ("edits", bench_edits::edits),
    ("calls", bench_calls::calls),
    ("peers", bench_peers::peers),
];

/// Nanoseconds for one call: the best of many short rounds, as other work on
/// the machine only ever adds to a round.
pub fn best(rounds: usize, mut call: impl FnMut()) -> f64 {
    (0..rounds)
        .map(|_| {
            let start = Instant::now();
            call();
            start.elapsed().as_nanos() as f64
        })
        .fold(f64::INFINITY, f64::min)
}

/// The same of two calls in turn: each begins with the caches and the branch prediction that the other one left.
fn best_in_turn(rounds: usize, mut first: impl FnMut(), mut second: impl FnMut()) -> [f64; 2] {
    let times = (0..rounds).map(|_| [best(1, &mut first), best(1, &mut second)]);
    times.fold([f64::INFINITY; 2], |least, times| [least[0].min(times[0]), least[1].min(times[1])])
}

/// A loop of ten statements: accesses, additions, comparisons.
/// Variables: p 0, count(n); n 1; i 2; x 3; sum 4; round 5.
pub fn loop_table() -> Vec<i32> {
    let (p, n, i, x, sum, round) = (0, 1, 2, 3, 4, 5);
    let body = vec![
        load(x, p, i, 0),
        operate(sum, sum, x, 0),
        dynamic_check(with_variable(i, LESS, n)),
        add_constant(x, x, 1),
        store(p, i, 0, x),
        load(x, p, -1, 1),
        add_constant(i, i, 1),
    ];
    let wrap = if_else(with_variable(i, GREATER_EQUAL, n), vec![set(i, 0)], vec![]);
    let step = vec![add_constant(round, round, 1)];
    let table = Draft {
        objects: vec![100],
        variables: vec![[1, 0, p, -1, 0, p, n, 0], [0; 8], [0; 8], [0; 8], [0; 8], [0; 8]],
        statements: while_loop(with_literal(round, LESS, i32::MAX), [body, wrap, step].concat()),
        rows: None,
    };
    table.words()
}

/// For a loop over an object of so many cells.
pub fn loop_input(cells: u32, allowance: u32) -> RunInput {
    RunInput {
        directory: vec![1, cells],
        cells: vec![7; cells as usize + 1],
        values: vec![1, 100, 0, 0, 0, 0],
        origins: vec![1, 0, 0, 0, 0, 0],
        allowance,
    }
}

/// The same loop with a row that each round puts in force again.
pub fn rows_table() -> Vec<i32> {
    let mut table = Draft::from_words(&loop_table()).expect("a right directory");
    let row = declare(0, 0);
    table.rows = Some(vec![[0, -1, 0, 0, 1, 0]]);
    // In place of the check in the body; before the loop too, so that its head and its end have the same row.
    table.statements[3] = row;
    table.statements.insert(0, row);
    table.words()
}

/// The same loop with elements of 3 cells.
pub fn sizes_table() -> Vec<i32> {
    let mut table = Draft::from_words(&loop_table()).expect("a right directory");
    table.objects[0] = 300;
    table.variables[0][1] = 3;
    table.words()
}

/// Loops over an array one after the other: a cell is read, raised and written back; 1,024 statements with the check
/// before them. Variables as in `loop_table`.
pub fn accesses_table(loops: usize) -> Vec<i32> {
    let mut table = Draft::from_words(&loop_table()).expect("a right directory");
    let (p, n, i, x) = (0, 1, 2, 3);
    let body = vec![load(x, p, i, 0), add_constant(x, x, 1), store(p, i, 0, x), add_constant(i, i, 1)];
    let part = [vec![set(i, 0)], while_loop(with_variable(i, NOT_EQUAL, n), body)].concat();
    table.statements = [vec![dynamic_check(with_literal(p, NOT_EQUAL, 0))], part.repeat(loops)].concat();
    table.words()
}

/// i <= n at each of these loops.
pub fn accesses_list(loops: usize) -> Vec<i32> {
    (0..loops as i32).flat_map(|number| [2 + 6 * number, 2, 1, 0]).collect()
}

/// How many statements of each kind the tables have.
fn kinds(tables: &[Vec<i32>]) -> [usize; 14] {
    let mut counts = [0; 14];
    for draft in tables.iter().filter_map(|table| Draft::from_words(table)) {
        for record in draft.statements {
            counts[record[0] as usize - 1] += 1;
        }
    }
    counts
}

/// The check of tables of 1,024 statements.
fn check() {
    check_tables("", accepted);
}

/// The run of a loop of ten statements.
fn run() {
    run_table("loop of ten", "", &loop_table(), 100);
}

/// The check and the run of tables with rows.
fn rows() {
    check_tables(", rows", accepted_with_rows);
    run_table("loop with rows", ", loop with rows", &rows_table(), 100);
}

/// The check and the run of tables with elements of 3 cells.
fn sizes() {
    check_tables(", size 3", accepted_with_sizes);
    run_table("loop by size 3", ", loop by size 3", &sizes_table(), 300);
}

/// Check and run of loops of accesses with a list of a fact for each, beside the same without.
fn facts() {
    const LOOPS: usize = 170;
    let (table, list) = (accesses_table(LOOPS), accesses_list(LOOPS));
    let statements = (1 + 6 * LOOPS) as f64;
    for (name, list) in [("without a list", &[][..]), ("with a list", &list[..])] {
        let forms: [(&str, &dyn Implementation, usize); 2] = [("fast", &Fast, 300), ("proved", &Proved, 100)];
        for (form, implementation, rounds) in forms {
            let reported = implementation.check(&table, list).report.len();
            let each = best(rounds, || assert_eq!(implementation.check(black_box(&table), list).words[0], 0));
            println!(
                "check, {form}, {name}: {:.1} ns a statement, {reported} accesses reported",
                each / statements
            );
            // A run checks first: the steps are those of 100 cells in each of the loops.
            let mut steps = 0;
            let each = best(rounds, || {
                let mut input = loop_input(100, u32::MAX);
                let words = implementation.run(black_box(&table), list, &mut input);
                assert_eq!(words[0], 0, "done");
                steps = words[1];
            });
            println!("run, {form}, {name}: {:.2} ns a step, {steps} steps", each / f64::from(steps));
        }
    }
}

/// Eight routines, each with the loop of ten over an object of its own.
pub fn eight_loops(quantum: u32, total: u32) -> Parts {
    let cells = 100;
    let member = |number: u32| {
        let RunInput { mut values, origins, .. } = loop_input(cells, 0);
        values[0] = 1 + cells * number;
        let directory = vec![values[0], cells];
        Member { table: loop_table(), facts: vec![], directory, values, origins }
    };
    let members = (0..8).map(member).collect();
    let cells = vec![7; 1 + 8 * cells as usize];
    Parts::of(&Turns { members, cells, quantum, total })
}

/// Steps of eight routines in turn beside those of a run of one; each call checks all that it is lent first.
fn turns() {
    const STEPS: u32 = 200_000;
    let forms: [(&str, &dyn Implementation); 2] = [("fast", &Fast), ("proved", &Proved)];
    for (form, implementation) in forms {
        let table = loop_table();
        let one = best(200, || {
            let mut input = loop_input(100, STEPS);
            assert_eq!(implementation.run(black_box(&table), &[], &mut input)[0], 1, "spent");
        });
        println!("run, {form}, one routine: {:.2} ns a step", one / f64::from(STEPS));
        for quantum in [1, 10, 1_000] {
            let each = best(100, || {
                let mut parts = eight_loops(quantum, STEPS);
                assert_eq!(implementation.dispatch(black_box(&mut parts))[0], 0, "ran");
            });
            println!(
                "turns of {quantum}, {form}, eight routines: {:.2} ns a step, {:.2} of the run of one",
                each / f64::from(STEPS),
                each / one
            );
        }
    }
}

fn check_tables(beside: &str, make: fn(u64, usize, usize) -> Vec<i32>) {
    for variables in [11, 16] {
        let tables: Vec<Vec<i32>> = (0..8).map(|seed| make(seed, STATEMENTS, variables)).collect();
        check_forms(&format!("{variables} variables{beside}"), &tables);
    }
}

fn check_forms(title: &str, tables: &[Vec<i32>]) {
    let statements = (STATEMENTS * tables.len()) as f64;
    println!("{title}, statements of kinds 1 to 14: {:?}", kinds(tables));
    type Form = fn(&[i32]) -> bool;
    let forms: [(&str, Form, usize); 4] = [
        ("decode only", |t| decode(t).is_ok(), 300),
        ("check, fast", |t| fast_check::check(t).is_ok(), 300),
        ("check, plain", |t| checker::check(t).is_ok(), 20),
        ("check, proved", |t| Proved.check_alone(t)[0] == 0, 100),
    ];
    let mut fast = f64::NAN;
    for (name, form, rounds) in forms {
        let each = best(rounds, || {
            for table in tables {
                assert!(form(black_box(table)), "{name}: a table is refused");
            }
        });
        // One table again and again: what branch prediction can learn, it has learnt.
        let again = tables.iter().map(|table| best(rounds, || assert!(form(black_box(table))))).sum::<f64>();
        println!(
            "{name:<13} {title}  {:8.1} ns a statement, {:.1} for one table again and again",
            each / statements,
            again / statements
        );
        match name {
            "check, fast" => fast = each,
            "check, proved" => println!("check, proved against fast, {title}: {:.2}", each / fast),
            _ => {}
        }
    }
    let all = |form: Form| move || assert!(tables.iter().all(|table| form(black_box(table))));
    let [_, (_, fast, _), _, (_, proved, _)] = forms;
    let [fast, proved] = best_in_turn(100, all(fast), all(proved)).map(|each| each / statements);
    println!(
        "check, in turn, {title}: {fast:.1} ns a statement fast, {proved:.1} proved, {:.2}",
        proved / fast
    );
    counts(Work::Check { statements: STATEMENTS * tables.len() }, title, tables);
}

fn run_table(title: &str, beside: &str, table: &[i32], cells: u32) {
    type Run = fn(&[i32], &mut RunInput) -> bool;
    let forms: [(&str, Run, u32); 3] = [
        ("run, fast", |t, i| matches!(fast_run::run(t, i), RunAnswer::Spent { .. }), 200_000),
        ("run, plain", |t, i| matches!(machine::run(t, i), RunAnswer::Spent { .. }), 20_000),
        ("run, proved", |t, i| Proved.run_alone(t, i)[0] == 1, 200_000),
    ];
    let mut fast = f64::NAN;
    for (name, run, steps) in forms {
        let mut call = || assert!(run(black_box(table), &mut loop_input(cells, steps)), "{name}: no run");
        let each = best(400, &mut call);
        let each = each / f64::from(steps);
        println!("{name:<13} {title:<14} {each:8.2} ns a step");
        match name {
            "run, fast" => fast = each,
            "run, proved" => println!("run, proved against fast{beside}: {:.2}", each / fast),
            _ => {}
        }
    }
    counts(Work::Run, title, &[table.to_vec()]);
}

#[cfg(test)]
mod tests {
    use super::*;

    #[test]
    fn the_list_makes_all_accesses_safe() {
        for loops in [1, 170] {
            let (table, list) = (accesses_table(loops), accesses_list(loops));
            let report = |facts: &[i32]| Fast.check(&table, facts).report.len();
            assert_eq!([report(&[]), report(&list)], [0, 2 * loops]);
            let run = |facts: &[i32]| Fast.run(&table, facts, &mut loop_input(100, u32::MAX));
            assert_eq!(run(&[]), run(&list));
            assert_eq!(run(&list)[..2], [0, 1 + 502 * loops as u32]);
        }
    }

    #[test]
    fn eight_loops_take_their_turns() {
        let mut parts = eight_loops(10, 800);
        let words = Fast.dispatch(&mut parts);
        assert_eq!(words[..5], [0, 8, 0, 0, 0]);
        assert!(words[5..].chunks(4).all(|words| words[..2] == [1, 100]), "{words:?}");
    }

    #[test]
    fn the_measured_loops_are_right_in_both_forms() {
        for (table, cells) in [(loop_table(), 100), (rows_table(), 100), (sizes_table(), 300)] {
            let (mut plain, mut fast) = (loop_input(cells, 5_000), loop_input(cells, 5_000));
            let answer = machine::run(&table, &mut plain);
            assert!(matches!(answer, RunAnswer::Spent { .. }), "{answer}");
            assert_eq!(answer, fast_run::run(&table, &mut fast));
            assert_eq!(plain, fast);
        }
    }
}
