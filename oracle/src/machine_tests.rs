use crate::answer::RunInput;
use crate::draft::*;
use crate::machine;

const P: i32 = 0;
const N: i32 = 1;
const X: i32 = 2;
const Q: i32 = 3;

/// p (0, count(n)), n, x, q with p's bounds; objects of 3 and 4 cells that touch.
fn draft(statements: Vec<Record>) -> Draft {
    Draft {
        objects: vec![3, 4],
        variables: vec![[1, 0, P, -1, 0, P, N, 0], [0; 8], [0; 8], [1, 0, P, -1, 0, P, N, 0]],
        statements,
        rows: None,
    }
}

fn lent() -> RunInput {
    RunInput {
        directory: vec![2, 3, 5, 4],
        cells: (100..110).collect(),
        values: vec![2, 3, 0, 2],
        origins: vec![1, 0, 0, 1],
        allowance: 100,
    }
}

/// The answer, and the buffers after.
fn run_with(statements: Vec<Record>, change: impl Fn(&mut RunInput)) -> (String, RunInput) {
    let mut input = lent();
    change(&mut input);
    let answer = machine::run(&draft(statements).words(), &mut input);
    (answer.to_string(), input)
}

fn run(statements: Vec<Record>) -> String {
    run_with(statements, |_| {}).0
}

fn entry(change: impl Fn(&mut RunInput)) -> String {
    run_with(vec![], change).0
}

#[test]
fn directory_and_memory() {
    assert_eq!(entry(|_| {}), "done 0");
    assert_eq!(entry(|i| i.directory.truncate(3)), "refused 10 0");
    assert_eq!(entry(|i| i.directory.truncate(2)), "refused 10 0");
    assert_eq!(entry(|i| i.directory[0] = 0), "refused 10 0");
    assert_eq!(entry(|i| i.directory[1] = 2), "refused 10 0");
    assert_eq!(entry(|i| i.directory[2] = 4), "refused 10 1");
    assert_eq!(entry(|i| i.directory[2] = 1), "refused 10 1");
    assert_eq!(entry(|i| i.directory[2] = u32::MAX), "refused 10 1");
    assert_eq!(entry(|i| i.cells.truncate(9)), "done 0");
    assert_eq!(entry(|i| i.cells.truncate(8)), "refused 10 1");
    assert_eq!(entry(|i| i.cells = vec![0; crate::entry::MAX_CELLS + 1]), "refused 10 0");
}

#[test]
fn entries() {
    assert_eq!(entry(|i| i.values.truncate(3)), "refused 11 0");
    assert_eq!(entry(|i| i.origins.push(0)), "refused 11 0");
    assert_eq!(entry(|i| i.origins[1] = 1), "refused 12 1");
    assert_eq!(entry(|i| i.origins[3] = 3), "refused 12 3");
    assert_eq!(entry(|i| i.origins[0] = 0), "refused 12 0");
    assert_eq!(entry(|i| i.values[0] = 0), "refused 12 0");
    // Touching objects are not one object.
    assert_eq!(entry(|i| i.values[1] = 4), "refused 12 0");
    // An end is never wrapped.
    assert_eq!(entry(|i| i.values[1] = u32::MAX), "refused 12 0");
    // A pointer need not lie in its origin object; its bounds must.
    assert_eq!(entry(|i| i.values[3] = 9), "done 0");
    // Null has true bounds, and counts as 0 in the ends of others.
    assert_eq!(entry(|i| (i.values[0], i.origins[0]) = (0, 0)), "refused 12 3");
}

#[test]
fn done_then_spent_then_stopped() {
    let stop = dynamic_check(with_literal(N, EQUAL, 0));
    let with_allowance = |statements: Vec<Record>, a: u32| run_with(statements, |i| i.allowance = a).0;
    assert_eq!(with_allowance(vec![set(X, 1)], 1), "done 1");
    assert_eq!(with_allowance(vec![set(X, 1)], 0), "spent 0 0");
    assert_eq!(with_allowance(vec![], 0), "done 0");
    assert_eq!(with_allowance(vec![set(X, 1), stop], 1), "spent 1 1");
    assert_eq!(with_allowance(vec![set(X, 1), stop], 2), "stopped 2 1 1");
}

#[test]
fn checks_of_accesses() {
    assert_eq!(run(vec![load(X, P, -1, 2), load(X, P, -1, 3)]), "stopped 2 1 3");
    assert_eq!(run(vec![load(X, P, -1, -1)]), "stopped 1 0 3");
    assert_eq!(run(vec![null(Q), store(Q, -1, 65_536, X)]), "stopped 2 1 2");
    // The index is a whole number: it does not wrap round to the pointer.
    let wrap = vec![add_constant(X, X, -1), load(X, P, X, 1)];
    assert_eq!(run(wrap), "stopped 2 1 3");
    // Declared ends, whatever the pointer's own value.
    let outside = vec![move_pointer(Q, Q, 5), load(X, Q, -1, -5), load(X, Q, -1, 0)];
    assert_eq!(run(outside), "stopped 3 2 3");
}

#[test]
fn checks_of_pointer_arithmetic() {
    assert_eq!(run(vec![null(Q), move_pointer(Q, Q, 0), index_pointer(Q, Q, X)]), "stopped 3 2 4");
    assert_eq!(run(vec![null(Q), move_pointer(Q, Q, 1)]), "stopped 2 1 4");
    assert_eq!(run(vec![move_pointer(Q, Q, -1), move_pointer(Q, Q, -1)]), "stopped 2 1 5");
    assert_eq!(run(vec![add_constant(X, X, -2), index_pointer(Q, P, X)]), "stopped 2 1 5");
    assert_eq!(run(vec![add_constant(X, X, -3), index_pointer(Q, P, X)]), "done 2");
}

/// The rows for p: its first cell, its cells from 1 on.
const ROWS: [RowRecord; 2] = [[P, -1, 0, P, -1, 1], [P, -1, 1, P, N, 0]];

#[test]
fn an_access_is_checked_by_the_row_in_force() {
    let outcome = |statements: Vec<Record>| {
        let table = Draft { rows: Some(ROWS.to_vec()), ..draft(statements) };
        let mut input = lent();
        machine::run(&table.words(), &mut input).to_string()
    };
    let guard = dynamic_check(with_literal(N, GREATER, 1));
    let (first, second) = (load(X, P, -1, 0), store(P, -1, 1, X));
    assert_eq!(outcome(vec![guard, first, second, declare(P, 0), first, second]), "stopped 6 5 3");
    assert_eq!(outcome(vec![guard, declare(P, 1), second, first]), "stopped 4 3 3");
    // Until another kind 14, also where p is assigned anew.
    let again = vec![guard, null(Q), declare(P, 0), address(P, 0), first, second];
    assert_eq!(outcome(again), "stopped 6 5 3");
    // In a bundle each access goes by the row in force then.
    let inside = bundle(vec![second, declare(P, 1), second, declare(P, 0), first, second]);
    assert_eq!(outcome([vec![guard], inside].concat()), "stopped 8 7 3");
    // The other pointer keeps its own bound.
    assert_eq!(outcome(vec![guard, declare(P, 0), load(X, Q, -1, 1)]), "done 3");
}

#[test]
fn an_element_is_so_many_cells() {
    // p with elements of 2 cells, q with elements of 3 at p; the object of 4 cells at 5.
    let sized = |statements: Vec<Record>, values: [u32; 4]| {
        let mut table = draft(statements);
        (table.variables[0][1], table.variables[3][1]) = (2, 3);
        let mut input = RunInput { values: values.to_vec(), ..lent() };
        (input.origins[0], input.origins[3]) = (u32::from(values[0] > 0) * 2, u32::from(values[3] > 0) * 2);
        let answer = machine::run(&table.words(), &mut input).to_string();
        (answer, input.values[3])
    };
    // At entry the count is of elements, and never wraps.
    assert_eq!(sized(vec![], [5, 2, 0, 0]).0, "done 0");
    assert_eq!(sized(vec![], [5, 3, 0, 0]).0, "refused 12 0");
    assert_eq!(sized(vec![], [5, 1, 0, 5]).0, "done 0");
    assert_eq!(sized(vec![], [5, 2, 0, 5]).0, "refused 12 3");
    assert_eq!(sized(vec![], [5, 1 << 31, 0, 0]).0, "refused 12 0");
    // An access at p + 2 i + k; the upper end at p + 2 n.
    assert_eq!(sized(vec![set(X, 1), load(X, P, X, 1)], [5, 2, 0, 0]).0, "done 2");
    assert_eq!(sized(vec![set(X, 1), load(X, P, X, 2)], [5, 2, 0, 0]).0, "stopped 2 1 3");
    assert_eq!(sized(vec![set(X, 2), store(P, X, 0, X)], [5, 2, 0, 0]).0, "stopped 2 1 3");
    assert_eq!(sized(vec![load(X, P, -1, 3)], [5, 2, 0, 0]).0, "done 1");
    // Kind 7 by the size of q, kind 6 in cells; check 5 tests the whole number.
    let moved = |first: i32| vec![set(X, first), index_pointer(Q, Q, X)];
    assert_eq!(sized(moved(3), [5, 1, 0, 5]), ("done 2".to_string(), 14));
    assert_eq!(sized(moved(1_431_655_765), [5, 1, 0, 5]).0, "stopped 2 1 5");
    assert_eq!(sized(moved(1_431_655_763), [5, 1, 0, 5]), ("done 2".to_string(), u32::MAX - 1));
    assert_eq!(sized(vec![move_pointer(Q, Q, 2)], [5, 1, 0, 5]), ("done 1".to_string(), 7));
    // By the size of the pointer on the right, not of the one on the left.
    let mut table = draft(vec![set(X, 2), index_pointer(Q, P, X)]);
    (table.variables[0], table.variables[3]) = ([1, 2, P, -1, 0, P, -1, 3], [1, 3, P, -1, 0, P, -1, 3]);
    let mut input = lent();
    assert_eq!(machine::run(&table.words(), &mut input).to_string(), "done 2");
    assert_eq!(input.values[3], 2 + 2 * 2);
}

/// s (0, count(n)) an nt_array_ptr, n, x, q an array_ptr at s; objects: a terminated one of 4 cells at 2 and one of 3 at 6.
fn run_names(statements: Vec<Record>, change: impl Fn(&mut RunInput)) -> (String, RunInput) {
    let mut table = draft(statements);
    table.objects = vec![-4, 3];
    table.variables[0][0] = 2;
    let mut input = RunInput {
        directory: vec![2, 4, 6, 3],
        cells: vec![9, 9, 1, 2, 3, 0, 7, 7, 7],
        values: vec![2, 3, 0, 0],
        origins: vec![1, 0, 0, 0],
        allowance: 100,
    };
    change(&mut input);
    let answer = machine::run(&table.words(), &mut input);
    (answer.to_string(), input)
}

#[test]
fn a_kind_2_pointer_reads_the_cell_at_its_upper_end_and_stores_0_there() {
    let run = |statements: Vec<Record>, n: u32| run_names(statements, |i| i.values[1] = n);
    let (answer, after) = run(vec![set(X, 5), load(X, P, N, 0)], 3);
    assert_eq!((answer.as_str(), after.values[2]), ("done 2", 0));
    assert_eq!(run(vec![load(X, P, N, 1)], 3).0, "stopped 1 0 3");
    assert_eq!(run(vec![load(X, P, -1, -1)], 3).0, "stopped 1 0 3");
    // The upper end then, wherever in the object it lies.
    let (answer, after) = run(vec![store(P, N, 0, X)], 1);
    assert_eq!((answer.as_str(), after.cells[3]), ("done 1", 0));
    assert_eq!(run(vec![set(X, 8), store(P, N, 0, X)], 1).0, "stopped 2 1 6");
    assert_eq!(run(vec![set(X, 8), store(P, N, 0, X)], 3).0, "stopped 2 1 6");
    // 3 goes before 6, and 2 before 3.
    assert_eq!(run(vec![set(X, 8), store(P, N, 1, X)], 3).0, "stopped 2 1 3");
    assert_eq!(run(vec![null(Q), null(P), set(X, 8), store(P, N, 0, X)], 3).0, "stopped 4 3 2");
    // Below it any number; and an empty name has its 0.
    let (answer, after) = run(vec![set(X, 8), store(P, N, -1, X)], 3);
    assert_eq!((answer.as_str(), after.cells[4]), ("done 2", 8));
    assert_eq!(run(vec![load(X, P, -1, 0)], 0).0, "done 1");
    assert_eq!(run(vec![set(X, 8), store(P, -1, 0, X)], 0).0, "stopped 2 1 6");
    // An array_ptr in the same object stops there.
    let copied = |last: Record| vec![set(X, 0), move_pointer(Q, P, 0), last];
    assert_eq!(run(copied(load(X, Q, N, 0)), 3).0, "stopped 3 2 3");
    assert_eq!(run(copied(store(Q, N, 0, X)), 3).0, "stopped 3 2 3");
    assert_eq!(run(copied(load(X, Q, N, -1)), 3).0, "done 3");
}

#[test]
fn a_name_ends_before_its_last_cell_at_entry() {
    let entry = |change: fn(&mut RunInput)| run_names(vec![], change).0;
    assert_eq!(entry(|_| {}), "done 0");
    assert_eq!(entry(|i| i.values[1] = 4), "refused 12 0");
    // An array_ptr into a terminated object too.
    assert_eq!(entry(|i| (i.values[3], i.origins[3]) = (2, 1)), "done 0");
    let array = |i: &mut RunInput| (i.values, i.origins) = (vec![0, 4, 0, 2], vec![0, 0, 0, 1]);
    assert_eq!(entry(array), "refused 12 3");
    // A kind 2 pointer whose origin is a plain object is untrue; null it is true.
    assert_eq!(entry(|i| (i.values[0], i.origins[0]) = (6, 2)), "refused 12 0");
    assert_eq!(entry(|i| (i.values[0], i.origins[0]) = (0, 0)), "done 0");
    // 16 after 12, of the last cell alone, though nothing points into the object.
    assert_eq!(entry(|i| i.cells[5] = 1), "refused 16 0");
    assert_eq!(entry(|i| (i.cells[5], i.values[1]) = (1, 4)), "refused 12 0");
    assert_eq!(entry(|i| (i.cells[5], i.values[0], i.origins[0]) = (1, 0, 0)), "refused 16 0");
    // The directory's length has no sign.
    assert_eq!(entry(|i| i.directory[1] = 3), "refused 10 0");
}

#[test]
fn the_lowest_object_without_its_0_is_named() {
    let mut table = Draft { variables: vec![[0; 8]], ..Draft::default() };
    table.objects = vec![2, -2, -1, -2];
    let mut input = RunInput {
        directory: vec![1, 2, 3, 2, 5, 1, 6, 2],
        cells: vec![5, 5, 5, 5, 0, 5, 5, 5],
        values: vec![0],
        origins: vec![0],
        allowance: 0,
    };
    for right in ["refused 16 2", "refused 16 3", "done 0"] {
        assert_eq!(machine::run(&table.words(), &mut input).to_string(), right);
        let wrong = if right == "refused 16 2" { 5 } else { 7 };
        input.cells[wrong] = 0;
    }
}

#[test]
fn stores_and_loads_reach_the_cells() {
    let (answer, after) = run_with(vec![load(X, P, -1, 2), store(P, -1, 0, X)], |_| {});
    assert_eq!(answer, "done 2");
    assert_eq!((after.values[2], after.cells[2]), (104, 104));
}

#[test]
fn blocks_and_steps() {
    let count_down = while_loop(with_literal(N, GREATER, 0), vec![add_constant(N, N, -1)]);
    assert_eq!(run(count_down), "done 7");
    // The test of an endless while is a step each time.
    assert_eq!(run(while_loop(with_literal(X, EQUAL, 0), vec![])), "spent 100 0");
    // A bundle is a step for its head and one for each statement.
    assert_eq!(run(bundle(vec![set(X, 1), set(X, 2)])), "done 3");
    // The end of a then block skips the else block, also from a nested one.
    let inner = if_else(with_literal(N, EQUAL, 3), vec![set(X, 1)], vec![set(X, 2)]);
    let outer = if_else(with_literal(X, EQUAL, 0), inner, vec![set(X, 3)]);
    let (answer, after) = run_with([outer, vec![add_constant(X, X, 10)]].concat(), |_| {});
    assert_eq!((answer.as_str(), after.values[2]), ("done 4", 11));
    // An empty chosen block ends at once.
    assert_eq!(run(if_else(with_literal(X, EQUAL, 0), vec![], vec![set(X, 3)])), "done 1");
}

#[test]
fn integers_wrap() {
    let (_, after) = run_with(vec![add_constant(X, X, -1), operate(X, X, X, 2)], |_| {});
    assert_eq!(after.values[2], 1);
    let (_, after) = run_with(vec![add_constant(X, X, -1), operate(X, X, N, 0)], |_| {});
    assert_eq!(after.values[2], 2);
}

#[test]
fn literals_are_large_and_compare_unsigned() {
    let (answer, after) = run_with(
        vec![set(X, -1), dynamic_check(with_literal(X, GREATER, i32::MIN)), set(X, i32::MIN)],
        |_| {},
    );
    assert_eq!((answer.as_str(), after.values[2]), ("done 3", 2_147_483_648));
    assert_eq!(run(vec![dynamic_check(with_literal(N, GREATER_EQUAL, -1))]), "stopped 1 0 1");
    let (_, after) = run_with(if_else(with_literal(X, LESS, -1), vec![set(X, -5)], vec![]), |_| {});
    assert_eq!(after.values[2], 4_294_967_291);
}
