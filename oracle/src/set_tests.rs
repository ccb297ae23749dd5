use super::*;
use crate::draft::*;
use crate::reach::{cells_out_of_reach, reachable_in_set};

const INTEGER: [i32; 8] = [0; 8];
/// count(n) on p (0) with n (1).
const COUNTED: [i32; 8] = [1, 0, 0, -1, 0, 0, 1, 0];

fn table(objects: &[i32], variables: &[[i32; 8]], statements: Vec<Record>) -> Vec<i32> {
    Draft { objects: objects.to_vec(), variables: variables.to_vec(), statements, rows: None }.words()
}

/// Integers alone, so many of them.
fn integers(count: usize, statements: Vec<Record>) -> Vec<i32> {
    table(&[], &vec![INTEGER; count], statements)
}

/// p (count(n)), n, x.
fn counted(statements: Vec<Record>) -> Vec<i32> {
    table(&[], &[COUNTED, INTEGER, INTEGER], statements)
}

/// Adds its first two variables to the third.
fn adder() -> Vec<i32> {
    integers(3, vec![operate(2, 0, 1, 0)])
}

/// Raises its only variable.
fn raiser() -> Vec<i32> {
    integers(1, vec![add_constant(0, 0, 1)])
}

/// Reads p[0] into x, p not null and n above 0.
fn reader() -> Vec<i32> {
    let not_null = dynamic_check(with_literal(0, NOT_EQUAL, 0));
    counted(vec![not_null, dynamic_check(with_literal(1, GREATER, 0)), load(2, 0, -1, 0)])
}

fn checked(tables: &[Vec<i32>]) -> String {
    show_check(&check(tables))
}

/// The answer, and the values of the last routine.
fn ran(tables: &[Vec<i32>], values: &[u32], allowance: u32) -> (String, Vec<u32>) {
    let origins = vec![0; values.len()];
    let mut input =
        RunInput { cells: vec![0], values: values.to_vec(), origins, allowance, ..RunInput::default() };
    let answer = run(tables, &mut input);
    (answer.to_string(), input.values)
}

fn done(steps: u32, values: &[u32]) -> (String, Vec<u32>) {
    (format!("done {steps}"), values.to_vec())
}

#[test]
fn arguments_go_in_and_the_last_variable_comes_back() {
    let caller = |result, arguments: &[i32]| integers(3, vec![call(0, result, arguments)]);
    assert_eq!(ran(&[adder(), caller(2, &[0, 1])], &[3, 4, 9], 9), done(2, &[3, 4, 7]));
    assert_eq!(ran(&[adder(), caller(-1, &[0, 1])], &[3, 4, 9], 9), done(2, &[3, 4, 9]));
    // The other integers are 0, made anew at each call.
    assert_eq!(ran(&[adder(), caller(2, &[0])], &[3, 4, 9], 9), done(2, &[3, 4, 3]));
    let twice = integers(1, vec![call(0, 0, &[]), call(0, 0, &[])]);
    assert_eq!(ran(&[integers(2, vec![add_constant(1, 1, 5)]), twice], &[0], 9), done(4, &[5]));
    // One variable as two arguments; the last variable as a parameter; the caller keeps its own.
    assert_eq!(ran(&[adder(), caller(2, &[1, 1])], &[3, 4, 9], 9), done(2, &[3, 4, 8]));
    assert_eq!(ran(&[raiser(), integers(1, vec![call(0, 0, &[0])])], &[7], 9), done(2, &[8]));
    assert_eq!(ran(&[raiser(), integers(1, vec![call(0, -1, &[0])])], &[7], 9), done(2, &[7]));
}

#[test]
fn the_step_that_ends_a_table_hands_the_result_over() {
    let caller = |callee| integers(1, vec![call(callee, 0, &[0])]);
    // An empty table ends in the call's own step; one step may end several.
    assert_eq!(ran(&[integers(1, vec![]), caller(0)], &[7], 9), done(1, &[7]));
    assert_eq!(ran(&[raiser(), caller(0), caller(1)], &[7], 3), done(3, &[8]));
    let spent = |tables: &[Vec<i32>], allowance| ran(tables, &[7], allowance);
    let of = |answer: &str, value| (answer.to_string(), vec![value]);
    assert_eq!(spent(&[raiser(), caller(0), caller(1)], 0), of("spent 0 2 0", 7));
    assert_eq!(spent(&[raiser(), caller(0), caller(1)], 1), of("spent 1 1 0", 7));
    assert_eq!(spent(&[raiser(), caller(0), caller(1)], 2), of("spent 2 0 0", 7));
    let then = integers(1, vec![call(0, 0, &[0]), set(0, 1)]);
    assert_eq!(spent(&[raiser(), then.clone()], 2), of("spent 2 1 1", 8));
    assert_eq!(spent(&[raiser(), then], 3), of("done 3", 1));
    // A stop names the routine that runs; its caller's values are in the buffer.
    let stops = integers(1, vec![add_constant(0, 0, 1), dynamic_check(with_literal(0, GREATER, 9))]);
    assert_eq!(spent(&[stops, caller(0)], 9), of("stopped 3 0 1 1", 7));
}

#[test]
fn calls_in_loops_and_branches() {
    let loop_to = while_loop(with_variable(0, LESS_EQUAL, 1), vec![call(0, 0, &[0])]);
    assert_eq!(ran(&[raiser(), integers(2, loop_to)], &[1, 2], 99), done(7, &[3, 2]));
    let sides = if_else(with_literal(0, EQUAL, 1), vec![call(0, 0, &[0])], vec![call(0, 1, &[0]), set(0, 0)]);
    assert_eq!(ran(&[raiser(), integers(2, sides.clone())], &[1, 5], 99), done(3, &[2, 5]));
    assert_eq!(ran(&[raiser(), integers(2, sides)], &[4, 5], 99), done(4, &[0, 5]));
}

#[test]
fn the_callee_comes_before_its_caller() {
    let calls = |callee| integers(1, vec![call(callee, 0, &[])]);
    let empty = || integers(1, vec![]);
    for callee in [1, 2, -1, i32::MIN, i32::MAX] {
        assert_eq!(checked(&[empty(), calls(callee)]), "refused routine 1 19 0", "{callee}");
    }
    assert_eq!(checked(&[calls(1), empty()]), "refused routine 0 19 0");
    assert_eq!(checked(&[calls(0)]), "refused routine 0 19 0");
    assert_eq!(checked(&[empty(), calls(0), calls(1), calls(0)]), "accepted");
    // In the walk, in table order; before 20.
    let before = table(&[], &[COUNTED, INTEGER], vec![set(1, 5), call(0, -1, &[])]);
    assert_eq!(checked(&[before]), "refused routine 0 8 0 0");
    let both = [15, 1, 0, -1, 0, -1, -1];
    assert_eq!(checked(&[empty(), integers(1, vec![both])]), "refused routine 1 19 0");
}

#[test]
fn arguments_fit_the_callee() {
    let gap = [15, 0, 2, -1, 1, -1, -1];
    assert_eq!(checked(&[adder(), integers(3, vec![gap])]), "refused routine 1 20 0");
    assert_eq!(checked(&[raiser(), integers(2, vec![call(0, 0, &[0, 1])])]), "refused routine 1 20 0");
    let by_kind = |kind: i32, callee: Vec<i32>| {
        let pointer = [kind, 0, 0, -1, 0, 0, 1, 0];
        let caller = table(&[], &[pointer, INTEGER, INTEGER], vec![call(0, 2, &[0, 1])]);
        checked(&[callee, caller])
    };
    assert_eq!(by_kind(1, reader()), "accepted");
    assert_eq!(by_kind(2, reader()), "refused routine 1 20 0");
    assert_eq!(by_kind(1, adder()), "refused routine 1 20 0");
    // A last variable that is no integer, result wanted or not.
    let last = table(&[], &[INTEGER, [1, 0, 1, -1, 0, 1, 0, 0]], vec![]);
    for result in [0, -1] {
        let caller = integers(1, vec![call(0, result, &[0])]);
        assert_eq!(checked(&[last.clone(), caller]), "refused routine 1 20 0", "{result}");
    }
}

#[test]
fn bounds_of_parameters_are_shown_for_the_arguments() {
    let calls = |statements: &[Record]| checked(&[reader(), counted(statements.to_vec())]);
    assert_eq!(calls(&[call(0, 2, &[0, 1])]), "accepted");
    // By another count, unless facts show it is no greater or the pointer null.
    let other = call(0, 2, &[0, 2]);
    assert_eq!(calls(&[other]), "refused routine 1 20 0");
    assert_eq!(calls(&[dynamic_check(with_variable(2, LESS_EQUAL, 1)), other]), "accepted");
    assert_eq!(calls(&[null(0), other]), "accepted");
    // The count takes no argument in this call, also where the pointer is null.
    assert_eq!(calls(&[call(0, 2, &[0])]), "refused routine 1 20 0");
    assert_eq!(calls(&[null(0), call(0, 2, &[0])]), "refused routine 1 20 1");
    // Bounds of what is no parameter may name anything.
    let local = table(&[], &[INTEGER, [1, 0, 1, -1, 0, 1, 0, 0], INTEGER], vec![]);
    assert_eq!(checked(&[local, integers(1, vec![call(0, 0, &[])])]), "accepted");
    // By the element size that the known bounds carry.
    let sized = |size| {
        let pointer = [1, size, 0, -1, 0, 0, 1, 0];
        table(&[], &[pointer, INTEGER, INTEGER], vec![])
    };
    let caller = |size| {
        let mut draft = Draft::from_words(&sized(size)).unwrap();
        draft.statements = vec![call(0, 2, &[0, 1])];
        draft.words()
    };
    assert_eq!(checked(&[sized(3), caller(3)]), "accepted");
    assert_eq!(checked(&[sized(3), caller(2)]), "refused routine 1 20 0");
}

#[test]
fn the_result_is_assigned() {
    let calls = |statements: Vec<Record>| checked(&[reader(), counted(statements)]);
    // Before the result is set the bounds are shown; then its own 8.
    assert_eq!(calls(vec![call(0, 1, &[0, 1])]), "refused routine 1 8 0 0");
    assert_eq!(calls(vec![call(0, 1, &[0, 2])]), "refused routine 1 20 0");
    assert_eq!(calls(vec![null(0), call(0, 1, &[0, 1])]), "accepted");
    // Dropped: after the call nothing is known of it, and at a while whose body sets it.
    let known = |between: Vec<Record>| {
        let first = vec![dynamic_check(with_variable(2, LESS_EQUAL, 1))];
        calls([first, between, vec![call(0, -1, &[0, 2])]].concat())
    };
    assert_eq!(known(vec![]), "accepted");
    assert_eq!(known(vec![call(0, 2, &[0, 2])]), "refused routine 1 20 2");
    assert_eq!(known(vec![call(0, -1, &[0, 2])]), "accepted");
    let body = vec![call(0, 2, &[0, 1])];
    let while_2 = while_loop(with_literal(1, EQUAL, 0), body);
    assert_eq!(known(while_2), "refused routine 1 20 3");
}

#[test]
fn reading_a_call() {
    let with = |record: Record| {
        let caller = table(&[], &[COUNTED, INTEGER], vec![record]);
        checked(&[integers(1, vec![]), caller])
    };
    assert_eq!(with([15, 0, 0, -1, -1, -1, -1]), "refused routine 1 5 0", "a pointer as result");
    assert_eq!(with([15, 0, 2, -1, -1, -1, -1]), "refused routine 1 5 0", "no variable as result");
    assert_eq!(with([15, 0, -2, -1, -1, -1, -1]), "refused routine 1 5 0");
    for field in 3..7 {
        for word in [2, -2] {
            let mut record = call(0, -1, &[]);
            record[field] = word;
            assert_eq!(with(record), "refused routine 1 5 0", "{field} {word}");
        }
    }
    assert_eq!(with([15, 9, -1, -1, -1, -1, -1]), "refused routine 1 19 0", "the callee is never 5");
    let bundled = integers(1, bundle(vec![call(0, 0, &[])]));
    assert_eq!(checked(&[integers(1, vec![]), bundled]), "refused routine 1 6 0");
}

#[test]
fn only_routine_0_lists_objects() {
    let empty = || integers(1, vec![]);
    let lists = |objects: &[i32]| table(objects, &[INTEGER], vec![]);
    assert_eq!(checked(&[lists(&[2]), empty()]), "accepted");
    for objects in [&[2][..], &[0], &[2, 0]] {
        assert_eq!(checked(&[empty(), lists(objects)]), "refused routine 1 3 0");
    }
    // After 2, before 4 and 5.
    assert_eq!(checked(&[empty(), lists(&[2; 17])]), "refused routine 1 2 0");
    let faulty = table(&[2], &[[7; 8]], vec![[99; 7]]);
    assert_eq!(checked(&[empty(), faulty]), "refused routine 1 3 0");
    let takes = |object| table(&[], &[[1, 0, 0, -1, 0, 0, -1, 2], INTEGER], vec![address(0, object)]);
    assert_eq!(checked(&[lists(&[2]), takes(0)]), "accepted");
    assert_eq!(checked(&[lists(&[2]), takes(1)]), "refused routine 1 5 0");
    assert_eq!(checked(&[lists(&[1]), takes(0)]), "refused routine 1 8 0 0");
}

#[test]
fn a_set_has_1_to_8_routines_each_whole() {
    let empty = || integers(1, vec![]);
    assert_eq!(checked(&[]), "refused 15 0");
    assert_eq!(checked(&vec![empty(); 8]), "accepted");
    assert_eq!(checked(&vec![vec![]; 9]), "refused 15 0");
    let lowers = table(&[], &[COUNTED, INTEGER], vec![set(1, 5)]);
    assert_eq!(checked(&[empty(), lowers, vec![]]), "refused routine 1 8 0 0");
    assert_eq!(ran(&[], &[0], 9).0, "refused 15 0");
}

#[test]
fn the_entry_is_the_last_routines() {
    let set = [table(&[-2], &[INTEGER], vec![]), table(&[], &[COUNTED, INTEGER], vec![])];
    let entry = |change: fn(&mut RunInput)| {
        let mut input = RunInput {
            directory: vec![1, 2],
            cells: vec![0; 3],
            values: vec![1, 1],
            origins: vec![1, 0],
            allowance: 9,
        };
        change(&mut input);
        run(&set, &mut input).to_string()
    };
    assert_eq!(entry(|_| {}), "done 0");
    assert_eq!(entry(|i| i.directory[1] = 1), "refused routine 1 10 0");
    assert_eq!(entry(|i| i.values.truncate(1)), "refused routine 1 11 0");
    assert_eq!(entry(|i| i.values[1] = 2), "refused routine 1 12 0");
    assert_eq!(entry(|i| i.cells[2] = 7), "refused routine 1 16 0");
}

#[test]
fn an_address_taken_by_any_routine_reaches() {
    let takes = table(&[2, 2, 2], &[[1, 0, 0, -1, 0, 0, -1, 2], INTEGER], vec![address(0, 1)]);
    let routines = accept(&[takes, integers(1, vec![])]).unwrap();
    assert_eq!(reachable_in_set(&routines, &[0]), [false, true, false]);
    let input = RunInput { directory: vec![1, 2, 3, 2, 5, 2], cells: vec![0; 7], ..RunInput::default() };
    assert_eq!(cells_out_of_reach(&routines, &RunInput { origins: vec![0], ..input }), [0..3, 5..7]);
}
