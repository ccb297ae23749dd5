use super::*;
use crate::answer::show_check;
use crate::draft::*;

const P: i32 = 0;
const N: i32 = 1;
const X: i32 = 2;
const Q: i32 = 3;
const Y: i32 = 4;

/// Rows: none of p's cells; count(n) of p; one cell of p; count(n) of p again; count(x) of q; p's cells at q.
const NONE: i32 = 0;
const OWN: i32 = 1;
const ONE: i32 = 2;
const AGAIN: i32 = 3;
const OF_Q: i32 = 4;
const AT_Q: i32 = 5;
const ROWS: [RowRecord; 6] = [
    [P, -1, 0, P, -1, 0],
    [P, -1, 0, P, N, 0],
    [P, -1, 0, P, -1, 1],
    [P, -1, 0, P, N, 0],
    [Q, -1, 0, Q, X, 0],
    [Q, -1, 0, Q, N, 0],
];

/// Variables: p (0, count(n)), n (1), x (2), q (3, count(x)), y (4); object 0 has 10 cells.
fn answer(statements: &[Vec<Record>]) -> String {
    let draft = Draft {
        objects: vec![10],
        variables: vec![[1, 0, P, -1, 0, P, N, 0], [0; 8], [0; 8], [1, 0, Q, -1, 0, Q, X, 0], [0; 8]],
        statements: statements.concat(),
        rows: Some(ROWS.to_vec()),
    };
    show_check(&check(&draft.words()))
}

fn positive() -> Vec<Record> {
    vec![dynamic_check(with_literal(N, GREATER, 0))]
}

fn some() -> Cond {
    with_literal(X, EQUAL, 3)
}

#[test]
fn a_row_must_be_shown_there() {
    assert_eq!(answer(&[vec![declare(P, NONE)]]), "accepted");
    assert_eq!(answer(&[vec![declare(P, OWN)]]), "accepted");
    assert_eq!(answer(&[vec![declare(P, ONE)]]), "refused 8 0 0");
    assert_eq!(answer(&[positive(), vec![declare(P, ONE)]]), "accepted");
    // A pointer that is null has every bound.
    assert_eq!(answer(&[vec![null(P), declare(P, ONE)]]), "accepted");
    assert_eq!(answer(&[vec![declare(P, OF_Q)]]), "refused 8 0 0");
    // Every fact is shown where facts contradict.
    assert_eq!(answer(&[vec![dynamic_check(with_variable(X, LESS, X)), declare(P, ONE)]]), "accepted");
}

#[test]
fn the_row_is_the_declared_bound_until_another() {
    // It becomes the known one: no wider one comes back.
    assert_eq!(answer(&[vec![declare(P, NONE), declare(P, OWN)]]), "refused 8 1 0");
    // The count is free under it, and not under the other rows.
    let free = vec![set(N, 99), operate(N, N, N, 2)];
    assert_eq!(answer(&[vec![declare(P, NONE)], free.clone()]), "accepted");
    assert_eq!(answer(&[vec![declare(P, OWN)], free.clone()]), "refused 8 1 0");
    // Assigning p leaves the row in force.
    assert_eq!(answer(&[vec![declare(P, NONE), address(P, 0)], free]), "accepted");
    assert_eq!(answer(&[vec![null(P), declare(P, ONE), address(P, 0)]]), "accepted");
    let raise = move_pointer(P, P, 1);
    assert_eq!(answer(&[vec![null(P), declare(P, OF_Q), move_pointer(P, Q, 0), raise]]), "accepted");
    assert_eq!(answer(&[vec![null(P), declare(P, OF_Q), move_pointer(Q, Q, 1)]]), "refused 8 2 3");
}

#[test]
fn in_a_bundle_only_the_declared_bound_changes() {
    // The known bounds stay, so that a wider row is shown after a narrow one.
    assert_eq!(answer(&[bundle(vec![declare(P, NONE), declare(P, OWN)])]), "accepted");
    // Refused at the kind 14, with its pointer, though n was set before and p is not shown either.
    assert_eq!(answer(&[bundle(vec![set(X, 1), declare(P, ONE)])]), "refused 8 2 0");
    assert_eq!(answer(&[bundle(vec![set(N, 1), declare(Q, AT_Q)])]), "refused 8 2 3");
    // A later check does not help: the row is asked for at its place.
    assert_eq!(answer(&[bundle(vec![declare(P, ONE), positive()[0]])]), "refused 8 1 0");
    // At the end the row in force is asked for.
    let moved = vec![declare(P, OWN), move_pointer(P, P, 1)];
    assert_eq!(answer(&[positive(), bundle(moved)]), "refused 8 1 0");
    let other = vec![move_pointer(P, Q, 0), declare(P, OF_Q)];
    assert_eq!(answer(&[bundle(other.clone())]), "accepted");
    assert_eq!(answer(&[bundle(other), vec![set(N, 99), move_pointer(P, P, 1)]]), "accepted");
}

#[test]
fn an_access_in_a_bundle_needs_the_row_in_force() {
    let read = load(Y, P, -1, 0);
    // The known bounds lose their count, though the row in force names none.
    let spoilt = |row: i32| bundle(vec![declare(P, row), add_constant(N, X, 0), read]);
    assert_eq!(answer(&[positive(), spoilt(NONE)]), "refused 9 4");
    assert_eq!(answer(&[vec![declare(P, NONE)], spoilt(NONE)]), "accepted");
    // p's own bound would be shown after the move, the row in force is not.
    let moved = vec![declare(P, ONE), add_constant(N, N, -1), move_pointer(P, P, 1), read];
    assert_eq!(answer(&[positive(), bundle(moved.clone())]), "refused 9 5");
    assert_eq!(answer(&[positive(), bundle(moved[1..].to_vec())]), "accepted");
}

#[test]
fn both_sides_of_an_if_leave_the_same_rows() {
    let choose = |then: Vec<Record>, other: Vec<Record>| answer(&[if_else(some(), then, other)]);
    let row = |r: i32| vec![declare(P, r)];
    assert_eq!(choose(row(NONE), row(NONE)), "accepted");
    assert_eq!(choose(row(OWN), row(NONE)), "refused 13 0");
    assert_eq!(choose(row(OWN), vec![]), "refused 13 0");
    assert_eq!(choose(vec![], row(OWN)), "refused 13 0");
    // By number, not by what the rows hold: the variable's own is row -1.
    assert_eq!(choose(row(OWN), row(AGAIN)), "refused 13 0");
    assert_eq!(choose(vec![declare(P, OWN), declare(P, NONE)], row(NONE)), "accepted");
    // Of a pointer that is null too, and where a side cannot be reached.
    assert_eq!(choose(vec![null(P), declare(P, ONE)], vec![null(P)]), "refused 13 0");
    let never = with_variable(X, LESS, X);
    assert_eq!(answer(&[if_else(never, row(NONE), vec![])]), "refused 13 0");
    // After all inside the blocks, and at the inner head first.
    assert_eq!(choose(row(OWN), vec![set(N, 9)]), "refused 8 2 0");
    assert_eq!(choose(if_else(some(), row(OWN), vec![]), vec![]), "refused 13 1");
    let inner = bundle(vec![move_pointer(P, P, 1), load(Y, P, -1, 0)]);
    assert_eq!(choose(row(OWN), inner), "refused 9 4");
}

#[test]
fn the_chosen_block_gives_its_bounds() {
    // p gets the cells of q, or of object 0, and its bounds with them.
    let of_q = bundle(vec![move_pointer(P, Q, 0), add_constant(N, X, 0), declare(P, OWN)]);
    let of_object = |count: i32| bundle(vec![address(P, 0), set(N, count), declare(P, OWN)]);
    let after = vec![dynamic_check(with_literal(N, GREATER, 1)), load(Y, P, -1, 1), declare(P, ONE)];
    assert_eq!(answer(&[if_else(some(), of_q.clone(), of_object(10)), after]), "accepted");
    assert_eq!(answer(&[if_else(some(), of_q, of_object(11))]), "refused 8 8 0");
    // What one side shows is not known after both: the row itself is.
    let side = |n: i32| vec![dynamic_check(with_literal(N, GREATER, n)), declare(P, ONE)];
    assert_eq!(answer(&[if_else(some(), side(0), side(5)), vec![set(N, 0), declare(P, ONE)]]), "accepted");
}

#[test]
fn the_head_and_the_end_of_a_body_leave_the_same_rows() {
    let body = |inner: Vec<Record>| while_loop(some(), inner);
    assert_eq!(answer(&[body(vec![declare(P, OWN)])]), "refused 13 0");
    assert_eq!(answer(&[vec![declare(P, OWN)], body(vec![declare(P, OWN)])]), "accepted");
    assert_eq!(answer(&[vec![declare(P, OWN)], body(vec![declare(P, AGAIN)])]), "refused 13 1");
    let there_and_back = body(vec![declare(P, AGAIN), declare(P, OWN)]);
    assert_eq!(answer(&[vec![declare(P, OWN)], there_and_back]), "accepted");
    let through_bundle = body(bundle(vec![declare(P, NONE), declare(P, OWN)]));
    assert_eq!(answer(&[vec![declare(P, OWN)], through_bundle]), "accepted");
    // Also of a body that cannot be reached; after all inside it.
    assert_eq!(answer(&[while_loop(with_variable(X, LESS, X), vec![declare(P, OWN)])]), "refused 13 0");
    assert_eq!(answer(&[body(vec![declare(P, OWN), set(N, 9)])]), "refused 8 2 0");
    assert_eq!(answer(&[body(if_else(some(), vec![declare(P, OWN)], vec![]))]), "refused 13 1");
}

#[test]
fn a_kind_14_assigns_nothing() {
    // Facts of p stay at a while whose body declares a row for it.
    let inner = while_loop(some(), vec![declare(P, NONE)]);
    let dead = if_else(with_literal(P, EQUAL, 0), vec![move_pointer(Q, Q, 1)], vec![]);
    let not_null = vec![declare(P, NONE), dynamic_check(with_literal(P, NOT_EQUAL, 0))];
    assert_eq!(answer(&[not_null, inner, dead]), "accepted");
    // No end that names p is unknown after it.
    let kept = vec![null(Q), declare(Q, OWN), declare(P, NONE), load(Y, Q, -1, 0)];
    assert_eq!(answer(&[kept]), "accepted");
}
