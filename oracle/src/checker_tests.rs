use super::*;
use crate::answer::show_check;
use crate::draft::*;

const P: i32 = 0;
const N: i32 = 1;
const X: i32 = 2;
const Q: i32 = 3;

/// Variables: p (0, count(n)), n (1), x (2), q (3) with p's bounds; object 0 has 10 cells.
fn answer(statements: &[Vec<Record>]) -> String {
    answer_with([1, 0, P, -1, 0, P, N, 0], statements)
}

fn answer_with(q: [i32; 8], statements: &[Vec<Record>]) -> String {
    show_check(&check(&draft(q, statements).words()))
}

fn draft(q: [i32; 8], statements: &[Vec<Record>]) -> Draft {
    Draft {
        objects: vec![10],
        variables: vec![[1, 0, P, -1, 0, P, N, 0], [0; 8], [0; 8], q],
        statements: statements.concat(),
        rows: None,
    }
}

/// q with bounds of its own: count(x).
const OWN: [i32; 8] = [1, 0, Q, -1, 0, Q, X, 0];

fn positive() -> Vec<Record> {
    vec![dynamic_check(with_literal(N, GREATER, 0))]
}

fn impossible() -> Record {
    dynamic_check(with_variable(X, LESS, X))
}

#[test]
fn the_routines_of_the_paper() {
    let lower = add_constant(N, N, -1);
    let raise = move_pointer(P, P, 1);
    let below_10 = vec![dynamic_check(with_literal(N, LESS, 10))];
    let read = load(X, P, -1, 0);
    let loop_k = while_loop(with_literal(N, GREATER, 0), vec![lower]);
    let check_l = vec![dynamic_check(with_variable(N, LESS, N)), set(X, 1)];
    for (name, routine, right) in [
        ("a", vec![vec![lower]], "refused 8 0 0"),
        ("b", vec![positive(), vec![lower]], "accepted"),
        ("c", vec![below_10, vec![add_constant(N, N, 1)]], "refused 8 1 0"),
        ("d", vec![vec![raise]], "refused 8 0 0"),
        ("e", vec![positive(), bundle(vec![raise, lower])], "accepted"),
        ("f", vec![positive(), bundle(vec![raise, read, lower])], "refused 9 3"),
        ("g", vec![positive(), bundle(vec![lower, read, raise])], "accepted"),
        ("h", vec![bundle(vec![address(P, 0), set(N, 10)])], "accepted"),
        ("i", vec![bundle(vec![address(P, 0), set(N, 11)])], "refused 8 0 0"),
        ("j", vec![vec![null(P), set(N, 5)]], "accepted"),
        ("k", vec![loop_k], "accepted"),
        ("l", vec![check_l], "accepted"),
    ] {
        assert_eq!(answer_with([0; 8], &routine), right, "{name}");
    }
}

#[test]
fn a_pointer_is_moved_within_the_bounds_of_another() {
    assert_eq!(answer(&[vec![move_pointer(Q, Q, 5), index_pointer(Q, P, X), null(Q)]]), "accepted");
    // Moving the anchor takes both pointers' bounds.
    assert_eq!(answer(&[vec![move_pointer(P, P, 1)]]), "refused 8 0 0");
    assert_eq!(answer(&[vec![null(P), null(Q), set(N, 5)]]), "refused 8 0 3");
}

#[test]
fn kind_4_makes_its_own_ends_unknown() {
    let back = vec![null(P), move_pointer(P, P, 1), add_constant(N, N, -1)];
    assert_eq!(answer_with([0; 8], &[positive(), bundle(back)]), "refused 8 1 0");
}

#[test]
fn a_copy_takes_the_bounds_and_then_loses_ends_that_name_the_target() {
    // q's bounds hang on p: copied to p they name p, which is assigned.
    assert_eq!(answer(&[vec![move_pointer(P, Q, 0)]]), "refused 8 0 0");
    // q with bounds of its own gives them to p, with its count.
    let both = bundle(vec![move_pointer(P, Q, 0), add_constant(N, X, 0)]);
    assert_eq!(answer_with(OWN, &[both]), "accepted");
    let too_many = bundle(vec![move_pointer(P, Q, 0), add_constant(N, X, 1)]);
    assert_eq!(answer_with(OWN, &[too_many]), "refused 8 0 0");
}

#[test]
fn the_inverse_exists_only_where_facts_are_shifted() {
    let around = |k| bundle(vec![add_constant(N, N, k), add_constant(N, N, -k)]);
    assert_eq!(answer_with([0; 8], &[around(1)]), "refused 8 0 0");
    let room = vec![dynamic_check(with_variable(N, LESS, X))];
    assert_eq!(answer_with([0; 8], &[room.clone(), around(1)]), "accepted");
    assert_eq!(answer_with([0; 8], &[room, around(2)]), "refused 8 1 0");
    // The same value by another kind has no inverse.
    let five = vec![dynamic_check(with_literal(N, EQUAL, 5)), set(N, 5)];
    assert_eq!(answer_with([0; 8], &[five]), "refused 8 1 0");
    assert_eq!(answer_with([0; 8], &[vec![add_constant(N, N, 0), move_pointer(P, P, 0)]]), "accepted");
}

#[test]
fn known_ends_may_have_any_constant() {
    let far = [65_536, 65_536, -65_536, -65_536].map(|k| move_pointer(P, P, k)).to_vec();
    assert_eq!(answer_with([0; 8], &[bundle(far)]), "accepted");
}

/// Whether the facts contradict after a routine that is accepted.
fn dead_after(statements: &[Vec<Record>]) -> bool {
    let routine = decode(&draft([1, 0, P, -1, 0, P, N, 0], statements).words()).unwrap();
    walk(&routine, &mut |_, _| {}).unwrap().contradictory()
}

#[test]
fn kind_6_contradicts_where_no_run_could_go_on() {
    assert!(dead_after(&[vec![null(Q), move_pointer(Q, Q, -1)]]));
    assert!(!dead_after(&[vec![null(Q), move_pointer(Q, Q, 0)]]));
    // q >= 1 also where it is shifted: then q = 0 contradicts.
    assert!(dead_after(&[vec![move_pointer(Q, Q, -1), dynamic_check(with_literal(Q, EQUAL, 0))]]));
}

#[test]
fn accesses_and_arithmetic_say_nothing_of_their_source() {
    let null_after = |statement| [vec![statement, dynamic_check(with_literal(P, EQUAL, 0))]];
    assert!(!dead_after(&null_after(load(X, P, -1, 0))));
    // q = p + 1 and q >= 1 leave p = 0 possible.
    assert!(!dead_after(&null_after(move_pointer(Q, P, 1))));
}

/// Refused wherever facts do not contradict: p loses its bounds, is read through, and its count rises.
fn only_dead() -> Vec<Record> {
    let inner = vec![index_pointer(P, P, X), load(X, P, -1, 0), null(P), move_pointer(P, P, -1)];
    [bundle(inner), vec![add_constant(N, N, 1), operate(N, N, X, 2), set(N, 7), address(P, 0)]].concat()
}

#[test]
fn what_cannot_be_reached_is_walked_with_every_fact_shown() {
    assert_eq!(answer(&[only_dead()]), "refused 9 2");
    assert_eq!(answer(&[vec![impossible()], only_dead()]), "accepted");
    let inside = bundle(vec![impossible(), move_pointer(P, P, 1), load(X, P, -1, 0)]);
    assert_eq!(answer(&[inside, only_dead()]), "accepted");
    let (never, always) = (with_variable(X, LESS, X), with_literal(X, GREATER_EQUAL, 0));
    for nested in [
        if_else(never, only_dead(), vec![]),
        if_else(always, vec![], only_dead()),
        while_loop(never, only_dead()),
        while_loop(never, if_else(with_literal(N, EQUAL, 0), only_dead(), only_dead())),
        if_else(never, while_loop(with_literal(N, EQUAL, 0), only_dead()), vec![]),
    ] {
        assert_eq!(answer(&[nested.clone(), vec![null(Q)]]), "accepted");
        // The block alone is dead, not what follows it.
        let place = nested.len() + 2;
        assert_eq!(answer(&[nested, only_dead()]), format!("refused 9 {place}"));
    }
    assert_eq!(answer(&[while_loop(always, vec![]), only_dead()]), "accepted");
    // What is wrong by causes 5 and 6 is so in dead code too.
    assert_eq!(answer(&[vec![impossible(), set(P, 1)]]), "refused 5 1");
}

#[test]
fn a_contradiction_is_kept_by_drops_and_by_a_join_of_two() {
    let one = |statements| Draft { variables: vec![[0; 8]], statements, ..Draft::default() }.words();
    let check = dynamic_check(with_variable(0, LESS, 0));
    let dropped = decode(&one(vec![check, operate(0, 0, 0, 0), set(0, 5), add_constant(0, 0, -9)])).unwrap();
    assert!(walk(&dropped, &mut |_, _| {}).unwrap().contradictory());
    let empty = || if_else(with_variable(X, LESS, X), vec![], vec![]);
    assert!(!dead_after(&[empty()]) && dead_after(&[vec![impossible()], empty()]));
    let both = if_else(with_literal(X, EQUAL, 3), vec![impossible()], vec![impossible(), set(X, 1)]);
    assert!(dead_after(&[both]));
    let body = || while_loop(with_literal(X, EQUAL, 3), vec![set(X, 1)]);
    assert!(!dead_after(&[body()]) && dead_after(&[vec![impossible()], body()]));
}

#[test]
fn the_facts_before_each_statement_are_seen_in_table_order() {
    let all =
        [bundle(vec![impossible(), set(X, 1)]), if_else([X, EQUAL, 1, 3], vec![null(Q)], vec![])].concat();
    let routine = decode(&draft(OWN, &[all]).words()).unwrap();
    let mut seen = Vec::new();
    walk(&routine, &mut |s, facts| seen.push((s, facts.contradictory()))).unwrap();
    assert_eq!(seen, [(0, false), (1, false), (2, true), (3, true), (4, true)]);
}

#[test]
fn a_contradictory_side_adds_nothing_to_a_join() {
    let split = if_else(with_literal(N, GREATER_EQUAL, 1), vec![], vec![impossible()]);
    assert_eq!(answer_with([0; 8], &[split, vec![add_constant(N, N, -1)]]), "accepted");
    let either = if_else(with_literal(N, GREATER_EQUAL, 1), vec![], vec![]);
    assert_eq!(answer_with([0; 8], &[either, vec![add_constant(N, N, -1)]]), "refused 8 1 0");
}

#[test]
fn a_while_drops_before_its_body_and_keeps_nothing_of_it() {
    let lower = add_constant(N, N, -1);
    // Known before the loop, but the body changes n.
    let once = while_loop(with_literal(X, GREATER, 0), vec![lower]);
    assert_eq!(answer_with([0; 8], &[positive(), once]), "refused 8 2 0");
    // x := x + 0 in the body counts as assigned.
    let same = while_loop(with_literal(X, EQUAL, 7), vec![add_constant(N, N, 0)]);
    assert_eq!(answer_with([0; 8], &[positive(), same, vec![lower]]), "refused 8 3 0");
    // The body's check does not hold after the loop.
    let inside = while_loop(with_literal(X, EQUAL, 7), positive());
    assert_eq!(answer_with([0; 8], &[inside, vec![lower]]), "refused 8 2 0");
    // The negated condition does.
    let until = while_loop(with_literal(N, EQUAL, 0), vec![]);
    assert_eq!(answer_with([0; 8], &[until, vec![lower]]), "accepted");
}

#[test]
fn a_terminated_object_keeps_its_last_cell() {
    // p as an array_ptr or an nt_array_ptr, the object with 10 cells; kind 5 gives one cell less.
    let object = |word: i32, kind: i32, count: i32| {
        let mut table = draft([0; 8], &[bundle(vec![address(P, 0), set(N, count)])]);
        table.objects[0] = word;
        table.variables[0][0] = kind;
        show_check(&check(&table.words()))
    };
    assert_eq!(object(10, 1, 10), "accepted");
    for kind in [1, 2] {
        assert_eq!(object(-10, kind, 9), "accepted");
        assert_eq!(object(-10, kind, 10), "refused 8 0 0");
        assert_eq!(object(-1, kind, 0), "accepted");
    }
}

#[test]
fn facts_relate_both_kinds_of_pointers() {
    // q = p goes through a join, though p is an nt_array_ptr and q is none: so p is null where q is.
    let split = if_else(with_literal(X, EQUAL, 3), vec![], vec![]);
    let null_by = |first: Record| {
        let mut table = draft(
            [1, 0, P, -1, 0, P, N, 0],
            &[vec![first], split.clone(), vec![dynamic_check(with_literal(Q, EQUAL, 0)), set(N, 5)]],
        );
        table.variables[0][0] = 2;
        show_check(&check(&table.words()))
    };
    assert_eq!(null_by(move_pointer(Q, P, 0)), "accepted");
    assert_eq!(null_by(null(Q)), "refused 8 3 0");
}

#[test]
fn null_passes_an_access_in_a_bundle() {
    let read = load(X, P, -1, 0);
    assert_eq!(answer_with([0; 8], &[bundle(vec![null(P), read])]), "accepted");
    assert_eq!(answer_with([0; 8], &[bundle(vec![set(N, 1), read])]), "refused 9 2");
}

#[test]
fn refusal_8_names_the_lowest_pointer_not_shown() {
    // Moving p takes the bounds of p and of q, which has them at p.
    assert_eq!(answer(&[vec![move_pointer(P, P, 1)]]), "refused 8 0 0");
    // Not the one that is assigned: p has its bounds at q here.
    let mut draft = Draft { variables: vec![[1, 0, 1, -1, 0, 1, -1, 1]; 2], ..Draft::default() };
    draft.statements = vec![move_pointer(1, 1, 1)];
    assert_eq!(show_check(&check(&draft.words())), "refused 8 0 0");
    // A pointer that is null is shown, and so passed over.
    draft.statements = vec![null(0), move_pointer(1, 1, 1)];
    assert_eq!(show_check(&check(&draft.words())), "refused 8 1 1");
}

#[test]
fn facts_use_the_value_that_a_literal_means() {
    let around = bundle(vec![add_constant(N, N, 1), add_constant(N, N, -1)]);
    let after = |condition| answer_with([0; 8], &[vec![dynamic_check(condition)], around.clone()]);
    assert_eq!(after(with_literal(N, LESS, -1)), "accepted");
    assert_eq!(after(with_literal(N, LESS_EQUAL, -1)), "refused 8 1 0");
    assert_eq!(after(with_literal(N, LESS_EQUAL, -2)), "accepted");
    assert_eq!(after(with_literal(N, EQUAL, i32::MIN)), "accepted");
    // k is no literal: it stays negative.
    let full = vec![dynamic_check(with_literal(N, EQUAL, -1))];
    let down = bundle(vec![add_constant(N, N, -65_536), add_constant(N, N, 65_536)]);
    assert_eq!(answer_with([0; 8], &[full.clone(), down]), "accepted");
    assert_eq!(answer_with([0; 8], &[full, around]), "refused 8 1 0");
}

#[test]
fn not_equal_tells_in_every_place() {
    // Integers and pointers; the dead block is accepted only where left < right is known.
    for (left, right, dead) in [(X, N, move_pointer(P, P, 1)), (P, Q, add_constant(N, N, 1))] {
        let strict = || if_else(with_variable(left, GREATER_EQUAL, right), vec![dead], vec![]);
        let order = || vec![dynamic_check(with_variable(left, LESS_EQUAL, right))];
        let (equal, unequal) = (with_variable(left, EQUAL, right), with_variable(left, NOT_EQUAL, right));
        for chunk in [
            [vec![dynamic_check(unequal)], strict()].concat(),
            if_else(unequal, strict(), vec![]),
            if_else(equal, vec![], strict()),
            while_loop(unequal, strict()),
            [while_loop(equal, vec![load(X, P, -1, 0)]), strict()].concat(),
        ] {
            let x_is_dropped = left == X && chunk[0][0] == 12 && chunk[0][2] == EQUAL;
            let accepted = answer(&[order(), chunk.clone()]) == "accepted";
            assert_eq!(accepted, !x_is_dropped, "{chunk:?}");
            assert!(answer(&[chunk]).starts_with("refused 8"));
        }
        // At a while the order is asked after the drop.
        let assigned = while_loop(unequal, [strict(), vec![set(X, 0), null(Q)]].concat());
        assert!(answer(&[order(), assigned]).starts_with("refused 8"));
    }
}

#[test]
fn a_routine_by_itself_has_nobody_to_call() {
    for callee in [0, 1, -1] {
        assert_eq!(answer(&[vec![set(X, 1), call(callee, X, &[N])]]), "refused 19 1");
    }
    // In the walk: what is refused before it comes first, and it comes before its own 8.
    assert_eq!(answer(&[vec![set(N, 1), call(0, X, &[])]]), "refused 8 0 0");
    assert_eq!(answer(&[vec![call(0, N, &[])]]), "refused 19 0");
    assert_eq!(answer(&[bundle(vec![call(0, X, &[])])]), "refused 6 0");
    assert_eq!(answer(&[vec![call(0, P, &[])]]), "refused 5 0");
}
