use super::*;
use crate::answer::show_check;
use crate::draft::*;

const P: i32 = 0;
const N: i32 = 1;
const Q: i32 = 2;
const M: i32 = 3;
const X: i32 = 4;

/// Variables: p (0, count(n)), n (1), q (2, count(m)), m (3), x (4); elements of p and q of so many cells.
fn draft(sizes: [i32; 2], statements: &[Vec<Record>]) -> Draft {
    let [p, q] = sizes;
    Draft {
        objects: vec![10],
        variables: vec![[1, p, P, -1, 0, P, N, 0], [0; 8], [1, q, Q, -1, 0, Q, M, 0], [0; 8], [0; 8]],
        statements: statements.concat(),
        rows: None,
    }
}

fn answer(sizes: [i32; 2], statements: &[Vec<Record>]) -> String {
    show_check(&check(&draft(sizes, statements).words()))
}

fn at_least(n: i32, k: i32) -> Vec<Record> {
    vec![dynamic_check(with_literal(n, GREATER_EQUAL, k))]
}

#[test]
fn a_pointer_steps_by_rows() {
    let step = |cells: i32, rows: i32| {
        let forwards = vec![move_pointer(P, P, cells), add_constant(N, N, -rows)];
        let backwards = vec![add_constant(N, N, -rows), move_pointer(P, P, cells)];
        let answers = [forwards, backwards].map(|inner| answer([3, 0], &[at_least(N, 2), bundle(inner)]));
        assert_eq!(answers[0], answers[1]);
        answers[0].clone()
    };
    assert_eq!(step(3, 1), "accepted");
    assert_eq!(step(2, 1), "accepted");
    assert_eq!(step(4, 1), "refused 8 1 0");
    assert_eq!(step(6, 2), "accepted");
    assert_eq!(step(7, 2), "refused 8 1 0");
    // 0 and 1 are one cell.
    let one = [at_least(N, 1), bundle(vec![move_pointer(P, P, 1), add_constant(N, N, -1)])];
    assert_eq!(answer([0, 0], &one), "accepted");
    assert_eq!(answer([1, 0], &one), "accepted");
}

#[test]
fn an_object_has_so_many_whole_rows() {
    let object = |size: i32, rows: i32| answer([size, 0], &[bundle(vec![address(P, 0), set(N, rows)])]);
    assert_eq!(object(3, 3), "accepted");
    assert_eq!(object(3, 4), "refused 8 0 0");
    assert_eq!(object(8, 1), "accepted");
    assert_eq!(object(8, 2), "refused 8 0 0");
    // Known by a chain: n <= 3 times 3.
    let below = || vec![dynamic_check(with_literal(N, LESS_EQUAL, 3)), address(P, 0)];
    assert_eq!(answer([3, 0], &[below()]), "accepted");
    assert_eq!(answer([4, 0], &[below()]), "refused 8 1 0");
}

#[test]
fn equal_sizes_multiply_the_sum_of_the_integers() {
    // q gets p's rows; m = n - k leaves k rows, of which q's upper end may take back so many cells.
    let copied = |size: i32, k: i32, cells: i32| {
        let mut table = draft(
            [size, size],
            &[at_least(N, 9), bundle(vec![move_pointer(Q, P, 0), add_constant(M, N, -k)])],
        );
        table.variables[Q as usize][7] = cells;
        show_check(&check(&table.words()))
    };
    assert_eq!(copied(3, 2, 6), "accepted");
    assert_eq!(copied(3, 2, 7), "refused 8 1 2");
    assert_eq!(copied(1, 2, 2), "accepted");
    assert_eq!(copied(1, 2, 3), "refused 8 1 2");
    assert_eq!(copied(3, 0, 0), "accepted");
}

#[test]
fn different_sizes_compare_no_integers() {
    let copied =
        |sizes: [i32; 2]| answer(sizes, &[bundle(vec![move_pointer(Q, P, 0), add_constant(M, N, 0)])]);
    assert_eq!(copied([3, 3]), "accepted");
    assert_eq!(copied([0, 1]), "accepted");
    for sizes in [[3, 2], [2, 3], [3, 0], [1, 8]] {
        assert_eq!(copied(sizes), "refused 8 0 2", "{sizes:?}");
    }
    // Even where the count is known to be nothing.
    let nothing = || bundle(vec![move_pointer(Q, P, 0), set(M, 0)]);
    assert_eq!(answer([3, 2], &[nothing()]), "refused 8 0 2");
    assert_eq!(answer([3, 3], &[nothing()]), "accepted");
    // A null pointer has every bound, whatever the sizes.
    assert_eq!(answer([3, 2], &[vec![null(P)], bundle(vec![move_pointer(Q, P, 0), set(M, 9)])]), "accepted");
}

#[test]
fn ends_without_integers_compare_one_by_one() {
    // p and q have a cell on either side; q takes p's bounds.
    let constant = |q: [i32; 8]| {
        let mut table = draft([3, 2], &[vec![move_pointer(Q, P, 0)]]);
        table.variables[P as usize] = [1, 3, P, -1, -1, P, -1, 6];
        table.variables[Q as usize] = q;
        show_check(&check(&table.words()))
    };
    assert_eq!(constant([1, 2, Q, -1, -1, Q, -1, 6]), "accepted");
    assert_eq!(constant([1, 2, P, -1, 0, P, -1, 5]), "accepted");
    assert_eq!(constant([1, 2, P, -1, -1, P, -1, 7]), "refused 8 0 2");
    // One of q's ends names an integer: this one does not compare.
    assert_eq!(constant([1, 2, P, M, -1, P, -1, 6]), "refused 8 0 2");
    assert_eq!(constant([1, 2, P, -1, -1, P, M, -9]), "refused 8 0 2");
    assert_eq!(constant([1, 3, P, M, -1, P, -1, 6]), "accepted");
}

#[test]
fn known_bounds_carry_their_size() {
    // Through q, whose elements have another size, and back. p has its bounds at a third pointer, which stays.
    let through = bundle(vec![move_pointer(Q, P, 0), move_pointer(P, Q, 0), null(Q)]);
    let mut table = draft([3, 2], &[through]);
    table.variables.push([1, 3, 5, -1, 0, 5, N, 0]);
    table.variables[P as usize] = [1, 3, 5, -1, 0, 5, N, 0];
    assert_eq!(show_check(&check(&table.words())), "accepted");
    // Those of kind 5 have the size of their pointer, also where another one takes them.
    let taken = || bundle(vec![address(P, 0), move_pointer(Q, P, 0), set(N, 3), set(M, 3)]);
    assert_eq!(answer([3, 3], &[taken()]), "accepted");
    assert_eq!(answer([3, 2], &[taken()]), "refused 8 0 2");
    assert_eq!(answer([3, 1], &[taken()]), "refused 8 0 2");
}

#[test]
fn a_row_has_the_size_of_its_pointer() {
    let row = |sizes: [i32; 2], p: i32, guard: i32| {
        let mut table = draft(sizes, &[at_least(N, guard), at_least(M, guard), vec![declare(p, p / 2)]]);
        table.rows = Some(vec![[P, -1, 0, P, N, -6], [Q, -1, 6, Q, M, 0]]);
        show_check(&check(&table.words()))
    };
    assert_eq!(row([3, 2], P, 0), "accepted");
    assert_eq!(row([3, 2], Q, 0), "accepted");
    // A row by constants is shown by so many elements.
    let cells = |size: i32, k: i32| {
        let mut table = draft([size, 0], &[at_least(N, 2), vec![declare(P, 0)]]);
        table.rows = Some(vec![[P, -1, 0, P, -1, k]]);
        show_check(&check(&table.words()))
    };
    assert_eq!(cells(3, 6), "accepted");
    assert_eq!(cells(3, 7), "refused 8 1 0");
    assert_eq!(cells(1, 3), "refused 8 1 0");
}

#[test]
fn an_inverse_moves_an_end_by_so_many_cells() {
    let around = |k: i32, back: i32| {
        let inner =
            vec![add_constant(N, N, -k), load(X, P, -1, 0), add_constant(N, N, k), move_pointer(P, P, back)];
        answer([3, 0], &[at_least(N, 5), bundle(inner)])
    };
    assert_eq!(around(2, 0), "accepted");
    assert_eq!(around(2, 1), "refused 8 1 0");
    // Kind 7 to itself has none.
    assert_eq!(answer([3, 0], &[vec![set(X, 0), index_pointer(P, P, X)]]), "refused 8 1 0");
}
