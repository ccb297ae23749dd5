use super::*;
use crate::draft::*;
use crate::set::accept;

/// count(n) on p with n and x; the caller hands p and n to the callee, which steps p in a bundle.
fn routines() -> Vec<Routine> {
    let counted = vec![[1, 0, 0, -1, 0, 0, 1, 0], [0; 8], [0; 8]];
    let enough = dynamic_check(with_literal(1, GREATER, 0));
    let stepped = bundle(vec![move_pointer(0, 0, 1), add_constant(1, 1, -1)]);
    let callee = [vec![enough], stepped].concat();
    let tables = [(vec![-3], callee), (vec![], vec![call(0, 2, &[0, 1])])].map(|(objects, statements)| {
        Draft { objects, variables: counted.clone(), statements, rows: None }.words()
    });
    accept(&tables).unwrap()
}

/// What is broken at the points of the run with these values, by their steps.
fn broken_at(values: [u32; 3], cells: &mut [u32]) -> Vec<u64> {
    let routines = routines();
    let mut lent = values.to_vec();
    let mut machine = Machine::of_set(&routines, &[1, 3], &mut lent, &[1, 0, 0]);
    let points = (0..6).filter(|&limit| {
        machine.go(cells, limit);
        broken(&machine, cells).is_some()
    });
    points.collect()
}

#[test]
fn callers_and_the_routine_that_runs_keep_their_bounds() {
    assert!(broken_at([1, 2, 0], &mut [0; 4]).is_empty());
}

#[test]
fn what_breaks_the_claim_is_found() {
    // A count that is one too large: of the caller, and of the callee at every point outside of its bundle.
    assert_eq!(broken_at([1, 3, 0], &mut [0; 4]), [0, 1, 2, 3, 4, 5]);
    assert_eq!(broken_at([1, 2, 0], &mut [0, 0, 0, 9]), [0, 1, 2, 3, 4, 5]);
    let routines = routines();
    let (mut lent, mut cells) = (vec![1, 2, 0], [0; 4]);
    let mut machine = Machine::of_set(&routines, &[1, 3], &mut lent, &[2, 0, 0]);
    machine.go(&mut cells, 1);
    assert_eq!(
        broken(&machine, &cells),
        Some("bounds of 0 of routine 1 are untrue after 1 steps".to_string())
    );
}
