//! Objects out of reach (point 12): which cells a run can have to do with.

use crate::answer::RunInput;
use crate::table::{Routine, Statement};
use std::ops::Range;

/// "Call an object reachable when an entry pointer has it as origin or some kind 5 statement names it": for each
/// object whether it is. A kind 5 counts wherever it stands, also where no run comes to it.
pub fn reachable(routine: &Routine, origins: &[u32]) -> Vec<bool> {
    reachable_in_set(std::slice::from_ref(routine), origins)
}

/// Point 14: "An object that any routine of the set takes the address of counts as reachable." The set is accepted.
pub fn reachable_in_set(routines: &[Routine], origins: &[u32]) -> Vec<bool> {
    let mut reachable = vec![false; routines[0].objects.len()];
    for &origin in origins.iter().filter(|&&origin| origin > 0) {
        reachable[origin as usize - 1] = true;
    }
    for statement in routines.iter().flat_map(|routine| &routine.statements) {
        if let Statement::Address { object, .. } = *statement {
            reachable[usize::from(object)] = true;
        }
    }
    reachable
}

/// The cells of unreachable objects and the cells of no object, in order, for a run that no cause refuses.
pub fn cells_out_of_reach(routines: &[Routine], input: &RunInput) -> Vec<Range<usize>> {
    let reachable = reachable_in_set(routines, &input.origins);
    let mut ranges = Vec::new();
    let mut end = 0;
    for (pair, reachable) in input.directory.chunks_exact(2).zip(reachable) {
        if reachable {
            ranges.push(end..pair[0] as usize);
            end = (pair[0] + pair[1]) as usize;
        }
    }
    ranges.push(end..input.cells.len());
    ranges.retain(|range| !range.is_empty());
    ranges
}

#[cfg(test)]
mod tests {
    use super::*;
    use crate::draft::*;
    use crate::table::decode;
    use std::slice::from_ref;

    /// p (0), n (1) and four objects of 2 cells, the first two touching.
    fn lent(statements: Vec<Record>, origin: u32) -> (Routine, RunInput) {
        let variables = vec![[1, 0, 0, -1, 0, 0, -1, 1], [0; 8]];
        let routine =
            decode(&Draft { objects: vec![2; 4], variables, statements, rows: None }.words()).unwrap();
        let input = RunInput {
            directory: vec![1, 2, 3, 2, 6, 2, 10, 2],
            cells: vec![0; 14],
            values: vec![origin, 0],
            origins: vec![origin, 0],
            allowance: 9,
        };
        (routine, input)
    }

    #[test]
    fn entry_pointers_and_kind_5_reach() {
        let (routine, input) = lent(vec![address(0, 2)], 1);
        assert_eq!(reachable(&routine, &input.origins), [true, false, true, false]);
        assert_eq!(cells_out_of_reach(from_ref(&routine), &input), [0..1, 3..6, 8..14]);
        let (routine, input) = lent(vec![], 0);
        assert_eq!(cells_out_of_reach(from_ref(&routine), &input).into_iter().flatten().count(), 14);
    }

    #[test]
    fn a_kind_5_counts_where_no_run_comes_to_it() {
        let never = if_else(with_variable(1, LESS, 1), bundle(vec![address(0, 1)]), vec![]);
        let (routine, input) = lent(never, 4);
        assert_eq!(reachable(&routine, &input.origins), [false, true, false, true]);
        assert_eq!(cells_out_of_reach(from_ref(&routine), &input), [0..3, 5..10, 12..14]);
    }
}
