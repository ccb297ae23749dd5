//! Objects out of reach (point 12): two runs with equal directories, values, origins and allowance, whose memories
//! differ only in cells of unreachable objects or of no object, must not tell the two memories apart.

use crate::proved::show_words;
use oracle::answer::RunInput;
use oracle::entry::check_entry;
use oracle::reach::cells_out_of_reach;
use oracle::table::Routine;
use std::ops::Range;

/// What is lent to the second run beside the first.
pub struct Pair {
    out_of_reach: Vec<Range<usize>>,
    pub second: RunInput,
}

/// A run that has ended: its answer and its buffers then.
#[derive(Clone, Copy)]
pub struct Ended<'a> {
    pub answer: &'a [u32],
    pub after: &'a RunInput,
}

impl Pair {
    /// In the second memory every cell out of reach is another one, but for the last cells of terminated objects:
    /// with another number there the second entry would be refused (16). `None` where the entry is refused: of such runs
    /// nothing is claimed. Of a set (point 14) the run begins in the last routine.
    pub fn new(routines: &[Routine], first: &RunInput) -> Option<Pair> {
        let routine = routines.last()?;
        check_entry(routine, first).ok()?;
        let out_of_reach = cells_out_of_reach(routines, first);
        let mut second = first.clone();
        for range in out_of_reach.clone() {
            second.cells[range].iter_mut().for_each(|cell| *cell = !*cell);
        }
        for (pair, object) in first.directory.chunks_exact(2).zip(&routine.objects) {
            if object.terminated {
                let last = (pair[0] + pair[1]) as usize - 1;
                second.cells[last] = first.cells[last];
            }
        }
        Some(Pair { out_of_reach, second })
    }

    /// How two runs tell the memories apart, or that one writes a cell out of reach; `lent` is the first memory.
    pub fn leak(&self, lent: &[u32], first: Ended, second: Ended) -> Option<String> {
        if first.answer != second.answer {
            let [first, second] = [first, second].map(|run| show_words(run.answer));
            return Some(format!("the answer tells cells out of reach apart: {first} and {second}"));
        }
        if first.after.values != second.after.values {
            return Some("a value tells cells out of reach apart".to_string());
        }
        // Between the ranges lie the reachable cells; an empty range at the end closes the last of them.
        let mut start = 0;
        let last = lent.len()..lent.len();
        for range in self.out_of_reach.iter().chain([&last]) {
            let reachable = start..range.start;
            if first.after.cells[reachable.clone()] != second.after.cells[reachable] {
                return Some("a reachable cell tells cells out of reach apart".to_string());
            }
            for (after, before) in [(first.after, lent), (second.after, &self.second.cells)] {
                if after.cells[range.clone()] != before[range.clone()] {
                    return Some(format!("a cell out of reach is written, one of {range:?}"));
                }
            }
            start = range.end;
        }
        None
    }
}

#[cfg(test)]
mod tests {
    use super::*;
    use crate::differ;
    use crate::edits::{EditCase, Edited};
    use crate::generate::Case;
    use crate::proved::{run_words, Checked, Fast, Implementation, RunWords};
    use crate::sets::{SetCheckWords, SetParts, SetRunWords};
    use crate::turns::{Parts, TurnsWords};
    use oracle::draft::*;
    use oracle::machine;
    use oracle::table::decode;

    /// p (0, count(n)), n, x; the club's rows, and behind them, touching, the members' telephone numbers.
    fn club() -> (Vec<i32>, RunInput) {
        let to_count = with_variable(2, LESS, 1);
        let statements = [
            while_loop(to_count, vec![store(0, 2, 0, 2), add_constant(2, 2, 1)]),
            vec![load(2, 0, -1, 1), dynamic_check(with_literal(2, EQUAL, 1)), load(2, 0, 1, 0)],
        ];
        let variables = vec![[1, 0, 0, -1, 0, 0, 1, 0], [0; 8], [0; 8]];
        let table = Draft { objects: vec![3, 2], variables, statements: statements.concat(), rows: None };
        let input = RunInput {
            directory: vec![2, 3, 5, 2],
            cells: vec![0, 0, 10, 11, 12, 5_550_123, 5_550_124, 0],
            values: vec![2, 3, 0],
            origins: vec![1, 0, 0],
            allowance: 100,
        };
        (table.words(), input)
    }

    /// What the two runs of the club's routine let out.
    fn leak(run: impl Fn(&[i32], &mut RunInput) -> RunWords) -> Option<String> {
        let (table, lent) = club();
        let pair = Pair::new(&[decode(&table).unwrap()], &lent).expect("an entry that is accepted");
        let (mut first, mut second) = (lent.clone(), pair.second.clone());
        let answers = [run(&table, &mut first), run(&table, &mut second)];
        let first = Ended { answer: &answers[0], after: &first };
        pair.leak(&lent.cells, first, Ended { answer: &answers[1], after: &second })
    }

    /// Wrong on purpose: the right run, then something with the buffers and the answer.
    struct Wrong(fn(&mut RunInput, &mut RunWords));

    impl Implementation for Wrong {
        fn name(&self) -> &'static str {
            "wrong"
        }

        fn check(&self, table: &[i32], facts: &[i32]) -> Checked {
            Fast.check(table, facts)
        }

        fn run(&self, table: &[i32], facts: &[i32], input: &mut RunInput) -> RunWords {
            let mut words = Fast.run(table, facts, input);
            (self.0)(input, &mut words);
            words
        }

        fn dispatch(&self, parts: &mut Parts) -> TurnsWords {
            Fast.dispatch(parts)
        }

        fn edits(&self, case: &EditCase) -> Edited {
            Fast.edits(case)
        }

        fn check_set(&self, parts: &SetParts) -> SetCheckWords {
            Fast.check_set(parts)
        }

        fn run_set(&self, parts: &mut SetParts) -> SetRunWords {
            Fast.run_set(parts)
        }
    }

    #[test]
    fn all_cells_out_of_reach_differ_and_no_other() {
        let (table, lent) = club();
        let pair = Pair::new(&[decode(&table).unwrap()], &lent).unwrap();
        let differ = (0..8).filter(|&a| pair.second.cells[a] != lent.cells[a]);
        assert_eq!(differ.collect::<Vec<_>>(), [0, 1, 5, 6, 7]);
    }

    #[test]
    fn the_second_entry_is_accepted_with_terminated_objects_out_of_reach() {
        let (mut table, mut lent) = club();
        // The members' numbers end with 0; so do their cells in the second memory.
        table[7] = -2;
        lent.cells[6] = 0;
        let pair = Pair::new(&[decode(&table).unwrap()], &lent).unwrap();
        let differ = (0..8).filter(|&a| pair.second.cells[a] != lent.cells[a]);
        assert_eq!(differ.collect::<Vec<_>>(), [0, 1, 5, 7]);
        assert_eq!(check_entry(&decode(&table).unwrap(), &pair.second), Ok(()));
    }

    #[test]
    fn both_forms_leak_nothing() {
        let (table, mut input) = club();
        assert_eq!(Fast.run(&table, &[], &mut input), [2, 13, 5, 3]);
        assert_eq!(leak(|table, input| run_words(&machine::run(table, input))), None);
        assert_eq!(leak(|table, input| Fast.run(table, &[], input)), None);
    }

    #[test]
    fn a_refused_entry_makes_no_pair() {
        let (table, mut lent) = club();
        lent.values[1] = 4;
        assert!(Pair::new(&[decode(&table).unwrap()], &lent).is_none());
    }

    #[test]
    fn an_implementation_that_touches_a_foreign_cell_is_found() {
        let found = |wrong| leak(|table, input| Wrong(wrong).run(table, &[], input)).expect("a leak");
        // Reads a telephone number: into a value, a cell of its own, the steps.
        assert!(found(|input, _| input.values[2] = input.cells[5]).starts_with("a value"));
        assert!(found(|input, _| input.cells[4] = input.cells[6]).starts_with("a reachable cell"));
        assert!(found(|input, words| words[1] += input.cells[7] & 1).starts_with("the answer"));
        // Writes one: the same in both memories, or by what stood there.
        assert_eq!(found(|input, _| input.cells[5] = 7), "a cell out of reach is written, one of 5..8");
        assert!(found(|input, _| input.cells[0] ^= 1).ends_with("0..2"));
    }

    #[test]
    fn differ_finds_it_where_the_lent_memory_tells_nothing() {
        let (table, input) = club();
        let case = Case { table, facts: vec![], input };
        // Right in the memory that is lent, where cell 0 is small.
        let nosy = Wrong(|input, _| input.values[2] += u32::from(input.cells[0] > 1_000));
        let what = differ::difference(&case, &nosy).expect("a leak");
        assert_eq!(what, "wrong: a value tells cells out of reach apart");
        assert_eq!(differ::difference(&case, &Fast), None);
    }
}
