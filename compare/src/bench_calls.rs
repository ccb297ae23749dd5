//! The cost of a call (point 14): the handicap formula called in a loop, beside the same statements copied in.

use crate::bench::best;
use crate::linked::Proved;
use crate::proved::{Fast, Implementation};
use crate::sets::{SetCase, SetParts};
use oracle::answer::RunInput;
use oracle::draft::*;
use std::hint::black_box;

/// corrected := elapsed - allowance * miles, or 0; four statements, four steps where it is not 0.
fn formula([elapsed, allowance, miles, credit, corrected]: [i32; 5]) -> Vec<Record> {
    let rest = vec![operate(corrected, elapsed, credit, 1)];
    let positive = if_else(with_variable(credit, LESS, elapsed), rest, vec![]);
    [vec![operate(credit, allowance, miles, 2), set(corrected, 0)], positive].concat()
}

/// Elapsed time, allowance, miles, credit, corrected time, rounds left.
const NAMES: [i32; 5] = [0, 1, 2, 3, 4];
const ROUNDS: i32 = 5;

fn table(variables: usize, statements: Vec<Record>) -> Vec<i32> {
    Draft { variables: vec![[0; 8]; variables], statements, ..Draft::default() }.words()
}

/// So many rounds of a body over these variables.
fn rounds(body: Vec<Record>) -> Vec<i32> {
    let step = vec![add_constant(ROUNDS, ROUNDS, -1)];
    table(6, while_loop(with_literal(ROUNDS, GREATER, 0), [body, step].concat()))
}

fn lent(count: u32) -> RunInput {
    let values = vec![2_710, 40, 6, 0, 0, count];
    RunInput { cells: vec![0], values, origins: vec![0; 6], allowance: u32::MAX, ..RunInput::default() }
}

/// The formula in the loop.
fn copied(count: u32) -> (Vec<i32>, RunInput) {
    (rounds(formula(NAMES)), lent(count))
}

/// The formula in a routine of its own, called in the loop.
fn called(count: u32) -> SetParts {
    let tables = vec![table(5, formula(NAMES)), rounds(vec![call(0, 4, &[0, 1, 2])])];
    SetParts::of(&SetCase { tables, input: lent(count) })
}

/// A routine of nothing but calls.
fn many_calls(count: usize) -> SetParts {
    let tables = vec![table(5, formula(NAMES)), table(6, vec![call(0, 4, &[0, 1, 2]); count])];
    SetParts::of(&SetCase { tables, input: lent(0) })
}

pub fn calls() {
    const COUNT: u32 = 20_000;
    const CALLS: usize = 1_024;
    let forms: [(&str, &dyn Implementation); 2] = [("fast", &Fast), ("proved", &Proved)];
    for (form, implementation) in forms {
        let (table, input) = copied(COUNT);
        let inside = best(100, || {
            let mut input = input.clone();
            assert_eq!(implementation.run(black_box(&table), &[], &mut input)[0], 0, "done");
        });
        let parts = called(COUNT);
        let outside = best(100, || {
            let mut parts = black_box(&parts).clone();
            assert_eq!(implementation.run_set(&mut parts)[0], 0, "done");
        });
        let [inside, outside] = [inside, outside].map(|all| all / f64::from(COUNT));
        println!(
            "calls, {form}: a round of 6 steps copied in {inside:.1} ns, of 7 steps with a call {outside:.1} ns: \
             a call with its return {:.1} ns",
            outside - inside
        );
        let parts = many_calls(CALLS);
        let each = best(100, || assert_eq!(implementation.check_set(black_box(&parts))[0], 0));
        println!("calls, {form}: the check of a routine of calls, {:.1} ns a call", each / CALLS as f64);
    }
}

#[cfg(test)]
mod tests {
    use super::*;
    use oracle::{machine, set};

    #[test]
    fn a_call_gives_what_the_copied_statements_do() {
        let (table, mut inside) = copied(10);
        assert_eq!(machine::run(&table, &mut inside).to_string(), "done 61");
        let parts = called(10);
        let mut outside = parts.input.clone();
        assert_eq!(set::run(&parts.members(), &mut outside).to_string(), "done 71");
        assert_eq!([inside.values[4], outside.values[4]], [2_470; 2]);
        assert_eq!(Fast.check_set(&many_calls(1_024)), [0; 4]);
    }
}
