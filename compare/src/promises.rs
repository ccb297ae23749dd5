//! What a list of loop facts promises (point 9), held at every step of the plain machine: "No reported access stops a
//! run at 2 or 3, whoever wrote the list", and each entry holds at every test of its loop.

use oracle::answer::{Check, RunAnswer, RunInput};
use oracle::entry::check_entry;
use oracle::facts::{Node, ZERO};
use oracle::loop_facts::Entry;
use oracle::machine::Machine;
use oracle::report::Accepted;

/// The run of an accepted routine by the plain machine, or the promise that it breaks.
pub fn run(accepted: &Accepted, input: &mut RunInput) -> Result<RunAnswer, String> {
    if let Err(refusal) = check_entry(&accepted.routine, &*input) {
        return Ok(RunAnswer::Refused(refusal));
    }
    let RunInput { directory, cells, values, origins, allowance } = input;
    let mut machine = Machine::new(&accepted.routine, directory, values, origins);
    let mut limit = 0;
    loop {
        if let Some((number, entry)) = untrue(accepted, &machine) {
            return Err(format!("entry {number} is untrue at a test of {} after {limit} steps", entry.head));
        }
        // By one step at a time, or to the end where nothing is promised of any test.
        let more = if accepted.loop_facts.entries().is_empty() { u64::from(*allowance) } else { limit + 1 };
        limit = more.min(u64::from(*allowance));
        match machine.go(cells, limit) {
            RunAnswer::Spent { .. } if limit < u64::from(*allowance) => {}
            answer => return kept(accepted, answer),
        }
    }
}

/// An entry of the loop whose test is due that does not hold.
fn untrue(accepted: &Accepted, machine: &Machine) -> Option<(usize, Entry)> {
    let value = |x: Node| if x == ZERO { 0 } else { i64::from(machine.values()[x]) };
    let head = machine.due()?;
    accepted.loop_facts.of_loop(head).find(|(_, entry)| value(entry.x) > value(entry.y) + entry.k)
}

fn kept(accepted: &Accepted, answer: RunAnswer) -> Result<RunAnswer, String> {
    match answer {
        RunAnswer::Stopped { statement, check: Check::NullAccess | Check::OutOfBounds, .. }
            if accepted.report.contains(&statement) =>
        {
            Err(format!("a reported access stops the run: {answer}"))
        }
        answer => Ok(answer),
    }
}

#[cfg(test)]
mod tests {
    use super::*;
    use oracle::draft::*;
    use oracle::loop_facts::LoopFacts;
    use oracle::report::accept;

    /// p (0, count(n)), n, i, x; i runs to n and p[i + k] is read.
    fn scan(k: i32, list: &[i32]) -> (Accepted, RunInput) {
        let (p, n, i, x) = (0, 1, 2, 3);
        let body = vec![load(x, p, i, k), add_constant(i, i, 1)];
        let before = vec![dynamic_check(with_literal(p, NOT_EQUAL, 0)), set(i, 0)];
        let statements = [before, while_loop(with_variable(i, NOT_EQUAL, n), body)].concat();
        let variables = vec![[1, 0, p, -1, 0, p, n, 0], [0; 8], [0; 8], [0; 8]];
        let table = Draft { objects: vec![3], variables, statements, rows: None };
        let input = RunInput {
            directory: vec![1, 3],
            cells: vec![5; 4],
            values: vec![1, 3, 9, 9],
            origins: vec![1, 0, 0, 0],
            allowance: 100,
        };
        (accept(&table.words(), list).expect("accepted"), input)
    }

    #[test]
    fn a_right_list_keeps_its_promises() {
        let (accepted, mut input) = scan(0, &[2, 2, 1, 0]);
        assert_eq!(accepted.report, [3]);
        assert_eq!(run(&accepted, &mut input), Ok(RunAnswer::Done { steps: 12 }));
    }

    #[test]
    fn what_a_wrong_list_or_report_would_claim_is_found() {
        let (accepted, input) = scan(1, &[2, 2, 1, 0]);
        assert!(accepted.report.is_empty());
        // It stops behind the last cell; were it reported, that would break the promise.
        let right = run(&accepted, &mut input.clone()).expect("kept");
        assert_eq!(right.to_string(), "stopped 10 3 3");
        let wrong = Accepted { report: vec![3], ..accepted.clone() };
        assert_eq!(run(&wrong, &mut input.clone()), Err(format!("a reported access stops the run: {right}")));
        // i <= 1 at every test: a list that the checker would not take.
        let (mut other, mut input) = scan(0, &[]);
        other.loop_facts = LoopFacts::read(&other.routine, &[2, 2, -1, 1]).unwrap();
        assert_eq!(
            run(&other, &mut input),
            Err("entry 0 is untrue at a test of 2 after 8 steps".to_string())
        );
    }
}
