//! The accesses that need no check (point 9): "exactly the accesses for which the facts before them show p >= 1, the
//! lower end at most the address, and the address plus 1 at most the upper end, by the rule for ends".

use crate::answer::Refusal;
use crate::bounds::{access_within, Known};
use crate::checker::{watch_with_facts, Observer};
use crate::facts::{Facts, Node, ZERO};
use crate::loop_facts::LoopFacts;
use crate::rows::Rows;
use crate::table::{decode, Routine, Statement};

/// A routine that is accepted with its list.
#[derive(Clone, Debug)]
pub struct Accepted {
    pub routine: Routine,
    pub loop_facts: LoopFacts,
    /// The statements of the reported accesses, "lowest statement first".
    pub report: Vec<u32>,
}

/// Causes 1 to 9, 13 and 17 of a table with a list of loop facts.
pub fn accept(words: &[i32], facts: &[i32]) -> Result<Accepted, Refusal> {
    let routine = decode(words)?;
    let loop_facts = LoopFacts::read(&routine, facts)?;
    let mut reporter = Reporter { routine: &routine, report: Vec::new() };
    watch_with_facts(&routine, &loop_facts, &mut reporter)?;
    let report = reporter.report;
    Ok(Accepted { routine, loop_facts, report })
}

struct Reporter<'a> {
    routine: &'a Routine,
    report: Vec<u32>,
}

impl Observer for Reporter<'_> {
    /// The walk comes to each statement once, in table order.
    fn before(&mut self, statement: usize, facts: &Facts, rows: &Rows, _: &Known) {
        let (Statement::Load { p, i, k, .. } | Statement::Store { p, i, k, .. }) =
            self.routine.statements[statement]
        else {
            return;
        };
        let not_null = facts.shows(ZERO, Node::from(p), -1);
        if not_null && access_within(self.routine, rows, facts, p, i, k) {
            self.report.push(statement as u32);
        }
    }
}
