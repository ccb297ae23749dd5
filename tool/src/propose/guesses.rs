//! Facts that may hold of a loop: from what is known before it, from its conditions, from the constants of its statements and bounds.

use super::Entry;
use crate::form::MAX_CONSTANT;
use crate::table::{accessed, Table};
use oracle::checker::{watch_with_facts, Known, Observer, Rows};
use oracle::facts::{Facts, Node, ZERO};
use oracle::loop_facts::LoopFacts;
use oracle::table::decode;
use std::collections::{BTreeSet, HashMap};

/// What is known before each loop that the check comes to, with a list that it takes.
pub fn facts_before(words: &[i32], facts: &[i32]) -> HashMap<usize, Facts> {
    let mut loops = Loops(HashMap::new());
    if let Ok(routine) = decode(words) {
        if let Ok(listed) = LoopFacts::read(&routine, facts) {
            let _ = watch_with_facts(&routine, &listed, &mut loops);
        }
    }
    loops.0
}

struct Loops(HashMap<usize, Facts>);

impl Observer for Loops {
    fn before(&mut self, statement: usize, facts: &Facts, _: &Rows, _: &Known) {
        self.0.insert(statement, facts.clone());
    }
}

pub struct Guesses<'a> {
    table: &'a Table,
    /// Numbers of conditions, of assignments, of lengths and of ends.
    literals: BTreeSet<i64>,
}

impl Guesses<'_> {
    pub fn new(table: &Table) -> Guesses<'_> {
        let mut literals = BTreeSet::new();
        for record in &table.statements {
            match *record {
                [1, _, literal, ..] => literals.insert(i64::from(literal as u32)),
                [10..=12, left, _, 1, right, ..] if !table.is_pointer(left) => {
                    literals.insert(i64::from(right as u32))
                }
                _ => false,
            };
        }
        literals.extend(table.objects.iter().map(|length| i64::from(length.unsigned_abs())));
        let rows = table.rows.iter().flatten().map(|row| row.as_slice());
        let own = table.variables.iter().filter(|record| record[0] != 0).map(|record| &record[2..]);
        literals.extend(rows.chain(own).flat_map(|ends| [ends[2], ends[5]]).map(i64::from));
        Guesses { table, literals }
    }

    /// The guesses for all loops, the likelier ones first.
    pub fn of_all_loops(&self, before: &HashMap<usize, Facts>) -> Vec<Entry> {
        let heads = (0..self.table.statements.len()).filter(|&s| self.table.statements[s][0] == 12);
        let mut ranked: Vec<(usize, Entry)> =
            heads.flat_map(|head| self.of_loop(head, before.get(&head))).collect();
        ranked.sort_by_key(|(rank, _)| *rank);
        ranked.into_iter().map(|(_, entry)| entry).collect()
    }

    /// The guesses for one loop, each with its rank.
    fn of_loop(&self, head: usize, before: Option<&Facts>) -> Vec<(usize, Entry)> {
        let table = self.table;
        let assigned = table.assigned(head);
        let of_interest = self.of_interest(head);
        let steps = self.steps(head);
        let variables = || (0..table.variables.len() as i32).chain([-1]);
        let mut guesses = Vec::new();
        for x in variables() {
            for y in variables().filter(|&y| y != x && self.same_kind(x, y)) {
                // What the body leaves alone is known in it all the same.
                if !assigned.contains(&x) && !assigned.contains(&y) {
                    continue;
                }
                let known = before.map(|facts| facts.sum(node(x), node(y)));
                let far = [x, y].iter().filter(|v| **v != -1 && !of_interest.contains(v)).count();
                let constants = self.constants([x, y], known, &steps);
                for (order, k) in constants.into_iter().enumerate() {
                    guesses.push((16 * far + order, [head as i32, x, y, k as i32]));
                }
            }
        }
        guesses
    }

    /// Constants for x <= y + k: those that are known before the loop or weaker, and say more than is always known.
    fn constants(&self, [x, y]: [i32; 2], known: Option<i64>, steps: &BTreeSet<i64>) -> Vec<i64> {
        let is_pointer = self.table.is_pointer(x.max(y));
        let mut constants: Vec<i64> = known.into_iter().collect();
        match (x, y) {
            (-1, _) if is_pointer => constants.push(-1),
            (-1, _) => constants.extend(self.near_literals(steps).map(|value| -value)),
            (_, -1) if is_pointer => {}
            (_, -1) => constants.extend(self.near_literals(steps)),
            _ => {
                constants.extend([0, -1, 1]);
                constants.extend(steps.iter().flat_map(|step| [step - 1, *step, -step]));
            }
        }
        let says_more = |k: i64| x != -1 || k < 0;
        let can_hold = |k: i64| known.is_none_or(|known| known <= k);
        let fits = |k: &i64| k.abs() <= i64::from(MAX_CONSTANT) && says_more(*k) && can_hold(*k);
        let mut seen = BTreeSet::new();
        constants.into_iter().filter(fits).filter(|k| seen.insert(*k)).collect()
    }

    /// Numbers of the routine, their neighbours, and where a step from below one leads.
    fn near_literals<'b>(&'b self, steps: &'b BTreeSet<i64>) -> impl Iterator<Item = i64> + 'b {
        let near = |&literal: &i64| [literal, literal - 1, literal + 1].into_iter();
        let stepped = |&literal: &i64| steps.iter().map(move |step| literal - 1 + step);
        self.literals.iter().flat_map(near).chain(self.literals.iter().flat_map(stepped))
    }

    /// By how much the body moves variables.
    fn steps(&self, head: usize) -> BTreeSet<i64> {
        let body = head + 1..head + self.table.extent(head);
        let step = |s: usize| match self.table.statements[s] {
            [2 | 6, x, y, k, ..] if x == y => Some(i64::from(k).abs()),
            _ => None,
        };
        body.filter_map(step).collect()
    }

    /// Variables that the loop's conditions compare, that its accesses name, and that the bounds of the accessed pointers do.
    fn of_interest(&self, head: usize) -> BTreeSet<i32> {
        let mut variables = BTreeSet::new();
        for record in &self.table.statements[head..head + self.table.extent(head)] {
            match *record {
                [10..=12, left, _, form, right, ..] => {
                    variables.insert(left);
                    variables.extend((form == 0).then_some(right));
                }
                [8 | 9, ..] => {
                    let (p, i, _) = accessed(record);
                    let [q, n, _, r, m, _] = self.table.own_bounds(p as usize);
                    variables.extend([p, i, q, n, r, m].into_iter().filter(|&variable| variable != -1));
                }
                _ => {}
            }
        }
        variables
    }

    /// Zero goes with everything, but not with itself.
    fn same_kind(&self, x: i32, y: i32) -> bool {
        x == -1 || y == -1 || self.table.variables[x as usize][0] == self.table.variables[y as usize][0]
    }
}

fn node(variable: i32) -> Node {
    usize::try_from(variable).unwrap_or(ZERO)
}
