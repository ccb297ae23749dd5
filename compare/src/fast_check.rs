//! The checker in its fast form: one decoding, facts only over the variables
//! that any question can reach, bounds looked at only where they changed.

use crate::fast_bounds::{bits, FastBounds, InForce};
use crate::fast_facts::FastFacts;
use oracle::answer::{CheckAnswer, Refusal};
use oracle::facts::{Node, GREATEST, ZERO};
use oracle::loop_facts::LoopFacts;
use oracle::table::{decode, Call, Condition, Kind, Right, Routine, Statement, Var};
use std::ops::Range;

/// Causes 1 to 9 and 13 of a table without a list.
pub fn check(words: &[i32]) -> CheckAnswer {
    check_routine(&decode(words)?)
}

/// Causes 8, 9 and 13 of a decoded routine.
pub fn check_routine(routine: &Routine) -> CheckAnswer {
    check_member(routine, &[])
}

/// Causes 8, 9, 13, 19 and 20 of a routine of a set, where these are the ones before it (point 14).
pub fn check_member(routine: &Routine, callees: &[Routine]) -> CheckAnswer {
    let (bounds, mut facts) = FastBounds::new(routine, 0);
    let mut walker = Walker { routine, callees, bounds, list: Vec::new(), report: None, begun: 0 };
    walker.block(0, routine.statements.len(), &mut facts)
}

/// Causes 1 to 9, 13 and 17 of a table with a list of loop facts; the report of an accepted one.
pub fn check_with_facts(words: &[i32], facts: &[i32]) -> Result<Vec<u32>, Refusal> {
    let routine = decode(words)?;
    let loop_facts = LoopFacts::read(&routine, facts)?;
    report(&routine, &loop_facts)
}

/// Causes 8, 9, 13 and 17 of a decoded routine with its list; the report of an accepted one.
pub fn report(routine: &Routine, loop_facts: &LoopFacts) -> Result<Vec<u32>, Refusal> {
    let (bounds, mut facts) = FastBounds::new(routine, asked(routine, loop_facts));
    let node = |x: Node| if x == ZERO { bounds.zero() } else { bounds.node(x as Var) };
    let entries = loop_facts.entries().iter();
    let list = entries.map(|e| Listed { head: e.head, x: node(e.x), y: node(e.y), k: e.k }).collect();
    let mut walker = Walker { routine, callees: &[], bounds, list, report: Some(Vec::new()), begun: 0 };
    walker.block(0, routine.statements.len(), &mut facts)?;
    Ok(walker.report.unwrap_or_default())
}

/// Bit v for each variable of the list, and of an access as its index.
fn asked(routine: &Routine, loop_facts: &LoopFacts) -> u16 {
    let listed = loop_facts.entries().iter().flat_map(|entry| [entry.x, entry.y]);
    let indexes = routine.statements.iter().filter_map(|statement| match *statement {
        Statement::Load { i, .. } | Statement::Store { i, .. } => i.map(Node::from),
        _ => None,
    });
    listed.chain(indexes).filter(|&x| x != ZERO).fold(0, |mask, x| mask | 1 << x)
}

/// An entry of the list over nodes of the fact store.
#[derive(Clone, Copy)]
struct Listed {
    head: usize,
    x: usize,
    y: usize,
    k: i64,
}

struct Walker<'a> {
    routine: &'a Routine,
    callees: &'a [Routine],
    bounds: FastBounds<'a>,
    /// Sorted by their heads.
    list: Vec<Listed>,
    /// The accesses reported up to here, where a report is asked for.
    report: Option<Vec<u32>>,
    /// How many statements were begun.
    begun: usize,
}

/// A walk without a list that can begin at any top-level statement (point 13).
pub struct Resumed<'a> {
    walker: Walker<'a>,
    facts: FastFacts,
    position: usize,
}

impl<'a> Resumed<'a> {
    pub fn start(routine: &'a Routine) -> Resumed<'a> {
        // Every variable has a node, so that facts mean the same whatever statements there are.
        let all = routine.kinds.iter().fold(0, |mask, _| mask << 1 | 1);
        let (bounds, facts) = FastBounds::new(routine, all);
        let walker = Walker { routine, callees: &[], bounds, list: Vec::new(), report: None, begun: 0 };
        Resumed { walker, facts, position: 0 }
    }

    pub fn at(routine: &'a Routine, position: usize, facts: FastFacts, in_force: &InForce) -> Resumed<'a> {
        let mut resumed = Resumed { facts, position, ..Resumed::start(routine) };
        resumed.walker.bounds.restore(in_force);
        resumed
    }

    /// The top-level statement to come to next.
    pub fn position(&self) -> Option<usize> {
        (self.position < self.walker.routine.statements.len()).then_some(self.position)
    }

    pub fn known(&self) -> (FastFacts, InForce) {
        (self.facts, self.walker.bounds.in_force)
    }

    pub fn begun(&self) -> usize {
        self.walker.begun
    }

    /// Walks one top-level statement with its blocks.
    pub fn step(&mut self) -> CheckAnswer {
        let next = self.position + self.walker.routine.statements[self.position].size();
        self.walker.block(self.position, next, &mut self.facts)?;
        self.position = next;
        Ok(())
    }
}

impl Walker<'_> {
    /// The sides of a condition as nodes, and the constant on the right.
    fn assume(&self, facts: &mut FastFacts, condition: Condition) {
        let x = self.bounds.node(condition.left);
        let (y, k) = match condition.right {
            Right::Variable(v) => (self.bounds.node(v), 0),
            Right::Literal(k) => (self.bounds.zero(), i64::from(k)),
        };
        facts.assume(x, condition.relation, y, k);
    }

    fn block(&mut self, start: usize, end: usize, facts: &mut FastFacts) -> CheckAnswer {
        let mut s = start;
        while s < end {
            let statement = self.routine.statements[s];
            self.begun += 1;
            match statement {
                Statement::If { condition, then_count, else_count } => {
                    let middle = s + 1 + then_count as usize;
                    let next = middle + else_count as usize;
                    let mut other = *facts;
                    let head = self.bounds.in_force;
                    self.assume(facts, condition);
                    self.block(s + 1, middle, facts)?;
                    let then = self.bounds.in_force;
                    self.bounds.restore(&head);
                    self.assume(&mut other, condition.negated());
                    self.block(middle, next, &mut other)?;
                    self.same_rows(s, &then)?;
                    facts.join(&other);
                    s = next;
                }
                Statement::While { condition, count } => {
                    let next = s + 1 + count as usize;
                    let entries = self.entries(s);
                    self.entries_shown(entries.clone(), facts)?;
                    self.drop_assigned(s + 1, next, facts);
                    for &Listed { x, y, k, .. } in &self.list[entries.clone()] {
                        facts.add(x, y, k);
                    }
                    // Of an empty body the entries are shown: they were assumed.
                    if count > 0 {
                        let mut body = *facts;
                        let head = self.bounds.in_force;
                        self.assume(&mut body, condition);
                        self.block(s + 1, next, &mut body)?;
                        self.entries_shown(entries, &body)?;
                        self.same_rows(s, &head)?;
                    }
                    self.assume(facts, condition.negated());
                    s = next;
                }
                Statement::Bundle { count } => {
                    let next = s + 1 + count as usize;
                    for inner in s + 1..next {
                        self.bundled(inner, facts)?;
                    }
                    self.bounds.settle(s, facts)?;
                    s = next;
                }
                Statement::Call(call) => {
                    self.call(s, &call, facts)?;
                    s += 1;
                }
                simple => {
                    self.report_access(s, facts);
                    self.simple(simple, facts);
                    self.bounds.settle(s, facts)?;
                    s += 1;
                }
            }
        }
        Ok(())
    }

    /// A call: 19, 20, then its result, then 8. Apart from the loop over statements, which it would only make slower.
    #[inline(never)]
    fn call(&mut self, s: usize, call: &Call, facts: &mut FastFacts) -> CheckAnswer {
        self.arguments_fit(s, call, facts)?;
        if let Some(x) = call.result {
            self.bounds.forget(x);
            self.drop(x, facts);
        }
        self.bounds.settle(s, facts)
    }

    /// 19 and 20 of the call at s.
    fn arguments_fit(&self, s: usize, call: &Call, facts: &FastFacts) -> CheckAnswer {
        let Some(callee) = usize::try_from(call.callee).ok().and_then(|number| self.callees.get(number))
        else {
            return Err(Refusal::at(19, s));
        };
        let count = call.arguments.iter().take_while(|argument| argument.is_some()).count();
        let mut right = call.arguments[count..].iter().all(|argument| argument.is_none())
            && count <= callee.kinds.len()
            && callee.kinds.last() == Some(&Kind::Integer);
        let mut given = [0; 4];
        for (place, &argument) in call.arguments[..count].iter().flatten().enumerate() {
            given[place] = argument;
            right = right && callee.kinds[place] == self.routine.kinds[usize::from(argument)];
        }
        let given = &given[..count];
        if right && (0..count).all(|place| self.bounds.argument_shown(callee, given, place, facts)) {
            return Ok(());
        }
        Err(Refusal::at(20, s))
    }

    /// The places in the list of the entries of the loop at s.
    fn entries(&self, s: usize) -> Range<usize> {
        let start = self.list.partition_point(|entry| entry.head < s);
        start..start + self.list[start..].partition_point(|entry| entry.head == s)
    }

    /// 17: the lowest of the entries that the facts do not show.
    fn entries_shown(&self, mut entries: Range<usize>, facts: &FastFacts) -> CheckAnswer {
        let unshown = |&e: &usize| {
            let Listed { x, y, k, .. } = self.list[e];
            !facts.shows(x, y, k)
        };
        entries.find(unshown).map_or(Ok(()), |e| Err(Refusal::at(17, e)))
    }

    #[inline]
    fn report_access(&mut self, s: usize, facts: &FastFacts) {
        let Some(report) = &mut self.report else { return };
        if let Statement::Load { p, i, k, .. } | Statement::Store { p, i, k, .. } = self.routine.statements[s]
        {
            if self.bounds.access_within(p, i, k, facts) {
                report.push(s as u32);
            }
        }
    }

    /// 13: other rows are in force here than there.
    fn same_rows(&self, place: usize, there: &InForce) -> CheckAnswer {
        match self.bounds.in_force == *there {
            true => Ok(()),
            false => Err(Refusal::at(13, place)),
        }
    }

    /// Variables assigned in the body are dropped first.
    fn drop_assigned(&self, start: usize, end: usize, facts: &mut FastFacts) {
        let assigned = self.routine.statements[start..end]
            .iter()
            .filter_map(Statement::target)
            .fold(0u16, |mask, v| mask | 1 << v);
        for v in bits(assigned) {
            self.drop(v as Var, facts);
        }
    }

    /// 9, then the statement, then a kind 14's 8.
    fn bundled(&mut self, s: usize, facts: &mut FastFacts) -> CheckAnswer {
        let statement = self.routine.statements[s];
        self.begun += 1;
        if let Statement::Load { p, .. } | Statement::Store { p, .. } = statement {
            if !self.bounds.shown(p, facts) {
                return Err(Refusal::at(9, s));
            }
        }
        self.report_access(s, facts);
        self.simple(statement, facts);
        match statement {
            Statement::Declare { p, .. } if !self.bounds.shown(p, facts) => Err(Refusal::bounds(s, p)),
            _ => Ok(()),
        }
    }

    fn drop(&self, x: Var, facts: &mut FastFacts) {
        if let Some(node) = self.bounds.used_node(x) {
            facts.drop(node);
        }
    }

    /// Facts and bounds of kinds 1 to 10 and 14.
    #[inline]
    fn simple(&mut self, statement: Statement, facts: &mut FastFacts) {
        match statement {
            Statement::Literal { x, literal } => {
                self.bounds.forget(x);
                if let Some(node) = self.bounds.used_node(x) {
                    facts.renew(node, i64::from(literal), i64::from(literal));
                }
            }
            Statement::AddConstant { x, y, k } => self.add_constant(x, y, i64::from(k), facts),
            Statement::Operate { x, .. } | Statement::Load { x, .. } => {
                self.bounds.forget(x);
                self.drop(x, facts);
            }
            Statement::Null { p } => {
                self.bounds.forget(p);
                facts.renew(self.bounds.node(p), 0, 0);
            }
            Statement::Address { p, object } => {
                self.bounds.set_object(p, self.routine.objects[usize::from(object)]);
                facts.renew(self.bounds.node(p), 1, GREATEST);
            }
            Statement::MovePointer { p, q, k } => {
                let by = i64::from(k);
                let node = self.bounds.node(p);
                if p == q {
                    if k == 0 {
                        return;
                    }
                    self.bounds.invert(p, by);
                    facts.shift(node, by);
                } else {
                    self.bounds.copy(p, q);
                    facts.copy(node, self.bounds.node(q), by);
                }
                if k != 0 {
                    facts.add(self.bounds.zero(), node, -1);
                }
            }
            Statement::IndexPointer { p, q, .. } => {
                if p == q {
                    self.bounds.forget(p);
                } else {
                    self.bounds.copy(p, q);
                }
                facts.renew(self.bounds.node(p), 1, GREATEST);
            }
            Statement::Check { condition } => self.assume(facts, condition),
            Statement::Declare { p, row } => self.bounds.declare(p, row),
            _ => {}
        }
    }

    fn add_constant(&mut self, x: Var, y: Var, k: i64, facts: &mut FastFacts) {
        let (node, zero) = (self.bounds.node(y), self.bounds.zero());
        let in_range = facts.shows(zero, node, k) && facts.shows(node, zero, GREATEST - k);
        match (in_range, x == y) {
            (true, true) => {
                self.bounds.invert(x, k);
                facts.shift(node, k);
            }
            (true, false) => {
                self.bounds.forget(x);
                if let Some(target) = self.bounds.used_node(x) {
                    facts.copy(target, node, k);
                }
            }
            (false, _) => {
                self.bounds.forget(x);
                self.drop(x, facts);
            }
        }
    }
}
