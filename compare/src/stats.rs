//! How many generated cases end in which way.

use crate::generate::{case, Case};
use crate::promises;
use crate::{fast_check, fast_run};
use oracle::answer::{Refusal, RunAnswer, RunInput};
use oracle::checker::{self, Asked, Known, Observer, Rows};
use oracle::facts::Facts;
use oracle::loop_facts::{Entry, LoopFacts};
use oracle::reach::reachable;
use oracle::report::{accept, Accepted};
use oracle::table::{decode, Kind, Routine, Statement};
use std::collections::BTreeMap;

/// The cases of a seed by their answers; the fast form is held against the
/// plain one on the way.
#[derive(Default)]
pub struct Stats {
    check: BTreeMap<String, u64>,
    run: BTreeMap<String, u64>,
    cases: u64,
    accepted: u64,
    /// Statements of the accepted tables, and how many of those tables have
    /// an if, a while, a bundle.
    statements: u64,
    heads: [u64; 3],
    /// Accepted tables with a kind 14, with one in an if, in a while, in a bundle; refusals 13 at an if, at a while.
    declared: [u64; 4],
    unlike_rows: [u64; 2],
    /// Accepted tables with an element of several cells, with pointers of several sizes.
    sizes: [u64; 2],
    /// Accepted tables with a kind 2 pointer, with both kinds; runs begun with a terminated object.
    terminated: [u64; 3],
    /// Accepted tables with a list, those whose report or verdict the list changes; reported accesses of all accepted
    /// tables.
    listed: [u64; 3],
    reported: u64,
    /// Refusals 17: by the form of the list, before a loop, at the end of a body.
    unshown: [u64; 3],
    /// Accepted tables with a statement whose facts contradict, and with such facts at the end.
    dead: u64,
    dead_at_end: u64,
    steps: u64,
    /// Runs that are begun, and how many of them have an unreachable object, cells of no object beside cell 0.
    begun: u64,
    out_of_reach: [u64; 2],
    pub differences: Vec<String>,
}

fn check_class<T>(answer: &Result<T, Refusal>) -> String {
    match answer {
        Ok(_) => "accepted".to_string(),
        Err(refusal) => format!("refused {:2}", refusal.cause),
    }
}

fn run_class(answer: &RunAnswer) -> String {
    match answer {
        RunAnswer::Refused(refusal) => format!("refused {:2}", refusal.cause),
        RunAnswer::Done { .. } => "done".to_string(),
        RunAnswer::Spent { .. } => "spent".to_string(),
        RunAnswer::Stopped { check, .. } => format!("stopped {}", *check as u8),
        RunAnswer::Stuck { .. } => "STUCK".to_string(),
    }
}

pub fn gather(seed: u64, count: u64) -> Stats {
    let mut stats = Stats { cases: count, ..Stats::default() };
    for number in 0..count {
        let case = case(seed, number);
        let checked = accept(&case.table, &case.facts);
        let (mut plain, mut fast) = (case.input.clone(), case.input.clone());
        let answer = match &checked {
            Err(refusal) => RunAnswer::Refused(*refusal),
            Ok(accepted) => promises::run(accepted, &mut plain).unwrap_or_else(|broken| {
                stats.differences.push(format!("case {seed} {number}: {broken}"));
                RunAnswer::Stuck { steps: 0, statement: 0 }
            }),
        };
        let report = checked.as_ref().map(|accepted| accepted.report.clone()).map_err(|r| *r);
        let same = fast_check::check_with_facts(&case.table, &case.facts) == report
            && fast_run::run_with_facts(&case.table, &case.facts, &mut fast) == answer
            && plain == fast;
        let stuck = matches!(answer, RunAnswer::Stuck { .. });
        if !same || stuck {
            stats.differences.push(format!("case {seed} {number}: plain {answer}"));
        }
        match &checked {
            Ok(accepted) => {
                stats.accepted += 1;
                stats.count_statements(accepted);
                stats.count_list(&case, accepted);
                if !matches!(answer, RunAnswer::Refused(_)) {
                    stats.count_out_of_reach(&accepted.routine, &case.input);
                }
            }
            Err(refusal) => stats.count_refusal(&case, refusal),
        }
        if let RunAnswer::Done { steps } | RunAnswer::Spent { steps, .. } | RunAnswer::Stopped { steps, .. } =
            answer
        {
            stats.steps += steps;
        }
        *stats.check.entry(check_class(&checked)).or_default() += 1;
        *stats.run.entry(run_class(&answer)).or_default() += 1;
    }
    stats
}

impl Stats {
    fn count_list(&mut self, case: &Case, accepted: &Accepted) {
        self.reported += accepted.report.len() as u64;
        if case.facts.is_empty() {
            return;
        }
        let without = fast_check::check_with_facts(&case.table, &[]);
        let changed = [true, without.as_ref().is_ok_and(|r| *r != accepted.report), without.is_err()];
        for (count, changed) in self.listed.iter_mut().zip(changed) {
            *count += u64::from(changed);
        }
    }

    fn count_refusal(&mut self, case: &Case, refusal: &Refusal) {
        let Ok(routine) = decode(&case.table) else { return };
        match refusal.cause {
            13 => {
                let head = routine.statements[refusal.place as usize];
                self.unlike_rows[usize::from(matches!(head, Statement::While { .. }))] += 1;
            }
            17 => {
                let mut seen = Unshown(0);
                if let Ok(list) = LoopFacts::read(&routine, &case.facts) {
                    let _ = checker::watch_with_facts(&routine, &list, &mut seen);
                }
                self.unshown[seen.0] += 1;
            }
            _ => {}
        }
    }

    fn count_statements(&mut self, accepted: &Accepted) {
        let routine = &accepted.routine;
        let statements = &routine.statements;
        self.statements += statements.len() as u64;
        let mut dead = Dead(false);
        let end = checker::watch_with_facts(routine, &accepted.loop_facts, &mut dead);
        self.dead += u64::from(dead.0);
        self.dead_at_end += u64::from(end.is_ok_and(|facts| facts.contradictory()));
        let has = |test: fn(&Statement) -> bool| u64::from(statements.iter().any(test));
        self.heads[0] += has(|s| matches!(s, Statement::If { .. }));
        self.heads[1] += has(|s| matches!(s, Statement::While { .. }));
        self.heads[2] += has(|s| matches!(s, Statement::Bundle { .. }));
        self.count_declarations(statements);
        let pointers = || (0..routine.kinds.len()).filter(|&v| routine.kinds[v].is_pointer());
        let sizes = || pointers().map(|p| routine.sizes[p]);
        self.sizes[0] += u64::from(sizes().any(|size| size > 1));
        self.sizes[1] += u64::from(sizes().max() != sizes().min());
        let [arrays, terminated] =
            [Kind::Pointer, Kind::Terminated].map(|kind| routine.kinds.contains(&kind));
        self.terminated[0] += u64::from(terminated);
        self.terminated[1] += u64::from(terminated && arrays);
    }

    fn count_declarations(&mut self, statements: &[Statement]) {
        let declares = |part: &[Statement]| part.iter().any(|s| matches!(s, Statement::Declare { .. }));
        let mut found = [declares(statements), false, false, false];
        for (s, statement) in statements.iter().enumerate() {
            let kind = match statement {
                Statement::If { .. } => 1,
                Statement::While { .. } => 2,
                _ => 3,
            };
            found[kind] |= declares(&statements[s + 1..s + statement.size()]);
        }
        for (count, found) in self.declared.iter_mut().zip(found) {
            *count += u64::from(found);
        }
    }

    fn count_out_of_reach(&mut self, routine: &Routine, input: &RunInput) {
        self.begun += 1;
        self.terminated[2] += u64::from(routine.objects.iter().any(|object| object.terminated));
        self.out_of_reach[0] += u64::from(reachable(routine, &input.origins).contains(&false));
        let in_objects: usize = routine.objects.iter().map(|object| object.length as usize).sum();
        self.out_of_reach[1] += u64::from(input.cells.len() > 1 + in_objects);
    }
}

/// Whether facts contradict before a statement.
struct Dead(bool);

impl Observer for Dead {
    fn before(&mut self, _: usize, facts: &Facts, _: &Rows, _: &Known) {
        self.0 |= facts.contradictory();
    }
}

/// Where an entry is not shown, as a place in `Stats::unshown`.
struct Unshown(usize);

impl Observer for Unshown {
    fn unshown(&mut self, _: usize, _: Entry, asked: Asked, _: &Facts) {
        self.0 = match asked {
            Asked::BeforeLoop => 1,
            Asked::AtBodyEnd => 2,
        };
    }
}

impl std::fmt::Display for Stats {
    fn fmt(&self, f: &mut std::fmt::Formatter<'_>) -> std::fmt::Result {
        let percent = |part: u64| 100.0 * part as f64 / self.cases.max(1) as f64;
        writeln!(
            f,
            "{} cases, {:.1} percent accepted, {} steps run",
            self.cases,
            percent(self.accepted),
            self.steps
        )?;
        let mean = self.statements as f64 / self.accepted.max(1) as f64;
        let [ifs, whiles, bundles] = self.heads;
        writeln!(
            f,
            "accepted tables: {mean:.1} statements each, {ifs} with an if, {whiles} with a while, \
             {bundles} with a bundle, {} with dead code, {} dead at the end",
            self.dead, self.dead_at_end
        )?;
        let [all, ifs, whiles, bundles] = self.declared;
        let [at_ifs, at_whiles] = self.unlike_rows;
        writeln!(
            f,
            "accepted tables with a kind 14: {all}, {ifs} in an if, {whiles} in a while, {bundles} in a bundle; \
             refusals 13: {at_ifs} at an if, {at_whiles} at a while"
        )?;
        let [several, unlike] = self.sizes;
        writeln!(f, "accepted tables with elements of several cells: {several}, of several sizes: {unlike}")?;
        let [all, both, runs] = self.terminated;
        writeln!(
            f,
            "accepted tables with a kind 2 pointer: {all}, {both} with an array_ptr too; \
             runs begun with a terminated object: {runs}"
        )?;
        let [lists, reports, verdicts] = self.listed;
        let [form, before, at_end] = self.unshown;
        writeln!(
            f,
            "accepted tables with a list: {lists}, {reports} with another report by it, {verdicts} accepted by it; \
             accesses reported: {}; refusals 17: {form} by form, {before} before a loop, {at_end} at the end of a body",
            self.reported
        )?;
        let share = |part: u64| 100.0 * part as f64 / self.begun.max(1) as f64;
        writeln!(
            f,
            "runs begun: {}, {:.1} percent with an object out of reach, {:.1} with cells of no object",
            self.begun,
            share(self.out_of_reach[0]),
            share(self.out_of_reach[1])
        )?;
        for (title, classes) in [("check", &self.check), ("run", &self.run)] {
            for (class, count) in classes {
                writeln!(f, "{title}  {class:<12} {count:>8}  {:5.1} %", percent(*count))?;
            }
        }
        write!(f, "fast form against plain form: {} differences", self.differences.len())
    }
}

#[cfg(test)]
mod tests {
    use super::*;
    use oracle::draft::Draft;
    use oracle::table::{MAX_DEPTH, MAX_WORDS, MAX_WORDS_WITH_ROWS};

    /// The greatest depth of a statement in the block.
    fn depth(statements: &[Statement]) -> usize {
        let mut greatest = 0;
        let mut s = 0;
        while s < statements.len() {
            let block = &statements[s + 1..s + statements[s].size()];
            match statements[s] {
                Statement::If { then_count, .. } => {
                    let (then, other) = block.split_at(then_count as usize);
                    let inner = [then, other].into_iter().filter(|b| !b.is_empty()).map(|b| 1 + depth(b));
                    greatest = inner.fold(greatest, usize::max);
                }
                Statement::While { count: 1.., .. } => greatest = greatest.max(1 + depth(block)),
                _ => {}
            }
            s += statements[s].size();
        }
        greatest
    }

    #[test]
    fn generated_cases_reach_every_answer() {
        let stats = gather(21, 8_000);
        assert!(stats.differences.is_empty(), "{:?}", stats.differences);
        let percent = 100 * stats.accepted / stats.cases;
        assert!((30..=60).contains(&percent), "{percent} percent accepted");
        for cause in (1..=6).chain(8..=9).chain([13, 17, 19]) {
            assert!(stats.check.contains_key(&format!("refused {cause:2}")), "cause {cause}");
        }
        for class in ["done", "spent", "refused 10", "refused 11", "refused 12", "refused 16"] {
            assert!(stats.run.contains_key(class), "{class}");
        }
        for check in 1..=6 {
            assert!(stats.run.contains_key(&format!("stopped {check}")), "check {check}");
        }
        assert!(!stats.run.contains_key("STUCK"));
        assert!(5 * stats.dead > stats.accepted, "{stats}");
        assert!(7 * stats.declared[0] > stats.accepted, "{stats}");
        assert!(stats.declared.iter().all(|count| 40 * count > stats.accepted), "{stats}");
        assert!(stats.sizes.iter().all(|count| 5 * count > stats.accepted), "{stats}");
        assert!(stats.terminated.iter().all(|count| 8 * count > stats.accepted), "{stats}");
        let [lists, reports, verdicts] = stats.listed;
        assert!(8 * lists > stats.accepted && 120 * reports > stats.accepted, "{stats}");
        assert!(verdicts > 5 && stats.unshown.iter().all(|&count| count > 30), "{stats}");
        assert!(stats.unlike_rows.iter().all(|&count| count > 10), "{stats}");
        let [objects, cells] = stats.out_of_reach;
        assert!(3 * objects > stats.begun && 2 * cells > stats.begun, "{stats}");
    }

    #[test]
    fn tables_are_as_long_as_the_limits_and_a_word_longer() {
        let mut seen = BTreeMap::new();
        for number in 0..12_000 {
            let table = case(23, number).table;
            let class = (table.first() == Some(&8), table.len(), check_class(&checker::check(&table)));
            *seen.entry(class).or_insert(0) += 1;
        }
        for (rows, most) in [(false, MAX_WORDS), (true, MAX_WORDS_WITH_ROWS)] {
            let accepted = seen.get(&(rows, most, "accepted".to_string()));
            let longer = seen.get(&(rows, most + 1, "refused  1".to_string()));
            assert!(accepted.is_some() && longer.is_some(), "{rows} {accepted:?} {longer:?}");
        }
        // With a first offset of 8 a table may be longer than one without rows.
        assert!(seen.contains_key(&(true, MAX_WORDS + 1, "refused  2".to_string())));
    }

    #[test]
    fn tables_go_down_to_the_greatest_depth_and_beyond() {
        let tables: Vec<_> = (0..12_000).map(|number| case(22, number).table).collect();
        let accepted = tables.iter().filter(|table| checker::check(table).is_ok());
        let depths: Vec<usize> = accepted.map(|t| depth(&decode(t).unwrap().statements)).collect();
        assert_eq!(depths.iter().max(), Some(&MAX_DEPTH));
        assert!(depths.iter().filter(|&&d| d == MAX_DEPTH).count() >= 10);
        // Refused at a statement that is no head: it is too deep.
        let too_deep = tables.iter().filter(|table| {
            let (refusal, draft) = (checker::check(table).err(), Draft::from_words(table));
            matches!((refusal, draft), (Some(Refusal { cause: 6, place, .. }), Some(draft))
                if draft.statements[place as usize][0] < 11)
        });
        assert!(too_deep.count() >= 10);
    }
}
