//! Makes a case smaller while a predicate stays true, for short reports.

use crate::generate::Case;
use oracle::draft::{to_records, without_statements, Draft, Listed, Record};
use oracle::loop_facts::ENTRY_WORDS;
use std::ops::Range;

/// Gives up after so many trials.
const TRIALS: usize = 50_000;

/// The smallest case found for which `keeps` is true, as it is for `case`.
pub fn shrink(case: &Case, keeps: &mut dyn FnMut(&Case) -> bool) -> Case {
    let mut shrinker = Shrinker { best: case.clone(), keeps, trials: TRIALS };
    // First of all: a smaller table may go on until its allowance is used.
    shrinker.halve_allowance();
    loop {
        let before = shrinker.best.clone();
        shrinker.cut();
        shrinker.statements();
        shrinker.names();
        shrinker.rows();
        shrinker.list();
        shrinker.words();
        shrinker.input();
        if shrinker.best == before || shrinker.trials == 0 {
            return shrinker.best;
        }
    }
}

struct Shrinker<'a> {
    best: Case,
    keeps: &'a mut dyn FnMut(&Case) -> bool,
    trials: usize,
}

impl Shrinker<'_> {
    /// Takes the candidate if it still keeps the predicate true.
    fn offer(&mut self, candidate: Case) -> bool {
        if self.trials == 0 || candidate == self.best {
            return false;
        }
        self.trials -= 1;
        let taken = (self.keeps)(&candidate);
        if taken {
            self.best = candidate;
        }
        taken
    }

    fn offer_table(&mut self, table: Vec<i32>) -> bool {
        self.offer(Case { table, ..self.best.clone() })
    }

    /// A table without these statements, and its list without their entries.
    fn offer_without(&mut self, table: &Draft, removed: Range<usize>) -> bool {
        let (list, rest) = split(&self.best.facts);
        let facts = [without_statements(&list, &removed).as_flattened(), rest].concat();
        self.offer(Case { table: table.words(), facts, ..self.best.clone() })
    }

    fn draft(&self) -> Option<Draft> {
        Draft::from_words(&self.best.table)
    }

    fn halve_allowance(&mut self) {
        let mut taken = true;
        while taken {
            let mut smaller = self.best.clone();
            smaller.input.allowance /= 2;
            taken = self.offer(smaller);
        }
    }

    /// Cuts statements off at the end, by halves: a long table has most of them for nothing.
    fn cut(&mut self) {
        let count = |draft: Option<Draft>| draft.map_or(0, |draft| draft.statements.len());
        let mut cut = count(self.draft()) / 2;
        while cut > 0 {
            let Some(mut smaller) = self.draft() else { return };
            let kept = smaller.statements.len() - cut;
            smaller.statements.truncate(kept);
            let taken = self.offer_without(&smaller, kept..kept + cut);
            cut = if taken { cut.min(count(self.draft())) } else { cut / 2 };
        }
    }

    /// Drops statements, with their blocks or the head alone.
    fn statements(&mut self) {
        let Some(draft) = self.draft() else { return };
        for s in (0..draft.statements.len()).rev() {
            for keep_blocks in [false, true] {
                let Some(mut smaller) = self.draft() else { return };
                if s < smaller.statements.len() {
                    let removed = smaller.remove(s, keep_blocks);
                    if self.offer_without(&smaller, removed) {
                        break;
                    }
                }
            }
        }
    }

    /// Drops variables that nothing names, and objects from the last.
    fn names(&mut self) {
        let count = self.draft().map_or(0, |draft| draft.variables.len());
        for v in (0..count).rev() {
            let mut smaller = self.best.clone();
            let Some(table) = self.draft().and_then(|draft| without_variable(draft, v)) else { continue };
            let Some(facts) = list_without_variable(&smaller.facts, v as i32) else { continue };
            (smaller.table, smaller.facts) = (table.words(), facts);
            for list in [&mut smaller.input.values, &mut smaller.input.origins] {
                if v < list.len() {
                    list.remove(v);
                }
            }
            self.offer(smaller);
        }
        while let Some(mut draft) = self.draft() {
            let mut smaller = self.best.clone();
            if draft.objects.pop().is_none() {
                return;
            }
            smaller.table = draft.words();
            let pairs = smaller.input.directory.len().saturating_sub(2);
            smaller.input.directory.truncate(pairs);
            if !self.offer(smaller) {
                return;
            }
        }
    }

    /// Drops rows that nothing names, and the section of rows once it is empty.
    fn rows(&mut self) {
        let count = self.draft().and_then(|draft| draft.rows).map_or(0, |rows| rows.len());
        for row in (0..count).rev() {
            if let Some(smaller) = self.draft().and_then(|draft| without_row(draft, row)) {
                self.offer_table(smaller.words());
            }
        }
        if let Some(draft) = self.draft() {
            let rows = draft.rows.filter(|rows| !rows.is_empty());
            self.offer_table(Draft { rows, ..draft }.words());
        }
    }

    /// Drops entries of the list, from the last, and makes the words of the others smaller.
    fn list(&mut self) {
        for start in (0..self.best.facts.len()).step_by(ENTRY_WORDS).rev() {
            let mut smaller = self.best.clone();
            smaller.facts.drain(start..smaller.facts.len().min(start + ENTRY_WORDS));
            self.offer(smaller);
        }
        for place in 0..self.best.facts.len() {
            for word in smaller_words(self.best.facts[place].into()) {
                let mut smaller = self.best.clone();
                smaller.facts[place] = word as i32;
                if self.offer(smaller) {
                    break;
                }
            }
        }
    }

    /// Sets words behind a right directory, or any, to smaller ones.
    fn words(&mut self) {
        let first = if self.draft().is_some() { self.best.table[0] as usize } else { 0 };
        for place in first..self.best.table.len() {
            for smaller in smaller_words(self.best.table[place].into()) {
                let mut table = self.best.table.clone();
                table[place] = smaller as i32;
                if self.offer_table(table) {
                    break;
                }
            }
        }
        if first == 0 {
            for length in [6, self.best.table.len() / 2, self.best.table.len().saturating_sub(1)] {
                let table = self.best.table.iter().copied().take(length).collect();
                self.offer_table(table);
            }
        }
    }

    /// Makes what is lent smaller.
    fn input(&mut self) {
        for allowance in smaller_words(self.best.input.allowance.into()) {
            let mut smaller = self.best.clone();
            smaller.input.allowance = allowance as u32;
            if self.offer(smaller) {
                break;
            }
        }
        for cells in [0, self.best.input.cells.len() / 2, self.best.input.cells.len().saturating_sub(1)] {
            let mut smaller = self.best.clone();
            smaller.input.cells.truncate(cells);
            self.offer(smaller);
        }
        for list in 0..4 {
            let length = lent(&mut self.best.clone(), list).len().min(200);
            for place in 0..length {
                let old = lent(&mut self.best.clone(), list).get(place).copied().unwrap_or(0);
                for word in smaller_words(old.into()) {
                    let mut smaller = self.best.clone();
                    lent(&mut smaller, list)[place] = word as u32;
                    if self.offer(smaller) {
                        break;
                    }
                }
            }
        }
    }
}

fn lent(case: &mut Case, list: usize) -> &mut Vec<u32> {
    let input = &mut case.input;
    [&mut input.values, &mut input.origins, &mut input.directory, &mut input.cells]
        .into_iter()
        .nth(list)
        .unwrap()
}

/// Words nearer to zero, the smallest first.
fn smaller_words(word: i64) -> impl Iterator<Item = i64> {
    [0, word / 2, word - word.signum()].into_iter().filter(move |w| w.abs() < word.abs())
}

/// The fields of a statement that name variables.
pub fn named(record: &Record) -> &'static [usize] {
    match (record[0], record[3]) {
        (1 | 4 | 5, _) => &[1],
        (2 | 6, _) => &[1, 2],
        (3 | 7 | 8, _) => &[1, 2, 3],
        (9, _) => &[1, 2, 4],
        (10..=12, 0) => &[1, 4],
        (10..=12, _) => &[1],
        (14, _) => &[1],
        (15, _) => &[2, 3, 4, 5, 6],
        _ => &[],
    }
}

/// The entries of a list, and the words of one that is cut short.
fn split(facts: &[i32]) -> (Vec<Listed>, &[i32]) {
    (to_records(facts), facts.chunks_exact(ENTRY_WORDS).remainder())
}

/// The list without variable v, if no entry names it.
fn list_without_variable(facts: &[i32], v: i32) -> Option<Vec<i32>> {
    let (mut list, rest) = split(facts);
    for word in list.iter_mut().flat_map(|entry| &mut entry[1..3]) {
        if *word == v {
            return None;
        }
        *word -= i32::from(*word > v);
    }
    Some([list.as_flattened(), rest].concat())
}

/// The draft without variable v, if nothing else names it.
fn without_variable(mut draft: Draft, v: usize) -> Option<Draft> {
    draft.variables.remove(v);
    let rename = |word: &mut i32| {
        let free = *word != v as i32;
        *word -= i32::from(*word > v as i32);
        free
    };
    let own = draft.variables.iter_mut().filter(|record| record[0] != 0).map(|record| &mut record[2..]);
    let rows = draft.rows.iter_mut().flatten().map(|row| &mut row[..]);
    let ends_free =
        own.chain(rows).flat_map(|ends| [0, 1, 3, 4].map(|field| rename(&mut ends[field]))).all(|free| free);
    let statements_free = draft
        .statements
        .iter_mut()
        .flat_map(|record| named(record).iter().map(|&field| rename(&mut record[field])).collect::<Vec<_>>())
        .all(|free| free);
    (ends_free && statements_free && !draft.variables.is_empty()).then_some(draft)
}

/// The draft without a row, if no kind 14 names it.
fn without_row(mut draft: Draft, row: usize) -> Option<Draft> {
    draft.rows.as_mut()?.remove(row);
    for record in draft.statements.iter_mut().filter(|record| record[0] == 14) {
        if record[2] == row as i32 {
            return None;
        }
        record[2] -= i32::from(record[2] > row as i32);
    }
    Some(draft)
}

#[cfg(test)]
mod tests {
    use super::*;
    use crate::fast_check;
    use crate::generate::case;
    use oracle::answer::RunAnswer;
    use oracle::{checker, machine};

    #[test]
    fn keeps_the_predicate_and_gets_small() {
        let is_eight = |c: &Case| matches!(checker::check(&c.table), Err(r) if r.cause == 8);
        let mut seen = 0;
        for number in 0..400 {
            let found = case(5, number);
            if is_eight(&found) && seen < 8 {
                let small = shrink(&found, &mut |c| is_eight(c));
                assert!(is_eight(&small));
                // One variable, one statement or a small bundle are enough for refusal 8.
                assert!(small.table.len() <= 6 + 3 * 8 + 5 * 7, "{:?}", small.table);
                seen += 1;
            }
        }
        assert_eq!(seen, 8);
    }

    #[test]
    fn rows_that_nothing_names_go() {
        let is_thirteen = |c: &Case| matches!(checker::check(&c.table), Err(r) if r.cause == 13);
        for found in (0..).map(|n| case(8, n)).filter(is_thirteen).take(8) {
            let small = shrink(&found, &mut |c| is_thirteen(c));
            let draft = Draft::from_words(&small.table).unwrap();
            // A head and a kind 14 for one pointer: one row is enough.
            assert_eq!(draft.rows.map(|rows| rows.len()), Some(1), "{:?}", small.table);
            assert_eq!(draft.statements.len(), 2, "{:?}", small.table);
        }
        let unused = (0..).map(|n| case(8, n)).find(|c| c.table.first() == Some(&8)).unwrap();
        let small = shrink(&unused, &mut |c| checker::check(&c.table) == checker::check(&[]));
        assert_eq!(small.table[0], 8, "kept where the predicate is false of it");
        let small = shrink(&unused, &mut |_| true);
        assert_ne!(small.table[0], 8);
    }

    #[test]
    fn lists_get_short() {
        let is_unshown = |c: &Case| {
            let refusal = fast_check::check_with_facts(&c.table, &c.facts).err();
            let alone = fast_check::check_with_facts(&c.table, &[]).is_ok();
            alone && refusal.is_some_and(|refusal| refusal.cause == 17 && refusal.place == 1)
        };
        for found in (0..).map(|n| case(8, n)).filter(is_unshown).take(8) {
            let small = shrink(&found, &mut |c| is_unshown(c));
            assert!(is_unshown(&small) && small.facts.len() <= 8, "{:?}", small.facts);
        }
    }

    #[test]
    fn shrinks_runs_too() {
        let is_stop = |c: &Case| {
            let answer = machine::run(&c.table, &mut c.input.clone());
            matches!(answer, RunAnswer::Stopped { .. })
        };
        let found = (0..).map(|n| case(6, n)).find(is_stop).unwrap();
        let small = shrink(&found, &mut |c| is_stop(c));
        assert!(is_stop(&small));
        assert!(small.table.len() <= found.table.len() && small.input.allowance <= 12);
    }
}
