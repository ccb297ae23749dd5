//! Sets of routines that call earlier ones (point 14): routines that serve as callees, calls in them at any place, and
//! faults of all sorts; lengths of their tables that are damaged.

use super::layout::{self, Callee};
use super::{faults, inputs, kinds, Writer};
use crate::fast_check;
use crate::rng::Rng;
use crate::sets::{SetCase, SetParts};
use crate::shrink::named;
use oracle::answer::{CheckAnswer, RunInput};
use oracle::checker::{watch_in_set, Known, Observer, Rows};
use oracle::draft::Draft;
use oracle::facts::Facts;
use oracle::set::{self, MAX_ROUTINES};
use oracle::table::{decode_member, Object, Routine};

/// Set `number` of a seed is always the same.
pub fn sets_case(seed: u64, number: u64) -> SetParts {
    let mut rng = Rng::of_case(seed ^ 0x7365_7473, number);
    let tables = tables(&mut rng);
    let input = input(&mut rng, &tables);
    let mut parts = SetParts::of(&SetCase { tables, input });
    if rng.chance(5) {
        damage(&mut rng, &mut parts);
    }
    parts
}

fn tables(rng: &mut Rng) -> Vec<Vec<i32>> {
    let count = match rng.below(60) {
        0 => 0,
        1 => MAX_ROUTINES + 1,
        2 | 3 => MAX_ROUTINES,
        4..=6 => 1,
        _ => rng.pick(&[2, 2, 2, 3, 3, 4, 5]),
    };
    let (mut before, mut callees, mut objects) = (Before::default(), Vec::new(), Vec::new());
    let mut drafts: Vec<Draft> = Vec::new();
    for number in 0..count {
        let mut draft = routine(rng, number, &objects, &callees, &before);
        // Calls are refused more often than other statements: most often take the first routine with one that is right.
        let tries = if number > 0 && !before.is_refused && rng.chance(85) { 16 } else { 0 };
        for _ in 0..tries {
            if draft.statements.iter().any(|record| record[0] == 15) && before.check(&draft).is_ok() {
                break;
            }
            draft = routine(rng, number, &objects, &callees, &before);
        }
        let parameters = as_callee(rng, &mut draft);
        if number == 0 {
            objects.clone_from(&draft.objects);
        }
        before.add(&draft);
        callees.push(Callee { number: number as i32, parameters, variables: draft.variables.clone() });
        drafts.push(draft);
    }
    if count > 0 && rng.chance(12) {
        let r = rng.below(count);
        match rng.below(4) {
            0 if r > 0 => drafts[r].objects = vec![rng.pick(&[3, 0, -2]); rng.pick(&[1, 1, 2, 17])],
            _ => faults::break_record(rng, &mut drafts[r]),
        }
    }
    let mut tables: Vec<Vec<i32>> = drafts.iter().map(Draft::words).collect();
    if count > 0 && rng.chance(5) {
        let table = &mut tables[rng.below(count)];
        if rng.chance(70) {
            faults::mutate(rng, table);
        } else {
            faults::resize(rng, table);
        }
    }
    tables
}

/// The routines up to here, while all are accepted.
#[derive(Default)]
struct Before {
    routines: Vec<Routine>,
    is_refused: bool,
}

impl Before {
    fn objects(&self) -> Option<&[Object]> {
        self.routines.first().map(|first| &first.objects[..])
    }

    fn check(&self, draft: &Draft) -> CheckAnswer {
        fast_check::check_member(&decode_member(&draft.words(), self.objects())?, &self.routines)
    }

    fn add(&mut self, draft: &Draft) {
        self.is_refused = self.is_refused || self.check(draft).is_err();
        if !self.is_refused {
            self.routines.extend(decode_member(&draft.words(), self.objects()));
        }
    }
}

/// A routine over the objects of routine 0, most often accepted behind the ones before it.
fn routine(rng: &mut Rng, number: usize, objects: &[i32], callees: &[Callee], before: &Before) -> Draft {
    let mut draft = Draft::default();
    let mut layout = match number {
        0 => layout::choose(rng, &mut draft),
        _ => layout::over_objects(rng, &mut draft, objects),
    };
    layout.callees = callees.to_vec();
    let size = match rng.below(10) {
        0 => 0,
        1 => rng.range(8, 25),
        _ => rng.range(1, 8),
    };
    draft.statements = Writer { rng, layout: &layout }.body(size as usize, 0);
    if layout.terminated.contains(&true) {
        kinds::agree(rng, &mut draft, &layout);
    }
    if number > 0 {
        draft.objects.clear();
    }
    if rng.chance(70) {
        revive(&mut draft, before);
    }
    if !before.is_refused && rng.chance(88) {
        repair(rng, &mut draft, before);
    }
    draft
}

/// Takes out what is refused; leaves some of the calls that are.
fn repair(rng: &mut Rng, draft: &mut Draft, before: &Before) {
    while let Err(refusal) = before.check(draft) {
        let kept = if refusal.cause >= 19 { 8 } else { 2 };
        if refusal.cause < 6 || draft.statements.is_empty() || rng.chance(kept) {
            return;
        }
        draft.remove(refusal.place as usize, false);
    }
}

/// Takes out each top statement behind which facts contradict.
fn revive(draft: &mut Draft, before: &Before) {
    loop {
        let Ok(routine) = decode_member(&draft.words(), before.objects()) else { return };
        let mut dead = Dead(vec![false; routine.statements.len()]);
        let end = watch_in_set(&routine, &before.routines, &mut dead);
        dead.0.push(end.is_ok_and(|facts| facts.contradictory()));
        let mut s = 0;
        while s < routine.statements.len() && !dead.0[s + routine.statements[s].size()] {
            s += routine.statements[s].size();
        }
        if s == routine.statements.len() {
            return;
        }
        draft.remove(s, false);
    }
}

/// For each statement whether facts contradict before it.
struct Dead(Vec<bool>);

impl Observer for Dead {
    fn before(&mut self, statement: usize, facts: &Facts, _: &Rows, _: &Known) {
        self.0[statement] = facts.contradictory();
    }
}

/// Puts variables in another order, most often some whose bounds name each other first and an integer last; how many
/// the first ones are.
fn as_callee(rng: &mut Rng, draft: &mut Draft) -> usize {
    let count = draft.variables.len();
    let mut order: Vec<usize> = (0..count).collect();
    rng.shuffle(&mut order);
    let pointers: Vec<usize> = (0..count).filter(|&v| draft.variables[v][0] != 0).collect();
    let first = if rng.chance(75) { rng.pick_any(&pointers) } else { None };
    let mut closed: Vec<usize> = first.into_iter().collect();
    let mut place = 0;
    while place < closed.len() {
        let record = draft.variables[closed[place]];
        let named = if record[0] == 0 { vec![] } else { vec![record[2], record[3], record[5], record[6]] };
        closed.extend(named.into_iter().filter_map(|v| usize::try_from(v).ok()).filter(|&v| v < count));
        let mut seen = Vec::new();
        closed.retain(|v| {
            !seen.contains(v) && {
                seen.push(*v);
                true
            }
        });
        place += 1;
    }
    if closed.len() > 4 {
        closed.clear();
    }
    rng.shuffle(&mut closed);
    let mut parameters = closed.len();
    // An integer more, which no bounds hang on.
    if parameters < 4 && rng.chance(40) {
        let integer = order.iter().copied().find(|v| draft.variables[*v][0] == 0 && !closed.contains(v));
        parameters += usize::from(integer.is_some());
        closed.extend(integer);
    }
    order.retain(|v| !closed.contains(v));
    if let Some(last) = order.iter().position(|&v| draft.variables[v][0] == 0).filter(|_| rng.chance(93)) {
        let end = order.len() - 1;
        order.swap(last, end);
    }
    permute(draft, &[closed, order].concat());
    parameters
}

/// Variable `order[v]` becomes variable v.
fn permute(draft: &mut Draft, order: &[usize]) {
    let mut number = vec![0; order.len()];
    order.iter().enumerate().for_each(|(new, &old)| number[old] = new as i32);
    let rename = |word: &mut i32| {
        if let Some(&new) = usize::try_from(*word).ok().and_then(|old| number.get(old)) {
            *word = new;
        }
    };
    draft.variables = order.iter().map(|&old| draft.variables[old]).collect();
    let own = draft.variables.iter_mut().filter(|record| record[0] != 0).map(|record| &mut record[2..]);
    let rows = draft.rows.iter_mut().flatten().map(|row| &mut row[..]);
    own.chain(rows).for_each(|ends| [0, 1, 3, 4].into_iter().for_each(|field| rename(&mut ends[field])));
    for record in &mut draft.statements {
        named(record).iter().for_each(|&field| rename(&mut record[field]));
    }
}

/// What the last routine is lent.
fn input(rng: &mut Rng, tables: &[Vec<i32>]) -> RunInput {
    let accepted = set::accept(tables);
    let nothing = |_: &mut RunInput| oracle::answer::RunAnswer::Done { steps: 0 };
    match &accepted {
        Ok(routines) => {
            let trial = |input: &mut RunInput| set::run_routines(routines, input).answer;
            inputs::for_routine(rng, &routines[routines.len() - 1], true, &trial)
        }
        // What does not decode is refused before anything lent is looked at.
        Err(_) => {
            let first = tables.first().and_then(|table| decode_member(table, None).ok());
            let last = tables.last().zip(first).and_then(|(table, first)| {
                let objects = (tables.len() > 1).then_some(&first.objects[..]);
                decode_member(table, objects).ok()
            });
            match last {
                Some(last) => inputs::for_routine(rng, &last, false, &nothing),
                None => RunInput { cells: vec![0], allowance: 9, ..RunInput::default() },
            }
        }
    }
}

/// Lengths that are no longer those of the tables.
fn damage(rng: &mut Rng, parts: &mut SetParts) {
    if parts.lengths.is_empty() {
        parts.lengths.push(0);
        return;
    }
    let at = rng.below(parts.lengths.len());
    match rng.below(6) {
        0 => parts.lengths.truncate(at),
        1 => parts.lengths.push(rng.below(9) as u32),
        2 => parts.lengths[at] = rng.pick(&[u32::MAX, u32::MAX - 1, 1 << 31, 0]),
        3 => {
            let words = parts.tables.len();
            parts.tables.truncate(words.saturating_sub(1 + rng.below(9)));
        }
        // The last table ends with its slice: a greater length changes nothing.
        4 => parts.lengths.iter_mut().rev().take(1).for_each(|length| *length = length.saturating_mul(3)),
        _ => parts.lengths[at] = parts.lengths[at].wrapping_add(rng.pick(&[1, u32::MAX])),
    }
}

#[cfg(test)]
mod tests {
    use super::*;
    use oracle::answer::RunAnswer;
    use oracle::machine::Machine;
    use oracle::table::Statement;
    use std::collections::BTreeMap;

    #[test]
    fn sets_reach_every_answer() {
        let mut seen = BTreeMap::new();
        let (mut accepted, mut calling, mut deep, mut in_blocks) = (0, 0, 0, 0);
        for number in 0..3_000 {
            let parts = sets_case(71, number);
            assert_eq!(parts, sets_case(71, number));
            let mut input = parts.input.clone();
            let answer = set::run(&parts.members(), &mut input);
            let class = match answer.answer {
                RunAnswer::Refused(refusal) => format!("refused {}", refusal.cause),
                RunAnswer::Stopped { check, .. } => format!("stopped {}", check as u8),
                other => other.to_string().split(' ').next().unwrap_or_default().to_string(),
            };
            *seen.entry(class).or_insert(0) += 1;
            let Ok(routines) = set::accept(&parts.members()) else { continue };
            accepted += 1;
            let calls = |part: &[Statement]| part.iter().any(|s| matches!(s, Statement::Call(_)));
            let statements = |r: &Routine| r.statements.clone();
            calling += usize::from(routines.iter().any(|r| calls(&r.statements)));
            let blocks = routines.iter().map(statements).any(|all| {
                let block = |(s, head): (usize, &Statement)| calls(&all[s + 1..s + head.size()]);
                all.iter().enumerate().any(block)
            });
            in_blocks += usize::from(blocks);
            if !matches!(answer.answer, RunAnswer::Refused(_)) {
                deep += usize::from(deepest(&routines, &parts.input) > 2);
            }
        }
        let all = format!(
            "{accepted} accepted, {calling} with a call, {in_blocks} in a block, {deep} deep: {seen:?}"
        );
        assert!(accepted > 1_300 && calling > 700 && in_blocks > 150 && deep > 40, "{all}");
        for cause in [1, 2, 3, 4, 5, 6, 8, 9, 10, 11, 12, 13, 15, 16, 19, 20] {
            assert!(seen.contains_key(&format!("refused {cause}")), "{cause}: {all}");
        }
        for class in
            ["done", "spent", "stopped 1", "stopped 2", "stopped 3", "stopped 4", "stopped 5", "stopped 6"]
        {
            assert!(seen.contains_key(class), "{class}: {all}");
        }
        assert!(!seen.contains_key("STUCK"), "{all}");
    }

    /// The most routines at work at once in the first steps of a run.
    fn deepest(routines: &[Routine], input: &RunInput) -> usize {
        let RunInput { directory, mut cells, mut values, origins, allowance } = input.clone();
        let mut machine = Machine::of_set(routines, &directory, &mut values, &origins);
        let depths = (0..u64::from(allowance.min(60))).map(|limit| {
            machine.go(&mut cells, limit);
            machine.frames().len()
        });
        depths.max().unwrap_or(0)
    }
}
