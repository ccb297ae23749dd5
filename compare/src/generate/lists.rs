//! Lists of loop facts (point 9): right ones, nearly right ones and wrong ones.

use super::check_listed;
use super::layout::constant;
use crate::rng::Rng;
use oracle::checker;
use oracle::draft::{Draft, Listed, Record};
use oracle::facts::{Facts, Node, ZERO};
use oracle::loop_facts::{ENTRY_WORDS, MAX_ENTRIES};
use oracle::table::{decode, Routine, Statement, MAX_CONSTANT};

/// Facts that a converter could believe of the loops: most of them hold before the loop.
pub fn believed(rng: &mut Rng, draft: &Draft) -> Vec<Listed> {
    let Ok(routine) = decode(&draft.words()) else { return Vec::new() };
    let mut before: Vec<Option<Facts>> = vec![None; routine.statements.len()];
    let _ = checker::walk(&routine, &mut |s, facts| {
        if matches!(routine.statements[s], Statement::While { .. }) {
            before[s] = Some(facts.clone());
        }
    });
    let mut list = Vec::new();
    for (head, facts) in before.iter().enumerate() {
        let Statement::While { .. } = routine.statements[head] else { continue };
        if !rng.chance(85) {
            continue;
        }
        let about = Loop { routine: &routine, head, record: &draft.statements[head], before: facts.as_ref() };
        if rng.chance(50) {
            list.extend(about.all_facts());
        }
        for _ in 0..rng.pick(&[0, 1, 1, 2, 2, 3, 4, 6]) {
            list.extend(about.fact(rng));
        }
    }
    list.truncate(MAX_ENTRIES);
    list
}

/// A word for a node: -1 stands for zero.
fn word(x: Node) -> i32 {
    if x == ZERO {
        -1
    } else {
        x as i32
    }
}

/// A loop and what is known before it, where the walk without a list comes to it.
struct Loop<'a> {
    routine: &'a Routine,
    head: usize,
    record: &'a Record,
    before: Option<&'a Facts>,
}

impl Loop<'_> {
    fn assigned(&self) -> Vec<Node> {
        let body =
            &self.routine.statements[self.head + 1..self.head + self.routine.statements[self.head].size()];
        let mut assigned: Vec<Node> = body.iter().filter_map(Statement::target).map(Node::from).collect();
        assigned.sort();
        assigned.dedup();
        assigned
    }

    /// The other variables of x's kind, and zero.
    fn beside(&self, x: Node) -> Vec<Node> {
        let kinds = &self.routine.kinds;
        (0..kinds.len()).filter(|&y| y != x && kinds[y] == kinds[x]).chain([ZERO]).collect()
    }

    /// x <= y + k with the least k that is known before the loop, if an entry can say so.
    fn known(&self, x: Node, y: Node) -> Option<Listed> {
        let facts = self.before.filter(|facts| !facts.contradictory())?;
        let k = i32::try_from(facts.sum(x, y)).ok().filter(|k| k.abs() <= MAX_CONSTANT)?;
        Some([self.head as i32, word(x), word(y), k])
    }

    /// All that is known before the loop of what its body assigns: what of it stays is a right list.
    fn all_facts(&self) -> Vec<Listed> {
        let pairs = self.assigned().into_iter().flat_map(|x| self.beside(x).into_iter().map(move |y| (x, y)));
        pairs.flat_map(|(x, y)| [self.known(x, y), self.known(y, x)]).flatten().collect()
    }

    /// One fact: of the condition, of a variable that the body assigns, or any.
    fn fact(&self, rng: &mut Rng) -> Option<Listed> {
        let [_, left, _, form, right, ..] = *self.record;
        if rng.chance(60) {
            let [y, k] = if form == 0 { [right, 0] } else { [-1, right] };
            let k = k.wrapping_add(rng.pick(&[0, 0, 0, 0, 0, 0, 1, -1]));
            let (x, y, k) = if rng.chance(75) { (left, y, k) } else { (y, left, k.wrapping_neg()) };
            return Some([self.head as i32, x, y, k]).filter(|_| (-MAX_CONSTANT..=MAX_CONSTANT).contains(&k));
        }
        let any = rng.below(self.routine.kinds.len());
        let x = rng.pick_any(&self.assigned()).filter(|_| rng.chance(85)).unwrap_or(any);
        let y = rng.pick(&self.beside(x));
        let (x, y) = if rng.chance(50) { (x, y) } else { (y, x) };
        // What holds before the loop, or a little more.
        let mut entry = match self.known(x, y).filter(|_| rng.chance(75)) {
            Some(entry) => entry,
            None => [self.head as i32, word(x), word(y), constant(rng)],
        };
        entry[3] = (entry[3] + rng.pick(&[0, 0, 0, 1, 3, 9])).min(MAX_CONSTANT);
        Some(entry)
    }
}

/// Takes out entries that are not shown, now and then all but some; then perhaps others, which those that stay may need.
pub fn take_out_unshown(rng: &mut Rng, draft: &Draft, list: &mut Vec<Listed>) {
    while !list.is_empty() {
        match check_listed(draft, list) {
            Err(refusal) if refusal.cause == 17 && !rng.chance(3) => list.remove(refusal.place as usize),
            _ => break,
        };
    }
    if rng.chance(30) {
        list.retain(|_| rng.chance(60));
    }
}

/// The words of a list, at times made wrong.
pub fn words(rng: &mut Rng, draft: &Draft, mut list: Vec<Listed>) -> Vec<i32> {
    let spoilt = if list.is_empty() { 3 } else { 22 };
    if rng.chance(spoilt) {
        spoil(rng, draft, &mut list);
    }
    let mut words = list.into_flattened();
    match rng.below(100) {
        // Cut short.
        0 => words.truncate(words.len().saturating_sub(rng.below(ENTRY_WORDS))),
        1 => words.extend(&[0, 1, -1][..rng.range(1, 3) as usize]),
        _ => {}
    }
    words
}

/// A loop of the table, most often; else any statement or none.
fn head(rng: &mut Rng, draft: &Draft) -> i32 {
    let count = draft.statements.len() as i32;
    let heads: Vec<i32> = (0..count).filter(|&s| draft.statements[s as usize][0] == 12).collect();
    match rng.pick_any(&heads).filter(|_| rng.chance(70)) {
        Some(head) => head,
        None => rng.pick(&[-1, 0, 1, count - 1, count, i32::MAX, i32::MIN]),
    }
}

/// Breaks a rule of a list, or one of its facts.
fn spoil(rng: &mut Rng, draft: &Draft, list: &mut Vec<Listed>) {
    let any_variable = |rng: &mut Rng| {
        let variable = rng.range(0, draft.variables.len() as i32 - 1);
        rng.pick(&[-2, -1, -1, variable, variable, draft.variables.len() as i32])
    };
    if list.is_empty() || rng.chance(12) {
        let at = rng.below(list.len() + 1);
        let k = constant(rng);
        list.insert(at, [head(rng, draft), any_variable(rng), any_variable(rng), k]);
        return;
    }
    let (at, other) = (rng.below(list.len()), rng.below(list.len()));
    match rng.below(12) {
        0 | 1 => list[at][3] -= 1,
        2 => list.swap(at, other),
        3 => list[at][1..3].fill(-1),
        4 => list[at][rng.range(1, 2) as usize] = any_variable(rng),
        5 => {
            let limit = MAX_CONSTANT + 1;
            list[at][3] = rng.pick(&[limit, -limit, limit - 1, 1 - limit, i32::MAX, i32::MIN]);
        }
        6 => list[at][0] = head(rng, draft),
        7 | 8 => {
            list.remove(at);
        }
        9 => list.insert(at, list[at]),
        10 if rng.chance(60) => {
            // As many entries as there may be, or one more, the first of them repeated.
            let first = list[0];
            let many = MAX_ENTRIES + rng.below(2);
            list.splice(0..0, vec![first; many.saturating_sub(list.len())]);
        }
        _ => {
            let field = rng.below(ENTRY_WORDS);
            list[at][field] = list[at][field].wrapping_add(rng.pick(&[1, -1, 2, 65_536]));
        }
    }
}
