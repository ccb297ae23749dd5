//! Several routines in turn: why they are refused together (14, 15), the order of their turns, and whether the second implementation agrees.

use super::{Explanation, Help, MOST_COMPARED};
use crate::diagnostics::Pos;
use crate::image::Image;
use crate::library::{steps, Outcome, Turns};
use crate::program::Program;
use oracle::dispatch::{dispatch, Turn};
use std::ops::Range;

/// A routine and its image, with the name of that.
pub struct Seat<'a> {
    pub program: &'a Program,
    pub image_path: &'a str,
    pub image: &'a Image,
}

/// An object in the memory of all: its routine, where its image gives it, its cells.
struct Object<'a> {
    routine: usize,
    name: &'a str,
    at: Option<Pos>,
    cells: Range<u64>,
}

impl Seat<'_> {
    fn objects(&self, routine: usize) -> impl Iterator<Item = Object<'_>> {
        let names = self.program.text.iter().flat_map(|text| &text.names.objects);
        let pairs = self.image.lent.directory.chunks_exact(2);
        pairs.zip(names).enumerate().map(move |(object, (pair, name))| {
            let first = u64::from(pair[0]);
            let cells = first..first + u64::from(pair[1]);
            Object { routine, name, at: self.image.objects.get(object).copied(), cells }
        })
    }
}

/// Refusal 14: the object of that routine that overlaps an earlier one's, at its line of the image.
pub fn overlap(seats: &[Seat], routine: usize) -> Explanation {
    let earlier = || (0..routine).flat_map(|earlier| seats[earlier].objects(earlier));
    let shared = |a: &Object, b: &Object| a.cells.start < b.cells.end && b.cells.start < a.cells.end;
    let found = seats[routine]
        .objects(routine)
        .find_map(|own| earlier().find(|other| shared(&own, other)).map(|other| (own, other)));
    let Some((own, other)) = found else { return Explanation { number: 14, ..Explanation::default() } };
    let cells = |object: &Object| format!("cells {} to {}", object.cells.start, object.cells.end - 1);
    let sentence = format!(
        "object `{}` of routine {} ({}) overlaps `{}` of routine {}, lent {} ({})",
        own.name,
        own.routine,
        cells(&own),
        other.name,
        other.routine,
        seats[other.routine].image_path,
        cells(&other)
    );
    let message = "without `at` it lies behind the objects of the images before".to_string();
    Explanation {
        number: 14,
        help: vec![Help { message, repair: None }],
        ..Explanation::new(own.at, sentence)
    }
}

/// Refusal 15, which has no line.
pub fn out_of_range(routines: usize, quantum: u32) -> Explanation {
    let sentence = match routines {
        1..=8 => format!("a turn has {quantum} steps; 1 to 1,000 are allowed"),
        _ => format!("there are {routines} routines; 1 to 8 are allowed"),
    };
    Explanation { number: 15, ..Explanation::new(None, sentence) }
}

/// The turns in which routines come to their steps: round by number, those that have taken all of theirs are skipped.
pub struct Order {
    left: Vec<u32>,
    quantum: u32,
    next: usize,
}

impl Order {
    pub fn of(outcomes: &[Outcome], quantum: u32) -> Order {
        Order { left: outcomes.iter().map(steps).collect(), quantum, next: 0 }
    }

    pub fn turns_left(&self) -> u64 {
        self.left.iter().map(|steps| u64::from(steps.div_ceil(self.quantum))).sum()
    }
}

impl Iterator for Order {
    type Item = Turn;

    fn next(&mut self) -> Option<Turn> {
        let count = self.left.len();
        let round = (self.next..count).chain(0..self.next);
        let routine = round.into_iter().find(|&routine| self.left[routine] > 0)?;
        let taken = self.left[routine].min(self.quantum);
        self.left[routine] -= taken;
        self.next = (routine + 1) % count;
        Some(Turn { routine, steps: u64::from(taken) })
    }
}

/// The answer of the second implementation to what the library was lent, where it is another one, has other turns, or leaves other values or cells.
pub fn other_turns(
    mut lent: oracle::dispatch::Turns,
    answer: &Turns,
    values: &[Vec<u32>],
    cells: &[u32],
) -> Option<String> {
    let outcomes = match answer {
        Turns::Ran(outcomes) => &outcomes[..],
        Turns::Refused { .. } => &[],
    };
    if outcomes.iter().map(|outcome| u64::from(steps(outcome))).sum::<u64>() > u64::from(MOST_COMPARED) {
        return None;
    }
    let quantum = lent.quantum;
    let second = dispatch(&mut lent);
    let said = match &second {
        Err(refusal) => refusal.to_string(),
        Ok(dispatched) => {
            let ends = dispatched.answers.iter().enumerate();
            let ends = ends.map(|(routine, end)| format!("routine {routine}: {end}"));
            ends.collect::<Vec<_>>().join(", ")
        }
    };
    let same_turns = second.map_or(true, |turns| Order::of(outcomes, quantum).eq(turns.order));
    let same_values = lent.members.iter().map(|member| &member.values).eq(values);
    let same = said == shown(answer) && same_turns && same_values && lent.cells == cells;
    (!same).then_some(said)
}

/// `refused 15 0`, `refused 14 1`, `refused routine 1 12 0`, or how each routine ended.
pub fn shown(answer: &Turns) -> String {
    match answer {
        Turns::Refused { routine, refusal } if refusal.number < 14 || refusal.number > 15 => {
            let numbers = refusal.to_string();
            format!("refused routine {routine} {}", numbers.trim_start_matches("refused "))
        }
        Turns::Refused { refusal, .. } => refusal.to_string(),
        ran => ran.to_string(),
    }
}

#[cfg(test)]
mod tests {
    use super::*;
    use crate::library::{Check, Refusal};
    use oracle::dispatch::Member;

    #[test]
    fn turns_go_round_and_skip_those_that_ended() {
        let outcomes = [
            Outcome::Done { steps: 5 },
            Outcome::Done { steps: 0 },
            Outcome::Stopped { steps: 2, statement: 0, check: Check::NullAccess },
            Outcome::Spent { steps: 9, statement: 3 },
        ];
        let order: Vec<(usize, u64)> =
            Order::of(&outcomes, 4).map(|turn| (turn.routine, turn.steps)).collect();
        assert_eq!(order, [(0, 4), (2, 2), (3, 4), (0, 1), (3, 4), (3, 1)]);
        assert_eq!(Order::of(&outcomes, 4).turns_left(), 6);
        assert_eq!((Order::of(&[], 4).count(), Order::of(&[], 4).turns_left()), (0, 0));
    }

    /// A library that answers something else, or leaves something else, than the second implementation is found out.
    #[test]
    fn differences_are_seen() {
        let table = vec![6, 0, 6, 8, 14, 7, 0, 0, 0, 0, 0, 0, 0, 0, 1, 0, 5, 0, 0, 0, 0];
        let member = Member { table, values: vec![1], origins: vec![0], ..Member::default() };
        let lent = |quantum| oracle::dispatch::Turns {
            members: vec![member.clone(), member.clone()],
            cells: vec![0],
            quantum,
            total: 9,
        };
        let ran = |steps: [u32; 2]| Turns::Ran(steps.map(|steps| Outcome::Done { steps }).to_vec());
        let left = [vec![5], vec![5]];
        assert_eq!(other_turns(lent(1), &ran([1, 1]), &left, &[0]), None);
        let said = Some("routine 0: done 1, routine 1: done 1".to_string());
        assert_eq!(other_turns(lent(1), &ran([1, 2]), &left, &[0]), said);
        assert_eq!(other_turns(lent(1), &ran([1, 1]), &[vec![5], vec![1]], &[0]), said);
        assert_eq!(other_turns(lent(1), &ran([1, 1]), &left, &[7]), said);
        let entry = [vec![1], vec![1]];
        let refused = |routine, number| {
            let refusal = mizzengrape::Refusal { number, place: 0, pointer: None };
            Turns::Refused { routine, refusal }
        };
        assert_eq!(other_turns(lent(0), &refused(0, 15), &entry, &[0]), None);
        assert_eq!(other_turns(lent(0), &refused(1, 12), &entry, &[0]), Some("refused 15 0".to_string()));
        assert_eq!(
            shown(&refused(1, 12)),
            Refusal { routine: Some(1), number: 12, place: 0, pointer: None }.to_string()
        );
    }
}
