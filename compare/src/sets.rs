//! Sets of routines that call each other (point 14) as the boundary takes them: the tables one behind the other, with
//! their lengths.

use crate::proved::{refusal_words, run_words, show_check_words, show_run_words};
use oracle::answer::{RunAnswer, RunInput};
use oracle::set::{SetAnswer, SetCheckAnswer, SetRefusal};

/// The tables of a set, and what a run of its last routine is lent.
#[derive(Clone, Debug, Default, PartialEq, Eq)]
pub struct SetCase {
    pub tables: Vec<Vec<i32>>,
    pub input: RunInput,
}

#[derive(Clone, Debug, Default, PartialEq, Eq)]
pub struct SetParts {
    pub tables: Vec<i32>,
    /// One word a routine.
    pub lengths: Vec<u32>,
    pub input: RunInput,
}

/// The tables: "parts cut as in 5", where their slice ends.
pub fn members<'a>(tables: &'a [i32], lengths: &[u32]) -> Vec<&'a [i32]> {
    let mut rest = tables;
    let mut cut = |&length: &u32| {
        let (member, behind) = rest.split_at(rest.len().min(length as usize));
        rest = behind;
        member
    };
    lengths.iter().map(&mut cut).collect()
}

impl SetParts {
    pub fn of(case: &SetCase) -> SetParts {
        SetParts {
            tables: case.tables.concat(),
            lengths: case.tables.iter().map(|table| table.len() as u32).collect(),
            input: case.input.clone(),
        }
    }

    pub fn members(&self) -> Vec<&[i32]> {
        members(&self.tables, &self.lengths)
    }

    pub fn case(&self) -> SetCase {
        let tables = self.members().into_iter().map(<[i32]>::to_vec).collect();
        SetCase { tables, input: self.input.clone() }
    }
}

/// Number, place and pointer as of one routine, then the routine refused.
pub type SetCheckWords = [u32; 4];

/// The four words of a run, then the routine of a spent, stopped or refused one.
pub type SetRunWords = [u32; 5];

pub fn set_check_words(answer: &SetCheckAnswer) -> SetCheckWords {
    match answer {
        Ok(()) => [0; 4],
        Err(SetRefusal { routine, refusal }) => {
            let [number, place, pointer] = refusal_words(refusal);
            [number, place, pointer, *routine as u32]
        }
    }
}

pub fn set_run_words(answer: &SetAnswer) -> SetRunWords {
    let [a, b, c, d] = run_words(&answer.answer);
    [a, b, c, d, answer.routine as u32]
}

/// Whether words are the right answer. An alarm is right for nobody.
pub fn set_run_agrees(right: &SetAnswer, words: SetRunWords) -> bool {
    !matches!(right.answer, RunAnswer::Stuck { .. }) && words == set_run_words(right)
}

/// Words as text, in the form of the vectors.
pub fn show_set_check_words([number, place, pointer, routine]: SetCheckWords) -> String {
    let shown = show_check_words([number, place, pointer]);
    match number {
        0 | 15 => shown,
        _ => format!("refused routine {routine} {}", shown.trim_start_matches("refused ")),
    }
}

pub fn show_set_run_words(words: SetRunWords) -> String {
    let [outcome, a, b, c, routine] = words;
    match outcome {
        0 => show_run_words([0, a, b, c]),
        1 => format!("spent {a} {routine} {b}"),
        2 => format!("stopped {a} {routine} {b} {c}"),
        3 => show_set_check_words([a, b, c, routine]),
        _ => format!("unknown words {words:?}"),
    }
}

#[cfg(test)]
mod tests {
    use super::*;

    #[test]
    fn tables_are_cut_where_their_slice_ends() {
        let case = SetCase { tables: vec![vec![1; 3], vec![2; 2]], input: RunInput::default() };
        let mut parts = SetParts::of(&case);
        assert_eq!((&parts.lengths[..], parts.case()), (&[3, 2][..], case));
        parts.lengths = vec![4, u32::MAX, 1];
        assert_eq!(parts.members(), [&[1, 1, 1, 2][..], &[2], &[]]);
        parts.lengths.clear();
        assert!(parts.members().is_empty());
    }
}
