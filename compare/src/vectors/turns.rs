//! Cases of routines in turn (point 5): their answers are lines that begin with `> `.

use super::{answer_of, numbers, wrong_answer, Lines};
use crate::differ_turns::{self, answer_lines};
use crate::fast_turns;
use crate::proved::Implementation;
use crate::turns::Parts;
use oracle::dispatch::{dispatch, Dispatched, Member, Turns, TurnsRefusal};

#[derive(Clone, Debug)]
pub struct Vector {
    pub name: String,
    pub turns: Turns,
    /// The lines of the answer.
    pub right: Vec<String>,
}

pub(super) fn read(lines: &Lines, text: &str) -> Result<Vector, String> {
    let mut members: Vec<Member> = Vec::new();
    // A table begins the lines of its routine.
    for &(name, value) in &lines.lines {
        if name == "table" {
            members.push(Member::default());
        }
        let Some(member) = members.last_mut() else { continue };
        match name {
            "table" => member.table = numbers(value)?,
            "facts" => member.facts = numbers(value)?,
            "directory" => member.directory = numbers(value)?,
            "values" => member.values = numbers(value)?,
            "origins" => member.origins = numbers(value)?,
            _ => {}
        }
    }
    let turns = Turns {
        members,
        cells: lines.words("cells")?,
        // A turn of -1 steps is none that can be lent: the word is as far out of range.
        quantum: lines.number::<i64>("quantum")? as u32,
        total: lines.number("allowance")?,
    };
    Ok(Vector { name: lines.name(), turns, right: answer_of(text) })
}

type Form = fn(&mut Turns) -> Result<Dispatched, TurnsRefusal>;

/// The differences of one case, over the plain and the fast form. A refusal changes nothing.
pub(super) fn differences(vector: &Vector) -> Vec<String> {
    let forms: [(&str, Form); 2] = [("plain", dispatch), ("fast", fast_turns::dispatch)];
    let mut found = Vec::new();
    for (form, dispatch) in forms {
        let mut turns = vector.turns.clone();
        let answer = dispatch(&mut turns);
        let lines = answer_lines(&turns, &answer);
        found.extend(wrong_answer(&vector.name, form, &lines, &vector.right));
        if answer.is_err() && turns != vector.turns {
            found.push(format!("{} ({form}): a refusal changes something", vector.name));
        }
    }
    found
}

pub(super) fn difference(vector: &Vector, other: &dyn Implementation) -> Option<String> {
    differ_turns::difference(&Parts::of(&vector.turns), other)
}

#[cfg(test)]
mod tests {
    use super::super::{read, Vector};
    use crate::differ_turns;
    use crate::generate::turns_case;

    #[test]
    fn written_sets_read_back() {
        for number in 0..200 {
            let turns = turns_case(44, number).turns();
            let read = read(&differ_turns::vector(&turns)).unwrap();
            let [Vector::Turns(vector)] = &read[..] else { panic!("one case of routines in turn") };
            assert_eq!(vector.turns, turns);
            assert_eq!(read[0].differences(), [""; 0], "number {number}");
        }
    }
}
