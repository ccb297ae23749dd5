//! Cases of the editor service (point 13): a start and some edits; their answers are lines that begin with `> `.

use super::{answer_of, numbers, wrong_answer, Lines};
use crate::differ_edits::{self, answer_lines};
use crate::edits::{plain, EditCase, Edited, Written};
use crate::fast_editor;
use crate::proved::Implementation;
use oracle::editor::{INSERT, REMOVE, REPLACE};

#[derive(Clone, Debug)]
pub struct Vector {
    pub name: String,
    pub case: EditCase,
    pub right: Vec<String>,
}

/// What stands behind the table in its buffer.
const BEHIND: i32 = 7_777;

pub(super) fn read(lines: &Lines, text: &str) -> Result<Vector, String> {
    let mut start_keep = Vec::new();
    let mut edits: Vec<Written> = Vec::new();
    // An edit begins its lines.
    for &(name, value) in &lines.lines {
        if name == "edit" {
            edits.push(read_edit(value)?);
        }
        match (name, edits.last_mut()) {
            ("text", Some(edit)) => edit.text = numbers(value)?,
            ("keep", Some(edit)) => edit.keep = positions(value)?,
            ("keep", None) => start_keep = positions(value)?,
            _ => {}
        }
    }
    let mut buffer: Vec<i32> = lines.words("table")?;
    let length = buffer.len();
    buffer.resize(length.max(lines.number("buffer")?), BEHIND);
    let case = EditCase { buffer, length, places: lines.number("places")?, keep: start_keep, edits };
    Ok(Vector { name: lines.name(), case, right: answer_of(text) })
}

/// A position below 0 names nothing: as a word it is far behind the table.
fn positions(text: &str) -> Result<Vec<u32>, String> {
    Ok(numbers::<i32>(text)?.into_iter().map(|position| position as u32).collect())
}

fn read_edit(text: &str) -> Result<Written, String> {
    let (operation, position) = text.split_once(' ').ok_or(format!("no edit: {text}"))?;
    let operation = match operation {
        "insert" => INSERT,
        "replace" => REPLACE,
        "remove" => REMOVE,
        _ => return Err(format!("no edit: {text}")),
    };
    let position = positions(position)?.first().copied().ok_or(format!("no position: {text}"))?;
    Ok(Written { operation, position, ..Written::default() })
}

type Form = fn(&EditCase) -> Edited;

/// The differences of one case, over the plain and the fast form.
pub(super) fn differences(vector: &Vector) -> Vec<String> {
    let forms: [(&str, Form); 2] = [("plain", plain), ("fast", fast_editor::edits)];
    let wrong = |(form, edits): (&str, Form)| {
        wrong_answer(&vector.name, form, &answer_lines(&edits(&vector.case)), &vector.right)
    };
    forms.into_iter().filter_map(wrong).collect()
}

pub(super) fn difference(vector: &Vector, other: &dyn Implementation) -> Option<String> {
    differ_edits::difference(&vector.case, other)
}

#[cfg(test)]
mod tests {
    use super::super::{read, Vector};

    #[test]
    fn reads_edits_with_their_lines() {
        let text =
            "name: e\nkind: edit\nbuffer: 30\nplaces: 2\ntable: 6 0 6 8 14 7 0 0 0 0 0 0 0 0 1 0 5 0 0 0 0\n\
                    keep: 0 -1\nedit: remove 0\ntext:\nkeep:\nedit: insert -1\ntext: 1 0 5 0 0 0 0\nkeep: 3\n\
                    > accepted walked 1\n> stored: 0\n";
        let read = read(text).unwrap();
        let [Vector::Edit(vector)] = &read[..] else { panic!("one case of edits") };
        let case = &vector.case;
        assert_eq!((case.buffer.len(), case.length, case.places), (30, 21, 2));
        assert_eq!(case.keep, [0, u32::MAX]);
        let edits: Vec<_> =
            case.edits.iter().map(|e| (e.operation, e.position, e.text.len(), e.keep.len())).collect();
        assert_eq!(edits, [(2, 0, 0, 0), (0, u32::MAX, 7, 1)]);
        // The answer is not the right one: two edits have no line.
        assert_eq!(read[0].differences().len(), 2);
    }
}
