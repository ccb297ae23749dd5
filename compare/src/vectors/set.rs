//! Cases of sets (point 14): the tables, what the last routine is lent; the answers of check and run are lines that begin
//! with `> `.

use super::{answer_of, numbers, wrong_answer, Lines};
use crate::differ_sets::{self, answer_lines};
use crate::fast_sets;
use crate::proved::Implementation;
use crate::sets::{SetCase, SetParts};
use oracle::answer::RunInput;
use oracle::set::{self, SetAnswer, SetCheckAnswer};

#[derive(Clone, Debug)]
pub struct Vector {
    pub name: String,
    pub case: SetCase,
    pub right: Vec<String>,
}

pub(super) fn read(lines: &Lines, text: &str) -> Result<Vector, String> {
    let tables = lines.lines.iter().filter(|(name, _)| *name == "table");
    let tables: Vec<Vec<i32>> = tables.map(|(_, value)| numbers(value)).collect::<Result<_, _>>()?;
    if lines.number::<usize>("count")? != tables.len() {
        return Err(format!("{}: another number of tables than is said", lines.name()));
    }
    let input = RunInput {
        directory: lines.words("directory")?,
        cells: lines.words("cells")?,
        values: lines.words("values")?,
        origins: lines.words("origins")?,
        allowance: lines.number("allowance")?,
    };
    Ok(Vector { name: lines.name(), case: SetCase { tables, input }, right: answer_of(text) })
}

type Check = fn(&[&[i32]]) -> SetCheckAnswer;
type Run = fn(&[&[i32]], &mut RunInput) -> SetAnswer;

/// The differences of one case, over the plain and the fast form. A refusal changes nothing.
pub(super) fn differences(vector: &Vector) -> Vec<String> {
    let forms: [(&str, Check, Run); 2] = [
        ("plain", |tables| set::check(tables), |tables, input| set::run(tables, input)),
        ("fast", |tables| fast_sets::check(tables).map(|_| ()), fast_sets::run),
    ];
    let tables: Vec<&[i32]> = vector.case.tables.iter().map(Vec::as_slice).collect();
    let mut found = Vec::new();
    for (form, check, run) in forms {
        let mut after = vector.case.input.clone();
        let answer = run(&tables, &mut after);
        let lines = answer_lines(&set::show_check(&check(&tables)), &answer, &after);
        found.extend(wrong_answer(&vector.name, form, &lines, &vector.right));
        if lines.len() == 2 && after != vector.case.input {
            found.push(format!("{} ({form}): a refusal changes something", vector.name));
        }
    }
    found
}

/// What differs between the plain form and another implementation, at every limit too.
pub(super) fn difference(vector: &Vector, other: &dyn Implementation) -> Option<String> {
    let parts = SetParts::of(&vector.case);
    differ_sets::difference(&parts, other).or_else(|| differ_sets::at_every_limit(&parts, other))
}
