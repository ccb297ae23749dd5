//! Cases of one routine: its check and its run.

use super::{numbers, Lines};
use crate::generate::Case;
use crate::proved::Implementation;
use crate::{differ, fast_check, fast_run};
use oracle::answer::{show_check, Refusal, RunAnswer, RunInput};
use oracle::{machine, report};

/// One case with its right answers.
#[derive(Clone, Debug)]
pub struct Vector {
    pub name: String,
    pub table: Vec<i32>,
    /// The list of loop facts, four words an entry.
    pub facts: Vec<i32>,
    pub input: RunInput,
    pub check: String,
    /// The statements of the reported accesses, where they are given.
    pub safe: Option<Vec<u32>>,
    pub run: String,
    pub after_values: Option<Vec<u32>>,
    pub after_cells: Option<Vec<u32>>,
}

/// Reads one case: lines `name: value`.
pub(super) fn read(lines: &Lines) -> Result<Vector, String> {
    let optional = |name: &str| lines.get(name).map(|_| lines.words(name)).transpose();
    Ok(Vector {
        name: lines.name(),
        table: lines.words("table")?,
        facts: lines.get("facts").map_or(Ok(Vec::new()), numbers)?,
        input: RunInput {
            directory: lines.words("directory")?,
            cells: lines.words("cells")?,
            values: lines.words("values")?,
            origins: lines.words("origins")?,
            allowance: lines.number("allowance")?,
        },
        check: lines.text("check")?.to_string(),
        safe: optional("safe")?,
        run: lines.text("run")?.to_string(),
        after_values: optional("after-values")?,
        after_cells: optional("after-cells")?,
    })
}

type CheckForm = fn(&[i32], &[i32]) -> Result<Vec<u32>, Refusal>;
type RunForm = fn(&[i32], &[i32], &mut RunInput) -> RunAnswer;

fn plain_check(table: &[i32], facts: &[i32]) -> Result<Vec<u32>, Refusal> {
    report::accept(table, facts).map(|accepted| accepted.report)
}

/// The differences of one case, over the plain and the fast form.
pub(super) fn differences(vector: &Vector) -> Vec<String> {
    let forms: [(&str, CheckForm, RunForm); 2] = [
        ("plain", plain_check, machine::run_with_facts),
        ("fast", fast_check::check_with_facts, fast_run::run_with_facts),
    ];
    let mut found = Vec::new();
    for (form, check, run) in forms {
        let mut report = |what: &str, ours: String, right: String| {
            if ours != right {
                found.push(format!("{} ({form}): {what}: {ours}, but right is {right}", vector.name));
            }
        };
        let checked = check(&vector.table, &vector.facts);
        report("check", show_check(&checked.as_ref().map(|_| ()).map_err(|r| *r)), vector.check.clone());
        if let Some(safe) = &vector.safe {
            report("safe", format!("{:?}", checked.unwrap_or_default()), format!("{safe:?}"));
        }
        let mut buffers = vector.input.clone();
        let ran = run(&vector.table, &vector.facts, &mut buffers);
        report("run", ran.to_string(), vector.run.clone());
        // A refusal changes nothing.
        let right_values = vector.after_values.as_ref().unwrap_or(&vector.input.values);
        let right_cells = vector.after_cells.as_ref().unwrap_or(&vector.input.cells);
        report("values", format!("{:?}", buffers.values), format!("{right_values:?}"));
        report("cells", format!("{:?}", buffers.cells), format!("{right_cells:?}"));
    }
    found
}

/// What differs between the plain form and another implementation, at every limit too.
pub(super) fn difference(vector: &Vector, other: &dyn Implementation) -> Option<String> {
    let Vector { table, facts, input, .. } = vector.clone();
    let case = Case { table, facts, input };
    differ::difference(&case, other).or_else(|| differ::at_every_limit(&case, other))
}

#[cfg(test)]
mod tests {
    use super::super::{read, Vector};

    /// The only case of a text, one of a run.
    fn read_one(text: &str) -> super::Vector {
        match &read(text).unwrap()[..] {
            [Vector::Run(vector)] => vector.clone(),
            other => panic!("one case of a run: {other:?}"),
        }
    }

    #[test]
    fn reads_a_named_case() {
        let case = read_one(
            "name: k3\ntable: 6 0 -1\ndirectory:\ncells: 1 2\nvalues: 0\norigins: 0\n\
             allowance: 4294967295\ncheck: refused 2 0\nrun: refused 2 0\n---\n",
        );
        assert_eq!(case.name, "k3");
        assert_eq!(case.table, [6, 0, -1]);
        assert_eq!(case.input.allowance, u32::MAX);
        assert!(case.input.directory.is_empty() && case.after_cells.is_none());
        assert!(case.facts.is_empty() && case.safe.is_none());
    }

    #[test]
    fn reads_a_list_and_a_report() {
        let case = read_one(
            "kind: run\ntable: 6\nfacts: 2 1 -1 0\ndirectory:\ncells:\nvalues:\norigins:\nallowance: 0\n\
             check: accepted\nsafe:\nrun: done 0\n",
        );
        assert_eq!((&case.facts[..], &case.safe), (&[2, 1, -1, 0][..], &Some(vec![])));
    }
}
