//! `mizzengrape facts`: loop facts that the library takes, put into the text.

use super::arguments::{Arguments, Usage};
use super::{Output, REFUSED};
use crate::explain::{access, Place};
use crate::library::{check_table, Verdict};
use crate::printer::Printer;
use crate::program::{Program, Text};
use crate::propose::propose;
use crate::repair::{apply, edits, Edit, Repair};

pub const USAGE: Usage = Usage {
    help: "\
mizzengrape facts FILE.c [--facts F] [--short]

Proposes loop facts: guesses them, asks the proved library, and keeps those
that it takes and that make an access safe or repair a refusal. Prints the text
with them; what they bring goes to standard error, unless --short.

    --facts F   the list of loop facts of a table, as words in a file
",
    flags: &["--short"],
    options: &["--facts"],
    least_files: 1,
    most_files: 1,
};

pub fn facts(arguments: &Arguments) -> Result<Output, String> {
    let short = arguments.is_short();
    let program = Program::load(&arguments.files, arguments.option("--facts"), short)?;
    let (Some(text), [table]) = (&program.text, &program.tables[..]) else {
        return Err(format!("{}: error: loop facts are proposed for one routine that reads\n", program.name));
    };
    let before = check_table(table, &program.facts);
    if matches!(&before.verdict, Verdict::Refused(refusal) if refusal.number <= 6) {
        return super::check::verdict(&program, short);
    }
    let proposal = propose(&text.parts[0], &program.facts);
    let out = with_facts(text, &proposal.facts)
        .ok_or(format!("{}: error: the text has no place for loop facts\n", program.name))?;
    let after = proposal.checked;
    let mut output = Output { out, err: program.warnings(short), ..Output::default() };
    if after.verdict != Verdict::Accepted {
        output.status = REFUSED;
    }
    if !short {
        let entries = proposal.facts.len() / 4;
        output.err.push_str(&summary(&program, entries, [&before.verdict, &after.verdict]));
        let place = Place::new(&program, text, 0).expect("a text has its routine");
        for statement in after.safe.iter().filter(|statement| !before.safe.contains(statement)) {
            output.err.push_str(&access(&place, &program.name, *statement as usize, "safe"));
            output.err.push('\n');
        }
    }
    Ok(output)
}

/// How many facts there are, and what becomes of the verdict.
fn summary(program: &Program, entries: usize, [before, after]: [&Verdict; 2]) -> String {
    let name = &program.name;
    let many = match entries {
        0 => "no loop fact".to_string(),
        1 => "1 loop fact".to_string(),
        many => format!("{many} loop facts"),
    };
    let verdict = if before == after { format!("{after}") } else { format!("{after}, before {before}") };
    format!("{name}: {many}: {verdict}\n")
}

/// The text with this list at its loops.
fn with_facts(text: &Text, facts: &[i32]) -> Option<String> {
    apply(&text.source, &fact_edits(text, facts)?)
}

/// What puts a list at the loops of a text.
pub fn fact_edits(text: &Text, facts: &[i32]) -> Option<Vec<Edit>> {
    let map = text.map.routines.first()?;
    let printer = Printer::new(&text.parts, facts, &text.names, 0);
    let written =
        |head: usize| edits(&Repair::Facts { head, facts: printer.facts_of(head) }, &text.source, map);
    let edits: Option<Vec<_>> = map.loops.iter().map(|(head, _)| written(*head)).collect();
    Some(edits?.concat())
}
