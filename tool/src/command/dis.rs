//! `mizzengrape dis` and `mizzengrape fmt`: canonical text, of tables and of texts.

use super::arguments::{Arguments, Usage};
use super::{Output, REFUSED};
use crate::comments::{comments, with_comments};
use crate::diagnostics::{fail, Diagnostic, Fallible};
use crate::explain;
use crate::form::list_fault;
use crate::library::form_refusal;
use crate::names::{read_names, Names};
use crate::printer::{print, print_numbered};
use crate::program::{Program, Text};
use crate::words::assemble;

pub const DIS_USAGE: Usage = Usage {
    help: "\
mizzengrape dis FILE.tbl .. [--facts F] [--names N] [--numbers] [--short]

Prints the canonical text of a table, of several tables that of the set. A
table refused by 1 to 6 has no text: it is answered with that refusal. Of a
text it is what fmt prints, with a warning where comments are lost.

    --facts F   the list of loop facts of the table, as words in a file
    --names N   a names file that asm wrote
    --numbers   each statement's number as a comment
",
    flags: &["--numbers", "--short"],
    options: &["--facts", "--names"],
    least_files: 1,
    most_files: 8,
};

pub const FMT_USAGE: Usage = Usage {
    help: "\
mizzengrape fmt FILE.c [--drop-comments] [--short]

Prints a text in its canonical form; names and comments are kept. Constants of
#define are put in.

    --drop-comments   leaves comments out
",
    flags: &["--drop-comments", "--short"],
    options: &[],
    least_files: 1,
    most_files: 1,
};

pub fn dis(arguments: &Arguments) -> Result<Output, String> {
    let short = arguments.is_short();
    let program = Program::load(&arguments.files, arguments.option("--facts"), short)?;
    if let Some(refusal) = form_refusal(&program.tables) {
        return Ok(Output {
            err: explain::refused_form(&program, &refusal).show(&program, short),
            out: format!("{refusal}\n"),
            status: REFUSED,
            ..Output::default()
        });
    }
    let Some(text) = &program.text else { return Err(no_text(&program)) };
    let mut names = text.names.clone();
    if let Some(path) = arguments.option("--names") {
        names = read_names(path, short)?.completed(&text.parts);
    }
    let comments = program.first_comment.zip(program.source());
    let err = comments.map_or_else(String::new, |(at, source)| {
        source.warning(&Diagnostic::new(at, "the canonical form has no comments"), short)
    });
    let printer = if arguments.flag("--numbers") { print_numbered } else { print };
    let printed = printer(&text.parts, &program.facts, &names);
    if !assemble(&printed).is_ok_and(|again| again.tables == program.tables && again.facts == program.facts) {
        return Err("error: these names do not fit the table\n".to_string());
    }
    Ok(Output { err, out: printed, ..Output::default() })
}

/// Why tables that read have no text: their list does not fit.
fn no_text(program: &Program) -> String {
    let name = &program.name;
    let table = program.tables.first().and_then(|words| crate::table::Table::split(words).ok());
    let fault = table.map(|table| {
        let tables = [table];
        list_fault(&tables[0], &Names::canonical(&tables), &program.facts)
    });
    match fault {
        Some(Err((_, reason))) => format!("{name}: error: the list of loop facts: {reason}\n"),
        _ => format!("{name}: error: this table has no text\n"),
    }
}

pub fn fmt(arguments: &Arguments) -> Result<Output, String> {
    let short = arguments.is_short();
    let program = Program::load(&arguments.files, None, short)?;
    let (Some(source), Some(text)) = (program.source(), &program.text) else { return Err(no_text(&program)) };
    let out = match formatted(&program, text, arguments.flag("--drop-comments")) {
        Ok(out) => out,
        Err(wrong) => return Err(source.error(&wrong, short)),
    };
    Ok(Output { out, ..Output::default() })
}

/// A text in its canonical form, with its comments.
pub fn formatted(program: &Program, text: &Text, without_comments: bool) -> Fallible<String> {
    let canonical = print(&text.parts, &program.facts, &text.names);
    let Some(at) = program.first_comment.filter(|_| !without_comments) else { return Ok(canonical) };
    let map = assemble(&canonical)?.map;
    let formatted = with_comments(&canonical, &map, &text.source, &text.map);
    // The words are the same, and no comment is lost; else nothing is formatted.
    let again = assemble(&formatted).ok();
    let same = again.is_some_and(|again| again.tables == program.tables && again.facts == program.facts);
    if !same || comments(&formatted).len() != comments(&text.source).len() {
        return fail(
            at,
            "this comment has no place in the canonical form: --drop-comments leaves comments out",
        );
    }
    Ok(formatted)
}
