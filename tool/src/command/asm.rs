//! `mizzengrape asm`: a text as a table, written when the library accepts it.

use super::arguments::{Arguments, Usage};
use super::check::verdict;
use super::header::header;
use super::{Output, DONE};
use crate::files::write_files;
use crate::program::{words_file, Program};
use std::io::Write;

pub const USAGE: Usage = Usage {
    help: "\
mizzengrape asm FILE.c [-o OUT.tbl] [--words] [--c-header] [--names N]
                       [--map M] [--no-check] [--short]

Writes the table of a text: OUT.tbl (by default FILE.tbl), of a set OUT.0.tbl,
OUT.1.tbl, .., a list of loop facts OUT.facts. A routine that is refused is not
written.

    -o -        writes the table to standard output
    --words     prints the words in decimal, in place of a file
    --c-header  prints the table as a C header, in place of a file
    --names N   writes what words do not hold: names and headers, for dis
    --map M     writes where each statement, variable, object, row, fact stands
    --no-check  writes refused routines too
",
    flags: &["--words", "--c-header", "--no-check", "--short"],
    options: &["-o", "--names", "--map"],
    least_files: 1,
    most_files: 1,
};

pub fn asm(arguments: &Arguments, out: &mut dyn Write) -> Result<Output, String> {
    let short = arguments.is_short();
    let path = &arguments.files[0];
    let program = Program::load(&arguments.files, None, short)?;
    let Some(text) = program.text.as_ref().filter(|_| !path.ends_with(".tbl") && !path.ends_with(".words"))
    else {
        return Err(format!("{path}: error: asm takes a text\n"));
    };
    let mut output = Output { err: program.warnings(short), ..Output::default() };
    if !arguments.flag("--no-check") {
        let checked = verdict(&program, short)?;
        if checked.status != DONE {
            return Ok(checked);
        }
    }
    let mut files = Vec::new();
    for (option, content) in [("--names", text.names.lines()), ("--map", text.map.lines())] {
        files.extend(arguments.option(option).map(|path| (path.to_string(), content.into_bytes())));
    }
    if arguments.flag("--words") {
        output.out = words_file(&program.tables, &program.facts);
    }
    if arguments.flag("--c-header") {
        output.out.push_str(&header(&program, text)?);
    }
    let is_printed = arguments.flag("--words") || arguments.flag("--c-header");
    match arguments.option("-o") {
        Some("-") => print(&program, out)?,
        None if is_printed => {}
        to => files.extend(tables(&program, to, path)?),
    }
    write_files(path, &files)?;
    Ok(output)
}

/// A table alone, as bytes.
fn print(program: &Program, out: &mut dyn Write) -> Result<(), String> {
    let [table] = &program.tables[..] else {
        return Err("error: a set of tables has more than one file: -o - takes one table\n".to_string());
    };
    if !program.facts.is_empty() {
        return Err(
            "error: the loop facts want a file of their own: -o OUT.tbl writes OUT.facts too\n".to_string()
        );
    }
    let written = out.write_all(&bytes(table)).and_then(|()| out.flush());
    written.map_err(|error| format!("error: standard output: {error}\n"))
}

/// The files of the tables and of the list, with their contents.
fn tables(program: &Program, out: Option<&str>, path: &str) -> Result<Vec<(String, Vec<u8>)>, String> {
    let stem = match out {
        Some(out) => out.strip_suffix(".tbl").unwrap_or(out),
        None if path == "-" => {
            return Err("error: a text from standard input wants -o or --words\n".to_string())
        }
        None => path.strip_suffix(".c").unwrap_or(path),
    };
    let mut files = match &program.tables[..] {
        [table] => vec![(out.map_or(format!("{stem}.tbl"), str::to_string), bytes(table))],
        tables => {
            let file = |(routine, table): (usize, &Vec<i32>)| (format!("{stem}.{routine}.tbl"), bytes(table));
            tables.iter().enumerate().map(file).collect()
        }
    };
    if !program.facts.is_empty() {
        files.push((format!("{stem}.facts"), bytes(&program.facts)));
    }
    Ok(files)
}

fn bytes(words: &[i32]) -> Vec<u8> {
    words.iter().flat_map(|word| word.to_le_bytes()).collect()
}
