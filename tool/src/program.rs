//! What a file holds: tables and a list of loop facts, with their text. The ending tells its form.

use crate::diagnostics::{Diagnostic, Pos, Source};
use crate::files::{read_bytes, read_text, shown_name, Loaded, LIST, TABLE, TEXT, WORDS};
use crate::form::{list_fault, Form};
use crate::map::Map;
use crate::names::Names;
use crate::printer::print;
use crate::table::Table;
use crate::tokens::cut;
use crate::words::{assemble, assemble_all, Assembly};

#[derive(Debug)]
pub struct Program {
    /// As messages name the file.
    pub name: String,
    pub tables: Vec<Vec<i32>>,
    pub facts: Vec<i32>,
    /// The text itself, or the canonical text of the tables where they have one.
    pub text: Option<Text>,
    /// Whether words were read, not a text.
    pub of_words: bool,
    pub warnings: Vec<Diagnostic>,
    pub first_comment: Option<Pos>,
    /// The length of a file whose bytes are no whole words; it stands here as an empty table, which is refused alike.
    pub ragged: Option<usize>,
}

#[derive(Debug)]
pub struct Text {
    pub source: String,
    pub parts: Vec<Table>,
    pub map: Map,
    pub names: Names,
}

/// The words of a file's bytes; none where the length is no multiple of 4.
pub fn words_of(bytes: &[u8]) -> Option<Vec<i32>> {
    let words = bytes.chunks(4).map(|word| word.try_into().ok().map(i32::from_le_bytes));
    words.collect()
}

impl Program {
    /// Reads files by their ending: `.tbl` tables (several are a set), `.words`, else one text.
    pub fn load(paths: &[String], facts: Option<&str>, short: bool) -> Loaded<Program> {
        let path = paths.first().ok_or("error: no file is given\n")?;
        let listed = facts.map(read_list).transpose()?;
        if paths.iter().all(|path| path.ends_with(".tbl")) {
            let files = paths.iter().map(|path| read_bytes(path, &TABLE)).collect::<Loaded<Vec<_>>>()?;
            let tables = files.iter().map(|bytes| words_of(bytes).unwrap_or_default()).collect();
            let ragged = files.iter().map(Vec::len).find(|length| length % 4 != 0);
            let program = Program::of_tables(path, tables, listed.unwrap_or_default());
            return Ok(Program { ragged, ..program });
        }
        if paths.len() > 1 {
            return Err(
                "error: several files are a set of tables, .tbl; a set in one file is a text\n".to_string()
            );
        }
        if path.ends_with(".words") {
            let (tables, facts) = read_words(path, &read_text(path, &WORDS, short)?)?;
            return Ok(Program::of_tables(path, tables, listed.unwrap_or(facts)));
        }
        if listed.is_some() {
            return Err("error: the loop facts of a text stand in it\n".to_string());
        }
        Program::of_text(path, read_text(path, &TEXT, short)?, short)
    }

    pub fn of_text(path: &str, source: String, short: bool) -> Loaded<Program> {
        let name = shown_name(path);
        match assemble_all(&source) {
            Err(errors) => Err(Source { name: &name, text: &source }.errors(&errors, short)),
            Ok(assembly) => Ok(Program::of_assembly(name, source, assembly)),
        }
    }

    pub fn of_assembly(name: String, source: String, assembly: Assembly) -> Program {
        let Assembly { tables, facts, map, names, warnings, first_comment } = assembly;
        let split = |words: &Vec<i32>| Table::split(words).expect("assembled sections fit");
        let parts: Vec<Table> = tables.iter().map(split).collect();
        let names = names.completed(&parts);
        Program {
            name,
            tables,
            facts,
            text: Some(Text { source, parts, map, names }),
            of_words: false,
            warnings,
            first_comment,
            ragged: None,
        }
    }

    /// The text of tables is their canonical one.
    pub fn of_tables(path: &str, tables: Vec<Vec<i32>>, facts: Vec<i32>) -> Program {
        let text = printable(&tables, &facts).map(|parts| {
            let names = Names::canonical(&parts);
            let source = print(&parts, &facts, &names);
            let map = assemble(&source).expect("a canonical text is one").map;
            Text { source, parts, map, names }
        });
        let (warnings, first_comment, ragged) = (Vec::new(), None, None);
        let name = shown_name(path);
        Program { name, tables, facts, text, of_words: true, warnings, first_comment, ragged }
    }

    /// Tables by other names than the canonical ones; a text has its own.
    pub fn renamed(self, names: &Names) -> Loaded<Program> {
        let Some(text) = self.text.filter(|_| self.of_words) else {
            return Err("error: --names names what is in a table; a text has its names\n".to_string());
        };
        let names = names.completed(&text.parts);
        let source = print(&text.parts, &self.facts, &names);
        let again = assemble(&source).ok().filter(|again| again.tables == self.tables);
        let map = again.ok_or("error: these names do not fit the table\n")?.map;
        Ok(Program { text: Some(Text { source, map, names, ..text }), ..self })
    }

    /// What diagnostics quote.
    pub fn source(&self) -> Option<Source<'_>> {
        self.text.as_ref().map(|text| Source { name: &self.name, text: &text.source })
    }

    /// The error that the library cannot be asked this.
    pub fn lacking(&self, lack: &str, short: bool) -> String {
        let message = format!("error: {lack}");
        match (self.lacking_at(), self.source()) {
            (Some(at), Some(source)) => source.show(at, &message, short),
            _ => format!("{}: {message}\n", self.name),
        }
    }

    /// Of a text the first thing that the library has not.
    pub fn lacking_at(&self) -> Option<Pos> {
        let text = self.text.as_ref().filter(|_| !self.of_words)?;
        text.map.routines.get(1).map(|second| second.name)
    }

    pub fn warnings(&self, short: bool) -> String {
        let source = self.source();
        let shown = |warning| source.map(|source| source.warning(warning, short));
        self.warnings.iter().filter_map(shown).collect()
    }
}

/// The tables as records, if all of them read: then they have a text.
pub fn printable(tables: &[Vec<i32>], facts: &[i32]) -> Option<Vec<Table>> {
    let parts: Option<Vec<Table>> = tables.iter().map(|words| Table::split(words).ok()).collect();
    let parts = parts.filter(|parts| !parts.is_empty())?;
    let names = Names::canonical(&parts);
    let reads = (0..parts.len()).all(|routine| Form::new(&parts, &names, routine).reads());
    let listed = facts.is_empty() || parts.len() == 1 && list_fault(&parts[0], &names, facts).is_ok();
    (reads && listed).then_some(parts)
}

/// A list of loop facts as words in a file.
fn read_list(path: &str) -> Loaded<Vec<i32>> {
    let words = words_of(&read_bytes(path, &LIST)?);
    words.ok_or(format!("{path}: error: the file's bytes are no whole words\n"))
}

type Words = (Vec<Vec<i32>>, Vec<i32>);

/// Lines `table: ..`, one a routine, and `facts: ..`.
fn read_words(path: &str, text: &str) -> Loaded<Words> {
    let (mut tables, mut facts) = (Vec::new(), Vec::new());
    for (number, line) in text.lines().enumerate().filter(|(_, line)| !line.trim().is_empty()) {
        let wrong = || format!("{path}:{}: error: expected `table:` or `facts:` and words\n", number + 1);
        let (what, words) = line.split_once(':').ok_or_else(wrong)?;
        let no_word = |word: &str| {
            let range = "a word is -2147483648 to 2147483647";
            format!("{path}:{}: error: `{}` is no word: {range}\n", number + 1, cut(word))
        };
        let word = |word: &str| word.parse().map_err(|_| no_word(word));
        let words = || words.split_whitespace().map(word).collect::<Loaded<Vec<i32>>>();
        match what.trim() {
            "table" => tables.push(words()?),
            "facts" => facts = words()?,
            _ => return Err(wrong()),
        }
    }
    if tables.is_empty() {
        return Err(format!("{path}: error: no line `table:` stands here\n"));
    }
    Ok((tables, facts))
}

/// Tables and a list as such lines.
pub fn words_file(tables: &[Vec<i32>], facts: &[i32]) -> String {
    let line = |what: &str, words: &[i32]| {
        let words: Vec<String> = words.iter().map(i32::to_string).collect();
        format!("{what}: {}\n", words.join(" "))
    };
    let mut lines: String = tables.iter().map(|table| line("table", table)).collect();
    if !facts.is_empty() {
        lines.push_str(&line("facts", facts));
    }
    lines
}
