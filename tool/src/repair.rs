//! A repair of a routine as a change of its text: what is written where, in the text's own lines and indentation.

use crate::diagnostics::{Pos, Source, Span};
use crate::map::RoutineMap;

/// A repair, by the numbers of the statements that it is about.
#[derive(Clone, Debug, PartialEq, Eq)]
pub enum Repair {
    /// Statements before another one.
    Before { statement: usize, written: Vec<String> },
    /// A statement behind another one.
    Behind { statement: usize, written: String },
    /// Neighbours in one bundle, with statements before it and at its end.
    Bundle { first: usize, count: usize, before: Vec<String>, last: Vec<String> },
    /// Neighbours as one statement, with statements before it.
    AsOne { first: usize, count: usize, before: Vec<String>, written: String },
    /// An else block with a statement, for an if that has none.
    Else { head: usize, written: String },
    /// A statement before another one, in place of where it stands.
    Move { statement: usize, before: usize },
    /// A statement behind another one, in place of where it stands.
    MoveBehind { statement: usize, behind: usize },
    /// Several repairs at once, of different places.
    Several(Vec<Repair>),
    /// These loop facts at a while, in place of those that it has.
    Facts { head: usize, facts: Vec<String> },
}

impl Repair {
    /// The statements that it writes before others.
    fn before(&self) -> Vec<&str> {
        match self {
            Repair::Before { written: before, .. }
            | Repair::Bundle { before, .. }
            | Repair::AsOne { before, .. } => before.iter().map(String::as_str).collect(),
            Repair::Several(repairs) => repairs.iter().flat_map(Repair::before).collect(),
            _ => Vec::new(),
        }
    }

    /// The conditions of the checks that it writes, turned round: where a run stops at one of them.
    pub fn stops(&self) -> Vec<String> {
        const TURNED: [[&str; 2]; 3] = [[">=", "<"], ["<=", ">"], ["==", "!="]];
        let stop = |statement: &str| {
            let condition = statement.strip_prefix("dynamic_check(")?.strip_suffix(");")?;
            let &[left, relation, right] = &condition.split(' ').collect::<Vec<_>>()[..] else { return None };
            let pair = TURNED.iter().find(|pair| pair.contains(&relation))?;
            Some(format!("{left} {} {right}", pair[usize::from(pair[0] == relation)]))
        };
        self.before().into_iter().filter_map(stop).collect()
    }
}

/// A piece of a text, from one position up to another, in place of which something else is written.
#[derive(Clone, Debug, PartialEq, Eq)]
pub struct Edit {
    pub from: Pos,
    pub to: Pos,
    pub text: String,
}

impl Edit {
    pub fn insert(at: Pos, text: String) -> Edit {
        Edit { from: at, to: at, text }
    }

    /// Another word in place of one.
    pub fn word(at: Pos, old: &str, new: &str) -> Edit {
        let to = Pos { column: at.column + old.chars().count() as u32, ..at };
        Edit { from: at, to, text: new.to_string() }
    }
}

/// The edits of a repair, in the order of the text; none where a statement has no position.
pub fn edits(repair: &Repair, text: &str, map: &RoutineMap) -> Option<Vec<Edit>> {
    let layout = Layout::of(text);
    let at = |statement: usize| map.statements.get(statement).copied();
    let end = |statement: usize| map.ends.get(statement).copied();
    Some(match repair {
        Repair::Before { statement, written } => {
            let at = at(*statement)?;
            vec![Edit::insert(at, layout.before(at, written))]
        }
        Repair::Behind { statement, written } => {
            let between = layout.between(at(*statement)?);
            vec![Edit::insert(end(*statement)?, format!("{between}{written}"))]
        }
        Repair::Bundle { first, count, before, last } => {
            layout.bundle(at(*first)?, end(first + count - 1)?, before, last)
        }
        Repair::AsOne { first, count, before, written } => {
            let from = at(*first)?;
            let text = layout.before(from, before) + written;
            vec![Edit { from, to: end(first + count - 1)?, text }]
        }
        Repair::Else { head, written } => {
            let (outside, inside) = layout.block(at(*head)?);
            vec![Edit::insert(end(*head)?, format!(" else {{{inside}{written}{outside}}}"))]
        }
        Repair::Move { statement, before } => {
            let (from, to, at) = (at(*statement)?, end(*statement)?, at(*before)?);
            let moved = between(text, from, to)?.to_string();
            let mut edits = vec![Edit::insert(at, layout.before(at, &[moved])), layout.removal(from, to)];
            edits.sort_by_key(|edit| edit.from);
            edits
        }
        Repair::MoveBehind { statement, behind } => {
            let (from, to) = (at(*statement)?, end(*statement)?);
            let moved = between(text, from, to)?;
            let parted = layout.between(at(*behind)?);
            vec![layout.removal(from, to), Edit::insert(end(*behind)?, format!("{parted}{moved}"))]
        }
        Repair::Several(repairs) => {
            let all: Option<Vec<Vec<Edit>>> = repairs.iter().map(|repair| edits(repair, text, map)).collect();
            let mut all = all?.concat();
            all.sort_by_key(|edit| edit.from);
            all
        }
        Repair::Facts { head, facts } => {
            let (_, Span { from, to }) = *map.loops.iter().find(|(number, _)| number == head)?;
            vec![Edit { from, to, text: layout.facts(at(*head)?, from, facts) }]
        }
    })
}

/// A text with edits that do not overlap, given in its order.
pub fn apply(text: &str, edits: &[Edit]) -> Option<String> {
    let mut edited = text.to_string();
    for edit in edits.iter().rev() {
        let range = offset(text, edit.from)?..offset(text, edit.to)?;
        edited.get(range.clone())?;
        edited.replace_range(range, &edit.text);
    }
    Some(edited)
}

/// The byte at a position; behind the last character of a line too.
pub fn offset(text: &str, at: Pos) -> Option<usize> {
    let before: usize = text.split_inclusive('\n').take(at.line as usize - 1).map(str::len).sum();
    let mut characters = text[before..].char_indices().map(|(byte, _)| byte).chain([text.len() - before]);
    Some(before + characters.nth(at.column as usize - 1)?)
}

fn between(text: &str, from: Pos, to: Pos) -> Option<&str> {
    text.get(offset(text, from)?..offset(text, to)?)
}

/// A line that is written is no longer, where it can be parted.
const MOST_COLUMNS: usize = 100;

/// How a text is laid out.
pub struct Layout<'a> {
    source: Source<'a>,
}

impl Layout<'_> {
    pub fn of(text: &str) -> Layout<'_> {
        Layout { source: Source { name: "", text } }
    }

    fn line_end(&self) -> &'static str {
        if self.source.text.contains("\r\n") {
            "\r\n"
        } else {
            "\n"
        }
    }

    /// What stands before a position on its line, if it is nothing but blanks.
    fn indentation(&self, at: Pos) -> Option<String> {
        let before: String = self.source.line(at.line).chars().take(at.column as usize - 1).collect();
        before.chars().all(char::is_whitespace).then_some(before)
    }

    /// What parts two statements: the end of the line where the first one begins its line, else a blank.
    fn between(&self, at: Pos) -> String {
        self.indentation(at).map_or(" ".to_string(), |indentation| self.line_end().to_string() + &indentation)
    }

    /// Statements as they are written before a position.
    fn before(&self, at: Pos, written: &[String]) -> String {
        let between = self.between(at);
        written.iter().map(|statement| format!("{statement}{between}")).collect()
    }

    /// What parts the lines of a block from each other: outside of its braces and inside.
    pub fn block(&self, at: Pos) -> (String, String) {
        let outside = self.between(at);
        let inside = match self.indentation(at) {
            Some(indentation) => format!("{outside}{}", step(&indentation)),
            None => outside.clone(),
        };
        (outside, inside)
    }

    /// Statements from a position up to another, put in a bundle; their further lines are indented by one step more.
    fn bundle(&self, from: Pos, to: Pos, before: &[String], last: &[String]) -> Vec<Edit> {
        let (outside, inside) = self.block(from);
        let mut edits = vec![Edit::insert(from, self.before(from, before) + "bundled {" + &inside)];
        if let Some(indentation) = self.indentation(from) {
            let lines = (from.line + 1..=to.line).filter(|&line| !self.source.line(line).trim().is_empty());
            let step = step(&indentation);
            edits.extend(lines.map(|line| Edit::insert(Pos { line, column: 1 }, step.to_string())));
        }
        let last: String = last.iter().map(|statement| format!("{inside}{statement}")).collect();
        edits.push(Edit::insert(to, format!("{last}{outside}}}")));
        edits
    }

    /// Loop facts behind a condition: on its line where there is room, else on a line each.
    fn facts(&self, head: Pos, behind: Pos, facts: &[String]) -> String {
        let line = facts.join(" and ");
        if facts.is_empty() {
            return String::new();
        }
        if behind.column as usize + line.len() + " where  {".len() <= MOST_COLUMNS {
            return format!(" where {line}");
        }
        let (_, inside) = self.block(head);
        let joined = facts.join(&format!("{inside}  and "));
        format!("{inside}where {joined}")
    }

    /// A statement taken out, with its lines where it fills them, else with the blank behind it.
    fn removal(&self, from: Pos, to: Pos) -> Edit {
        let rest: String = self.source.line(to.line).chars().skip(to.column as usize - 1).collect();
        let fills_lines = self.indentation(from).is_some() && rest.trim().is_empty();
        let (from, to) = match fills_lines {
            true => (Pos { line: from.line, column: 1 }, Pos { line: to.line + 1, column: 1 }),
            false => (from, Pos { column: to.column + u32::from(rest.starts_with(' ')), ..to }),
        };
        Edit { from, to, text: String::new() }
    }
}

/// One step of indentation, as the text has it.
fn step(indentation: &str) -> &'static str {
    if indentation.contains('\t') {
        "\t"
    } else {
        "    "
    }
}
