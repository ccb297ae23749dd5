//! What is said of a place in a text: `FILE:LINE:COLUMN: error: MESSAGE`, the source line, a caret under the column.

use crate::repair::Edit;
use std::fmt::Write;

/// A line and a column, both from 1; a column is a character.
#[derive(Clone, Copy, Debug, Default, PartialEq, Eq, PartialOrd, Ord)]
pub struct Pos {
    pub line: u32,
    pub column: u32,
}

impl std::fmt::Display for Pos {
    fn fmt(&self, f: &mut std::fmt::Formatter) -> std::fmt::Result {
        write!(f, "{}:{}", self.line, self.column)
    }
}

/// From a position up to another, that one not included.
#[derive(Clone, Copy, Debug, Default, PartialEq, Eq)]
pub struct Span {
    pub from: Pos,
    pub to: Pos,
}

/// An error or a warning, and where it stands.
#[derive(Clone, Debug, PartialEq, Eq)]
pub struct Diagnostic {
    pub at: Pos,
    pub message: String,
    /// What would repair it, where that is plain.
    pub edit: Option<Edit>,
}

impl Diagnostic {
    pub fn new(at: Pos, message: impl Into<String>) -> Diagnostic {
        Diagnostic { at, message: message.into(), edit: None }
    }

    pub fn repaired_by(self, edit: Option<Edit>) -> Diagnostic {
        Diagnostic { edit, ..self }
    }
}

pub type Fallible<T> = Result<T, Diagnostic>;

pub fn fail<T>(at: Pos, message: impl Into<String>) -> Fallible<T> {
    Err(Diagnostic::new(at, message))
}

/// A text as a terminal may be shown it: what would move the cursor, change colours or turn the writing round stands as one mark, so that a
/// caret below stays under its column.
pub fn without_controls(text: &str) -> String {
    let shown = |c: char| match c {
        '\n' | '\t' => c,
        '\u{200e}' | '\u{200f}' | '\u{202a}'..='\u{202e}' | '\u{2066}'..='\u{2069}' => {
            char::REPLACEMENT_CHARACTER
        }
        _ if c.is_control() => char::REPLACEMENT_CHARACTER,
        _ => c,
    };
    text.chars().map(shown).collect()
}

/// The bytes of a line that is quoted; in a longer one nobody finds the caret.
const MOST_QUOTED: usize = 1000;

/// A text with its name: what diagnostics quote.
#[derive(Clone, Copy)]
pub struct Source<'a> {
    pub name: &'a str,
    pub text: &'a str,
}

impl<'a> Source<'a> {
    /// A line of the text without its end; the line behind the last one is empty.
    pub fn line(&self, line: u32) -> &'a str {
        self.text.split('\n').nth(line as usize - 1).unwrap_or("").trim_end_matches('\r')
    }

    /// `NAME:LINE:COLUMN: WHAT`, and unless short or too long the line and the caret. Tabs of the line are kept, so the caret stands right
    /// whatever their width is.
    pub fn show(&self, at: Pos, what: &str, short: bool) -> String {
        let mut shown = format!("{}:{at}: {what}\n", self.name);
        let line = self.line(at.line);
        if short || line.len() > MOST_QUOTED {
            return shown;
        }
        let before = line.chars().take(at.column as usize - 1).map(|c| if c == '\t' { '\t' } else { ' ' });
        let caret: String = before.collect();
        writeln!(shown, "{line}\n{caret}^").expect("a string grows");
        shown
    }

    pub fn error(&self, diagnostic: &Diagnostic, short: bool) -> String {
        self.show(diagnostic.at, &format!("error: {}", diagnostic.message), short)
    }

    pub fn errors(&self, errors: &[Diagnostic], short: bool) -> String {
        errors.iter().map(|wrong| self.error(wrong, short)).collect()
    }

    pub fn warning(&self, diagnostic: &Diagnostic, short: bool) -> String {
        self.show(diagnostic.at, &format!("warning: {}", diagnostic.message), short)
    }
}
