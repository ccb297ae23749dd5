//! The tokens that a text is made of: their kinds, keywords, names.

use crate::diagnostics::Pos;

#[derive(Clone, Debug, PartialEq, Eq)]
pub enum Kind {
    Name,
    /// A keyword of the subset, in the spelling without an underscore.
    Word(&'static str),
    /// A keyword of C that the subset does not have.
    Foreign,
    Number(u32),
    Mark(&'static str),
    /// A character that no form begins with.
    Stray,
    /// The bytes of `"..."`: for images only.
    Text(Vec<u8>),
    /// `#define` of bounds, up to the next `LineEnd`.
    Define,
    /// `#pragma`, up to the next `LineEnd`.
    Pragma,
    LineEnd,
    End,
    /// What is wrong with the text from here on; always the last token.
    Wrong(String),
}

#[derive(Clone, Debug)]
pub struct Token<'a> {
    pub kind: Kind,
    pub text: &'a str,
    pub at: Pos,
    /// The position behind its last character.
    pub end: Pos,
}

impl Token<'_> {
    pub fn is(&self, mark: &str) -> bool {
        matches!(self.kind, Kind::Mark(m) | Kind::Word(m) if m == mark)
    }

    /// Whether no token follows.
    pub fn is_last(&self) -> bool {
        matches!(self.kind, Kind::End | Kind::Wrong(_))
    }

    /// As a message quotes it.
    pub fn shown(&self) -> String {
        match self.kind {
            Kind::End => "end of text".to_string(),
            Kind::LineEnd => "end of line".to_string(),
            _ => format!("`{}`", cut(self.text)),
        }
    }
}

/// A token of a text that is longer than this is quoted by its beginning.
const MOST_QUOTED: usize = 40;

/// A token as a message quotes it.
pub fn cut(text: &str) -> String {
    let mut characters = text.chars();
    let quoted: String = characters.by_ref().take(MOST_QUOTED).collect();
    if characters.next().is_none() {
        quoted
    } else {
        quoted + ".."
    }
}

/// The keyword that a spelling is, if it is one; the report's spellings with an underscore are the same words.
pub fn keyword(text: &str) -> Option<Kind> {
    Some(Kind::Word(match text {
        "unsigned" => "unsigned",
        "void" => "void",
        "return" => "return",
        "if" => "if",
        "else" => "else",
        "while" => "while",
        "bundled" | "_Bundled" => "bundled",
        "where" | "_Where" => "where",
        "and" | "_And" => "and",
        "array_ptr" | "_Array_ptr" => "array_ptr",
        "nt_array_ptr" | "_Nt_array_ptr" => "nt_array_ptr",
        "checked" | "_Checked" => "checked",
        "nt_checked" | "_Nt_checked" => "nt_checked",
        "dynamic_check" | "_Dynamic_check" => "dynamic_check",
        "NULL" => "NULL",
        "routines" => "routines",
        _ if is_type(text) || is_foreign(text) => return Some(Kind::Foreign),
        _ => return None,
    }))
}

/// Whether this is an integer type of C that the subset does not have.
pub fn is_type(text: &str) -> bool {
    matches!(text, "int" | "char" | "short" | "long" | "signed" | "float" | "double" | "bool" | "_Bool")
}

/// Other keywords of C and Checked C.
#[rustfmt::skip]
fn is_foreign(text: &str) -> bool {
    matches!(
        text,
        "auto" | "break" | "case" | "const" | "continue" | "default" | "do" | "enum" | "extern" | "for" | "goto" | "inline"
            | "register" | "restrict" | "sizeof" | "static" | "struct" | "switch" | "typedef" | "union" | "volatile" | "_Alignas"
            | "_Alignof" | "_Atomic" | "_Complex" | "_Generic" | "_Imaginary" | "_Noreturn" | "_Static_assert" | "_Thread_local"
            | "_Ptr" | "ptr" | "_Unchecked" | "unchecked" | "_Assume_bounds_cast"
    )
}

/// The longest mark that a text begins with.
pub fn first_mark(text: &str) -> Option<&'static str> {
    const DOUBLE: [&str; 11] = ["<=", ">=", "==", "!=", "+=", "-=", "*=", "++", "--", "&&", "||"];
    const SINGLE: [&str; 20] =
        ["(", ")", "{", "}", "[", "]", "<", ">", "=", "+", "-", "*", ";", ":", ",", "!", "/", "%", "&", "?"];
    DOUBLE.into_iter().chain(SINGLE).find(|mark| text.starts_with(mark))
}

pub fn is_name(text: &str) -> bool {
    let mut characters = text.chars();
    characters.next().is_some_and(begins_name) && characters.all(continues_name) && keyword(text).is_none()
}

pub fn begins_name(c: char) -> bool {
    c.is_ascii_alphabetic() || c == '_'
}

pub fn continues_name(c: char) -> bool {
    c.is_ascii_alphanumeric() || c == '_'
}
