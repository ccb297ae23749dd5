//! `for`, which the subset does not have: the while that does the same, as text.

use crate::diagnostics::{Diagnostic, Pos};
use crate::lexer::Lexer;
use crate::repair::{offset, Edit, Layout};
use crate::tokens::{is_type, Token};

/// A while that is longer is told without its body.
const MOST_CHARACTERS: usize = 120;

/// What is said of a `for` that begins at a position.
pub(super) fn no_for(text: &str, at: Pos) -> Diagnostic {
    let Some(read) = For::read(text, at) else {
        return Diagnostic::new(at, "`for` is not part of the subset: write a while");
    };
    let declared = match read.declared {
        Some(name) => format!(", and unsigned {name}; before the statements"),
        None => String::new(),
    };
    let message = format!("`for` is not part of the subset: write {}{declared}", read.shown());
    let edit = Edit { from: at, to: read.end, text: read.written(text, at) };
    Diagnostic::new(at, message).repaired_by(Some(edit))
}

/// `for (first; condition; step) { body }`.
struct For<'a> {
    first: Vec<&'a str>,
    condition: &'a str,
    step: Vec<&'a str>,
    /// What stands between the braces, or the only statement.
    body: &'a str,
    has_braces: bool,
    /// A variable that is declared in it.
    declared: Option<&'a str>,
    end: Pos,
}

impl<'a> For<'a> {
    /// None where a part is missing, or has a comment or a line end in it.
    fn read(text: &'a str, at: Pos) -> Option<For<'a>> {
        let tokens = tokens_from(text, at);
        let close = closing(&tokens, 1, ["(", ")"])?;
        let [first, condition, step] = &parts(tokens.get(2..close)?, ";")[..] else { return None };
        let is_type = |token: &&Token| token.is("unsigned") || is_type(token.text);
        let types = first.iter().take_while(is_type).count();
        let declared = (types > 0).then(|| first.get(types)).flatten().map(|token| token.text);
        let pieces = |tokens: &[Token<'a>]| -> Option<Vec<&'a str>> {
            let parts = if tokens.is_empty() { Vec::new() } else { parts(tokens, ",") };
            parts.into_iter().map(|part| piece(text, part)).collect()
        };
        let (body, has_braces, end) = body(text, tokens.get(close + 1..)?)?;
        Some(For {
            first: pieces(&first[types..])?,
            condition: piece(text, condition)?,
            step: pieces(step)?,
            body,
            has_braces,
            declared,
            end,
        })
    }

    /// In one line, as a message has it.
    fn shown(&self) -> String {
        let body: Vec<&str> = self.body.split_whitespace().collect();
        let shown = self.in_line(&body.join(" "));
        let has_comment = self.body.contains("//") || self.body.contains("/*");
        if has_comment || shown.chars().count() > MOST_CHARACTERS {
            self.in_line("..")
        } else {
            shown
        }
    }

    fn in_line(&self, body: &str) -> String {
        let statements = |of: &[&str]| of.iter().map(|one| format!("{one}; ")).collect::<String>();
        let body = if body.is_empty() { String::new() } else { format!("{body} ") };
        let (first, step) = (statements(&self.first), statements(&self.step));
        format!("{first}while ({}) {{ {body}{step}}}", self.condition)
    }

    /// In the lines of the text, with the body as it stands there.
    fn written(&self, text: &str, at: Pos) -> String {
        let (outside, inside) = Layout::of(text).block(at);
        let first: String = self.first.iter().map(|one| format!("{one};{outside}")).collect();
        let step = |before: &str| self.step.iter().map(|one| format!("{before}{one};")).collect::<String>();
        let is_in_line = self.has_braces && !self.body.contains('\n') && !self.body.trim().is_empty();
        let body = match self.has_braces {
            true if is_in_line => format!(" {}{} ", self.body.trim(), step(" ")),
            true => format!("{}{}{outside}", self.body.trim_end(), step(&inside)),
            false if self.body.is_empty() => format!("{}{outside}", step(&inside)),
            false => format!("{inside}{}{}{outside}", self.body, step(&inside)),
        };
        format!("{first}while ({}) {{{body}}}", self.condition)
    }
}

/// The tokens of a text from a position on.
fn tokens_from(text: &str, at: Pos) -> Vec<Token<'_>> {
    let mut lexer = Lexer::new(text);
    let tokens = std::iter::from_fn(|| Some(lexer.next_token()).filter(|token| !token.is_last()));
    tokens.skip_while(|token| token.at < at).collect()
}

/// The token that closes what another one opens.
fn closing(tokens: &[Token], open: usize, marks: [&str; 2]) -> Option<usize> {
    let mut depth = 0;
    tokens.get(open).filter(|token| token.is(marks[0]))?;
    tokens.iter().enumerate().skip(open).find_map(|(number, token)| {
        depth += i32::from(token.is(marks[0])) - i32::from(token.is(marks[1]));
        (depth == 0).then_some(number)
    })
}

/// Tokens in the parts between marks that stand outside of all brackets.
fn parts<'a, 'b>(tokens: &'b [Token<'a>], mark: &str) -> Vec<&'b [Token<'a>]> {
    let mut depth = 0;
    let parts = tokens.split(|token| {
        depth += i32::from(token.is("(") || token.is("[")) - i32::from(token.is(")") || token.is("]"));
        depth == 0 && token.is(mark)
    });
    parts.collect()
}

/// What some tokens are written as, on one line.
fn piece<'a>(text: &'a str, tokens: &[Token]) -> Option<&'a str> {
    let (first, last) = (tokens.first()?, tokens.last()?);
    let piece = text.get(offset(text, first.at)?..offset(text, last.end)?)?;
    (!piece.contains('\n') && !piece.contains("//") && !piece.contains("/*")).then_some(piece)
}

/// The body that begins with the first token: what is written of it, whether it has braces, where it ends.
fn body<'a>(text: &'a str, tokens: &[Token]) -> Option<(&'a str, bool, Pos)> {
    let first = tokens.first()?;
    if first.is("{") {
        let last = &tokens[closing(tokens, 0, ["{", "}"])?];
        let inside = text.get(offset(text, first.end)?..offset(text, last.at)?)?;
        return Some((inside, true, last.end));
    }
    let end = tokens.iter().position(|token| token.is(";"))?;
    // A head has a block of its own.
    if tokens[..end].iter().any(|token| token.is("{")) || matches!(first.text, "if" | "while" | "for" | "do")
    {
        return None;
    }
    let statement = if end == 0 { "" } else { piece(text, &tokens[..=end])? };
    Some((statement, false, tokens[end].end))
}
