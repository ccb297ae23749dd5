//! A text as tokens, each with its position. Constants (`#define NAME NUMBER`) are put in here, so the parser sees numbers.

use crate::comments::Comment;
use crate::diagnostics::Pos;
use crate::tokens::{begins_name, continues_name, first_mark, is_name, keyword, Kind, Token};
use std::collections::{HashMap, VecDeque};

type Wrong = (Pos, String);

/// What is said of a character that no token has.
fn no_token(c: char) -> String {
    let name = match c {
        '\0' => "a NUL",
        '\u{b}' => "a vertical tab",
        '\u{c}' => "a form feed",
        '\u{1b}' => "an escape character",
        _ if c.is_control() => "a control character",
        '\u{feff}' => "a byte order mark",
        '\u{a0}' => "a no-break space",
        _ => return "only ASCII stands outside of comments".to_string(),
    };
    format!("{name} (U+{:04X}) stands here; blanks, tabs and line ends part tokens", c as u32)
}

/// Reads a text, token by token: an image may have millions of them.
pub struct Lexer<'a> {
    text: &'a str,
    /// The byte that comes next, and its position.
    next: usize,
    pos: Pos,
    /// Nothing but blanks so far on this line.
    fresh: bool,
    /// Inside a directive, which ends with its line.
    directive: bool,
    constants: HashMap<&'a str, u32>,
    /// Tokens that are read and not given yet.
    ready: VecDeque<Token<'a>>,
    pub comments: Vec<Comment<'a>>,
}

impl<'a> Lexer<'a> {
    pub fn new(text: &'a str) -> Lexer<'a> {
        Lexer {
            text,
            next: 0,
            pos: Pos { line: 1, column: 1 },
            fresh: true,
            directive: false,
            constants: HashMap::new(),
            ready: VecDeque::new(),
            comments: Vec::new(),
        }
    }

    /// The whole text.
    pub fn text(&self) -> &'a str {
        self.text
    }

    /// The next token; the last one is `End` or `Wrong`, and none is asked for behind it.
    pub fn next_token(&mut self) -> Token<'a> {
        loop {
            if let Some(token) = self.ready.pop_front() {
                return token;
            }
            let at_end = self.peek().is_none();
            let (kind, at) = match self.read_on() {
                Ok(()) if at_end && self.ready.is_empty() => (Kind::End, self.pos),
                Ok(()) => continue,
                Err((at, message)) => (Kind::Wrong(message), at),
            };
            return Token { kind, text: "", at, end: at };
        }
    }

    fn rest(&self) -> &'a str {
        &self.text[self.next..]
    }

    fn peek(&self) -> Option<char> {
        self.rest().chars().next()
    }

    fn advance(&mut self) {
        let Some(c) = self.peek() else { return };
        self.next += c.len_utf8();
        if c == '\n' {
            self.pos = Pos { line: self.pos.line + 1, column: 1 };
        } else {
            self.pos.column += 1;
        }
    }

    fn advance_over(&mut self, count: usize) {
        for _ in 0..count {
            self.advance();
        }
    }

    fn advance_while(&mut self, test: impl Fn(char) -> bool) {
        while self.peek().is_some_and(&test) {
            self.advance();
        }
    }

    fn push(&mut self, kind: Kind, from: usize, at: Pos) {
        self.ready.push_back(Token { kind, text: &self.text[from..self.next], at, end: self.pos });
    }

    /// One token or more, or what stands between tokens; at the end of the text the end of its last line.
    fn read_on(&mut self) -> Result<(), Wrong> {
        match self.peek() {
            None => self.end_line(),
            Some('\n') => {
                self.end_line();
                self.advance();
            }
            Some(' ' | '\t' | '\r') => self.advance(),
            Some(_) if self.is_comment() => self.comment()?,
            Some('#') => self.directive()?,
            Some(_) => {
                self.fresh = false;
                self.token()?;
            }
        }
        Ok(())
    }

    fn is_comment(&self) -> bool {
        self.rest().starts_with("//") || self.rest().starts_with("/*")
    }

    fn end_line(&mut self) {
        if self.directive {
            self.push(Kind::LineEnd, self.next, self.pos);
        }
        self.directive = false;
        self.fresh = true;
    }

    fn comment(&mut self) -> Result<(), Wrong> {
        let (from, at) = (self.next, self.pos);
        let is_behind = !self.text[..from].rsplit('\n').next().unwrap_or("").trim().is_empty();
        if self.rest().starts_with("//") {
            self.advance_while(|c| c != '\n');
            if self.text[..self.next].trim_end_matches('\r').ends_with('\\') && self.peek().is_some() {
                let backslash = Pos { column: self.pos.column.saturating_sub(1), ..self.pos };
                let message = "a backslash ends this comment: C takes the next line into it";
                return Err((backslash, message.to_string()));
            }
        } else {
            let Some(length) = self.rest()[2..].find("*/") else {
                return Err((at, "this comment does not end".to_string()));
            };
            let end = self.next + length + 4;
            while self.next < end {
                self.advance();
            }
        }
        self.comments.push(Comment { at, text: self.text[from..self.next].trim_end(), is_behind });
        Ok(())
    }

    fn token(&mut self) -> Result<(), Wrong> {
        let (from, at) = (self.next, self.pos);
        let c = self.peek().expect("not at the end");
        let kind = if begins_name(c) {
            let name = self.name();
            match self.constants.get(name) {
                Some(&number) => Kind::Number(number),
                None => keyword(name).unwrap_or(Kind::Name),
            }
        } else if c.is_ascii_digit() {
            Kind::Number(self.number()?)
        } else if c == '"' {
            self.string()?
        } else {
            self.mark()?
        };
        self.push(kind, from, at);
        Ok(())
    }

    fn name(&mut self) -> &'a str {
        let from = self.next;
        self.advance_while(continues_name);
        &self.text[from..self.next]
    }

    /// Decimal without a leading 0, or hexadecimal; an optional u.
    fn number(&mut self) -> Result<u32, Wrong> {
        let (from, at) = (self.next, self.pos);
        self.advance_while(continues_name);
        let wrong = |message: &str| Err((at, message.to_string()));
        let spelled = self.text[from..self.next].trim_end_matches(['u', 'U']);
        let suffix = self.next - from - spelled.len();
        let hexadecimal = spelled.strip_prefix("0x").or(spelled.strip_prefix("0X"));
        let (digits, base) = hexadecimal.map_or((spelled, 10), |digits| (digits, 16));
        if suffix > 1 || digits.is_empty() || !digits.chars().all(|c| c.is_digit(base)) {
            return wrong("a number is decimal digits, or 0x and hexadecimal digits");
        }
        if base == 10 && digits.len() > 1 && digits.starts_with('0') {
            return wrong("a number does not begin with 0 (C would read it as octal)");
        }
        u32::from_str_radix(digits, base).or_else(|_| wrong("number above 4294967295"))
    }

    /// A string ends on its line; a backslash begins an escape of C.
    fn string(&mut self) -> Result<Kind, Wrong> {
        let at = self.pos;
        self.advance();
        let mut bytes = Vec::new();
        while self.peek() != Some('"') {
            let (backslash, is_escape) = (self.pos, self.peek() == Some('\\'));
            if is_escape {
                self.advance();
            }
            match self.peek() {
                None | Some('\n') => return Err((at, "this string does not end".to_string())),
                Some(c) if is_escape => bytes.push(self.escape(c).map_err(|message| (backslash, message))?),
                Some(c) => {
                    bytes.extend(c.encode_utf8(&mut [0; 4]).bytes());
                    self.advance();
                }
            }
        }
        self.advance();
        Ok(Kind::Text(bytes))
    }

    /// The byte of an escape, whose first character comes next: n, t, a character for itself, one to three octal digits, or x and
    /// hexadecimal digits, as many as there are. All as in C.
    fn escape(&mut self, first: char) -> Result<u8, String> {
        let (base, most) = match first {
            '0'..='7' => (8, 3),
            'x' => (16, usize::MAX),
            _ => (0, 0),
        };
        if base != 8 {
            self.advance();
        }
        let from = self.next;
        while self.next - from < most && self.peek().is_some_and(|c| c.is_digit(base)) {
            self.advance();
        }
        let digits = &self.text[from..self.next];
        match first {
            'n' => Ok(b'\n'),
            't' => Ok(b'\t'),
            '\\' | '"' | '\'' => Ok(first as u8),
            _ if !digits.is_empty() => u8::from_str_radix(digits, base)
                .map_err(|_| "this escape is above 255, and no byte is".to_string()),
            _ => {
                let escapes = r#"\n \t \\ \" \' \0 to \377 \x0 to \xFF"#;
                Err(format!("`\\{first}` is no escape here; the escapes are {escapes}"))
            }
        }
    }

    fn mark(&mut self) -> Result<Kind, Wrong> {
        if let Some(mark) = first_mark(self.rest()) {
            self.advance_over(mark.len());
            return Ok(Kind::Mark(mark));
        }
        let c = self.peek().expect("not at the end");
        if !c.is_ascii() || c.is_ascii_control() {
            return Err((self.pos, no_token(c)));
        }
        self.advance();
        Ok(Kind::Stray)
    }

    fn directive(&mut self) -> Result<(), Wrong> {
        let (from, at) = (self.next, self.pos);
        if !self.fresh || self.directive {
            return Err((at, "a directive begins its line".to_string()));
        }
        self.fresh = false;
        self.advance();
        self.blanks();
        match self.name() {
            "include" => self.include(),
            "define" => self.define(from, at),
            "pragma" => {
                self.directive = true;
                self.push(Kind::Pragma, from, at);
                Ok(())
            }
            _ => Err((at, "the directives are #include <..>, #define and #pragma rows".to_string())),
        }
    }

    fn blanks(&mut self) {
        self.advance_while(|c| matches!(c, ' ' | '\t' | '\r'));
    }

    fn include(&mut self) -> Result<(), Wrong> {
        self.blanks();
        if self.peek() != Some('<') {
            return Err((self.pos, "expected `<` after #include".to_string()));
        }
        self.advance_while(|c| c != '\n');
        Ok(())
    }

    /// A number is put in from here on; bounds are left to the parser.
    fn define(&mut self, from: usize, at: Pos) -> Result<(), Wrong> {
        let define = Token { kind: Kind::Define, text: &self.text[from..self.next], at, end: self.pos };
        self.blanks();
        let named_at = self.pos;
        let name = self.name();
        if !is_name(name) {
            return Err((named_at, "expected a name after #define".to_string()));
        }
        let named = Token { kind: Kind::Name, text: name, at: named_at, end: self.pos };
        self.blanks();
        let (next, value_at) = (self.next, self.pos);
        let value = match self.peek() {
            Some(c) if c.is_ascii_digit() => Some(self.number()?),
            Some(c) if begins_name(c) => {
                let value = self.name();
                if value == "bounds" && !self.constants.contains_key(value) {
                    (self.next, self.pos, self.directive) = (next, value_at, true);
                    self.ready.extend([define, named]);
                    return Ok(());
                }
                self.constants.get(value).copied()
            }
            _ => None,
        };
        let Some(value) = value else {
            return Err((value_at, "a #define gives a number or bounds(.., ..)".to_string()));
        };
        self.end_constant()?;
        if self.constants.insert(name, value).is_some() {
            return Err((named_at, format!("`{name}` is defined twice")));
        }
        Ok(())
    }

    /// Behind the number of a constant its line has blanks and comments only.
    fn end_constant(&mut self) -> Result<(), Wrong> {
        let line = self.pos.line;
        loop {
            self.blanks();
            if self.is_comment() {
                self.comment()?;
            } else if self.peek().is_none_or(|c| c == '\n') || self.pos.line != line {
                return Ok(());
            } else {
                return Err((self.pos, "a constant is one number: nothing stands behind it".to_string()));
            }
        }
    }
}
