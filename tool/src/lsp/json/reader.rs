//! Text to values: nothing that RFC 8259 does not allow.

use super::Json;
use std::fmt;

/// What is wrong with a text that is no JSON, and the byte where.
#[derive(Debug, PartialEq, Eq)]
pub struct Damage {
    pub at: usize,
    pub what: &'static str,
}

impl fmt::Display for Damage {
    fn fmt(&self, f: &mut fmt::Formatter) -> fmt::Result {
        write!(f, "{} at byte {}", self.what, self.at)
    }
}

/// Deeper values than these are not read, so that none can exhaust the stack.
pub const MOST_NESTED: usize = 128;

pub fn read(text: &str) -> Result<Json, Damage> {
    let mut reader = Reader { text, at: 0 };
    reader.blanks();
    let value = reader.value(0)?;
    reader.blanks();
    if reader.at < text.len() {
        return reader.damage("something stands behind the value");
    }
    Ok(value)
}

struct Reader<'a> {
    text: &'a str,
    /// The byte that comes next, at the beginning of a character.
    at: usize,
}

type Read<T> = Result<T, Damage>;

impl Reader<'_> {
    fn damage<T>(&self, what: &'static str) -> Read<T> {
        Err(Damage { at: self.at, what })
    }

    fn peek(&self) -> Option<u8> {
        self.text.as_bytes().get(self.at).copied()
    }

    fn accept(&mut self, byte: u8) -> bool {
        let found = self.peek() == Some(byte);
        self.at += usize::from(found);
        found
    }

    fn expect(&mut self, byte: u8, what: &'static str) -> Read<()> {
        if self.accept(byte) {
            return Ok(());
        }
        self.damage(what)
    }

    fn blanks(&mut self) {
        while matches!(self.peek(), Some(b' ' | b'\t' | b'\r' | b'\n')) {
            self.at += 1;
        }
    }

    fn value(&mut self, depth: usize) -> Read<Json> {
        match self.peek() {
            Some(b'{' | b'[') if depth == MOST_NESTED => self.damage("a value is nested too deep"),
            Some(b'{') => self.members(depth),
            Some(b'[') => self.elements(depth),
            Some(b'"') => self.string().map(Json::String),
            Some(b'-' | b'0'..=b'9') => self.number(),
            _ => {
                let words = [("null", Json::Null), ("true", Json::Bool(true)), ("false", Json::Bool(false))];
                let found = words.into_iter().find(|(word, _)| self.text[self.at..].starts_with(word));
                let Some((word, value)) = found else { return self.damage("a value is due") };
                self.at += word.len();
                Ok(value)
            }
        }
    }

    fn members(&mut self, depth: usize) -> Read<Json> {
        let mut members = Vec::new();
        self.at += 1;
        self.blanks();
        while !self.accept(b'}') {
            if !members.is_empty() {
                self.expect(b',', "`,` or `}` is due")?;
                self.blanks();
            }
            if self.peek() != Some(b'"') {
                return self.damage("a member's name is due");
            }
            let name = self.string()?;
            self.blanks();
            self.expect(b':', "`:` is due")?;
            self.blanks();
            members.push((name, self.value(depth + 1)?));
            self.blanks();
        }
        Ok(Json::Object(members))
    }

    fn elements(&mut self, depth: usize) -> Read<Json> {
        let mut elements = Vec::new();
        self.at += 1;
        self.blanks();
        while !self.accept(b']') {
            if !elements.is_empty() {
                self.expect(b',', "`,` or `]` is due")?;
                self.blanks();
            }
            elements.push(self.value(depth + 1)?);
            self.blanks();
        }
        Ok(Json::Array(elements))
    }

    fn number(&mut self) -> Read<Json> {
        let from = self.at;
        self.accept(b'-');
        if !self.accept(b'0') {
            self.digits()?;
        }
        if self.accept(b'.') {
            self.digits()?;
        }
        if matches!(self.peek(), Some(b'e' | b'E')) {
            self.at += 1;
            let _ = self.accept(b'+') || self.accept(b'-');
            self.digits()?;
        }
        Ok(Json::Number(self.text[from..self.at].to_string()))
    }

    fn digits(&mut self) -> Read<()> {
        let from = self.at;
        while matches!(self.peek(), Some(b'0'..=b'9')) {
            self.at += 1;
        }
        if from == self.at {
            return self.damage("a digit is due");
        }
        Ok(())
    }

    fn string(&mut self) -> Read<String> {
        let mut string = String::new();
        self.at += 1;
        loop {
            let rest = &self.text[self.at..];
            let special = |byte: u8| byte == b'"' || byte == b'\\' || byte < b' ';
            let plain = rest.bytes().position(special).unwrap_or(rest.len());
            string.push_str(&rest[..plain]);
            self.at += plain;
            match self.peek() {
                Some(b'"') => {
                    self.at += 1;
                    return Ok(string);
                }
                Some(b'\\') => string.push(self.escape()?),
                Some(_) => return self.damage("a control character stands in a string"),
                None => return self.damage("a string does not end"),
            }
        }
    }

    fn escape(&mut self) -> Read<char> {
        self.at += 1;
        let escaped = match self.peek() {
            Some(byte @ (b'"' | b'\\' | b'/')) => char::from(byte),
            Some(b'b') => '\u{8}',
            Some(b'f') => '\u{c}',
            Some(b'n') => '\n',
            Some(b'r') => '\r',
            Some(b't') => '\t',
            Some(b'u') => return self.unicode(),
            _ => return self.damage("no escape begins so"),
        };
        self.at += 1;
        Ok(escaped)
    }

    /// `u` and four digits; a pair of surrogates is one character. Half a pair stands for U+FFFD, which has one UTF-16 unit too.
    fn unicode(&mut self) -> Read<char> {
        let unit = self.unit()?;
        let mut units = vec![unit];
        if (0xD800..0xDC00).contains(&unit) && self.text[self.at..].starts_with("\\u") {
            let before = self.at;
            self.at += 1;
            let low = self.unit()?;
            if (0xDC00..0xE000).contains(&low) {
                units.push(low);
            } else {
                self.at = before;
            }
        }
        let character = char::decode_utf16(units).next().and_then(Result::ok);
        Ok(character.unwrap_or(char::REPLACEMENT_CHARACTER))
    }

    fn unit(&mut self) -> Read<u16> {
        self.at += 1;
        let digits = self.text.get(self.at..self.at + 4);
        let hexadecimal = digits.filter(|digits| digits.bytes().all(|digit| digit.is_ascii_hexdigit()));
        let Some(unit) = hexadecimal.and_then(|digits| u16::from_str_radix(digits, 16).ok()) else {
            return self.damage("four hexadecimal digits are due");
        };
        self.at += 4;
        Ok(unit)
    }
}
