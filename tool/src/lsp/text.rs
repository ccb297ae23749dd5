//! The text of a document, by the positions of the protocol: lines end with LF, CR LF or CR, and a character counts as its UTF-16 units. The
//! tool counts lines by LF and columns by characters; bytes are between the two.

use crate::diagnostics::Pos;
use std::ops::Range;

/// A line and a UTF-16 unit in it, both from 0.
#[derive(Clone, Copy, Debug, PartialEq, Eq, PartialOrd, Ord)]
pub struct Position {
    pub line: u32,
    pub character: u32,
}

pub struct Text {
    text: String,
    /// The byte that each line begins with.
    lines: Vec<usize>,
}

const BYTE_ORDER_MARK: &str = "\u{feff}";

impl Text {
    pub fn new(text: String) -> Text {
        let bytes = text.as_bytes();
        let ends_line =
            |&at: &usize| bytes[at] == b'\n' || bytes[at] == b'\r' && bytes.get(at + 1) != Some(&b'\n');
        let starts = (0..bytes.len()).filter(ends_line).map(|at| at + 1);
        Text { lines: [0].into_iter().chain(starts).collect(), text }
    }

    /// The text that is checked: a byte order mark is no part of it.
    pub fn checked(&self) -> &str {
        &self.text[self.mark()..]
    }

    fn mark(&self) -> usize {
        if self.text.starts_with(BYTE_ORDER_MARK) {
            BYTE_ORDER_MARK.len()
        } else {
            0
        }
    }

    /// The text with another one in place of a range.
    pub fn replaced(&self, range: Range<Position>, with: &str) -> Text {
        let from = self.byte(range.start);
        let to = self.byte(range.end).max(from);
        Text::new([&self.text[..from], with, &self.text[to..]].concat())
    }

    /// The byte at a position: behind the end of a line the line's end, inside of a character its beginning.
    fn byte(&self, at: Position) -> usize {
        let Some(&start) = self.lines.get(at.line as usize) else { return self.text.len() };
        let end = self.lines.get(at.line as usize + 1).copied().unwrap_or(self.text.len());
        let line = self.text[start..end].trim_end_matches(['\r', '\n']);
        let mut units = 0;
        for (byte, character) in line.char_indices() {
            units += character.len_utf16();
            if units > at.character as usize {
                return start + byte;
            }
        }
        start + line.len()
    }

    fn position_of_byte(&self, byte: usize) -> Position {
        let line = self.lines.partition_point(|&start| start <= byte) - 1;
        let character = self.text[self.lines[line]..byte].encode_utf16().count();
        Position { line: line as u32, character: character as u32 }
    }

    /// Where a place of the checked text stands; one behind the end of the text is its end.
    pub fn position(&self, at: Pos) -> Position {
        self.position_of_byte(self.byte_of_place(at))
    }

    fn byte_of_place(&self, at: Pos) -> usize {
        let text = self.checked();
        let lines = text.split_inclusive('\n');
        let before: usize = lines.take(at.line as usize - 1).map(str::len).sum();
        let line = text[before..].split('\n').next().unwrap_or("");
        let column = line.char_indices().nth(at.column as usize - 1).map_or(line.len(), |(byte, _)| byte);
        self.mark() + before + column
    }

    /// The place of the checked text that a position is at.
    pub fn place(&self, at: Position) -> Pos {
        let before = &self.text[self.mark()..self.byte(at).max(self.mark())];
        let line = before.rsplit('\n').next().unwrap_or("");
        Pos { line: before.matches('\n').count() as u32 + 1, column: line.chars().count() as u32 + 1 }
    }

    /// From a place to another one on its line, else up to the end of the line; blanks at the end are left out.
    pub fn range(&self, from: Pos, to: Pos) -> Range<Position> {
        let (start, end) = (self.byte_of_place(from), self.byte_of_place(to));
        let line = self.text[start..].split('\n').next().unwrap_or("").trim_end();
        self.position_of_byte(start)..self.position_of_byte(end.min(start + line.len()).max(start))
    }

    /// The token at a place: a name or number, else one character, at the end of a line none.
    pub fn token(&self, at: Pos) -> Range<Position> {
        let start = self.byte_of_place(at);
        let rest = &self.text[start..];
        let is_word = |c: char| c.is_ascii_alphanumeric() || c == '_';
        let word = rest.find(|c| !is_word(c)).unwrap_or(rest.len());
        let length = match rest.chars().next() {
            None | Some('\n' | '\r') => 0,
            Some(first) => word.max(first.len_utf8()),
        };
        self.position_of_byte(start)..self.position_of_byte(start + length)
    }
}

#[cfg(test)]
mod tests {
    use super::*;

    fn at(line: u32, character: u32) -> Position {
        Position { line, character }
    }

    fn place(line: u32, column: u32) -> Pos {
        Pos { line, column }
    }

    #[test]
    fn characters_count_as_their_units() {
        let text = Text::new("a😀é\nb".to_string());
        let bytes = [(0, 0), (1, 1), (2, 1), (3, 5), (4, 7), (5, 7), (99, 7)];
        bytes
            .iter()
            .for_each(|&(character, byte)| assert_eq!(text.byte(at(0, character)), byte, "{character}"));
        assert_eq!((text.byte(at(1, 0)), text.byte(at(1, 9)), text.byte(at(2, 0))), (8, 9, 9));
        assert_eq!(text.position(place(1, 3)), at(0, 3));
        assert_eq!(text.position(place(2, 2)), at(1, 1));
        assert_eq!(text.position(place(3, 7)), at(1, 1));
    }

    /// The tool has no line end but LF; to an editor CR is one too.
    #[test]
    fn lines_end_as_the_protocol_says() {
        let text = Text::new("a\r\nb\rc\nd".to_string());
        assert_eq!(text.lines, [0, 3, 5, 7]);
        assert_eq!(text.byte(at(0, 9)), 1);
        assert_eq!(text.position(place(2, 3)), at(2, 0));
        let places = [(at(0, 0), place(1, 1)), (at(2, 0), place(2, 3)), (at(3, 9), place(3, 2))];
        places.into_iter().for_each(|(at, place)| assert_eq!(text.place(at), place));
        assert_eq!(Text::new(String::new()).lines, [0]);
        assert_eq!(Text::new("\r".to_string()).lines, [0, 1]);
    }

    #[test]
    fn ranges_are_replaced() {
        let replaced = |text: &str, from, to, with| Text::new(text.to_string()).replaced(from..to, with).text;
        assert_eq!(replaced("a😀b\nc", at(0, 1), at(0, 3), "x"), "axb\nc");
        assert_eq!(replaced("ab\ncd\n", at(0, 1), at(1, 1), ""), "ad\n");
        assert_eq!(replaced("ab", at(5, 0), at(9, 9), "c"), "abc");
        assert_eq!(replaced("ab", at(0, 2), at(0, 1), "c"), "abc");
    }

    /// Edits of any lines, beside edits of a list of UTF-16 units.
    #[test]
    fn edits_are_those_of_an_editor() {
        let pieces = ["", "x", "\u{1f600}", "\u{e9}\n", "\r\n", "\r", "ab\ncd", "\u{1f600}\u{1f600}"];
        let mut random = 7u64;
        let mut below = |limit: usize| {
            random = random.wrapping_mul(6_364_136_223_846_793_005).wrapping_add(1);
            (random >> 33) as usize % limit
        };
        let mut text = Text::new(String::new());
        let mut units: Vec<u16> = Vec::new();
        for _ in 0..5000 {
            // Where the lines begin, and the units of each without its end.
            let mut lines = vec![(0, 0)];
            for (at, unit) in units.iter().enumerate() {
                let ends = *unit == 10 || *unit == 13 && units.get(at + 1) != Some(&10);
                match lines.last_mut() {
                    _ if ends => lines.push((at + 1, 0)),
                    Some((_, length)) => *length += usize::from(*unit != 13),
                    None => {}
                }
            }
            let mut end = || {
                let line = below(lines.len());
                let character = below(lines[line].1 + 1);
                let inside =
                    units.get(lines[line].0 + character).is_some_and(|unit| (0xDC00..0xE000).contains(unit));
                (line as u32, (character - usize::from(inside)) as u32)
            };
            let (mut from, mut to) = (end(), end());
            if to < from {
                (from, to) = (to, from);
            }
            if units.len() < 60 && from.0 != to.0 {
                to = from;
            }
            let piece = pieces[below(pieces.len())];
            text = text.replaced(at(from.0, from.1)..at(to.0, to.1), piece);
            let [from, to] = [from, to].map(|(line, character)| lines[line as usize].0 + character as usize);
            units.splice(from..to, piece.encode_utf16());
            assert_eq!(text.text.encode_utf16().collect::<Vec<u16>>(), units);
        }
        assert!(text.lines.len() > 3);
    }

    #[test]
    fn a_byte_order_mark_is_passed_over() {
        let text = Text::new("\u{feff}ab\nc".to_string());
        assert_eq!(text.checked(), "ab\nc");
        assert_eq!(text.position(place(1, 2)), at(0, 2));
        assert_eq!(text.position(place(2, 1)), at(1, 0));
        assert_eq!((text.place(at(0, 0)), text.place(at(0, 2))), (place(1, 1), place(1, 2)));
    }

    #[test]
    fn a_place_has_a_range() {
        let text = Text::new("  rows = rows + 1;  \nif (n) {\n}".to_string());
        assert_eq!(text.range(place(1, 3), place(1, 19)), at(0, 2)..at(0, 18));
        assert_eq!(text.range(place(2, 1), place(3, 2)), at(1, 0)..at(1, 8));
        assert_eq!(text.token(place(1, 3)), at(0, 2)..at(0, 6));
        assert_eq!(text.token(place(1, 8)), at(0, 7)..at(0, 8));
        assert_eq!(text.token(place(1, 21)), at(0, 20)..at(0, 20));
        assert_eq!(text.token(place(3, 2)), at(2, 1)..at(2, 1));
    }
}
