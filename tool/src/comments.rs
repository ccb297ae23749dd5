//! Comments of a text, put into its canonical form: before or behind what they stand beside.

use crate::diagnostics::Pos;
use crate::lexer::Lexer;
use crate::map::Map;

/// A comment as it is written, and where it begins.
#[derive(Clone, Debug, PartialEq, Eq)]
pub struct Comment<'a> {
    pub at: Pos,
    pub text: &'a str,
    /// Whether something else begins on its line before it.
    pub is_behind: bool,
}

/// The comments of a text that reads.
pub fn comments(text: &str) -> Vec<Comment<'_>> {
    let mut lexer = Lexer::new(text);
    while !lexer.next_token().is_last() {}
    lexer.comments
}

/// What stands in both texts, by its number: its place in each. The same things come in the same order in both.
fn places(map: &Map) -> Vec<Place> {
    let mut places: Vec<Place> = map.objects.iter().map(|at| Place::Begins(*at)).collect();
    for routine in &map.routines {
        places.push(Place::Begins(routine.name));
        places.extend(routine.variables.iter().map(|at| Place::Begins(*at)));
        for (at, end) in routine.statements.iter().zip(&routine.ends) {
            places.extend([Place::Begins(*at), Place::Ends(*end)]);
        }
        places.extend(routine.then_ends.iter().map(|at| Place::Ends(*at)));
        places.push(Place::Ends(routine.end));
    }
    places
}

#[derive(Clone, Copy, Debug)]
enum Place {
    Begins(Pos),
    /// Behind the last character.
    Ends(Pos),
}

impl Place {
    fn at(self) -> Pos {
        let (Place::Begins(at) | Place::Ends(at)) = self;
        at
    }
}

/// A canonical text with the comments of the text that it was made from; each map is that of its text.
pub fn with_comments(canonical: &str, to: &Map, source: &str, from: &Map) -> String {
    let lines: Vec<&str> = canonical.lines().collect();
    let mut before: Vec<Vec<String>> = vec![Vec::new(); lines.len() + 1];
    let mut behind: Vec<Vec<&str>> = vec![Vec::new(); lines.len() + 1];
    let pairs: Vec<(Place, Place)> = places(from).into_iter().zip(places(to)).collect();
    for comment in comments(source) {
        match place_of(&comment, &pairs) {
            Some((line, true)) => behind[line].push(comment.text),
            Some((line, false)) => before[line].push(indented(&comment, lines[line])),
            None => before[lines.len()].push(comment.text.to_string()),
        }
    }
    let mut text = String::new();
    for (number, line) in lines.iter().enumerate() {
        before[number].iter().for_each(|comment| text.push_str(&format!("{comment}\n")));
        let behind: String = behind[number].iter().map(|comment| format!(" {comment}")).collect();
        text.push_str(&format!("{line}{behind}\n"));
    }
    before[lines.len()].iter().for_each(|comment| text.push_str(&format!("{comment}\n")));
    text
}

/// The line of the canonical text that a comment belongs to, and whether it stands behind that line; none behind everything.
fn place_of(comment: &Comment, pairs: &[(Place, Place)]) -> Option<(usize, bool)> {
    let line = |place: Place| place.at().line as usize - 1;
    // What stands on its line before it: the last thing that begins or ends there.
    let is_beside = |place: Place| place.at().line == comment.at.line && place.at() <= comment.at;
    let beside = pairs.iter().filter(|(from, _)| is_beside(*from)).max_by_key(|(from, _)| from.at());
    // A block comment may have further lines: it goes before what it stands beside.
    if let (true, Some((_, to))) = (comment.is_behind, beside) {
        return Some((line(*to), !comment.text.contains('\n')));
    }
    // Else it goes before what comes next: a statement, a declaration, or the end of a block.
    let next = pairs.iter().filter(|(from, _)| from.at() > comment.at).min_by_key(|(from, _)| from.at());
    next.map(|(_, to)| (line(*to), false))
}

/// A comment on lines of its own, indented as the line behind it is, or as the block that ends there.
fn indented(comment: &Comment, line: &str) -> String {
    let inside = if line.trim_start().starts_with('}') { "    " } else { "" };
    let indentation = format!("{}{inside}", &line[..line.len() - line.trim_start().len()]);
    // Further lines of a block comment keep their place beside the first one.
    let first = comment.at.column as usize - 1;
    let lines = comment.text.split('\n').enumerate().map(|(number, text)| {
        let blanks = text.len() - text.trim_start_matches(' ').len();
        let text = if number == 0 { text } else { &text[blanks.min(first)..] };
        format!("{indentation}{}", text.trim_end())
    });
    lines.map(|line| line.trim_end().to_string()).collect::<Vec<_>>().join("\n")
}
