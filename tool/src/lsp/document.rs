//! A document that an editor has open: its text, the verdict on it, the repairs that are offered.

use super::changes::{change, Change};
use super::findings::DISAGREES;
use super::fixes::{fixes, Fix};
use super::service::Service;
use super::text::Text;
use crate::diagnostics::Diagnostic;
use crate::explain::{check, explained, Checked};
use crate::library::{Asked, Verdict};
use crate::program::Program;
use crate::words::assemble_all;
use std::cell::{OnceCell, RefCell};

pub struct Document {
    pub text: Text,
    /// As messages name it.
    name: String,
    now: OnceCell<Analysis>,
    fixes: OnceCell<Vec<Fix>>,
    /// The last text that was checked, and what was found.
    last: Option<Analysed>,
    /// What the library knows of it.
    service: RefCell<Service>,
}

/// What is known of a text.
pub enum Analysis {
    /// It cannot be read: its errors.
    Wrong(Vec<Diagnostic>),
    Read(Box<Analysed>),
}

/// A program and the verdict on it.
pub struct Analysed {
    pub program: Program,
    pub checked: Asked<Checked>,
}

impl Document {
    pub fn new(name: String, text: String) -> Document {
        Document {
            text: Text::new(text),
            name,
            now: OnceCell::new(),
            fixes: OnceCell::new(),
            last: None,
            service: RefCell::default(),
        }
    }

    /// Another text; what was known of the one before is kept as the last.
    pub fn replace(&mut self, text: Text) {
        self.text = text;
        self.fixes.take();
        if let Some(Analysis::Read(analysed)) = self.now.take() {
            self.last = Some(*analysed);
        }
    }

    /// The text as it is now, checked.
    pub fn analysis(&self) -> &Analysis {
        self.now.get_or_init(|| self.analyse())
    }

    fn analyse(&self) -> Analysis {
        let source = self.text.checked().to_string();
        match assemble_all(&source) {
            Err(errors) => Analysis::Wrong(errors),
            Ok(assembly) => {
                let program = Program::of_assembly(self.name.clone(), source, assembly);
                let checked = verdict(&program, self.last.as_ref(), &mut self.service.borrow_mut());
                Analysis::Read(Box::new(Analysed { program, checked }))
            }
        }
    }

    pub fn fixes(&self) -> &[Fix] {
        self.fixes.get_or_init(|| fixes(self))
    }

    /// The text that reads: the one now, else the last one that did.
    pub fn last_read(&self) -> Option<&Program> {
        match self.analysis() {
            Analysis::Read(analysed) => Some(&analysed.program),
            Analysis::Wrong(_) => self.last.as_ref().map(|analysed| &analysed.program),
        }
    }
}

/// The verdict on a program now, by what was checked last: the proved library's always.
fn verdict(program: &Program, last: Option<&Analysed>, service: &mut Service) -> Asked<Checked> {
    let Some(Analysed { program: before, checked: Ok(checked) }) = last else { return check(program) };
    match (change(before, program), &before.tables[..], &program.tables[..]) {
        // Places in the text may be other ones, the words are the same.
        (Change::Nothing, ..) => Ok(explained(program, checked.verdict, checked.safe.clone())),
        (Change::Statements { old, new }, [table], [edited]) if program.facts.is_empty() => {
            match service.verdict(table, (old, new), edited) {
                Some(verdict) => Ok(explained(program, verdict, None)),
                None => check(program),
            }
        }
        _ => check(program),
    }
}

impl Analysed {
    /// The reported accesses of an accepted routine: where the library gave a verdict alone, it is asked for them. An error where the second
    /// implementation reports others.
    pub fn safe(&self) -> Option<Result<Vec<u32>, &'static str>> {
        let checked = self.checked.as_ref().ok().filter(|checked| checked.verdict == Verdict::Accepted)?;
        if let Some(safe) = &checked.safe {
            return Some(Ok(safe.clone()));
        }
        let Checked { safe, other, .. } = check(&self.program).ok()?;
        Some(if other.is_some() { Err(DISAGREES) } else { Ok(safe?) })
    }
}

#[cfg(test)]
mod tests {
    use super::*;
    use crate::lsp::findings::findings;
    use crate::lsp::protocol::Client;
    use crate::lsp::text::Position;

    const REFUSED: &str =
        "void f(array_ptr<unsigned> p : count(n), unsigned n, unsigned x)\n{\n    n = n - 1;\n    x = 0;\n}\n";

    /// A verdict of the editor service has no report; a whole check has one.
    #[test]
    fn changed_statements_are_checked_by_the_service() {
        let text = |variables: &str, statements: &str| format!("void f({variables})\n{{\n{statements}\n}}\n");
        let mut document = Document::new("u".to_string(), text("unsigned x", "x = 1;"));
        let mut is_whole = |text: String| {
            document.replace(Text::new(text));
            match document.analysis() {
                Analysis::Read(analysed) => {
                    assert_eq!(analysed.safe(), Some(Ok(vec![])));
                    analysed.checked.as_ref().is_ok_and(|checked| checked.safe.is_some())
                }
                Analysis::Wrong(errors) => panic!("{errors:?}"),
            }
        };
        assert!(is_whole(text("unsigned x", "x = 1;")), "the first");
        assert!(!is_whole(text("unsigned x", "x = 2;")), "a statement");
        assert!(!is_whole(text("unsigned x", "x = 3; x = 4; x = 5; x = 6; x = 7; x = 8;")), "more of them");
        assert!(!is_whole(text("unsigned x", "\nx = 3; x = 7; x = 8;")), "fewer");
        assert!(is_whole(text("unsigned x, unsigned y", "x = 3; x = 7; x = 8;")), "a declaration");
        assert!(is_whole(text("unsigned x, unsigned y", "while (x > 3) where x >= 0 { x = 0; }")), "a list");
        assert!(
            is_whole(text("unsigned x, unsigned y", "while (x > 3) where x >= 0 { x = 1; }")),
            "and a statement"
        );
    }

    /// Whatever was edited before, the findings are those of the text alone.
    #[test]
    fn findings_are_those_of_the_text_now() {
        let pieces = [
            "n = n - 1;",
            "n = 0;",
            "dynamic_check(n > 1);",
            "// x\n",
            " ",
            "\n",
            "p = NULL;",
            "}",
            "where p : count(0);",
            "\u{1f600}",
        ];
        let mut random = 1u64;
        let mut below = |limit: usize| {
            random = random.wrapping_mul(6_364_136_223_846_793_005).wrapping_add(1_442_695_040_888_963_407);
            (random >> 33) as usize % limit
        };
        let json = |document: &Document| -> Vec<String> {
            let client = Client { related_information: true, ..Client::default() };
            findings(document).iter().map(|finding| finding.json("u", &client).to_string()).collect()
        };
        let mut found = 0;
        for _ in 0..150 {
            let mut text = REFUSED.to_string();
            let mut document = Document::new("u".to_string(), text.clone());
            for _ in 0..6 {
                let lines = text.split('\n').count();
                let line = below(lines);
                let length = text.split('\n').nth(line).map_or(0, |line| line.encode_utf16().count());
                let (from, to) = (below(length + 1), below(length + 1));
                let at = |character: usize| Position { line: line as u32, character: character as u32 };
                let piece = pieces[below(pieces.len())];
                let end = if below(3) > 0 { from } else { to.max(from) };
                let edited = Text::new(text.clone()).replaced(at(from)..at(end), piece);
                text = edited.checked().to_string();
                document.replace(edited);
                let fresh = Document::new("u".to_string(), text.clone());
                assert_eq!(json(&document), json(&fresh), "{text}");
                found += json(&fresh).len();
            }
        }
        assert!(found > 300, "{found}");
    }
}
