//! Going on behind an error, so that all errors of a text are told at once: at the next statement, declaration or routine.

use super::{Parser, MAX_NESTING};
use crate::diagnostics::Diagnostic;
use crate::tokens::Kind;

/// More errors of a text are not told.
pub(crate) const MOST_ERRORS: usize = 20;

impl Parser<'_> {
    /// The errors so far.
    pub(crate) fn errors(&mut self) -> Vec<Diagnostic> {
        std::mem::take(&mut self.errors)
    }

    /// Whether declarations were passed over, so that names may be missing.
    pub(crate) fn has_gap(&self) -> bool {
        self.has_gap
    }

    fn record(&mut self, wrong: Diagnostic) {
        self.errors.push(wrong);
        if self.errors.len() > MOST_ERRORS {
            self.skip_while(|_| true);
        }
    }

    /// Whether no token follows that a statement could begin with.
    pub(super) fn is_at_end(&self) -> bool {
        self.peek().is_last()
    }

    fn skip_while(&mut self, test: impl Fn(&Self) -> bool) {
        while !self.is_at_end() && test(self) {
            self.take();
        }
    }

    /// Behind a wrong statement. What stands in a block of its own is looked at all the same.
    pub(super) fn recover_statement(&mut self, wrong: Diagnostic, depth: usize) {
        let is_missing = wrong.message.starts_with("expected `;`");
        self.record(wrong);
        // A missing semicolon: the next line begins another statement.
        if is_missing && self.behind.is_some_and(|behind| self.at().line > behind.line) {
            return;
        }
        while !self.is_at_end() && !self.is("}") && !self.is("return") {
            if self.is("{") && depth < MAX_NESTING {
                self.take();
                if let Err(wrong) = self.statements(depth + 1) {
                    self.record(wrong);
                }
                self.accept("}");
                if !self.accept("else") {
                    return;
                }
            } else if self.is("(") || self.is("[") {
                self.skip_brackets();
            } else if self.take().is(";") {
                return;
            }
        }
    }

    /// From an opening bracket to its end; a brace or a semicolon outside of parentheses ends it too.
    fn skip_brackets(&mut self) {
        let mut depth = 0;
        loop {
            if self.is_at_end() || self.is("{") || self.is("}") {
                return;
            }
            match self.take().kind {
                Kind::Mark("(" | "[") => depth += 1,
                Kind::Mark(")" | "]") => depth -= 1,
                _ => {}
            }
            if depth == 0 {
                return;
            }
        }
    }

    /// Behind a wrong parameter: at the next one, or at the end of them.
    pub(super) fn recover_parameter(&mut self, wrong: Diagnostic) {
        self.has_gap = true;
        self.record(wrong);
        while !self.is_at_end() && !self.is(",") && !self.is(")") && !self.is("{") {
            if self.is("(") || self.is("[") {
                self.skip_brackets();
            } else {
                self.take();
            }
        }
    }

    /// Behind a wrong line of declarations.
    pub(super) fn recover_declaration(&mut self, wrong: Diagnostic) {
        self.has_gap = true;
        self.record(wrong);
        self.skip_while(|parser| !parser.is(";") && !parser.is("}") && parser.peek().kind != Kind::LineEnd);
        if !self.is("}") {
            self.take();
        }
    }

    /// Behind a wrong object or a wrong head of a routine: at the next line that begins one.
    pub(super) fn recover_unit(&mut self, wrong: Diagnostic) {
        self.has_gap = true;
        self.record(wrong);
        let line = self.at().line;
        let begins = |parser: &Self| {
            let at = parser.at();
            at.column == 1 && at.line > line && (parser.is("void") || parser.is("unsigned"))
        };
        self.skip_while(|parser| !begins(parser));
    }
}
