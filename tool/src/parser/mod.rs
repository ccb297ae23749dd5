//! Texts to trees: the grammar alone. Behind an error it goes on, and keeps the errors.

mod bounds;
mod conditions;
mod for_loop;
mod recovery;
mod statements;
mod values;

use crate::diagnostics::{fail, Diagnostic, Fallible, Pos};
use crate::lexer::Lexer;
use crate::repair::Edit;
use crate::tokens::{is_type, Kind, Token};
use crate::tree::*;
pub(crate) use recovery::MOST_ERRORS;
use std::collections::VecDeque;

/// Blocks may be nested so deep that no text can exhaust the stack.
const MAX_NESTING: usize = 64;

/// Tokens that are looked at before they are taken.
const LOOK_AHEAD: usize = 3;

pub(crate) struct Parser<'a> {
    lexer: Lexer<'a>,
    /// The tokens that come next; never empty, for the last one stays.
    window: VecDeque<Token<'a>>,
    /// The position behind the last token that was taken.
    behind: Option<Pos>,
    errors: Vec<Diagnostic>,
    has_gap: bool,
}

impl<'a> Parser<'a> {
    pub(crate) fn new(text: &'a str) -> Parser<'a> {
        let (lexer, window) = (Lexer::new(text), VecDeque::new());
        let mut parser = Parser { lexer, window, behind: None, errors: Vec::new(), has_gap: false };
        parser.look_ahead();
        parser
    }

    fn look_ahead(&mut self) {
        while self.window.len() < LOOK_AHEAD && !self.window.back().is_some_and(Token::is_last) {
            self.window.push_back(self.lexer.next_token());
        }
    }

    /// The first comment of what was read.
    pub(crate) fn first_comment(&self) -> Option<Pos> {
        self.lexer.comments.first().map(|comment| comment.at)
    }

    pub(crate) fn peek(&self) -> &Token<'a> {
        self.ahead(0)
    }

    /// The token so many further on; the last one stands for all behind it.
    fn ahead(&self, count: usize) -> &Token<'a> {
        debug_assert!(count < LOOK_AHEAD);
        &self.window[count.min(self.window.len() - 1)]
    }

    pub(crate) fn at(&self) -> Pos {
        self.peek().at
    }

    pub(crate) fn take(&mut self) -> Token<'a> {
        let token = self.peek().clone();
        if self.window.len() > 1 {
            self.window.pop_front();
            self.look_ahead();
        }
        self.behind = Some(token.end);
        token
    }

    pub(crate) fn is(&self, mark: &str) -> bool {
        self.peek().is(mark)
    }

    pub(crate) fn accept(&mut self, mark: &str) -> bool {
        let found = self.is(mark);
        if found {
            self.take();
        }
        found
    }

    /// An error at the token that comes next; what is wrong with the text itself goes before.
    pub(crate) fn wrong<T>(&self, message: impl Into<String>) -> Fallible<T> {
        match &self.peek().kind {
            Kind::Wrong(instead) => fail(self.at(), instead),
            _ => fail(self.at(), message),
        }
    }

    pub(crate) fn unexpected<T>(&self, expected: &str) -> Fallible<T> {
        if let Kind::Mark(mark @ ("++" | "--")) = self.peek().kind {
            let sign = &mark[..1];
            return self.wrong(format!("`{mark}` is a statement of its own: i = i {sign} 1;"));
        }
        self.wrong(format!("expected {expected}, found {}", self.peek().shown()))
    }

    pub(crate) fn expect(&mut self, mark: &str) -> Fallible<()> {
        if self.accept(mark) {
            return Ok(());
        }
        self.unexpected(&format!("`{mark}`"))
    }

    /// A missing `;` is reported behind the last token.
    pub(crate) fn expect_semicolon(&mut self) -> Fallible<()> {
        if self.accept(";") {
            return Ok(());
        }
        match self.behind {
            Some(behind) if !matches!(self.peek().kind, Kind::Wrong(_) | Kind::Mark("++" | "--")) => {
                let wrong = Diagnostic::new(behind, format!("expected `;`, found {}", self.peek().shown()));
                Err(wrong.repaired_by(Some(Edit::insert(behind, ";".to_string()))))
            }
            _ => self.unexpected("`;`"),
        }
    }

    pub(crate) fn is_name(&self) -> bool {
        self.peek().kind == Kind::Name
    }

    pub(crate) fn name(&mut self) -> Fallible<Name> {
        if !self.is_name() {
            self.not_foreign()?;
            return self.unexpected("a name");
        }
        let token = self.take();
        Ok(Name { text: token.text.to_string(), at: token.at })
    }

    /// A name where it is declared.
    fn declared_name(&mut self) -> Fallible<Name> {
        match self.peek().kind {
            Kind::Foreign | Kind::Word(_) => {
                self.wrong(format!("`{}` is a keyword and no name", self.peek().text))
            }
            _ => self.name(),
        }
    }

    pub(crate) fn accept_number(&mut self) -> Option<Number> {
        let &Kind::Number(value) = &self.peek().kind else { return None };
        Some(Number { value, at: self.take().at })
    }

    pub(crate) fn number(&mut self) -> Fallible<Number> {
        match self.accept_number() {
            Some(number) => Ok(number),
            None => self.unexpected("a number"),
        }
    }

    /// `[-] NUMBER`.
    fn signed_number(&mut self) -> Fallible<i64> {
        let negative = self.accept("-");
        let value = i64::from(self.number()?.value);
        Ok(if negative { -value } else { value })
    }

    /// Keywords of C that the subset has not, with what stands in for them.
    fn not_foreign(&self) -> Fallible<()> {
        let token = self.peek();
        if token.kind != Kind::Foreign {
            return Ok(());
        }
        let text = token.text;
        let instead = match text {
            "for" => return Err(for_loop::no_for(self.lexer.text(), token.at)),
            "do" => ": write a while",
            "break" => ": let the loop's condition end it, with a flag where it has none",
            "continue" => ": put what follows in an if",
            "sizeof" => ": a row has as many cells as it is declared with",
            "switch" | "case" => ": nest ifs",
            _ if is_type(text) => ": the one integer type is unsigned",
            _ => "",
        };
        self.wrong(format!("`{text}` is not part of the subset{instead}"))
    }

    /// Objects and routines; what is wrong is kept.
    pub(crate) fn unit(&mut self) -> Unit {
        let mut unit = Unit { objects: Vec::new(), routines: Vec::new() };
        while !self.is_at_end() || unit.routines.is_empty() && self.errors.is_empty() {
            if let Err(wrong) = self.part(&mut unit) {
                self.recover_unit(wrong);
            }
        }
        // What ends the text before its time.
        if let (Kind::Wrong(message), true) = (&self.peek().kind, self.errors.is_empty()) {
            self.errors.push(Diagnostic::new(self.at(), message));
        }
        unit
    }

    /// An object or a routine.
    fn part(&mut self, unit: &mut Unit) -> Fallible<()> {
        let void = self.accept("void");
        if !void {
            self.unsigned("a routine")?;
        }
        let name = self.declared_name()?;
        if !void && (self.is("checked") || self.is("nt_checked")) {
            if !unit.routines.is_empty() {
                return fail(name.at, "objects are declared before the routines");
            }
            unit.objects.push(self.object(name)?);
        } else {
            unit.routines.push(self.routine(name, void)?);
        }
        Ok(())
    }

    /// `unsigned` or `unsigned int`.
    fn unsigned(&mut self, expected: &str) -> Fallible<()> {
        self.not_foreign()?;
        if !self.accept("unsigned") {
            return match self.peek().kind {
                Kind::Define => self.wrong("bounds are named in their routine, before its statements"),
                Kind::Pragma => self.wrong("`#pragma rows` stands in its routine, before its statements"),
                _ => self.unexpected(expected),
            };
        }
        if self.peek().text == "int" {
            self.take();
        }
        Ok(())
    }

    fn object(&mut self, name: Name) -> Fallible<Object> {
        let terminated = self.take().is("nt_checked");
        let mut dimensions = Vec::new();
        while dimensions.is_empty() || self.is("[") {
            self.expect("[")?;
            dimensions.push(self.number()?);
            self.expect("]")?;
        }
        self.expect_semicolon()?;
        Ok(Object { name, terminated, dimensions })
    }

    fn routine(&mut self, name: Name, void: bool) -> Fallible<Routine> {
        self.expect("(")?;
        let mut parameters = Vec::new();
        if !(self.is("void") && self.ahead(1).is(")") && self.accept("void") || self.is(")")) {
            self.parameter(&mut parameters);
            while self.accept(",") {
                self.parameter(&mut parameters);
            }
        }
        self.expect(")")?;
        self.expect("{")?;
        let mut routine = Routine {
            end: name.at,
            name,
            parameters,
            locals: Vec::new(),
            named: Vec::new(),
            has_rows: false,
            body: Vec::new(),
            result: None,
        };
        while self.declaration(&mut routine).unwrap_or_else(|wrong| {
            self.recover_declaration(wrong);
            true
        }) {}
        routine.body = self.statements(0)?;
        self.result(&mut routine, void)?;
        self.expect("}")?;
        routine.end = self.behind.unwrap_or(routine.end);
        Ok(routine)
    }

    /// `unsigned` and `return` come together.
    fn result(&mut self, routine: &mut Routine, void: bool) -> Fallible<()> {
        if void && self.is("return") && self.ahead(1).is(";") {
            return self.wrong("a routine ends behind its last statement: leave the return out");
        }
        if void && self.is("return") {
            return self
                .wrong(format!("`{}` is void: a routine with a result is unsigned", routine.name.text));
        }
        if !void && self.peek().kind != Kind::End {
            self.expect("return")?;
            routine.result = Some(self.name()?);
            self.expect_semicolon()?;
        }
        Ok(())
    }

    fn parameter(&mut self, parameters: &mut Vec<Variable>) {
        match self.shape().and_then(|shape| self.declarator(shape)) {
            Ok(parameter) => parameters.push(parameter),
            Err(wrong) => self.recover_parameter(wrong),
        }
    }

    /// A line of locals, a named bound or `#pragma rows`, if one comes next.
    fn declaration(&mut self, routine: &mut Routine) -> Fallible<bool> {
        match self.peek().kind {
            Kind::Define => routine.named.push(self.named_bounds()?),
            Kind::Pragma => {
                self.pragma()?;
                routine.has_rows = true;
            }
            Kind::Foreign if is_type(self.peek().text) => self.not_foreign()?,
            _ if self.is_type() => {
                let shape = self.shape()?;
                routine.locals.push(self.declarator(shape)?);
                while self.accept(",") {
                    routine.locals.push(self.declarator(shape)?);
                }
                self.expect_semicolon()?;
            }
            _ => return Ok(false),
        }
        Ok(true)
    }

    fn is_type(&self) -> bool {
        self.is("unsigned") || self.is("array_ptr") || self.is("nt_array_ptr")
    }

    fn shape(&mut self) -> Fallible<Type> {
        let terminated = self.is("nt_array_ptr");
        if !terminated && !self.is("array_ptr") {
            self.unsigned("a type")?;
            return Ok(Type::Integer);
        }
        self.take();
        self.expect("<")?;
        self.unsigned("`unsigned`")?;
        let mut row = None;
        if self.accept("checked") {
            self.expect("[")?;
            let number = self.number()?;
            if number.value == 0 {
                return fail(number.at, "a row has at least 1 cell");
            }
            if i32::try_from(number.value).is_err() {
                return fail(number.at, "this length does not fit a word of the table");
            }
            row = Some(number.value);
            self.expect("]")?;
        }
        self.expect(">")?;
        Ok(Type::Pointer { terminated, row })
    }

    fn declarator(&mut self, shape: Type) -> Fallible<Variable> {
        let name = self.declared_name()?;
        let bounds = match shape {
            Type::Integer if self.is(":") => return self.wrong("an integer has no bounds"),
            Type::Integer => None,
            Type::Pointer { .. } if !self.accept(":") => {
                let p = &name.text;
                return self.wrong(format!(
                    "a pointer is declared with its bounds: `{p} : count(n)` or `{p} : bounds(lower, upper)`"
                ));
            }
            Type::Pointer { .. } => Some(self.bounds()?),
        };
        if self.is("=") {
            return self.wrong("a variable has no initializer: write an assignment as a statement");
        }
        Ok(Variable { name, shape, bounds })
    }
}
