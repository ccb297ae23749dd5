//! Statements and blocks.

use super::values::{ONE_ACCESS, ONE_OPERATION};
use super::{Parser, MAX_NESTING};
use crate::diagnostics::{fail, Diagnostic, Fallible, Pos, Span};
use crate::repair::Edit;
use crate::suggest::{did_you_mean, nearest};
use crate::tokens::Kind;
use crate::tree::*;

impl Parser<'_> {
    /// Statements up to the end of their block, or up to a `return`.
    pub(super) fn statements(&mut self, depth: usize) -> Fallible<Vec<Statement>> {
        let mut statements = Vec::new();
        while !self.is("}") && !self.is("return") && self.peek().kind != Kind::End {
            match self.statement(depth) {
                Ok(statement) => statements.push(statement),
                // Nothing can be read behind what is no token.
                Err(wrong) if matches!(self.peek().kind, Kind::Wrong(_)) => return Err(wrong),
                Err(wrong) => self.recover_statement(wrong, depth),
            }
        }
        Ok(statements)
    }

    fn block(&mut self, depth: usize, behind: &str) -> Fallible<Vec<Statement>> {
        if !self.is("{") {
            return self.unexpected(&format!("`{{`{behind}"));
        }
        if depth >= MAX_NESTING {
            return self.wrong(format!("blocks are nested {MAX_NESTING} deep at most"));
        }
        self.take();
        let statements = self.statements(depth + 1)?;
        if self.is("return") {
            return self.wrong("a return stands at the end of its routine");
        }
        self.expect("}")?;
        Ok(statements)
    }

    fn statement(&mut self, depth: usize) -> Fallible<Statement> {
        let at = self.at();
        let kind = match self.peek().kind {
            Kind::Word("if") => self.if_statement(depth)?,
            Kind::Word("while") => {
                self.take();
                let condition = self.condition("while")?;
                let from = self.behind.unwrap_or(at);
                let facts = self.facts()?;
                let listed = Span { from, to: self.behind.unwrap_or(from) };
                let body = self.block(depth, " after the condition")?;
                StatementKind::While { condition, facts, listed, body }
            }
            Kind::Word("bundled") => {
                self.take();
                StatementKind::Bundle(self.block(depth, " after bundled")?)
            }
            _ => {
                let plain = self.plain(at)?;
                self.expect_semicolon()?;
                plain
            }
        };
        Ok(Statement { at, end: self.behind.unwrap_or(at), kind })
    }

    fn if_statement(&mut self, depth: usize) -> Fallible<StatementKind> {
        let at = self.take().at;
        let condition = self.condition("if")?;
        let then = self.block(depth, " after the condition")?;
        let then_end = self.behind.unwrap_or(at);
        let mut otherwise = Vec::new();
        if self.accept("else") {
            if !self.is("if") {
                otherwise = self.block(depth, " or `if` after else")?;
            } else if depth >= MAX_NESTING {
                return self.wrong(format!("blocks are nested {MAX_NESTING} deep at most"));
            } else {
                otherwise.push(self.statement(depth + 1)?);
            }
        }
        Ok(StatementKind::If { condition, then, then_end, otherwise })
    }

    fn plain(&mut self, at: Pos) -> Fallible<StatementKind> {
        match self.peek().kind {
            Kind::Word("where") => Ok(StatementKind::Where(self.wheres()?)),
            Kind::Word("dynamic_check") => {
                self.take();
                Ok(StatementKind::Check(self.condition("dynamic_check")?))
            }
            Kind::Word("routines") => Ok(StatementKind::Call { result: None, call: self.call()? }),
            Kind::Mark("*") => self.store(),
            Kind::Mark("++" | "--") => {
                let operator = self.step();
                let target = self.name()?;
                self.assign(moved(target, operator, one(at)))
            }
            Kind::Name => self.named(at),
            _ if self.is_type() => self.wrong("variables are declared before the statements"),
            Kind::Define => self.wrong("bounds are named before the statements"),
            Kind::Pragma => self.wrong("`#pragma rows` stands before the statements"),
            _ => {
                self.not_foreign()?;
                self.unexpected("a statement")
            }
        }
    }

    /// A statement that begins with a name.
    fn named(&mut self, at: Pos) -> Fallible<StatementKind> {
        match self.ahead(1).kind {
            Kind::Mark("[") => self.store(),
            Kind::Mark("(") => Ok(StatementKind::Call { result: None, call: self.call()? }),
            Kind::Mark("++" | "--") => {
                let target = self.name()?;
                let operator = self.step();
                self.assign(moved(target, operator, one(at)))
            }
            Kind::Mark("+=" | "-=" | "*=") => {
                let target = self.name()?;
                let operator = match self.take().text {
                    "+=" => Operator::Add,
                    "-=" => Operator::Subtract,
                    _ => Operator::Multiply,
                };
                let at = self.at();
                let term = self.term(operator, at)?;
                self.not_divided()?;
                if let Kind::Mark("+" | "-" | "*") = self.peek().kind {
                    return self.wrong(ONE_OPERATION);
                }
                self.assign(moved_by(target, term))
            }
            _ => self.assignment(),
        }
    }

    /// `++` or `--`.
    fn step(&mut self) -> Operator {
        if self.take().text == "++" {
            Operator::Add
        } else {
            Operator::Subtract
        }
    }

    fn assignment(&mut self) -> Fallible<StatementKind> {
        let target = self.name()?;
        self.not_divided()?;
        self.expect("=")?;
        if self.is("routines") || self.is_name() && self.ahead(1).is("(") {
            return Ok(StatementKind::Call { result: Some(target), call: self.call()? });
        }
        let value = self.value()?;
        self.assign((target, value))
    }

    /// An assignment with the bounds that are declared with it.
    fn assign(&mut self, (target, value): (Name, Value)) -> Fallible<StatementKind> {
        let wheres = if self.is("where") { self.wheres()? } else { Vec::new() };
        Ok(StatementKind::Assign { target, value, wheres })
    }

    fn store(&mut self) -> Fallible<StatementKind> {
        let cell = self.cell()?;
        self.expect("=")?;
        let stored = "a variable is stored in a cell: put the";
        if matches!(self.peek().kind, Kind::Number(_) | Kind::Mark("-")) {
            return self.wrong(format!("{stored} number in a variable first"));
        }
        if self.is_cell() {
            return self.wrong(ONE_ACCESS);
        }
        let value = self.name()?;
        self.not_divided()?;
        match self.peek().kind {
            Kind::Mark("(") => fail(value.at, format!("{stored} result in a variable first")),
            Kind::Mark("+" | "-" | "*") => self.wrong(format!("{stored} sum in a variable first")),
            _ => Ok(StatementKind::Store { cell, value }),
        }
    }

    fn call(&mut self) -> Fallible<Call> {
        let callee = if self.is("routines") {
            let at = self.take().at;
            self.expect("[")?;
            let number = self.signed_number()?;
            self.expect("]")?;
            Callee::Number(number, at)
        } else {
            Callee::Name(self.name()?)
        };
        self.expect("(")?;
        let mut arguments = Vec::new();
        while !self.is(")") {
            if arguments.len() == 4 {
                return self.wrong("a call has four arguments at most");
            }
            arguments.push(self.argument()?);
            if let (true, Callee::Name(name)) = (self.is_relation(), &callee) {
                return Err(no_condition(name));
            }
            if !self.is(")") {
                self.expect(",")?;
                if self.is(")") {
                    return self.unexpected("an argument");
                }
            }
        }
        self.expect(")")?;
        Ok(Call { callee, arguments })
    }

    /// A variable, or `void` before other arguments.
    fn argument(&mut self) -> Fallible<Option<Name>> {
        if self.is("void") {
            if !self.ahead(1).is(",") {
                return self
                    .wrong("void stands for an argument left out before others; leave it off at the end");
            }
            self.take();
            return Ok(None);
        }
        if matches!(self.peek().kind, Kind::Number(_) | Kind::Word("NULL")) || self.is_cell() {
            return self.wrong("an argument is a variable");
        }
        self.name().map(Some)
    }
}

fn one(at: Pos) -> Operand {
    Operand::Number(Number { value: 1, at })
}

/// `a = a + b` for `a += b`, `a++` and the like.
fn moved(target: Name, operator: Operator, operand: Operand) -> (Name, Value) {
    let at = target.at;
    moved_by(target, Term { operator, at, coefficient: None, operand })
}

fn moved_by(target: Name, term: Term) -> (Name, Value) {
    let sum = Sum { cast: None, base: target.clone(), terms: vec![term] };
    (target, Value::Sum(sum))
}

/// What is said of a call that has a condition as its argument.
fn no_condition(name: &Name) -> Diagnostic {
    let Name { text, at } = name;
    let near = match text.as_str() {
        "assert" => Some("dynamic_check"),
        _ => nearest(text, ["dynamic_check", "while"].into_iter()),
    };
    let message = match text.as_str() {
        "assert" => "`assert` is not part of the subset: write dynamic_check".to_string(),
        _ => format!("`{text}` is no statement that has a condition{}", did_you_mean(near)),
    };
    Diagnostic::new(*at, message).repaired_by(near.map(|near| Edit::word(*at, text, near)))
}
