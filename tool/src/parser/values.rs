//! What is assigned: numbers, sums, cells.

use super::Parser;
use crate::diagnostics::{fail, Fallible};
use crate::tokens::Kind;
use crate::tree::*;

pub(super) const ONE_OPERATION: &str = "one operation a statement: use another variable for the rest";
pub(super) const ONE_ACCESS: &str = "one access a statement: read it into a variable first";
const PRODUCT: &str = "a product has two variables: put the number in a variable first";

impl Parser<'_> {
    /// Two operations of C that no statement has.
    pub(super) fn not_divided(&self) -> Fallible<()> {
        match self.peek().kind {
            Kind::Mark(mark @ ("/" | "%")) => {
                self.wrong(format!("`{mark}` is not part of the subset: the operations are +, - and *"))
            }
            _ => Ok(()),
        }
    }

    pub(super) fn value(&mut self) -> Fallible<Value> {
        let at = self.at();
        if self.accept("NULL") {
            return Ok(Value::Null(at));
        }
        self.not_negative()?;
        if let Some(number) = self.accept_number() {
            self.not_divided()?;
            return match self.peek().kind {
                Kind::Mark("+" | "-") => fail(number.at, "the number comes second: x = y + 1"),
                Kind::Mark("*") => fail(number.at, PRODUCT),
                _ => Ok(Value::Number(number)),
            };
        }
        let value = if self.is_cell() {
            Value::Cell(self.cell()?)
        } else {
            let cast = self.cast()?;
            let base = self.name()?;
            Value::Sum(self.sum(cast, base, true)?)
        };
        self.not_divided()?;
        match self.peek().kind {
            Kind::Mark("+" | "-" | "*") if matches!(value, Value::Cell(_)) => self.wrong(ONE_ACCESS),
            Kind::Mark("+" | "-" | "*") => self.wrong(ONE_OPERATION),
            _ => Ok(value),
        }
    }

    /// At most two terms behind the base: more than any statement or end has. An end has no products.
    pub(super) fn sum(&mut self, cast: Option<Cast>, base: Name, products: bool) -> Fallible<Sum> {
        let mut terms = Vec::new();
        while terms.len() < 2 && (products || !self.is("*")) {
            let Some(operator) = self.operator() else { break };
            let at = self.take().at;
            terms.push(self.term(operator, at)?);
        }
        Ok(Sum { cast, base, terms })
    }

    fn operator(&self) -> Option<Operator> {
        match self.peek().kind {
            Kind::Mark("+") => Some(Operator::Add),
            Kind::Mark("-") => Some(Operator::Subtract),
            Kind::Mark("*") => Some(Operator::Multiply),
            _ => None,
        }
    }

    pub(super) fn term(&mut self, operator: Operator, at: crate::diagnostics::Pos) -> Fallible<Term> {
        if self.is_cell() {
            return self.wrong(ONE_ACCESS);
        }
        let Some(number) = self.accept_number() else {
            return Ok(Term { operator, at, coefficient: None, operand: Operand::Name(self.name()?) });
        };
        if operator == Operator::Multiply {
            return fail(number.at, PRODUCT);
        }
        if !self.accept("*") {
            return Ok(Term { operator, at, coefficient: None, operand: Operand::Number(number) });
        }
        let operand = Operand::Name(self.name()?);
        Ok(Term { operator, at, coefficient: Some(number), operand })
    }

    pub(super) fn is_cell(&self) -> bool {
        self.is("*") || self.is_name() && self.ahead(1).is("[")
    }

    pub(super) fn cell(&mut self) -> Fallible<Cell> {
        if self.accept("*") {
            let pointer = self.name()?;
            let (element_at, second) = (pointer.at, pointer.at);
            return Ok(Cell { pointer, index: None, element: 0, element_at, column: None, second });
        }
        let pointer = self.name()?;
        self.expect("[")?;
        let element_at = self.at();
        let (index, element) = self.index()?;
        self.expect("]")?;
        let second = self.at();
        let mut column = None;
        if self.accept("[") {
            if self.is_name() {
                return self.wrong("the second index is a number: a cell of the row");
            }
            column = Some(self.signed_number()?);
            self.expect("]")?;
        }
        Ok(Cell { pointer, index, element, element_at, column, second })
    }

    /// `[-] NUMBER` or `NAME [(+ | -) NUMBER]`.
    fn index(&mut self) -> Fallible<(Option<Name>, i64)> {
        if !self.is_name() {
            let element = self.signed_number()?;
            if self.operator().is_some() {
                return self.wrong("the number comes second: p[i + 1]");
            }
            return Ok((None, element));
        }
        if self.is_cell() {
            return self.wrong(ONE_ACCESS);
        }
        let name = self.name()?;
        self.not_divided()?;
        let element = match self.operator() {
            None => 0,
            Some(Operator::Multiply) => {
                return self.wrong("an index is a variable and a number: multiply before")
            }
            Some(_) if self.ahead(1).kind == Kind::Name => {
                return self.wrong("an index is a variable and a number: add the variables before")
            }
            Some(_) => {
                self.accept("+");
                self.signed_number()?
            }
        };
        Ok((Some(name), element))
    }
}
