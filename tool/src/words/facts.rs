//! Loop facts as entries of the list: statement, x, y, k for x <= y + k, -1 for zero.

use super::bounds::word;
use super::statements::Body;
use crate::diagnostics::{fail, Fallible, Pos};
use crate::tree::{Fact, FactRight, Operand, Operator, Relation, Sum};

/// The right side of a fact: a variable or -1, and a number of cells or units.
type Side = (i32, i64);

impl Body<'_> {
    pub(super) fn fact(&mut self, head: usize, fact: &Fact) -> Fallible<()> {
        if self.unit.routines.len() > 1 {
            return fail(fact.left.at, "a set of routines has no loop facts");
        }
        let x = self.scope.variable(&fact.left)?;
        let (right, at) = self.fact_right(x, &fact.right)?;
        let is_zero = right == (-1, 0);
        let x = x as i32;
        let (left, right, k) = match (fact.relation, right) {
            (Relation::LessEqual, (y, k)) => (x, y, k),
            (Relation::Less, (y, k)) => (x, y, k - 1),
            (Relation::GreaterEqual, (y, k)) => (y, x, -k),
            (Relation::Greater, (y, k)) => (y, x, -k - 1),
            (Relation::Equal, _) if is_zero => (x, -1, 0),
            (Relation::NotEqual, _) if is_zero => (-1, x, -1),
            _ => return fail(fact.relation_at, "a fact is <=, <, >= or >"),
        };
        self.facts.extend([head as i32, left, right, word(k, at)?]);
        self.fact_positions.push(fact.left.at);
        Ok(())
    }

    fn fact_right(&self, x: usize, right: &FactRight) -> Fallible<(Side, Pos)> {
        let pointer = self.scope.is_pointer(x);
        match right {
            FactRight::Number { value, at } => Ok(((-1, *value), *at)),
            FactRight::Null(at) if pointer => Ok(((-1, 0), *at)),
            FactRight::Null(at) => fail(*at, "NULL is a pointer; an integer is due here"),
            FactRight::Sum(sum) if pointer => {
                let address = self.scope.address(sum)?;
                if let Some((_, _, name)) = address.index {
                    return fail(name.at, "a fact has one variable on each side");
                }
                Ok(((address.pointer as i32, i64::from(address.cells()?)), address.at))
            }
            FactRight::Sum(sum) => {
                if let Some(cast) = sum.cast {
                    return fail(cast.at, "a cast is a pointer; an integer is due here");
                }
                let y = self.scope.integer(&sum.base)?;
                let (k, at) = self.plus_number(sum)?;
                Ok(((y, k), at))
            }
        }
    }

    /// `y`, `y + 5` or `y - 5`.
    fn plus_number(&self, sum: &Sum) -> Fallible<(i64, Pos)> {
        match &sum.terms[..] {
            [] => Ok((0, sum.base.at)),
            [term] if term.operator != Operator::Multiply => match &term.operand {
                Operand::Number(number) => {
                    let k = i64::from(number.value);
                    Ok((if term.operator == Operator::Subtract { -k } else { k }, number.at))
                }
                Operand::Name(name) => fail(name.at, "a fact has one variable on each side"),
            },
            [term] => fail(term.at, "a fact has no product"),
            [_, second, ..] => fail(second.at, "a fact is a variable, a relation, a variable and a number"),
        }
    }
}
