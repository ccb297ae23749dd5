//! Ends, addresses, bounds and rows as words.

use super::scope::Scope;
use crate::diagnostics::{fail, Fallible, Pos};
use crate::tree::*;

pub type Ends = [i32; 6];

/// A whole number as a word of the table.
pub fn word(value: i64, at: Pos) -> Fallible<i32> {
    i32::try_from(value).or_else(|_| fail(at, "this number does not fit a word of the table"))
}

/// `[cast] q [+ [c *] n] [+ m]`: a cell counted from q.
pub struct Address {
    pub pointer: usize,
    /// Cells in what is counted: 1 with a cast, else an element of q.
    pub unit: i64,
    /// The variable, its coefficient and its position.
    pub index: Option<(i32, i64, Name)>,
    pub elements: i64,
    pub at: Pos,
}

impl Address {
    pub fn cells(&self) -> Fallible<i32> {
        word(self.unit.saturating_mul(self.elements), self.at)
    }
}

impl Scope<'_> {
    pub fn address(&self, sum: &Sum) -> Fallible<Address> {
        let pointer = self.pointer(&sum.base)?;
        let mut address =
            Address { pointer, unit: self.size(pointer), index: None, elements: 0, at: sum.base.at };
        if let Some(cast) = sum.cast {
            if cast.terminated && !self.is_terminated(pointer) {
                let name = &sum.base.text;
                return fail(cast.at, format!("`{name}` is an array_ptr: cast it to array_ptr<unsigned>"));
            }
            address.unit = 1;
        }
        let mut number_seen = false;
        for term in &sum.terms {
            match &term.operand {
                _ if term.operator == Operator::Multiply => return fail(term.at, "a pointer has no product"),
                Operand::Name(name) if address.index.is_some() => {
                    return fail(name.at, "one variable is added to a pointer, and one number");
                }
                Operand::Name(name) if term.operator == Operator::Subtract => {
                    return fail(name.at, "a variable is added to a pointer, never taken from it");
                }
                Operand::Name(name) if number_seen => {
                    return fail(name.at, "the variable comes before the number")
                }
                Operand::Name(name) => {
                    let coefficient = term.coefficient.map_or(1, |c| i64::from(c.value));
                    address.index = Some((self.integer(name)?, coefficient, name.clone()));
                }
                Operand::Number(number) if number_seen => {
                    return fail(number.at, "one variable is added to a pointer, and one number");
                }
                Operand::Number(number) => {
                    number_seen = true;
                    address.at = number.at;
                    address.elements = match term.operator {
                        Operator::Subtract => -i64::from(number.value),
                        _ => i64::from(number.value),
                    };
                }
            }
        }
        Ok(address)
    }

    /// An end of a pointer whose element has so many cells: its integer is multiplied by that size.
    fn end(&self, sum: &Sum, size: i64) -> Fallible<[i32; 3]> {
        let address = self.address(sum)?;
        let mut integer = -1;
        if let Some((variable, coefficient, name)) = &address.index {
            let counted = address.unit.saturating_mul(*coefficient);
            if counted != size {
                return fail(
                    name.at,
                    format!(
                        "`{}` counts {counted} cells here, but an element of the bounded pointer has {size}",
                        name.text
                    ),
                );
            }
            integer = *variable;
        }
        Ok([address.pointer as i32, integer, address.cells()?])
    }

    fn ends(&self, lower: &Sum, upper: &Sum, size: i64) -> Fallible<Ends> {
        let ([a, b, c], [d, e, f]) = (self.end(lower, size)?, self.end(upper, size)?);
        Ok([a, b, c, d, e, f])
    }

    pub fn bounds(&self, pointer: usize, bounds: &Bounds) -> Fallible<Ends> {
        let p = pointer as i32;
        match &bounds.kind {
            BoundsKind::Count(Operand::Name(name)) => Ok([p, -1, 0, p, self.integer(name)?, 0]),
            BoundsKind::Count(Operand::Number(number)) => {
                let cells = word(i64::from(number.value).saturating_mul(self.size(pointer)), number.at)?;
                Ok([p, -1, 0, p, -1, cells])
            }
            BoundsKind::Ends(lower, upper) => self.ends(lower, upper, self.size(pointer)),
        }
    }

    /// A named bound is read as if it bounded the pointer of its lower end.
    pub fn named_bounds(&self, named: &NamedBounds) -> Fallible<Ends> {
        let size = self.size(self.pointer(&named.lower.base)?);
        self.ends(&named.lower, &named.upper, size)
    }
}
