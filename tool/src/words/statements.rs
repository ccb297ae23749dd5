//! Statements as records of seven words, one behind the other.

use super::bounds::{word, Address, Ends};
use super::scope::{Global, Scope};
use crate::diagnostics::{fail, Diagnostic, Fallible, Pos, Span};
use crate::tree::*;

/// The statements of a routine so far, and what they bring with them.
pub struct Body<'a> {
    pub(super) unit: &'a Unit,
    pub(super) scope: &'a Scope<'a>,
    pub records: Vec<[i32; 7]>,
    pub positions: Vec<Pos>,
    /// The positions behind the statements.
    pub ends: Vec<Pos>,
    /// Where the statement at hand ends.
    end: Pos,
    pub rows: Vec<Ends>,
    pub row_positions: Vec<Pos>,
    /// Whether any statement declares bounds, so that the table has rows.
    pub has_where: bool,
    pub facts: Vec<i32>,
    pub fact_positions: Vec<Pos>,
    /// The whiles, and where behind their conditions their facts stand.
    pub loops: Vec<(usize, Span)>,
    /// The positions behind the then blocks of the ifs.
    pub then_ends: Vec<Pos>,
    pub warnings: Vec<Diagnostic>,
    pub errors: Vec<Diagnostic>,
}

impl<'a> Body<'a> {
    pub fn new(unit: &'a Unit, scope: &'a Scope, tree: &Routine, named: Vec<Ends>) -> Body<'a> {
        Body {
            unit,
            scope,
            records: Vec::new(),
            positions: Vec::new(),
            ends: Vec::new(),
            end: Pos::default(),
            rows: named,
            row_positions: tree.named.iter().map(|named| named.name.at).collect(),
            has_where: false,
            facts: Vec::new(),
            fact_positions: Vec::new(),
            loops: Vec::new(),
            then_ends: Vec::new(),
            warnings: Vec::new(),
            errors: Vec::new(),
        }
    }

    /// A record: its kind and fields; unused fields are 0.
    fn push(&mut self, at: Pos, words: &[i32]) -> usize {
        let mut record = [0; 7];
        record[..words.len()].copy_from_slice(words);
        self.records.push(record);
        self.positions.push(at);
        self.ends.push(self.end);
        self.records.len() - 1
    }

    /// The statements of a block; what is wrong with one is kept, and the next one is looked at.
    pub fn block(&mut self, statements: &[Statement], in_bundle: bool) {
        for statement in statements {
            if let Err(wrong) = self.statement(statement, in_bundle) {
                self.errors.push(wrong);
                self.blocks_of(statement, in_bundle);
            }
        }
    }

    /// The blocks of a statement whose head is wrong.
    fn blocks_of(&mut self, statement: &Statement, in_bundle: bool) {
        match &statement.kind {
            StatementKind::If { then, otherwise, .. } => {
                self.block(then, in_bundle);
                self.block(otherwise, in_bundle);
            }
            StatementKind::While { body, .. } => self.block(body, in_bundle),
            _ => {}
        }
    }

    /// The statements of a block behind their head; their count goes to the head's field.
    fn counted(&mut self, head: usize, field: usize, statements: &[Statement], in_bundle: bool) {
        let before = self.records.len();
        self.block(statements, in_bundle);
        self.records[head][field] = (self.records.len() - before) as i32;
    }

    fn statement(&mut self, statement: &Statement, in_bundle: bool) -> Fallible<()> {
        let at = statement.at;
        self.end = statement.end;
        match &statement.kind {
            StatementKind::Assign { target, value, wheres } => {
                self.assign_where(at, target, value, wheres, in_bundle)?;
            }
            StatementKind::Store { cell, value } => {
                let [p, i, k] = self.cell(cell)?;
                let x = self.scope.integer(value)?;
                self.push(at, &[9, p, i, k, x]);
            }
            StatementKind::Where(wheres) => self.wheres(at, wheres)?,
            StatementKind::Check(condition) => {
                let [a, b, c, d] = self.condition(condition)?;
                self.push(at, &[10, a, b, c, d]);
            }
            StatementKind::Call { result, call } => self.call(at, result.as_ref(), call)?,
            StatementKind::If { condition, then, then_end, otherwise } => {
                let [a, b, c, d] = self.condition(condition)?;
                let head = self.push(at, &[11, a, b, c, d]);
                self.then_ends.push(*then_end);
                self.counted(head, 5, then, in_bundle);
                self.counted(head, 6, otherwise, in_bundle);
            }
            StatementKind::While { condition, facts, listed, body } => {
                let [a, b, c, d] = self.condition(condition)?;
                let head = self.push(at, &[12, a, b, c, d]);
                self.loops.push((head, *listed));
                facts.iter().try_for_each(|fact| self.fact(head, fact))?;
                self.counted(head, 5, body, in_bundle);
            }
            StatementKind::Bundle(body) => {
                let head = self.push(at, &[13]);
                self.counted(head, 1, body, true);
            }
        }
        Ok(())
    }

    /// The report's `tmp = x where tmp : count(5);` means both at once: outside of a bundle it is one.
    fn assign_where(
        &mut self,
        at: Pos,
        target: &Name,
        value: &Value,
        wheres: &[Where],
        in_bundle: bool,
    ) -> Fallible<()> {
        let head = (!wheres.is_empty() && !in_bundle).then(|| self.push(at, &[13]));
        let before = self.records.len();
        self.assign(at, target, value)?;
        if let Some(first) = wheres.first() {
            self.wheres(first.pointer.at, wheres)?;
        }
        if let Some(head) = head {
            self.records[head][1] = (self.records.len() - before) as i32;
        }
        Ok(())
    }

    fn assign(&mut self, at: Pos, target: &Name, value: &Value) -> Fallible<()> {
        let x = self.scope.variable(target)?;
        let record = match value {
            Value::Cell(cell) => {
                let x = self.scope.integer(target)?;
                let [p, i, k] = self.cell(cell)?;
                vec![8, x, p, i, k]
            }
            _ if self.scope.is_pointer(x) => self.pointer_value(x as i32, value)?,
            _ => self.integer_value(x as i32, value)?,
        };
        self.push(at, &record);
        Ok(())
    }

    fn integer_value(&self, x: i32, value: &Value) -> Fallible<Vec<i32>> {
        let sum = match value {
            Value::Number(number) => return Ok(vec![1, x, number.value as i32]),
            Value::Null(at) => return fail(*at, "NULL is a pointer; an integer is due here"),
            Value::Sum(sum) => sum,
            Value::Cell(_) => unreachable!("a read has its own record"),
        };
        if let Some(cast) = sum.cast {
            return fail(cast.at, "a cast is a pointer; an integer is due here");
        }
        let y = self.scope.integer(&sum.base)?;
        let [term, rest @ ..] = &sum.terms[..] else { return Ok(vec![2, x, y]) };
        if let Some(second) = rest.first() {
            return fail(second.at, "one operation a statement: use another variable for the rest");
        }
        if let Some(coefficient) = term.coefficient {
            return fail(coefficient.at, "a product has two variables: put the number in a variable first");
        }
        match &term.operand {
            Operand::Name(name) => Ok(vec![3, x, y, self.scope.integer(name)?, term.operator as i32]),
            Operand::Number(number) => {
                let k = i64::from(number.value);
                let k = if term.operator == Operator::Subtract { -k } else { k };
                Ok(vec![2, x, y, word(k, number.at)?])
            }
        }
    }

    fn pointer_value(&self, p: i32, value: &Value) -> Fallible<Vec<i32>> {
        let sum = match value {
            Value::Null(_) | Value::Number(Number { value: 0, .. }) => return Ok(vec![4, p]),
            Value::Number(number) => {
                return fail(number.at, "a number is no pointer: NULL or a pointer is due here")
            }
            Value::Sum(sum) => sum,
            Value::Cell(_) => unreachable!("a read has its own record"),
        };
        if let Some(Global::Object(o)) = self.scope.global(&sum.base) {
            if let Some(cast) = sum.cast {
                return fail(cast.at, "an object's address has no cast: p = o");
            }
            if let Some(term) = sum.terms.first() {
                return fail(term.at, "an object's address stands alone: p = o; p = p + 1");
            }
            return Ok(vec![5, p, o as i32]);
        }
        let address = self.scope.address(sum)?;
        let q = address.pointer as i32;
        match &address.index {
            None => Ok(vec![6, p, q, address.cells()?]),
            Some(_) if sum.terms.len() > 1 => {
                fail(sum.terms[1].at, "one operation a statement: use another variable for the rest")
            }
            Some(index) => Ok(vec![7, p, q, self.moved_by(&address, index)?]),
        }
    }

    /// Kind 7 moves by whole elements of q.
    fn moved_by(&self, address: &Address, (variable, coefficient, name): &(i32, i64, Name)) -> Fallible<i32> {
        let size = self.scope.size(address.pointer);
        let counted = address.unit.saturating_mul(*coefficient);
        if counted != size {
            return fail(
                name.at,
                format!(
                    "`{}` counts {counted} cells here, but an element of the pointer has {size}",
                    name.text
                ),
            );
        }
        Ok(*variable)
    }

    /// Pointer, index or -1, constant in cells.
    fn cell(&self, cell: &Cell) -> Fallible<[i32; 3]> {
        if let Some(Global::Object(_)) = self.scope.global(&cell.pointer) {
            return fail(cell.pointer.at, "cells are reached through a pointer: p = o; p[..]");
        }
        let p = self.scope.pointer(&cell.pointer)?;
        let i = cell.index.as_ref().map_or(Ok(-1), |name| self.scope.integer(name))?;
        let name = &cell.pointer.text;
        let k = match (self.scope.row(p), cell.column) {
            (None, None) => cell.element,
            (Some(size), Some(column)) => cell.element.saturating_mul(i64::from(size)).saturating_add(column),
            (Some(size), None) => {
                let message =
                    format!("an element of `{name}` is a row of {size} cells: write {name}[i][cell]");
                return fail(cell.second, message);
            }
            (None, Some(_)) => {
                return fail(cell.second, format!("an element of `{name}` is one cell: one index"))
            }
        };
        Ok([p as i32, i, word(k, cell.element_at)?])
    }

    /// Left variable, relation, form, right.
    fn condition(&self, condition: &Condition) -> Fallible<[i32; 4]> {
        let left = self.scope.variable(&condition.left)?;
        let pointer = self.scope.is_pointer(left);
        let (form, right) = match &condition.right {
            Right::Name(name) if pointer => (0, self.scope.pointer(name)? as i32),
            Right::Name(name) => (0, self.scope.integer(name)?),
            Right::Number(Number { value, .. }) if !pointer || *value == 0 => (1, *value as i32),
            Right::Number(number) => return fail(number.at, "a pointer is compared with NULL or a pointer"),
            Right::Null(_) if pointer => (1, 0),
            Right::Null(at) => return fail(*at, "an integer is compared with a number or an integer"),
        };
        Ok([left as i32, condition.relation as i32, form, right])
    }

    fn wheres(&mut self, at: Pos, wheres: &[Where]) -> Fallible<()> {
        self.has_where = true;
        for (number, one) in wheres.iter().enumerate() {
            let p = self.scope.pointer(&one.pointer)?;
            let row = match &one.bounds {
                WhereBounds::Named(name) => self.named_row(p, &one.pointer, name)?,
                WhereBounds::Inline(bounds) => self.inline_row(p, bounds)?,
            };
            self.push(if number == 0 { at } else { one.pointer.at }, &[14, p as i32, row as i32]);
        }
        Ok(())
    }

    /// The lowest row with these words, or a new one.
    fn inline_row(&mut self, p: usize, bounds: &Bounds) -> Fallible<usize> {
        let ends = self.scope.bounds(p, bounds)?;
        Ok(self.rows.iter().position(|row| *row == ends).unwrap_or_else(|| {
            self.rows.push(ends);
            self.row_positions.push(bounds.at);
            self.rows.len() - 1
        }))
    }

    /// A named bound with an integer means something else for a pointer with elements of another size.
    fn named_row(&mut self, p: usize, pointer: &Name, name: &Name) -> Fallible<usize> {
        let row = self.scope.named_row(name)?;
        let [q, n, _, _, m, _] = self.rows[row];
        let (defined, used) = (self.scope.size(q as usize), self.scope.size(p));
        if defined != used && (n != -1 || m != -1) {
            self.warnings.push(Diagnostic::new(
                name.at,
                format!(
                    "`{}` is defined in elements of {defined} cells; for `{}` its integer counts elements of {used}",
                    name.text, pointer.text
                ),
            ));
        }
        Ok(row)
    }

    fn call(&mut self, at: Pos, result: Option<&Name>, call: &Call) -> Fallible<()> {
        let result = result.map_or(Ok(-1), |name| self.scope.integer(name))?;
        let callee = match &call.callee {
            Callee::Number(number, at) => word(*number, *at)?,
            Callee::Name(name) => self.callee(name, call.arguments.len())?,
        };
        let mut record = [15, callee, result, -1, -1, -1, -1];
        for (field, argument) in record[3..].iter_mut().zip(&call.arguments) {
            if let Some(name) = argument {
                *field = self.scope.variable(name)? as i32;
            }
        }
        self.push(at, &record);
        Ok(())
    }

    fn callee(&mut self, name: &Name, given: usize) -> Fallible<i32> {
        let Some(Global::Routine(number)) = self.scope.global(name) else {
            return fail(name.at, format!("routine `{}` is not defined", name.text));
        };
        let parameters = self.unit.routines[number].parameters.len();
        if given < parameters.min(4) {
            self.warnings.push(Diagnostic::new(
                name.at,
                format!(
                    "`{}` has {parameters} parameters, {given} given: the others are 0 and NULL",
                    name.text
                ),
            ));
        }
        Ok(number as i32)
    }
}
