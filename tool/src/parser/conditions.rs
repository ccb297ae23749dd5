//! Conditions and loop facts.

use super::Parser;
use crate::diagnostics::{Fallible, Pos};
use crate::tokens::Kind;
use crate::tree::*;

const COMPARES: &str = "a condition compares: write `!= 0` or `!= NULL`";
const COMPUTE: &str =
    "a condition compares two variables, or one and a number: compute into a variable first";

impl Parser<'_> {
    fn relation(&mut self) -> Option<Relation> {
        let (_, relation) = *RELATIONS.iter().find(|(mark, _)| self.is(mark))?;
        self.take();
        Some(relation)
    }

    pub(super) fn is_relation(&self) -> bool {
        RELATIONS.iter().any(|(mark, _)| self.is(mark))
    }

    /// `(condition)` of an if, a while or a check.
    pub(super) fn condition(&mut self, of: &str) -> Fallible<Condition> {
        self.expect("(")?;
        let left = self.condition_left()?;
        self.not_divided()?;
        let Some(relation) = self.relation() else {
            return match self.peek().kind {
                Kind::Mark("=") => self.wrong("`=` assigns; write `==` to compare"),
                Kind::Mark("[") => self.wrong(COMPUTE),
                Kind::Mark("+" | "-" | "*" | "(") => self.wrong(COMPUTE),
                Kind::Mark(")" | "&&" | "||") => self.wrong(COMPARES),
                _ => self.unexpected("a relation"),
            };
        };
        let right = self.condition_right()?;
        self.not_divided()?;
        match self.peek().kind {
            Kind::Mark(mark @ ("&&" | "||")) => return self.wrong(one_comparison(of, mark)),
            Kind::Mark("+" | "-" | "*" | "[" | "(") => return self.wrong(COMPUTE),
            _ => self.expect(")")?,
        }
        Ok(Condition { left, relation, right })
    }

    fn condition_left(&mut self) -> Fallible<Name> {
        match self.peek().kind {
            Kind::Mark("!") => self.wrong("a condition compares: write `== 0` or `== NULL`"),
            Kind::Mark("*" | "(") => self.wrong(COMPUTE),
            Kind::Number(_) | Kind::Word("NULL") => self.variable_first(),
            _ => self.name(),
        }
    }

    /// A number on the left: the same comparison with the variable first, where there is one.
    fn variable_first<T>(&self) -> Fallible<T> {
        let (number, relation, variable) = (self.peek().text, self.ahead(1).text, self.ahead(2));
        let turned = match relation {
            "<" => ">",
            ">" => "<",
            "<=" => ">=",
            ">=" => "<=",
            "==" | "!=" => relation,
            _ => "",
        };
        if turned.is_empty() || variable.kind != Kind::Name {
            return self.wrong("a condition compares a variable: n > 0");
        }
        self.wrong(format!("the variable comes first: {} {turned} {number}", variable.text))
    }

    fn condition_right(&mut self) -> Fallible<Right> {
        let at = self.at();
        if self.accept("NULL") {
            return Ok(Right::Null(at));
        }
        if let Some(number) = self.accept_number() {
            return Ok(Right::Number(number));
        }
        self.not_negative()?;
        if self.is("*") || self.is("(") {
            return self.wrong(COMPUTE);
        }
        Ok(Right::Name(self.name()?))
    }

    /// Integers are unsigned; what stands here for -1 is said.
    pub(super) fn not_negative(&mut self) -> Fallible<()> {
        if !self.is("-") {
            return Ok(());
        }
        let Kind::Number(value) = self.ahead(1).kind else { return Ok(()) };
        let meant = value.wrapping_neg();
        self.wrong(format!("integers are unsigned: for -{value} write {meant}"))
    }

    /// `where fact and fact` behind the condition of a while.
    pub(super) fn facts(&mut self) -> Fallible<Vec<Fact>> {
        let mut facts = Vec::new();
        if self.accept("where") {
            facts.push(self.fact()?);
            while self.accept("and") {
                facts.push(self.fact()?);
            }
        }
        Ok(facts)
    }

    fn fact(&mut self) -> Fallible<Fact> {
        let left = self.name()?;
        let relation_at = self.at();
        let Some(relation) = self.relation() else {
            return self.unexpected("a relation");
        };
        let right = self.fact_right()?;
        Ok(Fact { left, relation, relation_at, right })
    }

    fn fact_right(&mut self) -> Fallible<FactRight> {
        let at: Pos = self.at();
        if self.accept("NULL") {
            return Ok(FactRight::Null(at));
        }
        if self.is("-") || matches!(self.peek().kind, Kind::Number(_)) {
            return Ok(FactRight::Number { value: self.signed_number()?, at });
        }
        Ok(FactRight::Sum(self.address()?))
    }
}

/// What to write where a condition has two comparisons.
fn one_comparison(of: &str, mark: &str) -> String {
    let instead = match (of, mark) {
        ("while", _) => "set a flag and write while (flag != 0)",
        ("dynamic_check", "&&") => "write two checks",
        ("dynamic_check", _) => "set a flag in an if and check that",
        (_, "||") => "write the statements for each, or set a flag",
        _ => "nest ifs",
    };
    format!("a condition is one comparison: {instead}")
}
