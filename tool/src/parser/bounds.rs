//! Bounds, their ends and casts, named bounds, where clauses.

use super::Parser;
use crate::diagnostics::Fallible;
use crate::tokens::Kind;
use crate::tree::*;

impl Parser<'_> {
    /// `count` and `bounds` are names elsewhere: here a parenthesis follows.
    fn is_bounds(&self) -> bool {
        matches!(self.peek().text, "count" | "bounds") && self.ahead(1).is("(")
    }

    pub(super) fn bounds(&mut self) -> Fallible<Bounds> {
        if !self.is_bounds() {
            return self.unexpected("`count(..)` or `bounds(.., ..)`");
        }
        let keyword = self.take();
        self.expect("(")?;
        let kind = if keyword.text == "count" { self.count()? } else { self.ends()? };
        self.expect(")")?;
        Ok(Bounds { at: keyword.at, kind })
    }

    fn count(&mut self) -> Fallible<BoundsKind> {
        let count = match self.accept_number() {
            Some(number) => Operand::Number(number),
            None => Operand::Name(self.name()?),
        };
        if !self.is(")") {
            return self.wrong("a count is a variable or a number; for more write bounds(p, p + n ..)");
        }
        Ok(BoundsKind::Count(count))
    }

    fn ends(&mut self) -> Fallible<BoundsKind> {
        let lower = self.address()?;
        self.expect(",")?;
        Ok(BoundsKind::Ends(lower, self.address()?))
    }

    /// `[cast] q [+ [c *] n] [+ m]`; what each part may be is asked when the words are made.
    pub(super) fn address(&mut self) -> Fallible<Sum> {
        let cast = self.cast()?;
        let base = self.name()?;
        let sum = self.sum(cast, base, false)?;
        if self.is("*") {
            return self.wrong("the number comes first in a product here: p + 3 * n");
        }
        if self.is("+") || self.is("-") {
            return self.wrong("an end is a pointer, a variable and a number: nothing more");
        }
        Ok(sum)
    }

    /// `(array_ptr<unsigned>)`, to count in cells.
    pub(super) fn cast(&mut self) -> Fallible<Option<Cast>> {
        if !self.accept("(") {
            return Ok(None);
        }
        let cast = Cast { at: self.at(), terminated: self.is("nt_array_ptr") };
        if !cast.terminated && !self.is("array_ptr") {
            return self.wrong("parentheses stand around a cast only: (array_ptr<unsigned>)p");
        }
        self.take();
        self.expect("<")?;
        self.unsigned("`unsigned`")?;
        if self.is("checked") {
            return self.wrong("the only cast is to a pointer to unsigned, to count in cells");
        }
        self.expect(">")?;
        self.expect(")")?;
        Ok(Some(cast))
    }

    /// `#define NAME bounds(lower, upper)`, on one line.
    pub(super) fn named_bounds(&mut self) -> Fallible<NamedBounds> {
        self.take();
        let name = self.name()?;
        let Bounds { kind: BoundsKind::Ends(lower, upper), .. } = self.bounds()? else {
            return self.unexpected("`bounds(.., ..)`");
        };
        self.end_line()?;
        Ok(NamedBounds { name, lower, upper })
    }

    pub(super) fn pragma(&mut self) -> Fallible<()> {
        self.take();
        if self.peek().text != "rows" {
            return self.unexpected("`rows`");
        }
        self.take();
        self.end_line()
    }

    fn end_line(&mut self) -> Fallible<()> {
        if self.peek().kind != Kind::LineEnd {
            return self.unexpected("end of line");
        }
        self.take();
        Ok(())
    }

    /// `where p : bounds and q : bounds`.
    pub(super) fn wheres(&mut self) -> Fallible<Vec<Where>> {
        self.expect("where")?;
        let mut wheres = vec![self.one_where()?];
        while self.accept("and") {
            wheres.push(self.one_where()?);
        }
        Ok(wheres)
    }

    fn one_where(&mut self) -> Fallible<Where> {
        let pointer = self.name()?;
        if !self.accept(":") {
            return self.wrong(
                "a where statement declares bounds (`where p : count(n);`); to test a fact write dynamic_check",
            );
        }
        let bounds = if self.is_bounds() || !self.is_name() {
            WhereBounds::Inline(self.bounds()?)
        } else {
            WhereBounds::Named(self.name()?)
        };
        Ok(Where { pointer, bounds })
    }
}
