//! A text as a tree, with a position at every node.

use crate::diagnostics::{Pos, Span};

#[derive(Clone, Debug)]
pub struct Name {
    pub text: String,
    pub at: Pos,
}

#[derive(Clone, Copy, Debug)]
pub struct Number {
    pub value: u32,
    pub at: Pos,
}

#[derive(Clone, Debug)]
pub enum Operand {
    Name(Name),
    Number(Number),
}

#[derive(Debug)]
pub struct Unit {
    pub objects: Vec<Object>,
    pub routines: Vec<Routine>,
}

#[derive(Debug)]
pub struct Object {
    pub name: Name,
    pub terminated: bool,
    pub dimensions: Vec<Number>,
}

#[derive(Debug)]
pub struct Routine {
    pub name: Name,
    /// The position behind it.
    pub end: Pos,
    pub parameters: Vec<Variable>,
    pub locals: Vec<Variable>,
    pub named: Vec<NamedBounds>,
    /// `#pragma rows`.
    pub has_rows: bool,
    pub body: Vec<Statement>,
    /// The result of an `unsigned` routine; a `void` one has none.
    pub result: Option<Name>,
}

#[derive(Debug)]
pub struct Variable {
    pub name: Name,
    pub shape: Type,
    /// A pointer has bounds, an integer has none.
    pub bounds: Option<Bounds>,
}

#[derive(Clone, Copy, Debug, PartialEq, Eq)]
pub enum Type {
    Integer,
    /// A row of `Some(n)` cells, or single cells.
    Pointer {
        terminated: bool,
        row: Option<u32>,
    },
}

#[derive(Debug)]
pub struct NamedBounds {
    pub name: Name,
    pub lower: Sum,
    pub upper: Sum,
}

#[derive(Clone, Debug)]
pub struct Bounds {
    pub at: Pos,
    pub kind: BoundsKind,
}

#[derive(Clone, Debug)]
pub enum BoundsKind {
    Count(Operand),
    Ends(Sum, Sum),
}

/// `[cast] NAME [op [NUMBER *] operand] [op operand]`: sums of integers, moved pointers, ends.
#[derive(Clone, Debug)]
pub struct Sum {
    pub cast: Option<Cast>,
    pub base: Name,
    pub terms: Vec<Term>,
}

/// A cast to a pointer to single cells.
#[derive(Clone, Copy, Debug)]
pub struct Cast {
    pub at: Pos,
    pub terminated: bool,
}

#[derive(Clone, Debug)]
pub struct Term {
    pub operator: Operator,
    pub at: Pos,
    pub coefficient: Option<Number>,
    pub operand: Operand,
}

#[derive(Clone, Copy, Debug, PartialEq, Eq)]
pub enum Operator {
    Add,
    Subtract,
    Multiply,
}

/// `p[i + m]`, `p[i + m][c]` or `*p`.
#[derive(Clone, Debug)]
pub struct Cell {
    pub pointer: Name,
    pub index: Option<Name>,
    pub element: i64,
    pub element_at: Pos,
    pub column: Option<i64>,
    /// Where the second index begins or would begin.
    pub second: Pos,
}

#[derive(Debug)]
pub struct Condition {
    pub left: Name,
    pub relation: Relation,
    pub right: Right,
}

/// In the order of the table.
#[derive(Clone, Copy, Debug, PartialEq, Eq)]
pub enum Relation {
    Less,
    GreaterEqual,
    Greater,
    LessEqual,
    Equal,
    NotEqual,
}

impl Relation {
    pub fn holds(self, a: u32, b: u32) -> bool {
        match self {
            Relation::Less => a < b,
            Relation::GreaterEqual => a >= b,
            Relation::Greater => a > b,
            Relation::LessEqual => a <= b,
            Relation::Equal => a == b,
            Relation::NotEqual => a != b,
        }
    }
}

pub const RELATIONS: [(&str, Relation); 6] = [
    ("<", Relation::Less),
    (">=", Relation::GreaterEqual),
    (">", Relation::Greater),
    ("<=", Relation::LessEqual),
    ("==", Relation::Equal),
    ("!=", Relation::NotEqual),
];

#[derive(Debug)]
pub enum Right {
    Name(Name),
    Number(Number),
    Null(Pos),
}

/// A loop fact.
#[derive(Debug)]
pub struct Fact {
    pub left: Name,
    pub relation: Relation,
    pub relation_at: Pos,
    pub right: FactRight,
}

#[derive(Debug)]
pub enum FactRight {
    Number { value: i64, at: Pos },
    Null(Pos),
    Sum(Sum),
}

#[derive(Debug)]
pub struct Where {
    pub pointer: Name,
    pub bounds: WhereBounds,
}

#[derive(Debug)]
pub enum WhereBounds {
    Inline(Bounds),
    Named(Name),
}

#[derive(Debug)]
pub struct Call {
    pub callee: Callee,
    /// `None` is `void`: an argument left out.
    pub arguments: Vec<Option<Name>>,
}

#[derive(Debug)]
pub enum Callee {
    Name(Name),
    /// `routines[k]`.
    Number(i64, Pos),
}

#[derive(Debug)]
pub struct Statement {
    pub at: Pos,
    /// The position behind it.
    pub end: Pos,
    pub kind: StatementKind,
}

#[derive(Debug)]
pub enum StatementKind {
    Assign {
        target: Name,
        value: Value,
        wheres: Vec<Where>,
    },
    Store {
        cell: Cell,
        value: Name,
    },
    Where(Vec<Where>),
    Check(Condition),
    Call {
        result: Option<Name>,
        call: Call,
    },
    /// With the position behind the then block.
    If {
        condition: Condition,
        then: Vec<Statement>,
        then_end: Pos,
        otherwise: Vec<Statement>,
    },
    While {
        condition: Condition,
        facts: Vec<Fact>,
        listed: Span,
        body: Vec<Statement>,
    },
    Bundle(Vec<Statement>),
}

#[derive(Debug)]
pub enum Value {
    Number(Number),
    Null(Pos),
    Sum(Sum),
    Cell(Cell),
}
