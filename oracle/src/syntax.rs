//! A decoded routine: objects, variables with their bounds, typed statements.

pub type Var = u8;
/// A bounds row by its number (point 2).
pub type Row = u8;

/// Variable kinds in the order of their words: integer, array_ptr, nt_array_ptr (point 7).
#[derive(Clone, Copy, Debug, PartialEq, Eq)]
pub enum Kind {
    Integer,
    Pointer,
    Terminated,
}

impl Kind {
    pub fn is_pointer(self) -> bool {
        self != Kind::Integer
    }
}

/// Point 7: "An object word below 0 marks a terminated object of that many cells, sign removed, and its last cell is 0."
#[derive(Clone, Copy, Debug, PartialEq, Eq)]
pub struct Object {
    pub length: u32,
    pub terminated: bool,
}

impl Object {
    /// How far above its first cell an upper end may lie: in a terminated object it "must be at most high - 1".
    pub fn room(self) -> u32 {
        self.length - u32::from(self.terminated)
    }
}

/// An end's value is the whole number pointer + s times integer + constant, with the element size s of the pointer
/// that it bounds (point 10).
#[derive(Clone, Copy, Debug, PartialEq, Eq)]
pub struct End {
    pub pointer: Var,
    pub integer: Option<Var>,
    pub constant: i32,
}

#[derive(Clone, Copy, Debug, PartialEq, Eq)]
pub struct Bounds {
    pub lower: End,
    pub upper: End,
}

/// Relations in the order of the table: <, >=, >, <=, ==, !=.
#[derive(Clone, Copy, Debug, PartialEq, Eq)]
#[repr(u8)]
pub enum Relation {
    Less,
    GreaterEqual,
    Greater,
    LessEqual,
    Equal,
    NotEqual,
}

use Relation::*;

pub const RELATIONS: [Relation; 6] = [Less, GreaterEqual, Greater, LessEqual, Equal, NotEqual];

/// Point 3: "an even relation goes up by one, an odd one down."
pub fn negation(relation: usize) -> usize {
    match relation % 2 {
        0 => relation + 1,
        _ => relation - 1,
    }
}

impl Relation {
    pub fn negated(self) -> Relation {
        RELATIONS[negation(self as usize)]
    }

    pub fn holds(self, left: i64, right: i64) -> bool {
        match self {
            Less => left < right,
            GreaterEqual => left >= right,
            Greater => left > right,
            LessEqual => left <= right,
            Equal => left == right,
            NotEqual => left != right,
        }
    }
}

#[derive(Clone, Copy, Debug, PartialEq, Eq)]
pub enum Right {
    Variable(Var),
    Literal(u32),
}

#[derive(Clone, Copy, Debug, PartialEq, Eq)]
pub struct Condition {
    pub left: Var,
    pub relation: Relation,
    pub right: Right,
}

impl Condition {
    pub fn negated(self) -> Condition {
        Condition { relation: self.relation.negated(), ..self }
    }
}

#[derive(Clone, Copy, Debug, PartialEq, Eq)]
pub enum Operator {
    Add,
    Subtract,
    Multiply,
}

#[derive(Clone, Copy, Debug, PartialEq, Eq)]
pub enum Statement {
    Literal {
        x: Var,
        literal: u32,
    },
    AddConstant {
        x: Var,
        y: Var,
        k: i32,
    },
    Operate {
        x: Var,
        y: Var,
        z: Var,
        operator: Operator,
    },
    Null {
        p: Var,
    },
    Address {
        p: Var,
        object: u8,
    },
    MovePointer {
        p: Var,
        q: Var,
        k: i32,
    },
    IndexPointer {
        p: Var,
        q: Var,
        i: Var,
    },
    Load {
        x: Var,
        p: Var,
        i: Option<Var>,
        k: i32,
    },
    Store {
        p: Var,
        i: Option<Var>,
        k: i32,
        x: Var,
    },
    Check {
        condition: Condition,
    },
    If {
        condition: Condition,
        then_count: u32,
        else_count: u32,
    },
    While {
        condition: Condition,
        count: u32,
    },
    /// The count as the table has it; 1 to 16 once cause 6 is excluded.
    Bundle {
        count: i32,
    },
    /// Kind 14 (point 2): the row is the pointer's declared bound from here on.
    Declare {
        p: Var,
        row: Row,
    },
    /// Kind 15 (point 14): "kind 15 calls one".
    Call(Call),
}

/// Point 14: "fields callee, integer result variable or -1, then four argument variables, unused ones -1 at the end".
/// The callee's number and the order of the arguments are the walk's to judge.
#[derive(Clone, Copy, Debug, PartialEq, Eq)]
pub struct Call {
    pub callee: i32,
    pub result: Option<Var>,
    pub arguments: [Option<Var>; 4],
}

impl Statement {
    /// The variable that kinds 1 to 8 and the result of a call assign.
    pub fn target(&self) -> Option<Var> {
        match *self {
            Statement::Literal { x, .. }
            | Statement::AddConstant { x, .. }
            | Statement::Operate { x, .. }
            | Statement::Load { x, .. } => Some(x),
            Statement::Null { p }
            | Statement::Address { p, .. }
            | Statement::MovePointer { p, .. }
            | Statement::IndexPointer { p, .. } => Some(p),
            Statement::Call(call) => call.result,
            _ => None,
        }
    }

    /// Itself and all statements of its blocks.
    pub fn size(&self) -> usize {
        match *self {
            Statement::If { then_count, else_count, .. } => 1 + then_count as usize + else_count as usize,
            Statement::While { count, .. } => 1 + count as usize,
            Statement::Bundle { count } => 1 + count.max(0) as usize,
            _ => 1,
        }
    }

    pub fn is_head(&self) -> bool {
        matches!(self, Statement::If { .. } | Statement::While { .. } | Statement::Bundle { .. })
    }

    /// "A bundle holds kinds 1 to 10 only", and by point 2 kind 14.
    pub fn fits_bundle(&self) -> bool {
        !self.is_head() && !matches!(self, Statement::Call(_))
    }
}

/// A routine that none of the causes 1 to 6 refuses.
#[derive(Clone, Debug)]
pub struct Routine {
    /// In a set those of routine 0 (point 14).
    pub objects: Vec<Object>,
    pub kinds: Vec<Kind>,
    /// The variables' own bounds; `None` for an integer.
    pub bounds: Vec<Option<Bounds>>,
    /// The element sizes in cells (point 10), 1 to 8; of an integer 1.
    pub sizes: Vec<u8>,
    /// The bounds rows (point 2).
    pub rows: Vec<Bounds>,
    pub statements: Vec<Statement>,
    /// Bit v for each variable that a condition or the right side of kind 2 reads, or that is an argument of a call.
    pub compared: u16,
}

impl Routine {
    /// The element size of a pointer, in cells.
    pub fn size(&self, p: Var) -> i64 {
        i64::from(self.sizes[usize::from(p)])
    }
}

#[cfg(test)]
mod tests {
    use super::*;

    #[test]
    fn the_six_negations() {
        assert_eq!([0, 1, 2, 3, 4, 5].map(negation), [1, 0, 3, 2, 5, 4]);
    }

    #[test]
    fn exactly_one_of_a_relation_and_its_negation_holds() {
        let values = [0, 1, 2, 9, 65_536, 2_147_483_647, 2_147_483_648, 4_294_967_294, 4_294_967_295];
        for relation in RELATIONS {
            for left in values {
                for right in values {
                    let negated = relation.negated().holds(left, right);
                    assert_ne!(relation.holds(left, right), negated, "{left} {relation:?} {right}");
                }
            }
        }
    }
}
