//! The statements of a routine table: causes 5 and 6.

use crate::answer::Refusal;
use crate::syntax::*;
use crate::table::{constant, MAX_BUNDLE, MAX_DEPTH, MAX_VARIABLES, STATEMENT_WORDS};

/// Point 13: the number by which "a new text that breaks 5, is not exactly one statement with its blocks (6) or breaks 6"
/// is refused, as a top-level statement of the routine.
pub fn text_refusal(routine: &Routine, text: &[i32]) -> Option<u8> {
    let mut names = Names::new(&routine.kinds, &routine.objects, routine.rows.len());
    let Ok(statements) = read_statements(text, &mut names) else { return Some(5) };
    let is_one = statements.first().is_some_and(|first| first.size() == statements.len());
    let whole = text.len() % STATEMENT_WORDS == 0;
    let right = whole && is_one && check_block(&statements, 0, statements.len(), 0).is_ok();
    (!right).then_some(6)
}

/// Cause 5, over all whole records.
pub(crate) fn read_statements(words: &[i32], names: &mut Names) -> Result<Vec<Statement>, Refusal> {
    let mut statements = Vec::with_capacity(words.len() / STATEMENT_WORDS);
    for (s, record) in words.chunks_exact(STATEMENT_WORDS).enumerate() {
        let record = record.try_into().expect("chunks of seven");
        statements.push(names.statement(record).ok_or(Refusal::at(5, s))?);
    }
    Ok(statements)
}

/// Point 1: "A negative word as an integer literal .. means that word plus 4,294,967,296."
fn literal(word: i32) -> u32 {
    word as u32
}

/// How many fields each kind has; kind 0 is none.
const FIELDS: [usize; KINDS] = [0, 2, 3, 4, 1, 2, 3, 3, 4, 4, 4, 6, 5, 1, 2, 6];
const KINDS: usize = 16;

/// The fields that have to be 0, as masks over their words.
const UNUSED: [[i32; 6]; KINDS] = {
    let mut masks = [[0; 6]; KINDS];
    let mut kind = 0;
    while kind < KINDS {
        let mut field = FIELDS[kind];
        while field < 6 {
            masks[kind][field] = -1;
            field += 1;
        }
        kind += 1;
    }
    masks
};

fn in_mask(mask: u32, word: i32) -> bool {
    (0..MAX_VARIABLES as i32).contains(&word) && mask >> word & 1 != 0
}

/// What a statement record may name: bit v for variable v, bit o for a terminated object o.
pub(crate) struct Names {
    integers: u32,
    arrays: u32,
    terminated: u32,
    objects: i32,
    terminated_objects: u32,
    rows: i32,
    /// Gathered on the way.
    pub(crate) compared: u16,
}

impl Names {
    pub(crate) fn new(kinds: &[Kind], objects: &[Object], rows: usize) -> Names {
        let mask = |wanted: Kind| {
            let bits = kinds.iter().enumerate().filter(|(_, &kind)| kind == wanted);
            bits.fold(0, |mask, (v, _)| mask | 1u32 << v)
        };
        Names {
            integers: mask(Kind::Integer),
            arrays: mask(Kind::Pointer),
            terminated: mask(Kind::Terminated),
            objects: objects.len() as i32,
            terminated_objects: objects.iter().rev().fold(0, |mask, o| mask << 1 | u32::from(o.terminated)),
            rows: rows as i32,
            compared: 0,
        }
    }

    fn integer(&self, word: i32) -> Option<Var> {
        in_mask(self.integers, word).then_some(word as Var)
    }

    fn pointer(&self, word: i32) -> Option<Var> {
        in_mask(self.arrays | self.terminated, word).then_some(word as Var)
    }

    /// The result of a call, and the index of an access, where it counts as 0: an integer variable or -1.
    fn index(&self, word: i32) -> Option<Option<Var>> {
        if word == -1 {
            return Some(None);
        }
        self.integer(word).map(Some)
    }

    fn object(&self, word: i32) -> Option<u8> {
        (0..self.objects).contains(&word).then_some(word as u8)
    }

    /// The pointers of kinds 6 and 7. Point 7: they "may take a kind 2 pointer to an array_ptr", but not the other way.
    fn pointers(&self, p: i32, q: i32) -> Option<(Var, Var)> {
        let up = in_mask(self.terminated, p) && in_mask(self.arrays, q);
        (!up).then_some((self.pointer(p)?, self.pointer(q)?))
    }

    /// Kind 5. Point 7: "the address of a plain object" is nothing for a kind 2 pointer.
    fn address(&self, p: i32, object: i32) -> Option<Statement> {
        let object = self.object(object)?;
        let plain = self.terminated_objects >> object & 1 == 0;
        let up = in_mask(self.terminated, p) && plain;
        (!up).then_some(Statement::Address { p: self.pointer(p)?, object })
    }

    fn row(&self, word: i32) -> Option<Row> {
        (0..self.rows).contains(&word).then_some(word as Row)
    }

    /// An argument of a call: any variable or -1.
    fn argument(&self, word: i32) -> Option<Option<Var>> {
        if word == -1 {
            return Some(None);
        }
        in_mask(self.integers | self.arrays | self.terminated, word).then_some(Some(word as Var))
    }

    /// Form 0: a variable of the same kind. Form 1: a literal, only 0 beside a pointer.
    fn condition(&mut self, left: i32, relation: i32, form: i32, right: i32) -> Option<Condition> {
        let kinds = [self.integers, self.arrays, self.terminated];
        let same_kind = kinds.into_iter().find(|&kind| in_mask(kind, left))?;
        let relation = *RELATIONS.get(relation as u32 as usize)?;
        let right = match form {
            0 if in_mask(same_kind, right) => Right::Variable(right as Var),
            1 if right == 0 || same_kind == self.integers => Right::Literal(literal(right)),
            _ => return None,
        };
        let left = left as Var;
        self.compared |= 1 << left;
        if let Right::Variable(v) = right {
            self.compared |= 1 << v;
        }
        Some(Condition { left, relation, right })
    }

    fn statement(&mut self, record: &[i32; STATEMENT_WORDS]) -> Option<Statement> {
        let [kind, a, b, c, d, e, f] = *record;
        let unused = UNUSED.get(kind as u32 as usize)?;
        let stray = (0..6).fold(0, |stray, field| stray | record[1 + field] & unused[field]);
        if stray != 0 {
            return None;
        }
        Some(match kind {
            1 => Statement::Literal { x: self.integer(a)?, literal: literal(b) },
            2 => {
                let (x, y) = (self.integer(a)?, self.integer(b)?);
                self.compared |= 1 << y;
                Statement::AddConstant { x, y, k: constant(c)? }
            }
            3 => {
                let operator = match d {
                    0 => Operator::Add,
                    1 => Operator::Subtract,
                    2 => Operator::Multiply,
                    _ => return None,
                };
                let (x, y, z) = (self.integer(a)?, self.integer(b)?, self.integer(c)?);
                Statement::Operate { x, y, z, operator }
            }
            4 => Statement::Null { p: self.pointer(a)? },
            5 => self.address(a, b)?,
            6 => {
                let (p, q) = self.pointers(a, b)?;
                Statement::MovePointer { p, q, k: constant(c)? }
            }
            7 => {
                let (p, q) = self.pointers(a, b)?;
                Statement::IndexPointer { p, q, i: self.integer(c)? }
            }
            8 => {
                let (x, p) = (self.integer(a)?, self.pointer(b)?);
                Statement::Load { x, p, i: self.index(c)?, k: constant(d)? }
            }
            9 => {
                let (p, i) = (self.pointer(a)?, self.index(b)?);
                Statement::Store { p, i, k: constant(c)?, x: self.integer(d)? }
            }
            10 => Statement::Check { condition: self.condition(a, b, c, d)? },
            11 => Statement::If {
                condition: self.condition(a, b, c, d)?,
                then_count: u32::try_from(e).ok()?,
                else_count: u32::try_from(f).ok()?,
            },
            12 => Statement::While { condition: self.condition(a, b, c, d)?, count: u32::try_from(e).ok()? },
            13 => Statement::Bundle { count: a },
            14 => Statement::Declare { p: self.pointer(a)?, row: self.row(b)? },
            15 => {
                let arguments = [self.argument(c)?, self.argument(d)?, self.argument(e)?, self.argument(f)?];
                self.compared |= arguments.iter().flatten().fold(0, |mask, v| mask | 1 << v);
                Statement::Call(Call { callee: a, result: self.index(b)?, arguments })
            }
            _ => return None,
        })
    }
}

/// Cause 6, in table order: a statement too deep, a block past its parent's
/// end, a bundle's count or contents. The error is the place.
pub(crate) fn check_block(
    statements: &[Statement],
    start: usize,
    end: usize,
    depth: usize,
) -> Result<(), usize> {
    let mut s = start;
    while s < end {
        let statement = &statements[s];
        if depth > MAX_DEPTH {
            return Err(s);
        }
        if !statement.is_head() {
            s += 1;
            continue;
        }
        if statement.size() > end - s {
            return Err(s);
        }
        let next = s + statement.size();
        match *statement {
            Statement::If { then_count, .. } => {
                let middle = s + 1 + then_count as usize;
                check_block(statements, s + 1, middle, depth + 1)?;
                check_block(statements, middle, next, depth + 1)?;
            }
            Statement::While { .. } => check_block(statements, s + 1, next, depth + 1)?,
            Statement::Bundle { count } => {
                let right_count = (1..=MAX_BUNDLE as i32).contains(&count);
                if !right_count || !statements[s + 1..next].iter().all(Statement::fits_bundle) {
                    return Err(s);
                }
            }
            _ => {}
        }
        s = next;
    }
    Ok(())
}
