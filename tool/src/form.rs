//! Causes 1 to 6, as reasons in words: what is wrong with a record. The library decides; this says why.

use crate::map::RoutineMap;
use crate::names::Names;
use crate::table::{DirectoryFault, Table};

pub const MAX_OBJECTS: usize = 16;
pub const MAX_VARIABLES: usize = 16;
pub const MAX_STATEMENTS: usize = 1_024;
pub const MAX_ROWS: usize = 64;
pub const MAX_OBJECT_LENGTH: u32 = 1_000_000;
pub const MAX_CONSTANT: i32 = 65_536;
pub const MAX_SIZE: i32 = 8;
pub const MAX_DEPTH: usize = 6;
pub const MAX_BUNDLE: i32 = 16;
pub const MAX_ENTRIES: usize = 256;
pub const MAX_ROUTINES: usize = 8;

pub const SECTIONS: [&str; 4] = ["objects", "variables", "statements", "bounds rows"];

/// The words of a table at most: one whose first word is 8 has room for bounds rows.
pub fn max_words(words: &[i32]) -> usize {
    if words.first() == Some(&8) {
        7_704
    } else {
        7_318
    }
}

/// How many fields each kind of statement has; kind 0 is none.
const FIELDS: [usize; 16] = [0, 2, 3, 4, 1, 2, 3, 3, 4, 4, 4, 6, 5, 1, 2, 6];

/// One routine of a file, as its reasons need it.
#[derive(Clone, Copy)]
pub struct Form<'a> {
    pub table: &'a Table,
    /// Of routine 0, for all.
    pub objects: &'a [i32],
    pub names: &'a Names,
    pub routine: usize,
    /// Where there is a text, the lines of statements.
    pub map: Option<&'a RoutineMap>,
}

/// What is wrong with a record, or nothing.
type Reason = Result<(), String>;

fn wrong(reason: impl Into<String>) -> Reason {
    Err(reason.into())
}

/// Cause 2 of a directory that does not split.
pub fn directory_reason(fault: &DirectoryFault) -> String {
    match *fault {
        DirectoryFault::Short => "the table is shorter than its directory".to_string(),
        DirectoryFault::Offset(section, offset, due) => {
            format!("section {section} ({}) begins at word {offset}; {due} was due", SECTIONS[section])
        }
        DirectoryFault::Length(section, length, size) => {
            format!("section {section} ({}) has {length} words, no multiple of {size}", SECTIONS[section])
        }
        DirectoryFault::Past(section, length) => {
            format!(
                "section {section} ({}) has {length} words and reaches past the end of the table",
                SECTIONS[section]
            )
        }
        DirectoryFault::Rest(end, words) => {
            format!("the last section ends at word {end}, but the table has {words} words")
        }
    }
}

impl<'a> Form<'a> {
    pub fn new(tables: &'a [Table], names: &'a Names, routine: usize) -> Form<'a> {
        Form { table: &tables[routine], objects: &tables[0].objects, names, routine, map: None }
    }

    /// Whether every record reads and every block fits: what the printer asks of a table from words.
    pub fn reads(&self) -> bool {
        self.counts().is_ok()
            && (0..self.table.objects.len()).all(|o| self.object(o).is_ok())
            && (0..self.table.variables.len()).all(|v| self.variable(v).is_ok())
            && (0..self.row_count()).all(|row| self.row(row).is_ok())
            && (0..self.table.statements.len()).all(|s| self.statement(s).is_ok())
            && self.blocks().is_ok()
    }

    fn row_count(&self) -> usize {
        self.table.rows.as_ref().map_or(0, Vec::len)
    }

    fn name(&self, variable: i32) -> &'a str {
        &self.names.routines[self.routine].variables[variable as usize]
    }

    /// Cause 2: too many or too few.
    pub fn counts(&self) -> Reason {
        let counts = [
            (self.table.objects.len(), 0, MAX_OBJECTS),
            (self.table.variables.len(), 1, MAX_VARIABLES),
            (self.table.statements.len(), 0, MAX_STATEMENTS),
            (self.row_count(), 0, MAX_ROWS),
        ];
        for ((count, least, most), what) in counts.into_iter().zip(SECTIONS) {
            if count < least || count > most {
                let range = if least == 0 { format!("at most {most}") } else { format!("{least} to {most}") };
                return wrong(format!("the routine has {count} {what}; it may have {range}"));
            }
        }
        Ok(())
    }

    /// Cause 3.
    pub fn object(&self, object: usize) -> Reason {
        if self.routine > 0 {
            return wrong(format!("routine {} lists objects; only the first one of a set may", self.routine));
        }
        let cells = self.table.objects[object];
        if (1..=MAX_OBJECT_LENGTH).contains(&cells.unsigned_abs()) {
            return Ok(());
        }
        let name = &self.names.objects[object];
        wrong(format!("object `{name}` has {} cells; an object has 1 to 1,000,000", cells.unsigned_abs()))
    }

    /// Cause 4.
    pub fn variable(&self, v: usize) -> Reason {
        let record = &self.table.variables[v];
        match record[0] {
            0 => match record.iter().position(|&word| word != 0) {
                Some(at) => wrong(format!("word {at} of the record: an integer has zeros there")),
                None => Ok(()),
            },
            1 | 2 => {
                let name = self.name(v as i32);
                if !(0..=MAX_SIZE).contains(&record[1]) {
                    return wrong(format!(
                        "an element of `{name}` has {} cells; 1 to 8 are allowed",
                        record[1]
                    ));
                }
                self.ends(&record[2..], 2, &format!("`{name}`"))
            }
            kind => wrong(format!("word 0 of the record: {kind} is no kind of variable")),
        }
    }

    /// Cause 4, of a bounds row.
    pub fn row(&self, row: usize) -> Reason {
        let Some(record) = self.table.row(row) else { return wrong("no such row") };
        // A text shows which bounds are meant: they may have no name.
        let owner = if self.map.is_some() { "these bounds".to_string() } else { format!("row {row}") };
        self.ends(&record, 0, &owner)
    }

    fn ends(&self, words: &[i32], first: usize, owner: &str) -> Reason {
        for (end, (words, which)) in words.chunks_exact(3).zip(["lower", "upper"]).enumerate() {
            let at = first + 3 * end;
            if !self.is_pointer(words[0]) {
                return wrong(format!("word {at} of the record: {} names no pointer", words[0]));
            }
            if words[1] != -1 && !self.is_integer(words[1]) {
                return wrong(format!("word {} of the record: {} names no integer", at + 1, words[1]));
            }
            if words[2].unsigned_abs() > MAX_CONSTANT as u32 {
                return wrong(format!(
                    "the constant {} in the {which} end of {owner} is beyond 65,536",
                    words[2]
                ));
            }
        }
        Ok(())
    }

    fn kind(&self, variable: i32) -> Option<i32> {
        let record = usize::try_from(variable).ok().and_then(|v| self.table.variables.get(v));
        record.map(|record| record[0])
    }

    fn is_pointer(&self, variable: i32) -> bool {
        matches!(self.kind(variable), Some(1 | 2))
    }

    fn is_integer(&self, variable: i32) -> bool {
        self.kind(variable) == Some(0)
    }

    /// Cause 5.
    pub fn statement(&self, s: usize) -> Reason {
        let record = &self.table.statements[s];
        let kind = record[0];
        let used = usize::try_from(kind).ok().and_then(|kind| FIELDS.get(kind)).copied().unwrap_or(0);
        if used == 0 {
            return wrong(format!("{kind} is no kind of statement"));
        }
        if let Some(field) = (used + 1..7).find(|&field| record[field] != 0) {
            return wrong(format!("field {field} of kind {kind} is unused: 0 is due, not {}", record[field]));
        }
        // What each field has to be, in order: x integer, p pointer, i integer or -1, k constant, v variable or -1.
        let shape = match kind {
            1 | 13 => return if kind == 1 { self.fields(record, "x") } else { Ok(()) },
            2 => "xxk",
            3 => "xxx",
            4 => "p",
            5 => "po",
            6 => "ppk",
            7 => "ppx",
            8 => "xpik",
            9 => "pikx",
            10..=12 => return self.condition(record).and_then(|()| self.block_counts(record)),
            14 => "pr",
            _ => "-ivvvv",
        };
        self.fields(record, shape)?;
        if kind == 3 && !(0..=2).contains(&record[4]) {
            return wrong(format!("field 4 of kind 3: {} is no operation", record[4]));
        }
        self.kinds_meet(record)
    }

    fn fields(&self, record: &[i32; 7], shape: &str) -> Reason {
        for (field, due) in (1..).zip(shape.chars()) {
            let word = record[field];
            let (fits, what) = match due {
                'x' => (self.is_integer(word), "integer"),
                'p' => (self.is_pointer(word), "pointer"),
                'i' => (word == -1 || self.is_integer(word), "integer"),
                'v' => (word == -1 || self.kind(word).is_some(), "variable"),
                'o' => ((0..self.objects.len() as i32).contains(&word), "object"),
                'r' if self.table.rows.is_none() => {
                    return wrong("this table has no bounds rows: its first offset is 6");
                }
                'r' => ((0..self.row_count() as i32).contains(&word), "bounds row"),
                'k' if word.unsigned_abs() > MAX_CONSTANT as u32 => {
                    return wrong(format!("the constant {word} is beyond 65,536"));
                }
                _ => continue,
            };
            if !fits {
                return wrong(format!("field {field} of kind {}: {word} names no {what}", record[0]));
            }
        }
        Ok(())
    }

    /// Plain and terminated pointers meet in one direction only.
    fn kinds_meet(&self, record: &[i32; 7]) -> Reason {
        let [kind, p, q, ..] = *record;
        match kind {
            5 if self.kind(p) == Some(2) && self.objects[q as usize] > 0 => {
                let (object, name) = (&self.names.objects[q as usize], self.name(p));
                wrong(format!("`{object}` is a plain object and `{name}` an nt_array_ptr"))
            }
            6 | 7 if self.kind(p) == Some(2) && self.kind(q) == Some(1) => {
                wrong("an array_ptr cannot become an nt_array_ptr")
            }
            _ => Ok(()),
        }
    }

    fn condition(&self, record: &[i32; 7]) -> Reason {
        let [kind, left, relation, form, right, ..] = *record;
        let Some(left_kind) = self.kind(left) else {
            return wrong(format!("field 1 of kind {kind}: {left} names no variable"));
        };
        if !(0..=5).contains(&relation) {
            return wrong(format!("field 2 of kind {kind}: {relation} is no relation"));
        }
        match (form, self.kind(right)) {
            (0, Some(right_kind)) if right_kind == left_kind => Ok(()),
            (0, Some(_)) => {
                wrong(format!("`{}` and `{}` are of different kinds", self.name(left), self.name(right)))
            }
            (0, None) => wrong(format!("field 4 of kind {kind}: {right} names no variable")),
            (1, _) if left_kind == 0 || right == 0 => Ok(()),
            (1, _) => wrong("a pointer is compared with NULL or a pointer"),
            _ => wrong(format!("field 3 of kind {kind}: {form} is no form of a condition")),
        }
    }

    fn block_counts(&self, record: &[i32; 7]) -> Reason {
        let counts = if record[0] == 10 { &[][..] } else { &record[5..] };
        match counts.iter().find(|count| **count < 0) {
            Some(count) => wrong(format!("a block has {count} statements")),
            None => Ok(()),
        }
    }

    /// Cause 6: the first head or statement that does not fit, with its reason.
    pub fn blocks(&self) -> Result<(), (usize, String)> {
        self.block(0, self.table.statements.len(), 0)
    }

    fn block(&self, start: usize, end: usize, depth: usize) -> Result<(), (usize, String)> {
        let mut s = start;
        while s < end {
            if depth > MAX_DEPTH {
                return Err((s, format!("this statement is nested {depth} deep; {MAX_DEPTH} is the limit")));
            }
            let extent = self.table.extent(s);
            if extent > end - s {
                let (counted, left) = (extent - 1, end - s - 1);
                return Err((s, format!("{counted} statements are counted, {left} are left in the block")));
            }
            let record = &self.table.statements[s];
            match record[0] {
                11 => {
                    let middle = s + 1 + record[5] as usize;
                    self.block(s + 1, middle, depth + 1)?;
                    self.block(middle, s + extent, depth + 1)?;
                }
                12 => self.block(s + 1, s + extent, depth + 1)?,
                13 => self.bundle(s, record[1]).map_err(|reason| (s, reason))?,
                _ => {}
            }
            s += extent;
        }
        Ok(())
    }

    fn bundle(&self, head: usize, count: i32) -> Reason {
        if !(1..=MAX_BUNDLE).contains(&count) {
            return wrong(format!("a bundle holds 1 to 16 statements; this one holds {count}"));
        }
        let mut inside = head + 1..head + 1 + count as usize;
        let Some(s) = inside.find(|&s| matches!(self.table.statements[s][0], 11..=13 | 15)) else {
            return Ok(());
        };
        let what = match self.table.statements[s][0] {
            11 => "an if",
            12 => "a while",
            13 => "a bundle",
            _ => "a call",
        };
        let place = self.map.and_then(|map| map.statements.get(s));
        let place = place.map_or_else(|| format!("statement {s}"), |at| format!("line {}", at.line));
        wrong(format!("a bundle holds plain statements; {place} is {what}"))
    }
}

/// What a list of loop facts has that does not fit its table: the entry and the reason.
pub fn list_fault(table: &Table, names: &Names, facts: &[i32]) -> Result<(), (usize, String)> {
    let entries = facts.len().div_ceil(4);
    if entries > MAX_ENTRIES {
        return Err((MAX_ENTRIES, format!("there are {entries} loop facts; {MAX_ENTRIES} is the limit")));
    }
    let mut before = 0;
    for (number, entry) in facts.chunks(4).enumerate() {
        let wrong = |reason: String| Err((number, reason));
        let &[statement, x, y, k] = entry else { return wrong(format!("entry {number} is cut short")) };
        let head = usize::try_from(statement).ok().and_then(|s| table.statements.get(s));
        if head.is_none_or(|record| record[0] != 12) {
            return wrong(format!("entry {number} names no while"));
        }
        if statement < before {
            return wrong(format!("entry {number} is out of order"));
        }
        before = statement;
        let kind =
            |v: i32| usize::try_from(v).ok().and_then(|v| table.variables.get(v)).map(|record| record[0]);
        let named = [x, y].map(|v| v == -1 || kind(v).is_some());
        if named != [true, true] || (x, y) == (-1, -1) {
            return wrong(format!("entry {number} names no variable"));
        }
        if x != -1 && y != -1 && kind(x) != kind(y) {
            let name = |v: i32| &names.routines[0].variables[v as usize];
            return wrong(format!("`{}` and `{}` are of different kinds", name(x), name(y)));
        }
        if k.unsigned_abs() > MAX_CONSTANT as u32 {
            return wrong(format!("the constant {k} is beyond 65,536"));
        }
    }
    Ok(())
}
