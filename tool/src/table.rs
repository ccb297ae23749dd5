//! The words of a table as records, section by section.

use std::collections::BTreeSet;
use std::ops::Range;

pub const VARIABLE_WORDS: usize = 8;
pub const STATEMENT_WORDS: usize = 7;
pub const ROW_WORDS: usize = 6;

#[derive(Clone, Debug, PartialEq, Eq)]
pub struct Table {
    pub objects: Vec<i32>,
    pub variables: Vec<[i32; VARIABLE_WORDS]>,
    pub statements: Vec<[i32; STATEMENT_WORDS]>,
    /// The fourth section, where there is one.
    pub rows: Option<Vec<[i32; ROW_WORDS]>>,
}

/// What is wrong with the directory of a table.
#[derive(Clone, Debug, PartialEq, Eq)]
pub enum DirectoryFault {
    /// Fewer words than a directory has.
    Short,
    /// Section, where it begins, where it is due.
    Offset(usize, i32, usize),
    /// Section, its length, what that is no multiple of.
    Length(usize, i32, usize),
    /// Section, its length: it reaches past the table.
    Past(usize, i32),
    /// Where the last section ends, and the words of the table.
    Rest(usize, usize),
}

impl Table {
    pub fn split(words: &[i32]) -> Result<Table, DirectoryFault> {
        let sections = if words.first() == Some(&8) { 4 } else { 3 };
        if words.len() < 2 * sections {
            return Err(DirectoryFault::Short);
        }
        let sizes = [1, VARIABLE_WORDS, STATEMENT_WORDS, ROW_WORDS];
        let mut parts: Vec<&[i32]> = Vec::new();
        let mut start = 2 * sections;
        for (section, size) in sizes.into_iter().take(sections).enumerate() {
            let (offset, length) = (words[2 * section], words[2 * section + 1]);
            if usize::try_from(offset) != Ok(start) {
                return Err(DirectoryFault::Offset(section, offset, start));
            }
            let count = usize::try_from(length).ok().filter(|count| count % size == 0);
            let Some(count) = count else {
                return Err(DirectoryFault::Length(section, length, size));
            };
            let part = words.get(start..start.saturating_add(count));
            parts.push(part.ok_or(DirectoryFault::Past(section, length))?);
            start += count;
        }
        if start != words.len() {
            return Err(DirectoryFault::Rest(start, words.len()));
        }
        Ok(Table {
            objects: parts[0].to_vec(),
            variables: records(parts[1]),
            statements: records(parts[2]),
            rows: parts.get(3).map(|rows| records(rows)),
        })
    }

    /// Sections one behind the other, their offsets and lengths before them.
    pub fn words(&self) -> Vec<i32> {
        let mut sections = vec![self.objects.clone(), self.variables.concat(), self.statements.concat()];
        sections.extend(self.rows.as_ref().map(|rows| rows.concat()));
        let mut words = Vec::new();
        let mut offset = 2 * sections.len();
        for section in &sections {
            words.extend([offset as i32, section.len() as i32]);
            offset += section.len();
        }
        words.extend(sections.concat());
        words
    }

    /// The table with one more statement before another, in its block.
    pub fn with_before(&self, statement: usize, record: [i32; STATEMENT_WORDS]) -> Table {
        let mut table = self.clone();
        table.grow_around(statement);
        table.statements.insert(statement, record);
        table
    }

    /// The table with one more statement at the end of an if's block: field 5 counts the then block, field 6 the else block.
    pub fn with_last(&self, head: usize, field: usize, record: [i32; STATEMENT_WORDS]) -> Table {
        let mut table = self.clone();
        table.grow_around(head);
        let counts = self.statements[head][5..=field].iter().sum::<i32>();
        table.statements[head][field] += 1;
        table.statements.insert(head + 1 + counts as usize, record);
        table
    }

    /// The table with so many plain statements of one block in a bundle, whose head has the number of the first one.
    pub fn with_bundle(&self, first: usize, count: usize) -> Table {
        self.with_before(first, [13, count as i32, 0, 0, 0, 0, 0])
    }

    /// The heads whose blocks a statement stands in, outermost first.
    fn heads_around(&self, statement: usize) -> Vec<usize> {
        (0..statement).filter(|&head| statement < head + self.extent(head)).collect()
    }

    /// The head of the bundle that a statement stands in.
    pub fn bundle_around(&self, statement: usize) -> Option<usize> {
        self.heads_around(statement).into_iter().find(|&head| self.statements[head][0] == 13)
    }

    /// The numbers of the statements in the innermost block that a statement stands in.
    pub fn block_around(&self, statement: usize) -> Range<usize> {
        let Some(&head) = self.heads_around(statement).last() else { return 0..self.statements.len() };
        let end = head + self.extent(head);
        match self.statements[head] {
            [11, _, _, _, _, then, _] => {
                let middle = head + 1 + then as usize;
                if statement < middle {
                    head + 1..middle
                } else {
                    middle..end
                }
            }
            _ => head + 1..end,
        }
    }

    /// The last statement of an if's block itself, not of a block in it; field 5 counts the then block, field 6 the else block.
    pub fn last_of_block(&self, head: usize, field: usize) -> Option<usize> {
        let start = head + 1 + if field == 6 { self.statements[head][5] as usize } else { 0 };
        let end = start + self.statements[head][field] as usize;
        let next = |s: &usize| Some(s + self.extent(*s)).filter(|&next| next < end);
        std::iter::successors((start < end).then_some(start), next).last()
    }

    /// Counts one more statement in every block that a statement stands in.
    fn grow_around(&mut self, statement: usize) {
        for head in self.heads_around(statement) {
            let words = &mut self.statements[head];
            let field = match words[0] {
                13 => 1,
                11 if statement > head + words[5] as usize => 6,
                _ => 5,
            };
            words[field] += 1;
        }
    }

    /// The variable that a statement sets; none where it sets no variable.
    pub fn target(&self, statement: usize) -> Option<i32> {
        match self.statements[statement] {
            [1..=8, target, ..] => Some(target),
            [15, _, result, ..] if result >= 0 => Some(result),
            _ => None,
        }
    }

    /// The variables that the blocks of a head set, lowest first.
    pub fn assigned(&self, head: usize) -> Vec<i32> {
        let inside = head + 1..head + self.extent(head);
        let targets: BTreeSet<i32> = inside.filter_map(|s| self.target(s)).collect();
        targets.into_iter().collect()
    }

    /// The bounds that a pointer is declared with.
    pub fn own_bounds(&self, pointer: usize) -> [i32; ROW_WORDS] {
        let [_, _, ends @ ..] = self.variables[pointer];
        ends
    }

    pub fn row(&self, row: usize) -> Option<[i32; ROW_WORDS]> {
        self.rows.as_ref()?.get(row).copied()
    }

    /// Cells in an element of a pointer.
    pub fn size(&self, pointer: i32) -> i32 {
        self.variables[pointer as usize][1].max(1)
    }

    pub fn is_pointer(&self, variable: i32) -> bool {
        self.variables[variable as usize][0] != 0
    }

    pub fn is_terminated(&self, variable: i32) -> bool {
        self.variables[variable as usize][0] == 2
    }

    /// How many statements a head takes with all its blocks, itself too.
    pub fn extent(&self, statement: usize) -> usize {
        extent(&self.statements[statement])
    }
}

/// The records of a statement with those of its blocks.
pub fn extent(record: &[i32; STATEMENT_WORDS]) -> usize {
    let counted: i64 = match record[0] {
        11 => i64::from(record[5]) + i64::from(record[6]),
        12 => i64::from(record[5]),
        13 => i64::from(record[1]),
        _ => 0,
    };
    1 + counted.max(0) as usize
}

fn records<const N: usize>(words: &[i32]) -> Vec<[i32; N]> {
    words.chunks_exact(N).map(|record| record.try_into().expect("chunks of that size")).collect()
}

/// Pointer, index and constant of an access, kind 8 or 9.
pub fn accessed(record: &[i32; STATEMENT_WORDS]) -> (i32, i32, i32) {
    if record[0] == 8 {
        (record[2], record[3], record[4])
    } else {
        (record[1], record[2], record[3])
    }
}
