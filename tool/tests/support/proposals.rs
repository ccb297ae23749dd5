//! What proposed loop facts bring, counted over routines.

use super::{loops, Random};
use mizzengrape_tool::library::{check_table, Verdict};
use mizzengrape_tool::program::Program;
use mizzengrape_tool::propose::propose;
use std::fmt;

#[derive(Debug, Default, PartialEq, Eq)]
pub struct Figures {
    pub routines: usize,
    pub accesses: usize,
    /// Accesses that are reported without and with a list.
    pub safe: [usize; 2],
    /// Routines that are refused without and with a list.
    pub refused: [usize; 2],
    pub entries: usize,
}

impl Figures {
    /// One more routine. A list that is proposed is taken, and takes nothing away.
    pub fn count(&mut self, program: &Program) {
        let (table, words) = (&program.text.as_ref().expect("a text").parts[0], &program.tables[0]);
        let before = check_table(words, &[]);
        let proposal = propose(table, &[]);
        let after = check_table(words, &proposal.facts);
        assert_eq!(after, proposal.checked);
        assert!(before.verdict != Verdict::Accepted || after.verdict == Verdict::Accepted, "{program:?}");
        assert!(before.safe.iter().all(|statement| after.safe.contains(statement)), "{program:?}");
        self.routines += 1;
        self.accesses += table.statements.iter().filter(|record| matches!(record[0], 8 | 9)).count();
        self.entries += proposal.facts.len() / 4;
        for (number, checked) in [before, after].iter().enumerate() {
            self.safe[number] += checked.safe.len();
            self.refused[number] += usize::from(checked.verdict != Verdict::Accepted);
        }
    }

    pub fn of_generated(count: u64, seed: u64) -> Figures {
        let mut figures = Figures::default();
        for case in 0..count {
            let text = loops::routine(&mut Random::of(seed, case));
            let program = Program::of_text("generated.c", text, false);
            figures.count(&program.unwrap_or_else(|wrong| panic!("{wrong}")));
        }
        figures
    }
}

impl fmt::Display for Figures {
    fn fmt(&self, f: &mut fmt::Formatter) -> fmt::Result {
        let Figures { routines, accesses, safe, refused, entries } = self;
        write!(
            f,
            "{routines} routines, {accesses} accesses: safe {} without a list, {} with one; refused {} without, {} with; {entries} loop facts",
            safe[0], safe[1], refused[0], refused[1]
        )
    }
}
