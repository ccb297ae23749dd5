//! What stands around a routine that is explained: nothing, or the routines before it in its set.

use crate::program::Program;
use oracle::answer::{CheckAnswer, Refusal};
use oracle::checker::{watch_in_set, watch_with_facts, Observer};
use oracle::loop_facts::LoopFacts;
use oracle::set::check_member;
use oracle::table::{decode, decode_member, Routine};
use std::rc::Rc;

/// The routines that a routine may call; none are there where it is by itself.
#[derive(Clone, Debug, Default)]
pub struct Context {
    before: Option<Rc<Vec<Routine>>>,
}

impl Context {
    /// The context of a routine of a program; none where the second implementation refuses one before it.
    pub fn of(program: &Program, routine: usize) -> Option<Context> {
        if program.tables.len() == 1 {
            return Some(Context::default());
        }
        let mut before = Vec::new();
        for table in program.tables.get(..routine)? {
            before.push(check_member(table, &before, &mut ()).ok()?);
        }
        Some(Context { before: Some(Rc::new(before)) })
    }

    pub fn callees(&self) -> &[Routine] {
        self.before.as_ref().map_or(&[], |before| before)
    }

    pub fn is_set(&self) -> bool {
        self.before.is_some()
    }

    pub fn decode(&self, words: &[i32]) -> Result<Routine, Refusal> {
        match &self.before {
            None => decode(words),
            Some(before) => decode_member(words, before.first().map(|first| &first.objects[..])),
        }
    }

    /// The walk over a routine; a set has no loop facts.
    pub fn watch(
        &self,
        routine: &Routine,
        loop_facts: &LoopFacts,
        observer: &mut dyn Observer,
    ) -> CheckAnswer {
        let end = match &self.before {
            None => watch_with_facts(routine, loop_facts, observer),
            Some(before) => watch_in_set(routine, before, observer),
        };
        end.map(|_| ())
    }
}
