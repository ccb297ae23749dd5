//! The stack that the proved calls take: the least stack of a thread on which all of them come through the deepest
//! accepted tables. A thread whose stack is too small ends its process, so that each size is tried in a process of its own.

use crate::edits::{EditCase, Written};
use crate::linked::Proved;
use crate::proved::Implementation;
use crate::sets::{SetCase, SetParts};
use crate::turns::Parts;
use oracle::answer::RunInput;
use oracle::dispatch::{Member, Turns};
use oracle::draft::*;
use oracle::editor::REPLACE;
use oracle::table::MAX_DEPTH;
use std::process::{Command, Stdio};
use std::thread;

const KIB: usize = 1024;

/// p (0, count(n)) and n; ifs within ifs to the greatest depth, and there a bundle: without rows, and with one that
/// the bundle puts in force on both sides of each if; whiles within whiles, of each of which n >= 0 is listed.
fn deepest() -> [(Draft, Vec<i32>); 3] {
    let condition = with_literal(1, GREATER, 0);
    let step = [move_pointer(0, 0, 1), add_constant(1, 1, -1)];
    let inner =
        |more: Vec<Record>| [vec![dynamic_check(condition)], bundle([&step[..], &more].concat())].concat();
    let nest = |inner: Vec<Record>, beside: Vec<Record>| {
        (0..MAX_DEPTH).fold(inner, |inner, _| if_else(condition, inner, beside.clone()))
    };
    let variables = vec![[1, 0, 0, -1, 0, 0, 1, 0], [0; 8]];
    let plain = Draft { objects: vec![3], variables, statements: nest(inner(vec![]), vec![]), rows: None };
    let row = declare(0, 0);
    let statements = nest(inner(vec![row]), bundle(vec![row]));
    let with_rows = Draft { statements, rows: Some(vec![[0, -1, 0, 0, 1, 0]]), ..plain.clone() };
    let statements = (0..MAX_DEPTH).fold(inner(vec![]), |inner, _| while_loop(condition, inner));
    let loops = Draft { statements, ..plain.clone() };
    let list = (0..MAX_DEPTH as i32).flat_map(|head| [head, -1, 1, 0]).collect();
    [(plain, vec![]), (with_rows, vec![]), (loops, list)]
}

fn input() -> RunInput {
    RunInput {
        directory: vec![1, 3],
        cells: vec![0; 4],
        values: vec![1, 3],
        origins: vec![1, 0],
        allowance: 100,
    }
}

/// The deepest tables in turn, in a memory that they share.
fn in_turn() -> Parts {
    let member = |(r, (table, facts)): (usize, (Draft, Vec<i32>))| {
        let RunInput { mut values, origins, .. } = input();
        values[0] += 3 * r as u32;
        Member { table: table.words(), facts, directory: vec![values[0], 3], values, origins }
    };
    let members = deepest().into_iter().enumerate().map(member).collect();
    Parts::of(&Turns { members, cells: vec![0; 10], quantum: 2, total: 300 })
}

/// A table whose only statement outside of all blocks is replaced by itself, from the start and from a place there.
fn edited(table: &Draft) -> EditCase {
    let buffer = table.words();
    let text = table.statements.concat();
    let written = Written { operation: REPLACE, position: 0, text, keep: vec![0] };
    EditCase { length: buffer.len(), buffer, places: 1, keep: vec![], edits: vec![written; 2] }
}

/// Eight routines, each with a call of the one before at the greatest depth; the first one stores.
fn calling() -> SetParts {
    let condition = with_literal(1, GREATER, 0);
    let table = |r: i32| {
        let inner = if r == 0 { store(0, -1, 0, 1) } else { call(r - 1, -1, &[0, 1]) };
        let statements = (0..MAX_DEPTH).fold(vec![inner], |inner, _| if_else(condition, inner, vec![]));
        let objects = if r == 0 { vec![3] } else { vec![] };
        let variables = vec![[1, 0, 0, -1, 0, 0, 1, 0], [0; 8]];
        Draft { objects, variables, statements, rows: None }.words()
    };
    SetParts::of(&SetCase { tables: (0..8).map(table).collect(), input: input() })
}

/// All calls for each table on a thread with a stack of so many KiB.
pub fn probe(kib: usize) {
    let calls = || {
        let turns = Proved.dispatch(&mut in_turn())[0];
        let checked = Proved.check_set(&calling())[0];
        let ran = Proved.run_set(&mut calling())[0];
        let alone = deepest().map(|(table, list)| {
            let edits: u32 = Proved.edits(&edited(&table)).iter().map(|answer| answer.words[0]).sum();
            let table = table.words();
            let checks = [Proved.check_alone(&table)[0], Proved.check(&table, &list).words[0]];
            let runs =
                [Proved.run_alone(&table, &mut input())[0], Proved.run(&table, &list, &mut input())[0]];
            (checks, runs, edits)
        });
        ([turns, checked, ran], alone)
    };
    let thread = thread::Builder::new().stack_size(kib * KIB).spawn(calls).expect("a thread");
    let answers = thread.join().expect("all calls return");
    assert_eq!(answers, ([0; 3], [([0; 2], [0; 2], 0); 3]), "ran, accepted and done");
}

fn survives(kib: usize) -> bool {
    let program = std::env::current_exe().expect("this program");
    let mut child = Command::new(program);
    child.args(["stack", &kib.to_string()]).stdout(Stdio::null()).stderr(Stdio::null());
    child.status().is_ok_and(|status| status.success())
}

/// The least stack, to the KiB, with what the thread itself takes; `None` where no stack helps.
pub fn least() -> Option<usize> {
    let (mut too_small, mut enough) = (16, 1024);
    if !survives(enough) {
        return None;
    }
    while enough - too_small > 1 {
        let middle = (too_small + enough) / 2;
        if survives(middle) {
            enough = middle;
        } else {
            too_small = middle;
        }
    }
    Some(enough)
}

#[cfg(test)]
mod tests {
    use super::*;
    use crate::edits::plain;
    use crate::proved::Fast;
    use crate::turns::turns_words;
    use mizzengrape::STACK_BYTES;
    use oracle::dispatch::dispatch;
    use oracle::machine;

    /// Exactly the stack that the header and the wrapper state. (Where it is too small, the process ends.)
    #[test]
    fn the_stated_stack_is_enough() {
        let header = include_str!("../../include/mizzengrape.h");
        assert!(header.contains(&format!("#define MIZZENGRAPE_STACK_BYTES {STACK_BYTES}\n")));
        assert_eq!(STACK_BYTES % KIB, 0);
        probe(STACK_BYTES / KIB);
    }

    #[test]
    fn the_deepest_tables_run_to_their_end() {
        for (table, list) in deepest() {
            let depth = table.statements.iter().filter(|record| [11, 12].contains(&record[0])).count();
            let answer = machine::run_with_facts(&table.words(), &list, &mut input()).to_string();
            assert!(depth == MAX_DEPTH && answer.starts_with("done"), "{depth} {answer}");
        }
        for (table, _) in deepest() {
            let edited = plain(&edited(&table));
            assert!(edited.len() == 3 && edited.iter().all(|answer| answer.words[0] == 0), "{edited:?}");
        }
        let words = turns_words(&dispatch(&mut in_turn().turns()));
        assert!(words.len() == 17 && words[5..].chunks(4).all(|words| words[0] == 0), "{words:?}");
        let mut parts = calling();
        assert_eq!(Fast.run_set(&mut parts), [0, 8 * (1 + MAX_DEPTH as u32), 0, 0, 0]);
    }
}
