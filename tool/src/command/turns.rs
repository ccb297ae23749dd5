//! The turns of several routines, a line each: how many steps, what is next, what they changed. The second implementation makes the steps.

use super::changes::{bounds, cell, values, Point};
use super::session::Session;
use super::trace::stored;
use crate::explain::turns::Order;
use crate::explain::Replay;
use crate::memory::Memory;
use oracle::answer::RunAnswer;
use oracle::dispatch::Turn;
use oracle::machine::Machine;
use std::collections::BTreeMap;

/// More turns are not listed, and not more changes of one.
const MOST_TURNS: usize = 1_000;
const MOST_CHANGES: usize = 8;

/// `#1 routine 0: 4 steps, line 12 is next; row: block + 2 -> block + 3`. Nothing where the second implementation refuses a routine: it is
/// at odds with the library then.
pub fn listing(sessions: &[Session], mut cells: Vec<u32>, mut order: Order) -> Result<String, String> {
    let replay =
        |Session { program, image, .. }: &Session| Replay::new(&program.tables, &program.facts, &image.lent);
    let Some(mut replays) = sessions.iter().map(replay).collect::<Option<Vec<_>>>() else {
        return Ok(String::new());
    };
    let mut machines: Vec<Machine> = replays.iter_mut().map(|replay| replay.begin().0).collect();
    let memories = sessions.iter().map(Session::memory).collect::<Result<Vec<_>, _>>()?;
    let mut lines = String::new();
    for (number, Turn { routine, steps }) in order.by_ref().take(MOST_TURNS).enumerate() {
        let (answer, changes) = turn(&memories[routine], &mut machines[routine], &mut cells, steps);
        let plural = if steps == 1 { "step" } else { "steps" };
        let end = end(&sessions[routine], &answer)?;
        lines.push_str(&format!("#{} routine {routine}: {steps} {plural}{end}", number + 1));
        let shown = changes.iter().take(MOST_CHANGES).map(String::as_str).collect::<Vec<_>>().join(", ");
        if !shown.is_empty() {
            lines.push_str(&format!("; {shown}"));
        }
        if changes.len() > MOST_CHANGES {
            lines.push_str(&format!(", and {} more", changes.len() - MOST_CHANGES));
        }
        lines.push('\n');
    }
    match order.turns_left() {
        0 => Ok(lines),
        more => Ok(lines + &format!("and {more} turns more\n")),
    }
}

/// Makes the steps of a turn; where the routine then stands, and what changed.
fn turn(memory: &Memory, machine: &mut Machine, cells: &mut [u32], steps: u64) -> (RunAnswer, Vec<String>) {
    let table = memory.printer.table;
    let due = |machine: &Machine| machine.due().unwrap_or(table.statements.len());
    let (old_values, old_origins) = (machine.values().to_vec(), machine.origins().to_vec());
    let before = Point { values: &old_values, cells: &[], origins: Some(&old_origins), due: due(machine) };
    let mut old_cells = BTreeMap::new();
    let mut answer = machine.go(cells, machine.steps());
    for _ in 0..steps {
        let number = machine.due().and_then(|statement| stored(table, statement, machine.values()));
        if let Some((number, old)) = number.and_then(|number| Some((number, *cells.get(number)?))) {
            old_cells.entry(number).or_insert(old);
        }
        answer = machine.go(cells, machine.steps() + 1);
    }
    let (values_now, origins_now) = (machine.values(), machine.origins());
    let after = Point { values: values_now, cells: &[], origins: Some(origins_now), due: due(machine) };
    let mut changes = values(memory, before, after);
    let stored = old_cells.into_iter().map(|(number, old)| (number, [old, cells[number]]));
    changes.extend(
        stored.filter(|(_, [old, new])| old != new).map(|(number, numbers)| cell(memory, number, numbers)),
    );
    changes.extend(bounds(memory, before, after));
    (answer, changes)
}

/// Where a routine stands behind a turn.
fn end(session: &Session, answer: &RunAnswer) -> Result<String, String> {
    let line = |statement: u32| session.position(statement as usize).map(|at| at.line);
    Ok(match *answer {
        RunAnswer::Spent { statement, .. } => format!(", line {} is next", line(statement)?),
        RunAnswer::Stopped { statement, .. } => format!(", stopped at line {}", line(statement)?),
        RunAnswer::Done { .. } => ", done".to_string(),
        _ => String::new(),
    })
}
