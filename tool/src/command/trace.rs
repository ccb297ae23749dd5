//! `mizzengrape trace`: a run step by step. The second implementation makes the steps, one after the other; where the listing ends, and where
//! the run does, the proved library says the same or the difference is told.

use super::arguments::{Arguments, Usage};
use super::changes::{bounds_between, cell, values, Point};
use super::session::{end_line, read, Session};
use super::Output;
use crate::explain::{said, same_end, Replay};
use crate::library::{steps, Outcome};
use crate::map::Map;
use crate::memory::Memory;
use crate::printer::Printer;
use crate::rows::InForce;
use crate::table::{accessed, Table};
use crate::tree::RELATIONS;
use oracle::frame::Frame;
use oracle::machine::Machine;
use std::io::{self, Write};
use std::time::{Duration, Instant};

pub const USAGE: Usage = Usage {
    help: "\
mizzengrape trace FILE IMAGE [--from T] [--steps N] [--allowance N]
                             [--facts F] [--names N]

Runs a routine and prints a line for each step: its number, place, statement,
what it changed, of a condition what it compared; then how the run ends, which
is the exit status too, also where not all steps are printed. In a set each
line names its routine, with a dot for each call that waits for it.

    --from T        begins with step T
    --steps N       prints so many, 1000 by default
    --allowance N   the steps at most, whatever the image says
    --facts F       the list of loop facts of a table, as words in a file
    --names N       the names file of a table, which asm wrote
",
    flags: &["--short"],
    options: &["--from", "--steps", "--allowance", "--facts", "--names"],
    least_files: 2,
    most_files: 2,
};

/// Steps that are printed where nothing else is asked for.
const STEPS: u32 = 1000;

pub fn trace(arguments: &Arguments, out: &mut dyn Write) -> Result<Output, String> {
    let from = arguments.number("--from")?.unwrap_or(1).max(1);
    let count = arguments.number("--steps")?.unwrap_or(STEPS);
    read(arguments)?.map_or_else(Ok, |session| traced(&session, from, count, out))
}

/// The trace of a whole session, kept.
pub fn traced_whole(session: &Session) -> Result<Output, String> {
    let mut lines = Vec::new();
    let mut output = traced(session, 1, STEPS, &mut lines)?;
    output.out.insert_str(0, &String::from_utf8_lossy(&lines));
    Ok(output)
}

/// So many steps as `trace` prints them, each line as it is made.
fn traced(session: &Session, from: u32, count: u32, out: &mut dyn Write) -> Result<Output, String> {
    let (left, ended) = session.run(u32::MAX)?;
    let replay = Replay::new(&session.program.tables, &session.program.facts, &session.image.lent);
    let Some(mut replay) = replay.filter(|_| !matches!(ended.outcome, Outcome::Refused(_))) else {
        return session.ended(&ended, &left, &[]);
    };
    let all = steps(&ended.outcome);
    let last = from.saturating_add(count).saturating_sub(1).min(all);
    let listing = Listing::new(session, out, last)?;
    let seen = listing.steps(&mut replay, from, last)?;
    if seen.is_unread {
        let Output { status, .. } = session.ended(&ended, &left, &[])?;
        return Ok(Output { status, ..Output::default() });
    }
    let is_whole = last == all;
    let (there, ended_there) = session.run(last)?;
    let same = same_end(&seen.said, &seen.frames[0].values, &replay.cells, &ended_there, &there);
    let mut output = session.ended(&ended, &left, if is_whole { &seen.frames } else { &[] })?;
    // Warnings come first, how the run ended comes last.
    output.end = output.err.split_off(session.program.warnings(session.short).len());
    if !is_whole {
        output.out.push_str(&format!("more with --from {}\n", last.max(from - 1) + 1));
    }
    output.out.push_str(&format!("{}\n", end_line(&ended.outcome)));
    if !same {
        output.at_odds(&session.program, &seen.said);
    }
    Ok(output)
}

/// Where the second implementation stands behind the last step that was listed.
struct Seen {
    /// The reader has gone away, and not all steps were made.
    is_unread: bool,
    /// How it stands there, in the words of the vectors.
    said: String,
    frames: Vec<Frame>,
}

/// Lines of steps: columns as wide as the longest place and statement, and as the last number.
struct Listing<'a> {
    /// For each routine the memory as it sees it, and place, number and text of each of its statements.
    routines: Vec<(Memory<'a>, Vec<Column>)>,
    /// The names of a set's routines, and the columns that they take with what shows the depth of calls.
    names: Option<(Vec<&'a str>, usize)>,
    digits: usize,
    out: &'a mut dyn Write,
    /// Lines that are not written yet.
    lines: String,
    written: Instant,
}

/// So much is kept before it is written, and so long.
const MOST_KEPT: usize = 1 << 16;
const LONGEST_KEPT: Duration = Duration::from_millis(50);

impl<'a> Listing<'a> {
    fn new(session: &'a Session, out: &'a mut dyn Write, last: u32) -> Result<Listing<'a>, String> {
        let text = session.text()?;
        let memories = (0..text.parts.len()).map(|routine| session.memory_of(routine));
        let memories = memories.collect::<Result<Vec<Memory>, String>>()?;
        let columns = columns(&memories, &session.program.name, &text.map);
        let names = text.names.routines.iter().map(|routine| routine.name.as_str());
        let names: Vec<&str> = names.collect();
        let widest = names.iter().map(|name| name.chars().count()).max().unwrap_or(0);
        let width = widest + DEPTH_MARK.len() * deepest(&text.parts);
        let names = (names.len() > 1).then_some((names, width));
        let routines = memories.into_iter().zip(columns).collect();
        let digits = last.to_string().len();
        Ok(Listing { routines, names, digits, out, lines: String::new(), written: Instant::now() })
    }

    fn memory(&self, frame: &Frame) -> &Memory<'a> {
        &self.routines[frame.routine].0
    }

    /// Makes the steps up to the last one, and prints them from the first one on.
    fn steps(mut self, replay: &mut Replay, from: u32, last: u32) -> Result<Seen, String> {
        let (mut machine, cells) = replay.begin();
        let mut answer = machine.go(cells, u64::from((from - 1).min(last)));
        let lost = |error: io::Error| format!("error: standard output: {error}\n");
        let mut is_unread = false;
        for step in from..=last {
            let Some(statement) = machine.due() else { break };
            let before = machine.frames().to_vec();
            let ran = &before[before.len() - 1];
            let stored = stored(self.memory(ran).printer.table, statement, &ran.values);
            let old = stored.and_then(|cell| cells.get(cell).copied());
            answer = machine.go(cells, u64::from(step));
            let mut changes = Vec::new();
            if let (Some(number), Some(old)) = (stored, old) {
                let new = cells[number];
                changes.extend((old != new).then(|| cell(self.memory(ran), number, [old, new])));
            }
            changes.extend(self.compared(ran, statement));
            changes.extend(self.declared(ran.routine, statement, &machine));
            changes.extend(self.changed(&before, machine.frames()));
            let place = (ran.routine, before.len() - 1, statement);
            is_unread = self.line(step, place, &changes.join(", ")).map_err(lost)?;
            if is_unread {
                break;
            }
        }
        is_unread = is_unread || self.write().map_err(lost)?;
        let said = said(&machine, answer, self.names.is_some());
        Ok(Seen { is_unread, said, frames: machine.frames().to_vec() })
    }

    /// What a step did to the values of the routine that runs behind it; of a call what it hands over, of a return where the run is back.
    fn changed(&self, before: &[Frame], after: &[Frame]) -> Vec<String> {
        let running = &after[after.len() - 1];
        let name = |frame: &Frame| self.names.as_ref().map_or("", |(names, _)| names[frame.routine]);
        if after.len() > before.len() {
            return vec![format!("calls {}({})", name(running), self.parameters(running))];
        }
        let was = &before[after.len() - 1];
        let changes = values(self.memory(running), Point::of(was), Point::of(running));
        if after.len() < before.len() {
            let back = format!("back in {}", name(running));
            return [vec![back], changes].concat();
        }
        changes
    }

    /// `time = 700, factor = 3`: what a callee's first variables are given.
    fn parameters(&self, callee: &Frame) -> String {
        let memory = self.memory(callee);
        let given = (0..memory.printer.parameters().min(callee.values.len())).map(|v| {
            let value = memory.value(v, callee.values[v], Some(callee.origins[v]));
            format!("{} = {value}", memory.printer.name(v as i32))
        });
        given.collect::<Vec<_>>().join(", ")
    }

    /// `3 < 4, yes`: what a condition compared.
    fn compared(&self, frame: &Frame, statement: usize) -> Option<String> {
        let memory = self.memory(frame);
        let table = memory.printer.table;
        let [10..=12, left, relation, form, right, ..] = table.statements[statement] else { return None };
        let value = |variable: i32| {
            let number = variable as usize;
            (frame.values[number], memory.value(number, frame.values[number], Some(frame.origins[number])))
        };
        let (a, left_shown) = value(left);
        let (b, right_shown) = match form {
            0 => value(right),
            _ if table.is_pointer(left) => (0, "NULL".to_string()),
            _ => (right as u32, (right as u32).to_string()),
        };
        let (mark, relation) = RELATIONS[relation as usize];
        let holds = if relation.holds(a, b) { "yes" } else { "no" };
        Some(format!("{left_shown} {mark} {right_shown}, {holds}"))
    }

    /// The bounds that a where statement put in force, by the values of its routine.
    fn declared(&self, routine: usize, statement: usize, machine: &Machine) -> Vec<String> {
        let memory = &self.routines[routine].0;
        let table = memory.printer.table;
        let running = machine.running();
        if table.statements[statement][0] != 14 || running.routine != routine {
            return Vec::new();
        }
        let before = InForce::before(table, statement);
        let after = before.clone().after(table, statement, statement + 1);
        bounds_between(memory, [&before, &after], &running.values)
    }

    /// One more line; whether nobody reads on.
    fn line(
        &mut self,
        step: u32,
        (routine, depth, statement): (usize, usize, usize),
        changes: &str,
    ) -> io::Result<bool> {
        let (Column { place, text }, digits) = (&self.routines[routine].1[statement], self.digits);
        let name = self.names.as_ref().map_or(String::new(), |(names, width)| {
            format!("{:<width$}  ", format!("{}{}", DEPTH_MARK.repeat(depth), names[routine]))
        });
        let line = format!("#{step:<digits$} {place}  {name}{text}{changes}");
        self.lines.push_str(line.trim_end());
        self.lines.push('\n');
        let is_due = self.lines.len() > MOST_KEPT || self.written.elapsed() > LONGEST_KEPT || step < 64;
        if is_due {
            self.write()
        } else {
            Ok(false)
        }
    }

    /// Writes what is kept; whether the reader has gone away, which is no fault of the call.
    fn write(&mut self) -> io::Result<bool> {
        let written = self.out.write_all(self.lines.as_bytes()).and_then(|()| self.out.flush());
        self.lines.clear();
        self.written = Instant::now();
        match written {
            Err(error) if error.kind() == io::ErrorKind::BrokenPipe => Ok(true),
            other => other.map(|()| false),
        }
    }
}

/// The cell that a statement stores to.
pub fn stored(table: &Table, statement: usize, values: &[u32]) -> Option<usize> {
    let record = &table.statements[statement];
    if record[0] != 9 {
        return None;
    }
    let (p, i, k) = accessed(record);
    let index = if i == -1 { 0 } else { i64::from(values[i as usize]) };
    let address = i64::from(values[p as usize]) + i64::from(table.size(p)) * index + i64::from(k);
    usize::try_from(address).ok()
}

/// What stands before the name of a routine for each call that waits for it.
const DEPTH_MARK: &str = ". ";

/// The most calls that can wait at once in a run from the last routine.
fn deepest(tables: &[Table]) -> usize {
    let mut depths: Vec<usize> = Vec::new();
    for table in tables {
        let calls = table.statements.iter().filter(|record| record[0] == 15);
        let callees = calls.filter_map(|record| depths.get(usize::try_from(record[1]).ok()?));
        depths.push(callees.map(|depth| depth + 1).max().unwrap_or(0));
    }
    depths.last().copied().unwrap_or(0)
}

/// `FILE:9:5 ` and `1 row[0] = boat;    ` of a statement.
struct Column {
    place: String,
    text: String,
}

/// The columns of all statements of each routine, all of one width.
fn columns(memories: &[Memory], name: &str, map: &Map) -> Vec<Vec<Column>> {
    let shown = |printer: &Printer, s: usize| match printer.table.statements[s][0] {
        11..=13 => printer.statement(s),
        _ => format!("{};", printer.statement(s)),
    };
    let routines = memories.iter().zip(&map.routines).map(|(memory, map)| {
        let statements = map.statements.iter().enumerate().take(memory.printer.table.statements.len());
        statements.map(|(s, at)| (format!("{name}:{at}"), shown(&memory.printer, s))).collect()
    });
    let routines: Vec<Vec<(String, String)>> = routines.collect();
    let all = || routines.iter().flatten();
    let longest = |line: fn(&(String, String)) -> &String| all().map(|two| line(two).chars().count()).max();
    let widest = longest(|(place, _)| place).unwrap_or(0);
    let width = longest(|(_, text)| text).unwrap_or(0) + 4;
    let most = routines.iter().map(Vec::len).max().unwrap_or(0);
    let digits = most.saturating_sub(1).to_string().len();
    let column = |(s, (place, text)): (usize, &(String, String))| Column {
        place: format!("{place:<widest$}"),
        text: format!("{s:>digits$} {text:<width$}"),
    };
    routines.iter().map(|statements| statements.iter().enumerate().map(column).collect()).collect()
}
