//! Help that is followed again and again: how many refused routines are accepted in the end, and which runs then stop.

use super::leaves::{bounds_in_run, without_checks, Bounds};
use super::{loops, mistakes, Random};
use mizzengrape_tool::explain::help;
use mizzengrape_tool::library::{check_table, Refusal, Verdict};
use mizzengrape_tool::program::Program;
use mizzengrape_tool::repair::{apply, edits};
use oracle::answer::{Check, RunAnswer, RunInput};
use oracle::entry::check_entry;
use oracle::machine::Machine;
use oracle::table::decode;
use std::fmt;

/// More helps in a row are not followed.
const MOST_HELPS: usize = 12;

#[derive(Debug, Default, PartialEq, Eq)]
pub struct Figures {
    pub refused: usize,
    /// Refused routines that have a help with a repair at all.
    pub helped: usize,
    /// Those that are accepted after some helps.
    pub accepted: usize,
    /// Runs of these, as they were refused, that end done, with all accesses in their objects and with bounds that are true at the end; and
    /// those of them that stop once repaired: at a check that help wrote, and at an access.
    pub good_runs: usize,
    pub at_checks: Stops,
    pub at_accesses: Stops,
    /// Those that end done with other values or cells.
    pub changed: usize,
}

/// Runs that stop once help is followed, by what they do to their bounds.
#[derive(Debug, Default, PartialEq, Eq)]
pub struct Stops {
    /// The refused routine leaves the bounds that it has, and so does the repaired one without the check: the stop is right.
    pub leaving: usize,
    /// Neither: a pointer is null, and bounds of null may be any, but no check of integers says so.
    pub with_null: usize,
    /// The others: help was too strict.
    pub needless: usize,
}

impl Stops {
    fn count(&mut self, before: Bounds, after: Bounds) {
        match (before, after) {
            (Bounds::Left, Bounds::Left) => self.leaving += 1,
            (Bounds::Kept, _) | (_, Bounds::Kept) => self.needless += 1,
            _ => self.with_null += 1,
        }
    }

    pub fn all(&self) -> usize {
        self.leaving + self.with_null + self.needless
    }
}

fn program(text: &str) -> Program {
    Program::of_text("generated.c", text.to_string(), true).unwrap_or_else(|wrong| panic!("{wrong}\n{text}"))
}

fn refusal(program: &Program) -> Option<Refusal> {
    match check_table(&program.tables[0], &program.facts).verdict {
        Verdict::Refused(refusal) => Some(refusal),
        Verdict::Accepted => None,
    }
}

/// The text with the first help followed.
fn followed(program: &Program, refusal: &Refusal) -> Option<String> {
    let text = program.text.as_ref()?;
    let map = text.map.routines.first()?;
    let repairs = help(program, refusal).into_iter().filter_map(|help| help.repair);
    let changed = repairs.filter_map(|repair| apply(&text.source, &edits(&repair, &text.source, map)?));
    changed.into_iter().next()
}

impl Figures {
    pub fn count(&mut self, text: &str, random: &mut Random) {
        let original = program(text);
        let Some(mut refused) = refusal(&original) else { return };
        self.refused += 1;
        let mut source = text.to_string();
        for number in 0..MOST_HELPS {
            let Some(next) = followed(&program(&source), &refused) else { return };
            self.helped += usize::from(number == 0);
            source = next;
            match refusal(&program(&source)) {
                Some(next) => refused = next,
                None => {
                    self.accepted += 1;
                    return self.runs(&original, &program(&source), random);
                }
            }
        }
    }

    /// A few runs of the routine as it was and as it is now.
    fn runs(&mut self, original: &Program, repaired: &Program, random: &mut Random) {
        for _ in 0..4 {
            let input = input(original, random);
            let (Some(before), Some(after)) = (run(original, &input), run(repaired, &input)) else {
                continue;
            };
            if !before.is_true || !matches!(before.answer, RunAnswer::Done { .. }) {
                continue;
            }
            self.good_runs += 1;
            let RunAnswer::Stopped { check, .. } = after.answer else {
                self.changed += usize::from(after.left != before.left);
                continue;
            };
            let before = bounds_in_run(&original.tables[0], &input);
            let unchecked = without_checks(&repaired.tables[0], &input);
            let stops = if check == Check::Dynamic { &mut self.at_checks } else { &mut self.at_accesses };
            stops.count(before, bounds_in_run(&unchecked, &input));
        }
    }

    pub fn of_generated(count: u64, seed: u64) -> Figures {
        let mut figures = Figures::default();
        for case in 0..count {
            let mut random = Random::of(seed, case);
            let text =
                if random.chance(80) { mistakes::routine(&mut random) } else { loops::routine(&mut random) };
            figures.count(&text, &mut random);
        }
        figures
    }
}

/// Two objects that touch, pointers into them, small integers.
fn input(program: &Program, random: &mut Random) -> RunInput {
    let table = &program.text.as_ref().expect("a text").parts[0];
    let mut input = RunInput { allowance: 1_000, ..RunInput::default() };
    let mut end = 1;
    for length in &table.objects {
        input.directory.extend([end, length.unsigned_abs()]);
        end += length.unsigned_abs();
    }
    input.cells = (0..end).map(|_| random.below(20) as u32).collect();
    for record in &table.variables {
        let (mut value, mut origin) = (random.below(12) as u32, 0);
        if record[0] != 0 && !table.objects.is_empty() && random.chance(90) {
            let object = random.below(table.objects.len());
            (value, origin) = (input.directory[2 * object] + random.below(3) as u32, object as u32 + 1);
        } else if record[0] != 0 {
            value = 0;
        }
        input.values.push(value);
        input.origins.push(origin);
    }
    input
}

/// How a run ends, what it leaves, and whether the bounds are true then.
struct Ran {
    answer: RunAnswer,
    left: RunInput,
    is_true: bool,
}

/// A run by the plain machine, whatever the check says; none where the entry is untrue.
fn run(program: &Program, input: &RunInput) -> Option<Ran> {
    let routine = decode(&program.tables[0]).ok()?;
    check_entry(&routine, input).ok()?;
    let RunInput { directory, mut cells, mut values, origins, allowance } = input.clone();
    let mut machine = Machine::new(&routine, &directory, &mut values, &origins);
    let answer = machine.go(&mut cells, u64::from(allowance));
    let origins = machine.origins().to_vec();
    let left = RunInput { directory, cells, values, origins, allowance };
    let is_true = check_entry(&routine, &left).is_ok();
    Some(Ran { answer, left, is_true })
}

impl fmt::Display for Figures {
    fn fmt(&self, f: &mut fmt::Formatter) -> fmt::Result {
        let Figures { refused, helped, accepted, good_runs, at_checks, at_accesses, changed } = self;
        write!(
            f,
            "{refused} refused routines: {helped} with help, {accepted} accepted when it is followed; of {good_runs} good runs \
             {at_checks} at a check that help wrote, {at_accesses} at an access, and {changed} end with other values"
        )
    }
}

impl fmt::Display for Stops {
    fn fmt(&self, f: &mut fmt::Formatter) -> fmt::Result {
        let Stops { leaving, with_null, needless } = self;
        write!(
            f,
            "{} stop ({leaving} that leave their bounds, {with_null} with a null pointer, {needless} others)",
            self.all()
        )
    }
}
