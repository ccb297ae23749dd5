//! Refusals 19 and 20: which routine cannot be called, and what does not fit between a call and the routine that it calls.

use super::bounds::{Gap, Side};
use super::draft::Draft;
use super::facts::note;
use super::walk::{Moment, Walk};
use super::{Explanation, Help, Note, Place};
use crate::diagnostics::Pos;
use crate::library::Refusal;
use crate::printer::Printer;
use crate::program::{Program, Text};
use crate::repair::Repair;
use oracle::calls::{arguments, fault, parameter_bounds, Fault};
use oracle::checker::KnownBounds;
use oracle::facts::Facts;
use oracle::table::{Call, Routine, Statement, Var};

/// Refusal 19: nobody is there to be called.
pub fn no_callee(program: &Program, place: &Place, refusal: &Refusal) -> Explanation {
    let text = program.text.as_ref();
    let callee = place.printer.table.statements[refusal.place][1];
    let at = place.statement(refusal.place);
    let named = |number: usize| {
        text.and_then(|text| {
            Some((&text.names.routines.get(number)?.name, text.map.routines.get(number)?.name))
        })
    };
    let own = refusal.routine.unwrap_or(0);
    match usize::try_from(callee).ok().and_then(|number| Some((number, named(number)?))) {
        _ if !place.context.is_set() => {
            Explanation::new(at, "a routine by itself has nobody to call".to_string())
        }
        None => Explanation::new(at, format!("the set has no routine {callee}")),
        Some((number, (name, _))) if number == own => {
            Explanation::new(at, format!("`{name}` calls itself: a routine calls only routines above it"))
        }
        Some((_, (name, declared))) => {
            let sentence = format!(
                "`{name}` is not before this routine in the set: a routine calls only routines above it"
            );
            let message = format!("`{name}` is declared here, below its caller");
            Explanation {
                notes: vec![Note { at: Some(declared), message }],
                ..Explanation::new(at, sentence)
            }
        }
    }
}

/// A call that is refused: the call, what is wrong with it, and what was known before it.
struct Refused<'a> {
    text: &'a Text,
    place: &'a Place<'a>,
    callee: &'a Routine,
    number: usize,
    call: Call,
    fault: Fault,
    moment: &'a Moment,
}

impl<'a> Refused<'a> {
    fn of(program: &'a Program, place: &'a Place, seen: &'a Walk, s: usize) -> Option<Refused<'a>> {
        let routine = place.context.decode(&place.printer.table.words()).ok()?;
        let moment = seen.before.as_ref().filter(|moment| moment.statement == s)?;
        let Statement::Call(call) = *routine.statements.get(s)? else { return None };
        let callees = place.context.callees();
        let fault = fault(&routine, callees, &call, &moment.facts, &moment.known)?;
        let number = usize::try_from(call.callee).ok()?;
        let (text, callee) = (program.text.as_ref()?, callees.get(number)?);
        Some(Refused { text, place, callee, number, call, fault, moment })
    }

    fn name(&self) -> &str {
        &self.text.names.routines[self.number].name
    }

    /// A variable of the callee.
    fn variable(&self, v: usize) -> &str {
        &self.text.names.routines[self.number].variables[v]
    }

    fn printer(&self) -> Printer<'_> {
        Printer::new(&self.text.parts, &[], &self.text.names, self.number)
    }

    /// Where a variable of the callee is declared.
    fn declared(&self, v: usize) -> Option<Pos> {
        self.text.map.routines.get(self.number)?.variables.get(v).copied()
    }

    /// `declared here: unsigned n`, of the callee.
    fn declaration(&self, v: usize) -> Note {
        self.note(v, self.printer().declaration(v))
    }

    /// `declared here: row : count(rows)`, of the callee.
    fn declared_bounds(&self, v: usize) -> Note {
        let (printer, pointer) = (self.printer(), v as i32);
        let bounds = printer.bounds(pointer, printer.table.own_bounds(v));
        self.note(v, format!("{} : {bounds}", printer.name(pointer)))
    }

    fn note(&self, v: usize, declared: String) -> Note {
        Note { at: self.declared(v), message: format!("declared here: {declared}") }
    }

    fn argument(&self, argument: usize) -> &str {
        self.call.arguments[argument].map_or("", |v| self.place.printer.name(i32::from(v)))
    }

    /// The bounds of a parameter with the arguments put in.
    fn bounds(&self, parameter: usize) -> Option<KnownBounds> {
        parameter_bounds(self.callee, &arguments(&self.call), parameter)?.ok()
    }

    /// The two inequalities that have to be shown for a parameter.
    fn sides(&self, parameter: usize) -> Vec<Side> {
        let (Some(bounds), Some(argument)) = (self.bounds(parameter), self.call.arguments[parameter]) else {
            return Vec::new();
        };
        sides(bounds, self.moment, argument)
    }
}

/// Bounds against what is known of a pointer.
fn sides(bounds: KnownBounds, moment: &Moment, pointer: Var) -> Vec<Side> {
    let (Some(known), KnownBounds { size, lower: Some(lower), upper: Some(upper) }) =
        (moment.known.of(usize::from(pointer)), bounds)
    else {
        return Vec::new();
    };
    let side = |upper: bool, declared, known_end| Side {
        upper,
        declared,
        size,
        known: known_end,
        known_size: known.size,
    };
    vec![side(false, lower, known.lower), side(true, upper, known.upper)]
}

/// Refusal 20, in words.
pub fn not_fitting(program: &Program, place: &Place, seen: &Walk, refusal: &Refusal) -> Option<Explanation> {
    let refused = Refused::of(program, place, seen, refusal.place)?;
    let name = refused.name();
    let (sentence, notes) = match refused.fault {
        Fault::NoCallee => return None,
        Fault::Gap { argument } => {
            let gap = arguments(&refused.call).len() + 1;
            (format!("argument {gap} is left out before argument {}", argument + 1), Vec::new())
        }
        Fault::NoVariable { argument } if argument >= refused.callee.kinds.len() => {
            let count = refused.callee.kinds.len();
            let given = arguments(&refused.call).len();
            let variables = if count == 1 { "variable" } else { "variables" };
            (format!("`{name}` has {count} {variables}, {given} arguments are given"), Vec::new())
        }
        Fault::NoVariable { argument } => {
            let own = refused.call.arguments[argument].map_or(0, usize::from);
            let [given, due] =
                [kind(place.printer.table.variables[own][0]), kind(refused.kind_word(argument))];
            let (argued, parameter) = (refused.argument(argument), refused.variable(argument));
            let sentence = format!(
                "argument {}, `{argued}`, is {given}; parameter `{parameter}` is {due}",
                argument + 1
            );
            (sentence, vec![refused.declaration(argument)])
        }
        Fault::NoResult => {
            let last = refused.callee.kinds.len() - 1;
            let sentence = format!(
                "`{name}` has no result: its last variable `{}` is a pointer",
                refused.variable(last)
            );
            (sentence, vec![refused.declaration(last)])
        }
        Fault::NamesOther { parameter, variable } => {
            let (named, other) = (refused.variable(parameter), refused.variable(usize::from(variable)));
            let sentence = format!(
                "the bounds of parameter `{named}` name `{other}`, which gets no argument in this call"
            );
            (sentence, vec![refused.declared_bounds(parameter)])
        }
        Fault::NotShown { parameter } => unshown(&refused, parameter),
    };
    Some(Explanation { notes, ..Explanation::new(place.statement(refusal.place), sentence) })
}

impl Refused<'_> {
    fn kind_word(&self, v: usize) -> i32 {
        self.text.parts[self.number].variables[v][0]
    }
}

fn kind(word: i32) -> &'static str {
    match word {
        0 => "an integer",
        1 => "an array_ptr",
        _ => "an nt_array_ptr",
    }
}

/// The bounds of a parameter that are not shown for its argument.
fn unshown(refused: &Refused, parameter: usize) -> (String, Vec<Note>) {
    let place = refused.place;
    let ends = refused.sides(parameter);
    let [lower, upper] = [0, 1]
        .map(|end: usize| ends.get(end).map_or(String::new(), |side| place.end(side.declared, side.size)));
    let named = refused.variable(parameter);
    let sentence = format!("the bounds of parameter `{named}`, here bounds({lower}, {upper}), are not shown");
    let mut notes = vec![refused.declared_bounds(parameter)];
    let facts = &refused.moment.facts;
    let mut variables = Vec::new();
    for side in &ends {
        let Some(gap) = side.gap(facts) else { continue };
        variables.extend(side.variables());
        let which = if side.upper { "upper" } else { "lower" };
        let reason = match gap {
            Gap::Lost => format!("the known {which} end is unknown"),
            gap => format!("not shown: {}: {}", side.inequality(place), side.gap_words(&gap)),
        };
        notes.push(Note::new(reason));
    }
    notes.push(note(&place.printer, facts, &variables));
    (sentence, notes)
}

/// Checks before the call that show the bounds of its parameters, tried out.
pub fn help(program: &Program, place: &Place, refusal: &Refusal) -> Option<Help> {
    let seen = Draft::of(place).walk(None);
    let refused = Refused::of(program, place, &seen, refusal.place)?;
    let Fault::NotShown { parameter } = refused.fault else { return None };
    let lacking = |facts: &Facts| {
        let sides = refused.sides(parameter).into_iter();
        sides.filter(|side| side.gap(facts).is_some()).find_map(|side| side.lacking(facts))
    };
    let at = refusal.place;
    let mut draft = Draft::of(place);
    let mut conditions: Vec<[i32; 4]> = Vec::new();
    // One for each end at most.
    for _ in 0..2 {
        let moment = draft.walk(Some(at + conditions.len())).asked?;
        let condition = lacking(&moment.facts)?;
        let [left, relation, form, right] = condition;
        draft = draft.with_before(at, [10, left, relation, form, right, 0, 0]);
        conditions.push(condition);
        let gone = draft
            .walk(None)
            .answer
            .map_or_else(|next| next.place as usize > at + conditions.len(), |()| true);
        if gone || draft.walk(None).answer.is_err_and(|next| next.cause == 8) {
            let check =
                |condition: &[i32; 4]| format!("dynamic_check({});", place.printer.condition(*condition));
            let written: Vec<String> = conditions.iter().rev().map(check).collect();
            let message = format!("write {} before {}", written.join(" "), place.line(at));
            return Some(Help { message, repair: Some(Repair::Before { statement: at, written }) });
        }
    }
    None
}
