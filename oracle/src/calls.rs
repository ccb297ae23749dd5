//! Calls between routines (point 14): refusals 19 and 20, and the rule for a parameter's bounds.

use crate::bounds::{Known, KnownBounds, Value};
use crate::facts::Facts;
use crate::syntax::{Call, End, Kind, Routine, Var};

/// Why a call is refused: the first of the rules, in this order, that it breaks. Arguments are numbered from 0.
#[derive(Clone, Copy, Debug, PartialEq, Eq)]
pub enum Fault {
    /// 19, "unless the callee's number is 0 or more and below the caller's".
    NoCallee,
    /// "an argument follows a -1".
    Gap { argument: usize },
    /// An argument "has no variable of its kind in the callee": none with its number, or one of another kind.
    NoVariable { argument: usize },
    /// "the last variable" is no integer, whether the result is wanted or not.
    NoResult,
    /// "Bounds of a parameter name parameters only": this variable of the callee takes no argument in this call.
    NamesOther { parameter: usize, variable: Var },
    /// An argument "is not shown in its bounds".
    NotShown { parameter: usize },
}

impl Fault {
    pub fn cause(self) -> u8 {
        match self {
            Fault::NoCallee => 19,
            _ => 20,
        }
    }
}

/// The arguments before the first -1: "The callee's first variables take the arguments".
pub fn arguments(call: &Call) -> Vec<Var> {
    call.arguments.iter().map_while(|argument| *argument).collect()
}

/// What is wrong with a call in a routine, where these are the routines before it, and this is known before the call.
pub fn fault(
    routine: &Routine,
    callees: &[Routine],
    call: &Call,
    facts: &Facts,
    known: &Known,
) -> Option<Fault> {
    let Some(callee) = usize::try_from(call.callee).ok().and_then(|number| callees.get(number)) else {
        return Some(Fault::NoCallee);
    };
    let given = arguments(call);
    let behind = call.arguments.iter().rposition(|argument| argument.is_some());
    if let Some(argument) = behind.filter(|&last| last >= given.len()) {
        return Some(Fault::Gap { argument });
    }
    let kind = |argument: &usize| routine.kinds[usize::from(given[*argument])];
    let unlike = |argument: &usize| callee.kinds.get(*argument) != Some(&kind(argument));
    if let Some(argument) = (0..given.len()).find(unlike) {
        return Some(Fault::NoVariable { argument });
    }
    if callee.kinds.last() != Some(&Kind::Integer) {
        return Some(Fault::NoResult);
    }
    (0..given.len()).find_map(|parameter| parameter_fault(callee, &given, parameter, facts, known))
}

fn parameter_fault(
    callee: &Routine,
    given: &[Var],
    parameter: usize,
    facts: &Facts,
    known: &Known,
) -> Option<Fault> {
    match parameter_bounds(callee, given, parameter)? {
        Err(variable) => Some(Fault::NamesOther { parameter, variable }),
        Ok(bounds) => {
            let shown = known.shows_bounds(given[parameter], bounds, facts);
            (!shown).then_some(Fault::NotShown { parameter })
        }
    }
}

/// The bounds of a parameter with the arguments put in, and its size; the error is a variable that takes no argument.
/// An integer has none.
pub fn parameter_bounds(
    callee: &Routine,
    given: &[Var],
    parameter: usize,
) -> Option<Result<KnownBounds, Var>> {
    let bounds = callee.bounds[parameter]?;
    let argument = |v: Var| given.get(usize::from(v)).copied().ok_or(v);
    let end = |end: End| {
        let integer = end.integer.map(argument).transpose()?;
        Ok(Some(Value { pointer: argument(end.pointer)?, integer, constant: i64::from(end.constant) }))
    };
    let size = callee.size(parameter as Var);
    let both = end(bounds.lower).and_then(|lower| Ok((lower, end(bounds.upper)?)));
    Some(both.map(|(lower, upper)| KnownBounds { size, lower, upper }))
}
