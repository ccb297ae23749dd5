//! What a run is lent: directories, cells, entries true and untrue, allowances.

use crate::rng::Rng;
use oracle::answer::{RunAnswer, RunInput};
use oracle::entry::{check_entry, MAX_CELLS};
use oracle::machine;
use oracle::table::{decode, Kind, Routine, Var};

/// A run that needs more steps than this never gets the greatest allowance.
const LONG: u32 = 20_000;

/// For a table that is accepted with its list, or not.
pub fn choose(rng: &mut Rng, table: &[i32], accepted: bool) -> RunInput {
    // A table that does not decode is refused before anything lent is looked at.
    let Ok(routine) = decode(table) else {
        return RunInput {
            directory: vec![1, 3],
            cells: vec![5; 6],
            values: vec![1; 4],
            origins: vec![0; 4],
            allowance: rng.pick(&[0, 10, u32::MAX]),
        };
    };
    for_routine(rng, &routine, accepted, &|input| machine::run_routine(&routine, input))
}

/// What a run tries with an input.
type Trial<'a> = &'a dyn Fn(&mut RunInput) -> RunAnswer;

/// For a routine that is accepted with its list or in its set, or not.
pub fn for_routine(rng: &mut Rng, routine: &Routine, accepted: bool, trial: Trial) -> RunInput {
    let mut input = lend(rng, routine);
    let entered = entered(rng, routine);
    // Of some entries take the one that goes furthest: dynamic checks stop most.
    let mut furthest = None;
    for _ in 0..rng.pick(&[1, 3, 6]) {
        fill_values(rng, routine, &entered, &mut input);
        make_true(routine, &mut input);
        let progress = if accepted { progress(trial, &input) } else { 0 };
        if furthest.as_ref().is_none_or(|(most, _, _)| progress > *most) {
            furthest = Some((progress, input.values.clone(), input.origins.clone()));
        }
    }
    if let Some((_, values, origins)) = furthest {
        (input.values, input.origins) = (values, origins);
    }
    match rng.below(100) {
        0..=5 => break_directory(rng, &mut input),
        6..=8 => break_lengths(rng, &mut input),
        9..=22 => break_entry(rng, routine, &mut input),
        23..=27 => break_name(rng, routine, &mut input),
        _ => {}
    }
    input.allowance = allowance(rng, trial, &input, accepted);
    input
}

/// How far a short run of an accepted routine goes; to its end counts most.
fn progress(run: Trial, input: &RunInput) -> u64 {
    if input.cells.len() > 2_000 {
        return 0;
    }
    let mut trial = RunInput { allowance: 300, ..input.clone() };
    match run(&mut trial) {
        RunAnswer::Done { steps } => 1_000 + steps,
        RunAnswer::Spent { steps, .. } | RunAnswer::Stopped { steps, .. } => steps,
        _ => 0,
    }
}

/// A directory with touching objects and gaps, and memory for it.
fn lend(rng: &mut Rng, routine: &Routine) -> RunInput {
    let mut free = 1 + rng.below(4) as u32;
    let mut directory = Vec::new();
    for object in &routine.objects {
        directory.extend([free, object.length]);
        free += object.length + if rng.chance(60) { 0 } else { rng.below(4) as u32 };
    }
    let end = directory.last_chunk().map_or(0, |[offset, length]| offset + length) as usize;
    let size = end + if rng.chance(40) { 0 } else { rng.below(5) };
    // Large memory is lent with few cells set: only the beginning matters.
    let mut cells = vec![0; size];
    for (a, cell) in cells.iter_mut().take(400).enumerate() {
        *cell = match rng.below(8) {
            0 => u32::MAX - rng.below(2) as u32,
            1 | 2 => 100 + a as u32,
            _ => rng.below(9) as u32,
        };
    }
    for (pair, object) in directory.chunks_exact(2).zip(&routine.objects) {
        if object.terminated {
            cells[(pair[0] + pair[1]) as usize - 1] = 0;
        }
    }
    RunInput { directory, cells, ..RunInput::default() }
}

/// The objects that entry pointers may have as origin: often not all, so that some are out of reach; most often one
/// that kind 2 pointers can have.
fn entered(rng: &mut Rng, routine: &Routine) -> Vec<usize> {
    let objects = routine.objects.len();
    let mut entered: Vec<usize> = (0..objects).collect();
    if rng.chance(60) {
        rng.shuffle(&mut entered);
        entered.truncate(1 + rng.below(objects) / 2);
    }
    let names: Vec<usize> = (0..objects).filter(|&o| routine.objects[o].terminated).collect();
    if routine.kinds.contains(&Kind::Terminated) && !entered.iter().any(|o| names.contains(o)) {
        entered.extend(rng.pick_any(&names).filter(|_| rng.chance(80)));
    }
    entered
}

/// Pointers into or near objects, counts that just fit.
fn fill_values(rng: &mut Rng, routine: &Routine, entered: &[usize], input: &mut RunInput) {
    let variables = routine.kinds.len();
    input.values = (0..variables).map(|_| integer(rng)).collect();
    input.origins = vec![0; variables];
    // One object for most pointers, so that bounds shared by several can be true.
    let names: Vec<usize> = entered.iter().copied().filter(|&o| routine.objects[o].terminated).collect();
    // Often a name, where there are kind 2 pointers, which need one.
    let name = rng.pick_any(&names);
    let favourite = if rng.chance(60) { name.or(rng.pick_any(entered)) } else { rng.pick_any(entered) };
    for v in (0..variables).filter(|&v| routine.kinds[v].is_pointer()) {
        let (objects, first) = match routine.kinds[v] == Kind::Terminated {
            true => (&names[..], name),
            false => (entered, favourite),
        };
        let object = if rng.chance(75) { first } else { rng.pick_any(objects) };
        let Some(object) = object.filter(|_| rng.chance(85)) else {
            input.values[v] = 0;
            continue;
        };
        let (low, length) = (input.directory[2 * object], input.directory[2 * object + 1]);
        let within = if rng.chance(60) { 0 } else { rng.below(length as usize + 1) as u32 };
        input.values[v] = low + within;
        input.origins[v] = object as u32 + 1;
    }
    fit_counts(rng, routine, input);
}

fn integer(rng: &mut Rng) -> u32 {
    match rng.below(12) {
        0 => rng.pick(&[u32::MAX, u32::MAX - 1, 1 << 31, 65_536, 65_535]),
        1 | 2 => 0,
        // About what the large literals are.
        3 => u32::MAX - rng.pick(&[9, 65_540]) + rng.below(9) as u32,
        _ => rng.below(9) as u32,
    }
}

/// Gives each integer of upper ends a value that just fits all the objects.
fn fit_counts(rng: &mut Rng, routine: &Routine, input: &mut RunInput) {
    for n in 0..routine.kinds.len() {
        let room = (0..routine.kinds.len()).filter_map(|v| {
            let upper = routine.bounds[v]?.upper;
            let origin = input.origins[v] as usize;
            if origin == 0 || upper.integer.map(usize::from) != Some(n) {
                return None;
            }
            let high =
                i64::from(input.directory[2 * origin - 2]) + i64::from(routine.objects[origin - 1].room());
            let named = i64::from(input.values[usize::from(upper.pointer)]);
            Some((high - named - i64::from(upper.constant)).div_euclid(routine.size(v as Var)))
        });
        let least = room.min();
        let less = if rng.chance(60) { 0 } else { rng.below(3) as i64 };
        if let (Some(least), true) = (least, rng.chance(90)) {
            input.values[n] = u32::try_from(least - less).unwrap_or(0);
        }
    }
}

/// Makes null every pointer whose bounds are untrue: so all become true.
fn make_true(routine: &Routine, input: &mut RunInput) {
    while let Err(refusal) = check_entry(routine, &*input) {
        if refusal.cause != 12 {
            return;
        }
        input.values[refusal.place as usize] = 0;
        input.origins[refusal.place as usize] = 0;
    }
}

/// Cause 10, most often.
fn break_directory(rng: &mut Rng, input: &mut RunInput) {
    let words = input.directory.len();
    let word = rng.below(words);
    match rng.below(8) {
        0 => input.directory.push(1),
        1 => {
            input.directory.pop();
        }
        2 => input.directory.extend([1, 1]),
        3 if rng.chance(3) => input.cells = vec![0; MAX_CELLS + rng.below(2)],
        3 | 4 => input.cells.truncate(input.cells.len().saturating_sub(1 + rng.below(3))),
        5 if words >= 4 => input.directory.swap(word, (word + 2) % words),
        6 if words > 0 => input.directory[word & !1] = rng.pick(&[0, 1, u32::MAX, u32::MAX - 3]),
        _ if words > 0 => {
            let change = rng.pick(&[1, u32::MAX]);
            input.directory[word] = input.directory[word].wrapping_add(change);
        }
        _ => input.directory.push(0),
    }
}

/// Cause 11.
fn break_lengths(rng: &mut Rng, input: &mut RunInput) {
    let list = if rng.chance(50) { &mut input.values } else { &mut input.origins };
    match rng.below(3) {
        0 => list.push(0),
        1 => list.clear(),
        _ => {
            list.pop();
        }
    }
}

/// Cause 12, most often: origins wrong, or a value that makes bounds untrue.
fn break_entry(rng: &mut Rng, routine: &Routine, input: &mut RunInput) {
    let v = rng.below(routine.kinds.len());
    let objects = routine.objects.len() as u32;
    match rng.below(7) {
        0 => input.origins[v] = rng.pick(&[0, 1, objects, objects + 1, u32::MAX]),
        1 => input.values[v] = rng.pick(&[0, 1, u32::MAX, u32::MAX - 1]),
        2 => input.values[v] = input.values[v].wrapping_sub(1),
        3 => input.origins[v] = input.origins[v] % objects.max(1) + 1,
        // Small, if its product with an element size wrapped.
        4 => input.values[v] = u32::MAX / rng.range(2, 8) as u32 + rng.below(3) as u32,
        // A count one too large: into the next object where objects touch.
        _ => input.values[v] = input.values[v].wrapping_add(rng.pick(&[1, 1, 2, 5])),
    }
}

/// Cause 16: a last cell that is not 0, of one terminated object or of several.
fn break_name(rng: &mut Rng, routine: &Routine, input: &mut RunInput) {
    for (pair, object) in input.directory.chunks_exact(2).zip(&routine.objects) {
        let last = (pair[0] + pair[1]) as usize - 1;
        if object.terminated && rng.chance(60) {
            input.cells[last] = rng.pick(&[1, u32::MAX]);
        }
    }
}

/// None, few, just enough, or plenty of steps.
fn allowance(rng: &mut Rng, run: Trial, input: &RunInput, accepted: bool) -> u32 {
    match rng.below(20) {
        0 => return 0,
        1..=3 => return rng.range(1, 30) as u32,
        _ => {}
    }
    // Should another implementation accept it after all, its run has to end.
    if !accepted {
        return rng.pick(&[100, LONG]);
    }
    let mut trial = RunInput { allowance: LONG, ..input.clone() };
    let steps = match run(&mut trial) {
        RunAnswer::Done { steps } | RunAnswer::Stopped { steps, .. } => steps as u32,
        _ => return rng.pick(&[100, 1_000, LONG]),
    };
    match rng.below(8) {
        0 => steps.saturating_sub(1),
        1 => steps,
        2 => steps + 1,
        _ => rng.pick(&[LONG, u32::MAX, u32::MAX]),
    }
}
