//! The dispatcher in its fast form: each routine is translated once, and a turn goes on where the last one ended.

use crate::fast_check::check_with_facts;
use crate::fast_code::Code;
use crate::fast_run::{begin, Begun};
use oracle::answer::{Refusal, RunAnswer};
use oracle::dispatch::{Dispatched, Member, Turn, Turns, TurnsRefusal, MAX_QUANTUM, MAX_ROUTINES};
use oracle::entry::{check_entry, Lent};
use oracle::table::decode;

pub fn dispatch(lent: &mut Turns) -> Result<Dispatched, TurnsRefusal> {
    let codes = check(lent)?;
    let Turns { members, cells, quantum, total } = lent;
    let mut runs: Vec<Begun> =
        codes.iter().zip(members.iter()).map(|(code, member)| begin(code, &member.values)).collect();
    let mut answers: Vec<RunAnswer> = runs.iter_mut().map(|run| run.go(cells, 0)).collect();
    let mut waiting: Vec<usize> =
        (0..runs.len()).filter(|&r| matches!(answers[r], RunAnswer::Spent { .. })).collect();
    let mut order = Vec::new();
    let mut left = *total;
    while left > 0 && !waiting.is_empty() {
        waiting.retain(|&routine| {
            if left == 0 {
                return true;
            }
            let before = runs[routine].steps;
            answers[routine] = runs[routine].go(cells, left.min(*quantum));
            let steps = runs[routine].steps - before;
            left -= steps as u32;
            order.push(Turn { routine, steps });
            matches!(answers[routine], RunAnswer::Spent { .. })
        });
    }
    for (run, member) in runs.iter().zip(members) {
        run.give_back(&mut member.values);
    }
    Ok(Dispatched { answers, order })
}

/// All refusals; the code of each routine.
fn check(lent: &Turns) -> Result<Vec<Code>, TurnsRefusal> {
    let count = lent.members.len();
    if count == 0 || count > MAX_ROUTINES || lent.quantum == 0 || lent.quantum > MAX_QUANTUM {
        return Err(TurnsRefusal::OutOfRange);
    }
    let mut codes = Vec::with_capacity(count);
    for (routine, member) in lent.members.iter().enumerate() {
        let code = check_member(member, &lent.cells);
        codes.push(code.map_err(|refusal| TurnsRefusal::Routine { routine, refusal })?);
    }
    // Sorted by their cells, objects that overlap lie side by side; of each such pair the later routine is found.
    let pairs = |member: &Member| -> Vec<[u32; 2]> {
        member.directory.chunks_exact(2).map(|pair| [pair[0], pair[1]]).collect()
    };
    for routine in 1..count {
        let mut objects: Vec<[u32; 2]> = lent.members[..=routine].iter().flat_map(pairs).collect();
        objects.sort();
        if objects.windows(2).any(|two| two[0][0] + two[0][1] > two[1][0]) {
            return Err(TurnsRefusal::Overlap { routine });
        }
    }
    Ok(codes)
}

fn check_member(member: &Member, cells: &[u32]) -> Result<Code, Refusal> {
    let Member { table, facts, directory, values, origins } = member;
    check_with_facts(table, facts)?;
    let routine = decode(table)?;
    check_entry(&routine, Lent { directory, cells, values, origins })?;
    Ok(crate::fast_code::translate(&routine, directory))
}
