//! Sets of routines: a callee's result, its steps, refusals that name the routine, damaged lengths.

use mizzengrape::{
    check_set, check_set_parts, run_set, run_set_parts, Check, Lent, Outcome, Refusal, Set, SetOutcome,
    SetRoom, SetVerdict,
};

/// z := x + y; variables x, y, z.
#[rustfmt::skip]
const ADDER: [i32; 37] = [
    6, 0, 6, 24, 30, 7, 0, 0, 0, 0, 0, 0, 0, 0, 0, 0, 0, 0, 0, 0, 0, 0, 0, 0, 0, 0, 0, 0, 0, 0, 3, 2, 0, 1, 0, 0, 0,
];

/// z := routine 0 of x and y, then check z < 9; the same variables.
#[rustfmt::skip]
const CALLER: [i32; 44] = [
    6, 0, 6, 24, 30, 14, 0, 0, 0, 0, 0, 0, 0, 0, 0, 0, 0, 0, 0, 0, 0, 0, 0, 0, 0, 0, 0, 0, 0, 0,
    15, 0, 2, 0, 1, -1, -1, 10, 2, 0, 1, 9, 0, 0,
];

fn ran(tables: &[&[i32]], mut values: [u32; 3], limit: u32) -> (String, [u32; 3]) {
    let mut lent = Lent { directory: &[], cells: &mut [0], values: &mut values, origins: &[0; 3] };
    let ended = run_set(tables, &mut lent, limit);
    (ended.to_string(), values)
}

#[test]
fn a_callee_gives_its_last_variable_back() {
    let set: [&[i32]; 2] = [&ADDER, &CALLER];
    assert_eq!(check_set(&set), SetVerdict::Accepted);
    assert_eq!(ran(&set, [3, 4, 0], 99), ("done 3".to_string(), [3, 4, 7]));
    assert_eq!(ran(&set, [3, 6, 0], 99), ("stopped 3 1 1 1".to_string(), [3, 6, 9]));
    assert_eq!(ran(&set, [3, 4, 0], 1), ("spent 1 0 0".to_string(), [3, 4, 0]));
    assert_eq!(ran(&set, [3, 4, 0], 2), ("spent 2 1 1".to_string(), [3, 4, 7]));
    let mut lent = Lent { directory: &[], cells: &mut [0], values: &mut [9, 9, 9], origins: &[0; 3] };
    let stopped = Outcome::Stopped { steps: 3, statement: 1, check: Check::ConditionFalse };
    assert_eq!(run_set(&set, &mut lent, 9), SetOutcome { routine: 1, outcome: stopped });
}

#[test]
fn refusals_name_the_routine() {
    let refused = |routine, number, place| SetVerdict::Refused {
        routine,
        refusal: Refusal { number, place, pointer: None },
    };
    assert_eq!(check_set(&[]), refused(0, 15, 0));
    assert_eq!(check_set(&[&ADDER[..]; 9]), refused(0, 15, 0));
    assert_eq!(check_set(&[&CALLER, &ADDER]), refused(0, 19, 0));
    assert_eq!(check_set(&[&ADDER, &CALLER[..9]]), refused(1, 2, 0));
    // Of four arguments the last has no variable in the callee.
    let mut four = CALLER;
    four[33..37].copy_from_slice(&[0, 1, 2, 2]);
    assert_eq!(check_set(&[&ADDER, &four]).to_string(), "refused routine 1 20 0");
    assert_eq!(ran(&[&ADDER, &four], [3, 4, 5], 9), ("refused routine 1 20 0".to_string(), [3, 4, 5]));
    assert_eq!(ran(&[], [3, 4, 5], 9), ("refused 15 0".to_string(), [3, 4, 5]));
    // What is lent is the last routine's.
    let mut lent = Lent { directory: &[], cells: &mut [0], values: &mut [1, 2], origins: &[0; 3] };
    assert_eq!(run_set(&[&ADDER, &CALLER], &mut lent, 9).to_string(), "refused routine 1 11 0");
}

#[test]
fn tables_are_cut_at_the_end_of_their_slice() {
    let tables = [&ADDER[..], &CALLER].concat();
    let mut room = SetRoom::default();
    let mut answers = |lengths: &[u32]| {
        let set = Set { tables: &tables, lengths };
        let mut lent = Lent { directory: &[], cells: &mut [0], values: &mut [3, 4, 0], origins: &[0; 3] };
        let verdict = check_set_parts(set, &mut room).to_string();
        (verdict, run_set_parts(set, &mut lent, 9, &mut room).to_string())
    };
    let pair = |verdict: &str, outcome: &str| (verdict.to_string(), outcome.to_string());
    assert_eq!(answers(&[37, 44]), pair("accepted", "done 3"));
    assert_eq!(answers(&[37, u32::MAX]), pair("accepted", "done 3"));
    assert_eq!(answers(&[37]), pair("accepted", "done 1"));
    assert_eq!(answers(&[38, 44]), pair("refused routine 0 2 0", "refused routine 0 2 0"));
    assert_eq!(answers(&[37, 44, 1]), pair("refused routine 2 1 0", "refused routine 2 1 0"));
}
