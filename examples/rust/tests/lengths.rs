//! Wrong lengths and empty slices: each is refused by its number, and nothing is changed.

use mizzengrape::{check, run, Check, Outcome, Refusal, Verdict};

/// check n > 0, p[0] := x; variables p with count(n), n, x; one object of two cells.
#[rustfmt::skip]
const ROUTINE: [i32; 45] = [
    6, 1, 7, 24, 31, 14, 2, 1, 0, 0, -1, 0, 0, 1, 0, 0, 0, 0, 0, 0, 0, 0, 0, 0, 0, 0, 0, 0, 0, 0, 0,
    10, 1, 2, 1, 0, 0, 0, 9, 0, -1, 0, 2, 0, 0,
];

fn refused(number: u32, place: u32) -> Refusal {
    Refusal { number, place, pointer: None }
}

#[test]
fn wrong_tables_are_refused() {
    assert_eq!(check(&ROUTINE), Verdict::Accepted);
    assert_eq!(check(&[]), Verdict::Refused(refused(1, 0)));
    assert_eq!(check(&ROUTINE[..5]), Verdict::Refused(refused(1, 0)));
    assert_eq!(check(&ROUTINE[..44]), Verdict::Refused(refused(2, 0)));
    assert_eq!(check(&[0; 7319]), Verdict::Refused(refused(1, 0)));
}

/// A table with bounds rows, which begins with 8, may be longer.
#[test]
fn tables_with_rows_are_longer() {
    let mut table = vec![0; 7705];
    table[0] = 8;
    assert_eq!(check(&table), Verdict::Refused(refused(1, 0)));
    assert_eq!(check(&table[..7704]), Verdict::Refused(refused(2, 0)));
}

/// if n == 0, p has row 0, else row 1; variables p with count(n), n; rows count(0), count(n).
#[rustfmt::skip]
const DIFFERING: [i32; 57] = [
    8, 0, 8, 16, 24, 21, 45, 12, 1, 0, 0, -1, 0, 0, 1, 0, 0, 0, 0, 0, 0, 0, 0, 0,
    11, 1, 4, 1, 0, 1, 1, 14, 0, 0, 0, 0, 0, 0, 14, 0, 1, 0, 0, 0, 0, 0, -1, 0, 0, -1, 0, 0, -1, 0, 0, 1, 0,
];

#[test]
fn rows_are_checked() {
    assert_eq!(check(&DIFFERING), Verdict::Refused(refused(13, 0)));
    let mut table = DIFFERING;
    // Both sides take row 0.
    table[40] = 0;
    assert_eq!(check(&table), Verdict::Accepted);
    // Row 1, behind two variables, names an integer as its pointer.
    table[51] = 1;
    assert_eq!(check(&table), Verdict::Refused(refused(4, 3)));
}

#[test]
fn refusal_8_has_its_pointer() {
    let mut table = ROUTINE;
    // n := n - 1 in place of the check.
    table[31..38].copy_from_slice(&[2, 1, 1, -1, 0, 0, 0]);
    assert_eq!(check(&table), Verdict::Refused(Refusal { number: 8, place: 0, pointer: Some(0) }));
}

#[test]
fn runs_end_done_spent_and_stopped() {
    let mut cells = [0, 0, 0];
    let mut values = [1, 2, 7];
    assert_eq!(run(&ROUTINE, &[1, 2], &mut cells, &mut values, &[1, 0, 0], 9), Outcome::Done { steps: 2 });
    assert_eq!((cells, values), ([0, 7, 0], [1, 2, 7]));
    let spent = Outcome::Spent { steps: 1, statement: 1 };
    assert_eq!(run(&ROUTINE, &[1, 2], &mut cells, &mut values, &[1, 0, 0], 1), spent);
    values = [3, 0, 8];
    let stopped = Outcome::Stopped { steps: 1, statement: 0, check: Check::ConditionFalse };
    assert_eq!(run(&ROUTINE, &[1, 2], &mut cells, &mut values, &[1, 0, 0], 9), stopped);
    assert_eq!((cells, values), ([0, 7, 0], [3, 0, 8]));
}

#[test]
fn wrong_lengths_are_refused_and_change_nothing() {
    let mut cells = [5, 6, 7];
    let mut values = [1, 2, 9];
    let not_begun = |number, place| Outcome::Refused(refused(number, place));
    assert_eq!(run(&[], &[], &mut [], &mut [], &[], 9), not_begun(1, 0));
    assert_eq!(run(&ROUTINE, &[], &mut cells, &mut values, &[1, 0, 0], 9), not_begun(10, 0));
    assert_eq!(run(&ROUTINE, &[1, 2, 3], &mut cells, &mut values, &[1, 0, 0], 9), not_begun(10, 0));
    assert_eq!(run(&ROUTINE, &[1, 2], &mut [], &mut values, &[1, 0, 0], 9), not_begun(10, 0));
    assert_eq!(run(&ROUTINE, &[1, 2], &mut cells[..2], &mut values, &[1, 0, 0], 9), not_begun(10, 0));
    assert_eq!(run(&ROUTINE, &[1, 2], &mut cells, &mut [], &[1, 0, 0], 9), not_begun(11, 0));
    assert_eq!(run(&ROUTINE, &[1, 2], &mut cells, &mut values[..2], &[1, 0, 0], 9), not_begun(11, 0));
    assert_eq!(run(&ROUTINE, &[1, 2], &mut cells, &mut values, &[], 9), not_begun(11, 0));
    assert_eq!(run(&ROUTINE, &[1, 2], &mut cells, &mut values, &[2, 0, 0], 9), not_begun(12, 0));
    assert_eq!((cells, values), ([5, 6, 7], [1, 2, 9]));
}

/// check n > 0, p[0] := x, then a bundle of p := p + 1 and n := n - 1.
#[rustfmt::skip]
const STEPPED: [i32; 66] = [
    6, 1, 7, 24, 31, 35, 2, 1, 0, 0, -1, 0, 0, 1, 0, 0, 0, 0, 0, 0, 0, 0, 0, 0, 0, 0, 0, 0, 0, 0, 0,
    10, 1, 2, 1, 0, 0, 0, 9, 0, -1, 0, 2, 0, 0, 13, 2, 0, 0, 0, 0, 0, 6, 0, 0, 1, 0, 0, 0, 2, 1, 1, -1, 0, 0, 0,
];

/// The same with rows of three cells: p steps by 3, and p's end counts in rows.
#[test]
fn rows_have_several_cells() {
    let mut table = STEPPED;
    (table[6], table[8], table[55]) = (6, 3, 3);
    let (mut cells, mut values) = ([0; 7], [1, 2, 7]);
    assert_eq!(run(&table, &[1, 6], &mut cells, &mut values, &[1, 0, 0], 9), Outcome::Done { steps: 5 });
    assert_eq!((cells, values), ([0, 7, 0, 0, 0, 0, 0], [4, 1, 7]));
    // A third row is not there.
    values[1] = 2;
    assert_eq!(
        run(&table, &[1, 6], &mut cells, &mut values, &[1, 0, 0], 9),
        Outcome::Refused(refused(12, 0))
    );
    table[8] = 9;
    assert_eq!(check(&table), Verdict::Refused(refused(4, 0)));
}

/// p, an nt_array_ptr into a terminated object of three cells: two letters and their 0.
#[test]
fn names_keep_their_terminator() {
    let mut table = ROUTINE;
    (table[6], table[7]) = (-3, 2);
    // p[n] := x in place of p[0] := x.
    table[38..45].copy_from_slice(&[9, 0, 1, 0, 2, 0, 0]);
    let lend = |n: u32, x: u32, cells: &mut [u32]| run(&table, &[1, 3], cells, &mut [1, n, x], &[1, 0, 0], 9);
    let mut cells = [0, 65, 66, 0];
    let stopped = Outcome::Stopped { steps: 2, statement: 1, check: Check::Terminator };
    assert_eq!(lend(2, 67, &mut cells), stopped);
    assert_eq!(lend(2, 0, &mut cells), Outcome::Done { steps: 2 });
    assert_eq!(lend(3, 0, &mut cells), Outcome::Refused(refused(12, 0)));
    assert_eq!(lend(2, 0, &mut [0, 65, 66, 67]), Outcome::Refused(refused(16, 0)));
    assert_eq!(lend(1, 0, &mut cells), Outcome::Done { steps: 2 });
    assert_eq!(cells, [0, 65, 0, 0]);
}

/// As the header says: no call begins in the middle, but a copy from before the run passes the same point.
#[test]
fn a_run_spent_in_a_bundle_goes_on_from_a_copy() {
    let (mut cells, mut values, origins) = ([0, 0, 0], [1, 2, 7], [1, 0, 0]);
    let before = (cells, values);
    let spent = Outcome::Spent { steps: 4, statement: 4 };
    assert_eq!(run(&STEPPED, &[1, 2], &mut cells, &mut values, &origins, 4), spent);
    assert_eq!((cells, values), ([0, 7, 0], [2, 2, 7]));
    // What it left has untrue bounds: p is moved and n is not lowered yet.
    let left = run(&STEPPED, &[1, 2], &mut cells, &mut values, &origins, 9);
    assert_eq!(left, Outcome::Refused(refused(12, 0)));
    (cells, values) = before;
    assert_eq!(run(&STEPPED, &[1, 2], &mut cells, &mut values, &origins, 9), Outcome::Done { steps: 5 });
    assert_eq!((cells, values), ([0, 7, 0], [2, 1, 7]));
}

#[test]
fn a_check_and_its_number_tell_each_other() {
    for number in 0..9 {
        assert_eq!(Check::from(number).number(), number);
        assert_eq!(matches!(Check::from(number), Check::Other(_)), !(1..=6).contains(&number));
    }
}
