//! Lists of loop facts: the report of an accepted routine, and refusal 17 by the check and by the run.

use mizzengrape::{check, check_with_facts, run_with_facts, Outcome, Refusal, Verdict};

/// check p != NULL, i := 0, while i != n { x := p[i], i := i + 1 }; variables p with count(n), n, i, x; one object of two cells.
#[rustfmt::skip]
const SCAN: [i32; 74] = [
    6, 1, 7, 32, 39, 35, 2, 1, 0, 0, -1, 0, 0, 1, 0, 0, 0, 0, 0, 0, 0, 0, 0, 0, 0, 0, 0, 0, 0, 0, 0, 0, 0, 0, 0, 0, 0, 0, 0,
    10, 0, 5, 1, 0, 0, 0, 1, 2, 0, 0, 0, 0, 0, 12, 2, 5, 0, 1, 2, 0, 8, 3, 0, 2, 0, 0, 0, 2, 2, 2, 1, 0, 0, 0,
];

/// At statement 2: i <= n.
const BELOW: [i32; 4] = [2, 2, 1, 0];

fn refused(place: u32) -> Refusal {
    Refusal { number: 17, place, pointer: None }
}

#[test]
fn a_list_makes_an_access_safe() {
    assert_eq!(check(&SCAN), Verdict::Accepted);
    assert_eq!(check_with_facts(&SCAN, &[]), (Verdict::Accepted, vec![]));
    assert_eq!(check_with_facts(&SCAN, &BELOW), (Verdict::Accepted, vec![3]));
}

#[test]
fn a_list_that_is_not_shown_or_wrong_is_refused() {
    for (list, place) in [(vec![2, 2, 1, -1], 0), (vec![2, 2, 1, 0, 2, 2], 1), (vec![0; 1_025], 256)] {
        assert_eq!(check_with_facts(&SCAN, &list), (Verdict::Refused(refused(place)), vec![]));
        let (mut cells, mut values) = ([0, 5, 6], [1, 2, 9, 9]);
        let run = run_with_facts(&SCAN, &list, &[1, 2], &mut cells, &mut values, &[1, 0, 0, 0], 99);
        assert_eq!(run, Outcome::Refused(refused(place)));
        assert_eq!((cells, values), ([0, 5, 6], [1, 2, 9, 9]));
    }
    assert_eq!(check_with_facts(&SCAN[..73], &BELOW).0, check(&SCAN[..73]));
}

#[test]
fn a_run_with_a_list_goes_as_without() {
    let (mut cells, mut values) = ([0, 5, 6], [1, 2, 9, 9]);
    let run = run_with_facts(&SCAN, &BELOW, &[1, 2], &mut cells, &mut values, &[1, 0, 0, 0], 99);
    assert_eq!((run, values), (Outcome::Done { steps: 9 }, [1, 2, 2, 6]));
}
