//! Several routines in turn: the turns of two finish laptops, the total, and refusals that change nothing.

use mizzengrape::{dispatch, dispatch_parts, Outcome, Parts, Refusal, Room, Routine, Turns};

/// p[0] := x, x := x + 1, p[1] := x; variables p with the bounds (p, p + 2), x; one object of two cells.
#[rustfmt::skip]
const WRITER: [i32; 44] = [
    6, 1, 7, 16, 23, 21, 2, 1, 0, 0, -1, 0, 0, -1, 2, 0, 0, 0, 0, 0, 0, 0, 0,
    9, 0, -1, 0, 1, 0, 0, 2, 1, 1, 1, 0, 0, 0, 9, 0, -1, 1, 1, 0, 0,
];

/// Two writers with objects at these cells.
fn two(places: [u32; 2], quantum: u32, total: u32) -> (Turns, [u32; 6], [[u32; 2]; 2]) {
    let mut cells = [0; 6];
    let mut values = [[places[0], 7], [places[1], 9]];
    let directories = places.map(|place| [place, 2]);
    let mut routines: Vec<Routine> = Vec::new();
    for (directory, values) in directories.iter().zip(&mut values) {
        routines.push(Routine { table: &WRITER, facts: &[], directory, values, origins: &[1, 0] });
    }
    let answer = dispatch(&mut routines, &mut cells, quantum, total);
    (answer, cells, values)
}

#[test]
fn both_end_as_by_themselves() {
    let done = Outcome::Done { steps: 3 };
    for quantum in [1, 2, 1_000] {
        let (answer, cells, values) = two([1, 3], quantum, 100);
        assert_eq!(answer, Turns::Ran(vec![done; 2]));
        assert_eq!((cells, values), ([0, 7, 8, 9, 10, 0], [[1, 8], [3, 10]]));
    }
}

#[test]
fn the_total_is_for_both() {
    let (answer, cells, values) = two([4, 1], 2, 3);
    let spent = |steps, statement| Outcome::Spent { steps, statement };
    assert_eq!(answer, Turns::Ran(vec![spent(2, 2), spent(1, 1)]));
    assert_eq!((cells, values), ([0, 9, 0, 0, 7, 0], [[4, 8], [1, 9]]));
}

#[test]
fn refusals_change_nothing() {
    let refused = |routine, number, place| Turns::Refused {
        routine,
        refusal: Refusal { number, place, pointer: None },
    };
    for (places, quantum, right) in [
        ([1, 2], 5, refused(1, 14, 1)),
        ([1, 3], 0, refused(0, 15, 0)),
        ([1, 3], 1_001, refused(0, 15, 0)),
        ([1, 5], 5, refused(1, 10, 0)),
    ] {
        let (answer, cells, values) = two(places, quantum, 100);
        assert_eq!(answer, right);
        assert_eq!((cells, values), ([0; 6], [[places[0], 7], [places[1], 9]]));
    }
    assert_eq!(dispatch(&mut [], &mut [], 1, 1), refused(0, 15, 0));
}

#[test]
fn parts_are_cut_at_the_end_of_their_slice() {
    let tables = [WRITER, WRITER].concat();
    let (directories, origins) = ([1, 2, 3, 2], [1, 0, 1, 0]);
    let answer = |lengths: &[u32]| {
        let (mut cells, mut values) = ([0; 6], [1, 7, 3, 9]);
        let (directories, origins) = (&directories[..], &origins[..]);
        let (cells, values) = (&mut cells[..], &mut values[..]);
        let mut parts = Parts { tables: &tables, facts: &[], directories, cells, values, origins, lengths };
        dispatch_parts(&mut parts, 1, 100, &mut Room::default()).to_string()
    };
    assert_eq!(answer(&[44, 0, 2, 2, 2, 44, 0, 2, 2, 2]), "routine 0: done 3, routine 1: done 3");
    assert_eq!(answer(&[44, 9, 2, 2, 2, 99, u32::MAX, 5, 6, 7]), "routine 0: done 3, routine 1: done 3");
    assert_eq!(answer(&[44, 0, 2, 2, 2, 44, 0, 2, 2]), "routine 0: refused 15 0");
    assert_eq!(answer(&[44, 0, 2, 3, 2, 44, 0, 2, 2, 2]), "routine 0: refused 11 0");
}
