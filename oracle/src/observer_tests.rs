use super::*;
use crate::answer::show_check;
use crate::draft::*;

const P: i32 = 0;
const N: i32 = 1;

/// The statements that an observer is shown, before and after, with the constant of p's known upper end.
#[derive(Default)]
struct Seen(Vec<(&'static str, usize, Option<i64>)>);

impl Observer for Seen {
    fn before(&mut self, statement: usize, _: &Facts, _: &Rows, known: &Known) {
        self.0.push(("before", statement, upper(known)));
    }

    fn after(&mut self, statement: usize, _: &Facts, _: &Rows, known: &Known) {
        self.0.push(("after", statement, upper(known)));
    }
}

fn upper(known: &Known) -> Option<i64> {
    known.of(P as usize)?.upper.map(|end| end.constant)
}

#[test]
fn an_observer_sees_the_rows_in_force() {
    struct RowsSeen(Vec<(&'static str, usize, Option<u8>)>);
    impl Observer for RowsSeen {
        fn before(&mut self, statement: usize, _: &Facts, rows: &Rows, _: &Known) {
            self.0.push(("before", statement, rows.row(P as u8)));
        }

        fn after(&mut self, statement: usize, _: &Facts, rows: &Rows, _: &Known) {
            self.0.push(("after", statement, rows.row(P as u8)));
        }
    }
    let draft = Draft {
        variables: vec![[1, 0, P, -1, 0, P, N, 0], [0; 8]],
        statements: bundle(vec![declare(P, 1), declare(P, 0)]),
        rows: Some(vec![[P, -1, 0, P, -1, 1], [P, -1, 0, P, N, 0]]),
        ..Draft::default()
    };
    let mut seen = RowsSeen(Vec::new());
    let answer = watch(&decode(&draft.words()).unwrap(), &mut seen).map(|_| ());
    // The row that is not shown is in force after its kind 14.
    assert_eq!(show_check(&answer), "refused 8 2 0");
    let rows = [
        ("before", 0, None),
        ("before", 1, None),
        ("after", 1, Some(1)),
        ("before", 2, Some(1)),
        ("after", 2, Some(0)),
    ];
    assert_eq!(seen.0, rows);
}

#[test]
fn an_observer_sees_each_statement() {
    let draft = Draft {
        objects: vec![],
        variables: vec![[1, 0, P, -1, 0, P, N, 0], [0; 8]],
        statements: [
            vec![dynamic_check(with_literal(N, GREATER, 0))],
            bundle(vec![move_pointer(P, P, 1), set(N, 0)]),
        ]
        .concat(),
        rows: None,
    };
    let routine = decode(&draft.words()).unwrap();
    let mut seen = Seen::default();
    let answer = watch(&routine, &mut seen).map(|_| ());
    assert_eq!(show_check(&answer), "refused 8 1 0");
    let expected = [
        ("before", 0, Some(0)),
        ("after", 0, Some(0)),
        ("before", 1, Some(0)),
        ("before", 2, Some(0)),
        ("after", 2, Some(-1)),
        ("before", 3, Some(-1)),
        ("after", 3, None),
        ("after", 1, None),
    ];
    assert_eq!(seen.0, expected);
}
