//! Editing with the verdict alongside: places shorten the walk and change no verdict; a refused edit changes nothing.

use mizzengrape::{check, edit, edit_start, kept, store_words, Edit, Editor, Refusal, Verdict, Walked};

/// check n > 0, n := n - 1, p := NULL, n := 9; variables p with count(n), n.
#[rustfmt::skip]
const ROUTINE: [i32; 50] = [
    6, 0, 6, 16, 22, 28, 1, 0, 0, -1, 0, 0, 1, 0, 0, 0, 0, 0, 0, 0, 0, 0,
    10, 1, 2, 1, 0, 0, 0, 2, 1, 1, -1, 0, 0, 0, 4, 0, 0, 0, 0, 0, 0, 1, 1, 9, 0, 0, 0, 0,
];

/// n := 5.
const FIVE: [i32; 7] = [1, 1, 5, 0, 0, 0, 0];

fn refused(number: u32, place: u32, pointer: Option<u32>) -> Refusal {
    Refusal { number, place, pointer }
}

fn accepted(statements: u32) -> Walked {
    Walked { verdict: Verdict::Accepted, statements }
}

#[test]
fn the_walk_goes_on_from_the_last_place() {
    let (mut editor, walked) = Editor::start(&ROUTINE, 2, &[3, 2, 0]).unwrap();
    assert_eq!((walked, editor.kept()), (accepted(4), vec![0, 2]));
    assert_eq!(editor.edit(Edit::Insert(&FIVE), 4, &[]), Ok(accepted(3)));
    assert_eq!(editor.edit(Edit::Replace(&FIVE), 3, &[]), Ok(accepted(3)));
    // Before the place at 2: it goes, and the walk begins at 0.
    assert_eq!(editor.edit(Edit::Remove, 1, &[]), Ok(accepted(4)));
    assert_eq!(editor.kept(), [0]);
    assert_eq!(editor.table()[..6], [6, 0, 6, 16, 22, 28]);
    assert_eq!(check(editor.table()), Verdict::Accepted);
}

#[test]
fn an_edit_with_a_refusal_as_its_verdict_is_made_and_repaired() {
    let (mut editor, _) = Editor::start(&ROUTINE, 4, &[]).unwrap();
    // Without p := NULL, n := 9 is not shown; the lowest pointer is p.
    let verdict = Verdict::Refused(refused(8, 2, Some(0)));
    assert_eq!(editor.edit(Edit::Remove, 2, &[0, 1, 2]), Ok(Walked { verdict, statements: 3 }));
    assert_eq!((check(editor.table()), editor.kept()), (verdict, vec![0, 1, 2]));
    assert_eq!(editor.edit(Edit::Insert(&[4, 0, 0, 0, 0, 0, 0]), 2, &[]), Ok(accepted(2)));
    assert_eq!(editor.table(), ROUTINE);
}

#[test]
fn a_refused_edit_changes_nothing() {
    let (mut editor, _) = Editor::start(&ROUTINE, 2, &[1]).unwrap();
    let none: &[i32] = &[];
    for (change, position, number) in [
        (Edit::Insert(&FIVE), 5, 18),
        (Edit::Replace(&FIVE), 4, 18),
        (Edit::Remove, u32::MAX, 18),
        (Edit::Insert(&[9, 9, 9, 9, 9, 9, 9]), 0, 5),
        (Edit::Insert(none), 0, 6),
        (Edit::Replace(&FIVE[..6]), 3, 6),
    ] {
        assert_eq!(editor.edit(change, position, &[0, 3]), Err(refused(number, position, None)));
        assert_eq!((editor.table(), editor.kept()), (&ROUTINE[..], vec![1]));
    }
}

#[test]
fn a_start_that_is_refused_takes_no_table() {
    for (table, refusal) in [
        (&[][..], refused(1, 0, None)),
        (&ROUTINE[..49], refused(2, 0, None)),
        (&[0; 8_000], refused(1, 0, None)),
    ] {
        assert_eq!(Editor::start(table, 1, &[0]).err(), Some(refusal));
    }
}

#[test]
fn a_buffer_without_room_or_without_a_table_is_answered() {
    let mut store = vec![0; store_words(1)];
    let mut buffer = [&ROUTINE[..], &[7; 7]].concat();
    assert!(edit_start(&buffer, 50, &mut store, &[2]).is_made);
    assert_eq!(kept(&store), [2]);
    let first = edit(&mut buffer, 0, 4, &FIVE, &mut store, &[]);
    assert_eq!((first.is_made, first.length, first.walked), (true, 57, 3));
    let (table, places) = (buffer.clone(), store.clone());
    let second = edit(&mut buffer, 0, 0, &FIVE, &mut store, &[]);
    assert_eq!((second.is_made, second.length), (false, 57));
    assert_eq!(second.verdict, Verdict::Refused(refused(18, 0, None)));
    let other = edit(&mut buffer, 3, 1, &[], &mut store, &[]);
    assert_eq!(other.verdict, Verdict::Refused(refused(18, 1, None)));
    assert_eq!((buffer, store), (table, places));
    for mut buffer in [vec![], vec![0; 5], vec![-1; 60], ROUTINE[..49].to_vec()] {
        let answer = edit(&mut buffer, 2, 1, &[], &mut [], &[]);
        assert_eq!(answer.verdict, Verdict::Refused(refused(18, 1, None)), "{buffer:?}");
        assert_eq!((answer.is_made, answer.walked, answer.length), (false, 0, 0));
    }
}
