use super::*;
use crate::answer::show_check;
use crate::checker::check;
use crate::draft::*;

const P: i32 = 0;
const N: i32 = 1;

/// p (0, count(n)), n; check n > 0, n := n - 1, p := null, n := 9.
fn four() -> Vec<i32> {
    let guard = dynamic_check(with_literal(N, GREATER, 0));
    let variables = vec![[1, 0, P, -1, 0, P, N, 0], [0; 8]];
    let statements = vec![guard, add_constant(N, N, -1), null(P), set(N, 9)];
    Draft { variables, statements, ..Draft::default() }.words()
}

/// An editor of the table with so many words of room behind it.
fn editor(table: Vec<i32>, room: usize, places: usize, keep: &[u32]) -> (Editor, String) {
    let length = table.len();
    let buffer = [table, vec![7_777; room]].concat();
    let (editor, walked) = Editor::start(buffer, length, places, keep).expect("passes 1 to 6");
    let shown = show(&editor, Ok(walked));
    (editor, shown)
}

/// The verdict, the count and what is stored.
fn show(editor: &Editor, walked: Result<Walked, Refusal>) -> String {
    let answer = match walked {
        Ok(walked) => format!("{} walked {}", show_check(&walked.verdict), walked.count),
        Err(refusal) => format!("not edited {} {}", refusal.cause, refusal.place),
    };
    format!("{answer}, stored {:?}", editor.stored)
}

fn edit(editor: &mut Editor, operation: u32, position: u32, text: &[Record], keep: &[u32]) -> String {
    let text = text.as_flattened();
    let answer = editor.edit(Edit { operation, position, text }, keep);
    if let Ok(walked) = answer {
        assert_eq!(walked.verdict, check(editor.table()), "as from nothing");
    }
    show(editor, answer)
}

#[test]
fn positions_are_kept_as_the_walk_passes_them() {
    assert_eq!(editor(four(), 0, 4, &[]).1, "accepted walked 4, stored {}");
    assert_eq!(editor(four(), 0, 2, &[3, 2, 0]).1, "accepted walked 4, stored {0, 2}");
    assert_eq!(editor(four(), 0, 4, &[u32::MAX, 1, 1, 4, 99]).1, "accepted walked 4, stored {1}");
    // A statement that is refused is passed; those behind it are not.
    let mut table = four();
    table[22..29].copy_from_slice(&set(N, 5));
    assert_eq!(editor(table, 0, 4, &[0, 1]).1, "refused 8 0 0 walked 1, stored {0}");
}

#[test]
fn an_edit_walks_from_the_last_place_and_drops_those_behind_it() {
    let (mut one, _) = editor(four(), 70, 4, &[0, 2]);
    let passes = dynamic_check(with_literal(N, GREATER_EQUAL, 0));
    assert_eq!(edit(&mut one, INSERT, 2, &[passes], &[]), "accepted walked 3, stored {0, 2}");
    let (mut two, _) = editor(four(), 70, 4, &[1, 2, 3]);
    assert_eq!(edit(&mut two, INSERT, 1, &[null(P)], &[3, 4]), "accepted walked 4, stored {1, 3, 4}");
    assert_eq!(edit(&mut two, REPLACE, 3, &[null(P)], &[0]), "accepted walked 2, stored {1, 3}");
    assert_eq!(edit(&mut two, REMOVE, 0, &[], &[0]), "accepted walked 4, stored {0}");
    // The place of a removed last statement serves the next insertion.
    let (mut three, _) = editor(four(), 70, 4, &[3]);
    assert_eq!(edit(&mut three, REMOVE, 3, &[], &[]), "accepted walked 0, stored {3}");
    assert_eq!(edit(&mut three, INSERT, 3, &[set(N, 1)], &[]), "accepted walked 1, stored {3}");
}

#[test]
fn a_verdict_that_is_a_refusal_is_written_and_can_be_repaired() {
    let (mut one, _) = editor(four(), 0, 4, &[0, 1]);
    let before = one.buffer.clone();
    assert_eq!(edit(&mut one, REMOVE, 0, &[], &[]), "refused 8 0 0 walked 1, stored {0}");
    // The words behind the new table are what they were.
    assert_eq!(one.length, before.len() - 7);
    assert_eq!(one.buffer[one.length..], before[one.length..]);
    let guard = dynamic_check(with_literal(N, GREATER, 0));
    assert_eq!(edit(&mut one, INSERT, 0, &[guard], &[1]), "accepted walked 4, stored {0, 1}");
    assert_eq!(one.buffer, before);
}

#[test]
fn eighteen_for_positions_and_room() {
    let (mut one, _) = editor(four(), 6, 4, &[1]);
    let before = one.buffer.clone();
    for (operation, position) in
        [(INSERT, 5), (INSERT, u32::MAX), (REPLACE, 4), (REMOVE, 4), (3, 0), (u32::MAX, 0)]
    {
        let answer = edit(&mut one, operation, position, &[[99; 7]], &[0, 2]);
        assert_eq!(answer, format!("not edited 18 {position}, stored {{1}}"));
    }
    // Six words are no room for a statement; one that is replaced makes some.
    assert_eq!(edit(&mut one, INSERT, 0, &[null(P)], &[]), "not edited 18 0, stored {1}");
    assert_eq!(one.buffer, before);
    assert_eq!(edit(&mut one, REPLACE, 2, &[null(P)], &[]), "accepted walked 3, stored {1}");
    let full = Draft { variables: vec![[0; 8]], statements: vec![set(0, 1); 1_024], ..Draft::default() };
    let (mut full, _) = editor(full.words(), 700, 0, &[]);
    assert_eq!(edit(&mut full, INSERT, 1_024, &[set(0, 1)], &[]), "not edited 18 1024, stored {}");
    assert_eq!(edit(&mut full, REPLACE, 5, &[set(0, 2)], &[]), "accepted walked 1024, stored {}");
}

#[test]
fn a_text_is_one_statement_with_its_blocks() {
    let (mut one, _) = editor(four(), 700, 4, &[]);
    let mut not_edited = |text: &[i32]| {
        let answer = one.edit(Edit { operation: INSERT, position: 2, text }, &[]);
        answer.expect_err("a wrong text").cause
    };
    let condition = with_literal(N, EQUAL, 0);
    let nest = |depth: usize| (0..depth).fold(vec![null(P)], |inner, _| while_loop(condition, inner));
    assert_eq!(not_edited(&[]), 6);
    assert_eq!(not_edited(&null(P)[..6]), 6);
    assert_eq!(not_edited([null(P), null(P)].as_flattened()), 6);
    assert_eq!(not_edited(&[null(P).as_slice(), &[1]].concat()), 6);
    assert_eq!(not_edited([[13, 2, 0, 0, 0, 0, 0], null(P)].as_flattened()), 6);
    assert_eq!(not_edited(nest(7).as_flattened()), 6);
    // 5 comes before 6.
    assert_eq!(not_edited([null(P), null(9)].as_flattened()), 5);
    assert_eq!(edit(&mut one, INSERT, 2, &nest(6), &[2, 3]), "accepted walked 11, stored {2}");
    // A position inside of blocks names nothing; the whole statement goes.
    assert_eq!(edit(&mut one, REMOVE, 3, &[], &[]), "not edited 18 3, stored {2}");
    assert_eq!(edit(&mut one, REMOVE, 2, &[], &[]), "accepted walked 2, stored {2}");
    assert_eq!(one.table(), four());
}

#[test]
fn all_inside_of_a_head_is_walked_before_its_refusal() {
    let two = |statements: Vec<Record>| {
        let variables = vec![[1, 0, P, -1, 0, P, N, 0], [0; 8]];
        let rows = Some(vec![[P, -1, 0, P, N, 0]]);
        editor(Draft { variables, statements, rows, ..Draft::default() }.words(), 0, 4, &[]).1
    };
    let condition = with_literal(N, EQUAL, 0);
    let raised = bundle(vec![add_constant(N, N, 1), load(N, P, -1, 0), null(P)]);
    assert_eq!(two(raised), "refused 9 2 walked 3, stored {}");
    let lost = bundle(vec![move_pointer(P, P, 1), set(N, 3)]);
    assert_eq!(two([lost, vec![null(P)]].concat()), "refused 8 0 0 walked 3, stored {}");
    let sides = if_else(condition, vec![declare(P, 0)], vec![null(P), null(P)]);
    assert_eq!(two([sides, vec![null(P)]].concat()), "refused 13 0 walked 4, stored {}");
}

#[test]
fn rows_move_with_the_statements() {
    let mut draft = Draft::from_words(&four()).unwrap();
    draft.rows = Some(vec![[P, -1, 0, P, N, 0]]);
    let (mut one, _) = editor(draft.words(), 14, 1, &[]);
    assert_eq!(edit(&mut one, INSERT, 4, &[declare(P, 0)], &[]), "accepted walked 5, stored {}");
    draft.statements.push(declare(P, 0));
    assert_eq!(one.table(), draft.words());
    assert_eq!(one.buffer[one.length..], [7_777; 7]);
}

#[test]
fn a_call_in_a_text_is_19_in_the_verdict() {
    let (mut one, _) = editor(four(), 14, 1, &[]);
    let called = call(0, N, &[]);
    assert_eq!(edit(&mut one, INSERT, 4, &[called], &[]), "refused 19 4 walked 5, stored {}");
    assert_eq!(edit(&mut one, REPLACE, 4, &bundle(vec![called]), &[]), "not edited 6 4, stored {}");
}
