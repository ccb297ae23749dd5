use super::*;
use crate::draft::*;

/// Variables: p (0, count(n)), n (1), x (2); object 0 has 10 cells.
fn draft(statements: Vec<Record>) -> Draft {
    let variables = vec![[1, 0, 0, -1, 0, 0, 1, 0], [0; 8], [0; 8]];
    Draft { objects: vec![10], variables, statements, rows: None }
}

fn refused(words: &[i32]) -> Option<(u8, u32)> {
    decode(words).err().map(|refusal| (refusal.cause, refusal.place))
}

fn refused_statements(statements: Vec<Record>) -> Option<(u8, u32)> {
    refused(&draft(statements).words())
}

fn some_check() -> Record {
    dynamic_check(with_literal(1, GREATER, 0))
}

#[test]
fn cause_1_is_the_number_of_words() {
    assert_eq!(refused(&[]), Some((1, 0)));
    assert_eq!(refused(&[6, 0, 6, 8, 14]), Some((1, 0)));
    assert_eq!(refused(&vec![0; MAX_WORDS + 1]), Some((1, 0)));
    assert_eq!(refused(&vec![0; MAX_WORDS]), Some((2, 0)));
    // A first offset of 8 has a limit of its own, whatever else is wrong; 8 words are no other least.
    let first = |word: i32, length: usize| [vec![word], vec![0; length - 1]].concat();
    for (word, length, cause) in [
        (6, MAX_WORDS + 1, 1),
        (7, MAX_WORDS + 1, 1),
        (8, 5, 1),
        (8, 6, 2),
        (8, 7, 2),
        (8, MAX_WORDS + 1, 2),
        (8, MAX_WORDS_WITH_ROWS, 2),
        (8, MAX_WORDS_WITH_ROWS + 1, 1),
    ] {
        assert_eq!(refused(&first(word, length)), Some((cause, 0)), "{length} words from {word} on");
    }
}

#[test]
fn the_largest_table_is_read() {
    let mut largest = draft(vec![some_check(); MAX_STATEMENTS]);
    largest.objects.resize(MAX_OBJECTS, 1_000_000);
    largest.variables.resize(MAX_VARIABLES, [0; 8]);
    assert_eq!(largest.words().len(), MAX_WORDS);
    assert_eq!(refused(&largest.words()), None);
    largest.rows = Some(vec![ROW; MAX_ROWS]);
    assert_eq!(largest.words().len(), MAX_WORDS_WITH_ROWS);
    assert_eq!(refused(&largest.words()), None);
}

/// Both ends of the routine's pointer, with its count.
const ROW: RowRecord = [0, -1, 0, 0, 1, 0];

fn with_rows(statements: Vec<Record>, rows: Vec<RowRecord>) -> Vec<i32> {
    Draft { rows: Some(rows), ..draft(statements) }.words()
}

#[test]
fn the_fourth_section_has_at_most_64_whole_rows() {
    assert_eq!(refused(&with_rows(vec![], vec![])), None);
    assert_eq!(refused(&with_rows(vec![], vec![ROW; 64])), None);
    assert_eq!(refused(&with_rows(vec![], vec![ROW; 65])), Some((2, 0)));
    let right = with_rows(vec![], vec![ROW; 2]);
    for place in 0..8 {
        for change in [-1, 1, 6, 7, 8, i32::MIN, i32::MAX] {
            let mut words = right.clone();
            words[place] = words[place].wrapping_add(change);
            assert_eq!(refused(&words), Some((2, 0)), "word {place} by {change}");
        }
    }
    // The rows stand after the statements: no other order is right.
    let mut exchanged = with_rows(vec![[0; 7]; 6], vec![ROW; 7]);
    exchanged.swap(4, 6);
    assert_eq!(refused(&exchanged), Some((2, 0)));
    assert_eq!(refused(&right[..right.len() - 1]), Some((2, 0)));
}

#[test]
fn a_faulty_row_is_cause_4_after_all_variables() {
    for (field, word) in [(0, -1), (0, 1), (0, 3), (1, 0), (1, -2), (2, 65_537), (3, 2), (4, 3), (5, -65_537)]
    {
        let mut rows = vec![ROW; 3];
        rows[1][field] = word;
        assert_eq!(refused(&with_rows(vec![[0; 7]], rows.clone())), Some((4, 4)), "field {field} {word}");
        let mut both = Draft { rows: Some(rows), ..draft(vec![]) };
        both.variables[2][5] = 1;
        assert_eq!(refused(&both.words()), Some((4, 2)));
    }
    let edges = [0, 2, -65_536, 0, -1, 65_536];
    assert_eq!(refused(&with_rows(vec![], vec![edges])), None);
}

#[test]
fn kind_14_names_a_pointer_and_a_row() {
    let rows = || vec![ROW; 2];
    assert_eq!(refused(&with_rows(vec![declare(0, 1)], rows())), None);
    assert_eq!(refused(&with_rows(bundle(vec![declare(0, 0), set(1, 1), declare(0, 1)]), rows())), None);
    for wrong in [declare(0, 2), declare(0, -1), declare(1, 0), declare(-1, 0), declare(16, 0)] {
        assert_eq!(refused(&with_rows(vec![some_check(), wrong], rows())), Some((5, 1)), "{wrong:?}");
    }
    for field in 3..7 {
        let mut stray = declare(0, 0);
        stray[field] = 1;
        assert_eq!(refused(&with_rows(vec![stray], rows())), Some((5, 0)), "field {field}");
    }
    // Where there are no rows there is none to name, with or without a fourth section.
    assert_eq!(refused_statements(vec![declare(0, 0)]), Some((5, 0)));
    assert_eq!(refused(&with_rows(vec![declare(0, 0)], vec![])), Some((5, 0)));
}

#[test]
fn cause_2_is_directory_and_lengths() {
    assert_eq!(refused(&[6, 0, 6, 0, 6, 0]), Some((2, 0)));
    let right = draft(vec![]).words();
    for place in 0..6 {
        for change in [-1, 1, 7, 8, i32::MIN, i32::MAX] {
            let mut words = right.clone();
            words[place] = words[place].wrapping_add(change);
            assert_eq!(refused(&words), Some((2, 0)), "word {place} by {change}");
        }
    }
    let mut longer = right;
    longer.push(0);
    assert_eq!(refused(&longer), Some((2, 0)));
}

#[test]
fn cause_3_goes_before_4_and_4_before_5() {
    let mut wrong = draft(vec![[0; 7]]);
    wrong.objects = vec![1, 1_000_001, 0];
    wrong.variables[2][5] = 1;
    assert_eq!(refused(&wrong.words()), Some((3, 1)));
    wrong.objects[1] = 1_000_000;
    wrong.objects[2] = 1;
    assert_eq!(refused(&wrong.words()), Some((4, 2)));
    wrong.variables[2][5] = 0;
    assert_eq!(refused(&wrong.words()), Some((5, 0)));
}

#[test]
fn an_end_goes_by_the_kind_word_alone() {
    // Variable 1 is wrong in its second word, but it is an array_ptr to variable 0.
    let mut wrong = draft(vec![]);
    wrong.variables = vec![[1, 0, 1, -1, 0, 1, -1, 0], [1, 9, 1, -1, 0, 1, -1, 0]];
    assert_eq!(refused(&wrong.words()), Some((4, 1)));
    // A kind word of 2 is a pointer's, whatever else is wrong; one of 3 is neither kind.
    wrong.variables = vec![[1, 0, 1, -1, 0, 1, -1, 0], [2, 0, 0, 0, 0, 0, 0, 0]];
    assert_eq!(refused(&wrong.words()), Some((4, 1)));
    wrong.variables = vec![[1, 0, 0, -1, 0, 0, 1, 0], [2, 0, 0, -1, 0, 0, -1, 0]];
    assert_eq!(refused(&wrong.words()), Some((4, 0)));
    wrong.variables = vec![[1, 0, 1, -1, 0, 1, -1, 0], [3, 0, 0, -1, 0, 0, -1, 0]];
    assert_eq!(refused(&wrong.words()), Some((4, 0)));
}

#[test]
fn an_object_word_below_0_marks_a_terminated_object() {
    let objects = |words: &[i32]| Draft { objects: words.to_vec(), ..draft(vec![]) }.words();
    let right = decode(&objects(&[1, -1, 1_000_000, -1_000_000])).unwrap().objects;
    let object = |length, terminated| Object { length, terminated };
    assert_eq!(right, [object(1, false), object(1, true), object(1_000_000, false), object(1_000_000, true)]);
    assert_eq!(right.iter().map(|object| object.room()).collect::<Vec<_>>(), [1, 0, 1_000_000, 999_999]);
    for wrong in [0, -1_000_001, 1_000_001, i32::MIN, i32::MAX] {
        assert_eq!(refused(&objects(&[-5, wrong, 0])), Some((3, 1)), "{wrong}");
    }
}

#[test]
fn kinds_of_pointers_mix_only_downwards() {
    // a (0) and b (1) are array_ptrs, s (2) and t (3) nt_array_ptrs, n (4); objects 0 plain, 1 terminated.
    let (a, b, s, t, n) = (0, 1, 2, 3, 4);
    let of_kind = |kind: i32| [kind, 0, s, -1, 0, a, n, 0];
    let read = |statement: Record| {
        let variables = vec![of_kind(1), of_kind(1), of_kind(2), of_kind(2), [0; 8]];
        let rows = Some(vec![[s, -1, 0, a, n, 0]]);
        decode(&Draft { objects: vec![4, -4], variables, statements: vec![statement], rows }.words())
    };
    for right in [
        null(s),
        address(a, 0),
        address(a, 1),
        address(s, 1),
        move_pointer(a, s, 1),
        move_pointer(s, t, 0),
        move_pointer(a, b, 0),
        index_pointer(a, s, n),
        index_pointer(s, s, n),
        load(n, s, n, 0),
        store(s, -1, 0, n),
        declare(s, 0),
        dynamic_check(with_variable(s, LESS, t)),
        dynamic_check(with_variable(a, LESS, b)),
        dynamic_check(with_literal(s, NOT_EQUAL, 0)),
    ] {
        assert!(read(right).is_ok(), "{right:?}");
    }
    for wrong in [
        address(s, 0),
        move_pointer(s, a, 0),
        move_pointer(t, b, 1),
        index_pointer(s, a, n),
        dynamic_check(with_variable(s, EQUAL, a)),
        dynamic_check(with_variable(a, EQUAL, s)),
        dynamic_check(with_variable(n, EQUAL, s)),
        dynamic_check(with_literal(s, EQUAL, 1)),
        set(s, 1),
        load(s, s, -1, 0),
    ] {
        assert_eq!(read(wrong).err(), Some(Refusal::at(5, 0)), "{wrong:?}");
    }
}

#[test]
fn an_end_needs_a_pointer_and_a_k_in_range() {
    for (field, word) in [(2, -1), (2, 1), (3, 0), (3, -2), (4, 65_537), (5, 3), (7, -65_537)] {
        let mut wrong = draft(vec![]);
        wrong.variables[0][field] = word;
        assert_eq!(refused(&wrong.words()), Some((4, 0)), "field {field} {word}");
    }
    let mut right = draft(vec![]);
    right.variables[0][4] = -65_536;
    right.variables[0][7] = 65_536;
    assert_eq!(refused(&right.words()), None);
}

#[test]
fn an_element_has_1_to_8_cells() {
    for (word, size) in [(0, 1), (1, 1), (2, 2), (8, 8)] {
        let mut right = draft(vec![]);
        right.variables[0][1] = word;
        assert_eq!(decode(&right.words()).unwrap().sizes, [size, 1, 1], "{word}");
    }
    for word in [-1, 9, i32::MIN, i32::MAX] {
        let mut wrong = draft(vec![]);
        wrong.variables[0][1] = word;
        assert_eq!(refused(&wrong.words()), Some((4, 0)), "{word}");
    }
    // An integer has zeros after its kind.
    let mut wrong = draft(vec![]);
    wrong.variables[1][1] = 1;
    assert_eq!(refused(&wrong.words()), Some((4, 1)));
}

#[test]
fn statement_fields_by_kind() {
    for right in [
        set(1, i32::MAX),
        set(1, i32::MIN),
        add_constant(1, 2, -65_536),
        operate(2, 1, 1, 2),
        null(0),
        address(0, 0),
        move_pointer(0, 0, 65_536),
        index_pointer(0, 0, 1),
        load(2, 0, -1, 5),
        store(0, 1, -5, 2),
        dynamic_check(with_literal(0, EQUAL, 0)),
        dynamic_check(with_literal(1, EQUAL, -1)),
        dynamic_check(with_variable(0, NOT_EQUAL, 0)),
    ] {
        assert_eq!(refused_statements(vec![right]), None, "{right:?}");
        let mut stray = right;
        stray[6] = 1;
        assert_eq!(refused_statements(vec![some_check(), stray]), Some((5, 1)), "{stray:?}");
    }
    for wrong in [
        set(0, 1),
        set(0, -1),
        set(3, 1),
        set(16, 1),
        add_constant(1, 2, 65_537),
        operate(2, 1, 1, 3),
        null(1),
        address(0, 1),
        address(0, -1),
        index_pointer(0, 0, -1),
        load(2, 0, -2, 0),
        load(2, 1, -1, 0),
        store(0, -1, 0, 0),
        dynamic_check(with_literal(0, EQUAL, 1)),
        dynamic_check(with_literal(0, EQUAL, -1)),
        dynamic_check(with_variable(0, LESS, 1)),
        dynamic_check(with_variable(1, LESS, 0)),
        dynamic_check(with_literal(1, 6, 0)),
        dynamic_check(with_literal(1, -1, 0)),
        dynamic_check([1, 0, 2, 0]),
        [0, 0, 0, 0, 0, 0, 0],
        [15, 0, 0, 0, 0, 0, 0],
        [-1, 0, 0, 0, 0, 0, 0],
        [11, 1, 0, 1, 0, -1, 0],
        [11, 1, 0, 1, 0, 0, -1],
        [12, 1, 0, 1, 0, -1, 0],
        [12, 1, 0, 1, 0, 0, 1],
        [13, 1, 0, 0, 0, 0, 1],
    ] {
        assert_eq!(refused_statements(vec![wrong, some_check()]), Some((5, 0)), "{wrong:?}");
    }
}

#[test]
fn a_negative_word_is_a_large_literal() {
    let condition = with_literal(1, LESS, i32::MIN);
    let all = [vec![set(1, -1), dynamic_check(condition)], if_else(condition, vec![], vec![])].concat();
    let routine = decode(&draft([all, while_loop(condition, vec![])].concat()).words()).unwrap();
    assert_eq!(routine.statements[0], Statement::Literal { x: 1, literal: 4_294_967_295 });
    let meant = Condition { left: 1, relation: Relation::Less, right: Right::Literal(2_147_483_648) };
    for statement in &routine.statements[1..] {
        let (Statement::Check { condition }
        | Statement::If { condition, .. }
        | Statement::While { condition, .. }) = *statement
        else {
            panic!("{statement:?}")
        };
        assert_eq!(condition, meant);
    }
}

#[test]
fn a_bundle_count_is_cause_6_and_comes_after_all_of_5() {
    for count in [-1, 0, 17, i32::MIN, i32::MAX] {
        let head = [13, count, 0, 0, 0, 0, 0];
        let all = [vec![head], vec![some_check(); 20]].concat();
        assert_eq!(refused_statements(all.clone()), Some((6, 0)), "{count}");
        let with_5 = [all, vec![set(0, 1)]].concat();
        assert_eq!(refused_statements(with_5), Some((5, 21)));
    }
    assert_eq!(refused_statements(bundle(vec![some_check(); 16])), None);
}

#[test]
fn a_block_ends_with_its_parent() {
    // The while inside the then block may not reach into the else block.
    let inner = [12, 1, GREATER, 1, 0, 1, 0];
    let wrong = if_else(with_literal(1, GREATER, 0), vec![inner], vec![some_check()]);
    assert_eq!(refused_statements(wrong), Some((6, 1)));
    let too_long = vec![[11, 1, GREATER, 1, 0, i32::MAX, i32::MAX], some_check()];
    assert_eq!(refused_statements(too_long), Some((6, 0)));
}

#[test]
fn depth_6_is_the_last() {
    let nest = |depth: usize, inner: Vec<Record>| {
        (0..depth).fold(inner, |inner, _| while_loop(with_literal(1, GREATER, 0), inner))
    };
    assert_eq!(refused_statements(nest(6, vec![some_check()])), None);
    assert_eq!(refused_statements(nest(6, bundle(vec![some_check()]))), None);
    assert_eq!(refused_statements(nest(7, vec![])), None);
    assert_eq!(refused_statements(nest(7, vec![some_check()])), Some((6, 7)));
    assert_eq!(refused_statements(nest(8, vec![])), Some((6, 7)));
    // In an else block too; the place is the statement too deep.
    let other = if_else(with_literal(1, GREATER, 0), vec![some_check()], vec![some_check()]);
    assert_eq!(refused_statements(nest(5, other.clone())), None);
    assert_eq!(refused_statements(nest(6, other)), Some((6, 7)));
    let only_else = if_else(with_literal(1, GREATER, 0), vec![], vec![some_check()]);
    assert_eq!(refused_statements([vec![some_check()], nest(6, only_else)].concat()), Some((6, 8)));
}

#[test]
fn a_head_in_a_bundle_is_named_at_the_bundle() {
    let nested = bundle(vec![some_check(), [12, 1, 0, 1, 0, 0, 0]]);
    assert_eq!(refused_statements([vec![some_check()], nested].concat()), Some((6, 1)));
}
