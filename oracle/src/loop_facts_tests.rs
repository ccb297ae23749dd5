use super::*;
use crate::answer::{RunAnswer, RunInput};
use crate::checker::{watch_with_facts, Asked, Observer};
use crate::draft::*;
use crate::machine;
use crate::report::accept;
use crate::table::decode;

const P: i32 = 0;
const N: i32 = 1;
const I: i32 = 2;
const X: i32 = 3;
const Q: i32 = 4;
const S: i32 = 5;

/// p (0, count(n)), n, i, x, q with p's bounds, s an nt_array_ptr with count(n); object 0 has 10 cells.
fn draft(statements: Vec<Record>) -> Draft {
    let counted = |kind: i32, p: i32| [kind, 0, p, -1, 0, p, N, 0];
    let variables = vec![counted(1, P), [0; 8], [0; 8], [0; 8], counted(1, P), counted(2, S)];
    Draft { objects: vec![10], variables, statements, rows: None }
}

/// The report where the routine is accepted with the list, else the refusal.
fn answer(statements: &[Record], list: &[[i32; 4]]) -> String {
    answer_words(statements, list.as_flattened())
}

fn answer_words(statements: &[Record], facts: &[i32]) -> String {
    answer_draft(&draft(statements.to_vec()), facts)
}

fn answer_draft(draft: &Draft, facts: &[i32]) -> String {
    match accept(&draft.words(), facts) {
        Ok(accepted) => format!("safe {:?}", accepted.report),
        Err(refusal) => refusal.to_string(),
    }
}

/// p is not null, i := 0, then from statement 2 on a loop of i with a read of p[i] that ends with i := i + 1.
fn scan(condition: Cond) -> Vec<Record> {
    let before = vec![dynamic_check(with_literal(P, NOT_EQUAL, 0)), set(I, 0)];
    [before, while_loop(condition, vec![load(X, P, I, 0), add_constant(I, I, 1)])].concat()
}

fn below_n() -> Cond {
    with_variable(I, LESS, N)
}

#[test]
fn an_index_below_the_count_needs_no_list() {
    assert_eq!(answer(&scan(below_n()), &[]), "safe [3]");
    // The pointer may be null: nothing is reported.
    assert_eq!(answer(&scan(below_n())[1..], &[]), "safe []");
    assert_eq!(answer(&scan(with_variable(I, LESS_EQUAL, N)), &[]), "safe []");
}

#[test]
fn a_listed_fact_makes_a_comparison_with_the_count_enough() {
    let to_n = scan(with_variable(I, NOT_EQUAL, N));
    assert_eq!(answer(&to_n, &[]), "safe []");
    assert_eq!(answer(&to_n, &[[2, I, N, 0]]), "safe [3]");
    // It holds after the loop too: there i = n.
    let after = |last: Record| [to_n.clone(), vec![last]].concat();
    let read_below = |k| load(X, P, I, k);
    assert_eq!(answer(&after(read_below(-1)), &[[2, I, N, 0]]), "safe [3]");
    let not_empty = [vec![dynamic_check(with_literal(N, GREATER, 0))], to_n.clone()].concat();
    let after = [not_empty, vec![read_below(-1)]].concat();
    assert_eq!(answer(&after, &[[3, I, N, 0]]), "safe [4, 6]");
}

#[test]
fn a_fact_must_be_shown_before_the_loop_and_at_the_end_of_the_body() {
    let to_n = scan(with_variable(I, NOT_EQUAL, N));
    // i <= n - 1 is false at the last test; i = 0 is not kept.
    assert_eq!(answer(&to_n, &[[2, I, N, -1]]), "refused 17 0");
    assert_eq!(answer(&to_n, &[[2, I, N, 0], [2, I, -1, 0]]), "refused 17 1");
    assert_eq!(answer(&to_n[1..], &[[1, -1, I, 0], [1, I, N, 0]]), "safe []");
    // Nothing is said of i before this loop.
    let alone = while_loop(with_variable(I, NOT_EQUAL, N), vec![add_constant(I, I, 1)]);
    assert_eq!(answer(&alone, &[[0, I, N, 0]]), "refused 17 0");
}

#[test]
fn the_entries_of_a_loop_are_assumed_together() {
    // i becomes x, and x stays: that of i needs the other.
    let before = vec![set(I, 0), set(X, 0), dynamic_check(with_literal(N, GREATER, 9))];
    let body = vec![add_constant(I, X, 0), add_constant(X, I, 0)];
    let both = [before, while_loop(with_literal(N, GREATER, 0), body)].concat();
    let (small_i, small_x) = ([3, I, -1, 0], [3, X, -1, 0]);
    assert_eq!(answer(&both, &[small_i, small_x]), "safe []");
    assert_eq!(answer(&both, &[small_i]), "refused 17 0");
    assert_eq!(answer(&both, &[small_x]), "safe []");
}

#[test]
fn the_form_of_a_list_is_asked_before_the_walk() {
    // Refused by 8 at its first statement, if the list is right.
    let routine = [vec![move_pointer(P, P, 1)], scan(below_n())].concat();
    let right = [3, I, N, 0];
    assert_eq!(answer(&routine, &[right, right]), "refused 8 0 0");
    for (wrong, what) in [
        ([2, I, N, 0], "no while"),
        ([6, I, N, 0], "no statement"),
        ([-1, I, N, 0], "no number"),
        ([3, 6, N, 0], "no variable"),
        ([3, I, 6, 0], "no variable"),
        ([3, -2, N, 0], "no variable"),
        ([3, -1, -1, 0], "zero twice"),
        ([3, P, N, 0], "kinds"),
        ([3, P, S, 0], "kinds of pointers"),
        ([3, I, N, 65_537], "k"),
        ([3, I, N, -65_537], "k"),
    ] {
        assert_eq!(answer(&routine, &[right, wrong]), "refused 17 1", "{what}");
        assert_eq!(answer(&routine, &[wrong, wrong, right]), "refused 17 0", "{what}");
    }
    // What the words of an entry mean is right here, if not what they claim.
    for fine in [[3, I, I, -65_536], [3, P, Q, 65_536], [3, -1, S, 0], [3, P, -1, 9]] {
        assert_eq!(answer(&routine, &[right, fine]), "refused 8 0 0");
    }
    for cut in 1..4 {
        let words = [right, right].concat();
        assert_eq!(answer_words(&routine, &words[..4 + cut]), "refused 17 1");
    }
    // 6 and 5 come first.
    assert_eq!(answer(&[[4, 9, 0, 0, 0, 0, 0]], &[[0, 0, 0, 0]]), "refused 5 0");
    assert_eq!(answer(&[[13, 0, 0, 0, 0, 0, 0]], &[[0, 0, 0, 0]]), "refused 6 0");
}

#[test]
fn a_list_is_sorted_by_statement() {
    let two = [while_loop(below_n(), vec![]), while_loop(below_n(), vec![])].concat();
    let entry = |head: i32| [head, -1, I, 0];
    assert_eq!(answer(&two, &[entry(0), entry(0), entry(1), entry(1)]), "safe []");
    assert_eq!(answer(&two, &[entry(0), entry(1), entry(0)]), "refused 17 2");
}

#[test]
fn at_most_256_entries() {
    let one = while_loop(below_n(), vec![]);
    assert_eq!(answer(&one, &[[0, -1, I, 0]; 256]), "safe []");
    // More than that comes before any other fault, one that is cut short too.
    assert_eq!(answer(&one, &[[0, -1, I, 0]; 257]), "refused 17 256");
    assert_eq!(answer(&one, &[[9, 9, 9, 9]; 257]), "refused 17 256");
    assert_eq!(answer_words(&one, &[9; 1_025]), "refused 17 256");
    assert_eq!(answer_words(&one, &[9; 1_024]), "refused 17 0");
}

#[test]
fn what_is_not_shown_before_comes_before_the_body_and_the_body_before_its_end() {
    let body = vec![move_pointer(P, P, 1), set(I, 5)];
    let routine = |first: Record| [vec![first], while_loop(below_n(), body.clone())].concat();
    assert_eq!(answer(&routine(set(X, 0)), &[[1, I, N, 0]]), "refused 17 0");
    assert_eq!(answer(&routine(set(I, 0)), &[[1, I, N, 0]]), "refused 8 2 0");
    // At the body's end 17 comes before 13.
    let mut table = draft([vec![set(I, 0)], while_loop(below_n(), vec![declare(P, 0), set(I, 5)])].concat());
    table.rows = Some(vec![[P, -1, 0, P, N, 0]]);
    assert_eq!(answer_draft(&table, &[1, I, N, 0]), "refused 17 0");
    assert_eq!(answer_draft(&table, &[1, -1, N, 0]), "refused 13 1");
}

#[test]
fn reported_is_what_lies_within_the_bounds_in_force() {
    let fact = |condition| dynamic_check(condition);
    let not_null = fact(with_literal(P, NOT_EQUAL, 0));
    let three = fact(with_literal(N, GREATER_EQUAL, 3));
    let read = |k| load(X, P, -1, k);
    let routine = vec![not_null, three, read(0), read(2), read(3), read(-1), store(P, -1, 2, X)];
    assert_eq!(answer(&routine, &[]), "safe [2, 3, 6]");
    // In a bundle too, by the facts there.
    let inner = bundle(vec![read(2), add_constant(N, N, -1), read(2), read(1)]);
    let inside = [vec![not_null, three], inner].concat();
    assert_eq!(answer(&inside, &[]), "safe [3, 6]");
    // The row in force counts, not the variable's own bound.
    let mut table = draft(vec![not_null, three, declare(P, 0), read(0), read(1), read(2)]);
    table.rows = Some(vec![[P, -1, 1, P, -1, 2]]);
    assert_eq!(answer_draft(&table, &[]), "safe [4]");
    table.rows = Some(vec![[P, -1, 1, P, N, -1]]);
    assert_eq!(answer_draft(&table, &[]), "safe [4]");
    // A kind 2 pointer's upper end is not below its upper end.
    let name = [fact(with_literal(S, NOT_EQUAL, 0)), three];
    let at_name = [name.to_vec(), vec![load(X, S, -1, 2), load(X, S, N, 0), store(S, N, -1, X)]].concat();
    assert_eq!(answer(&at_name, &[]), "safe [2, 4]");
    // Where facts contradict, all is shown.
    let never = if_else(with_variable(I, LESS, I), vec![load(X, Q, I, -9)], vec![load(X, Q, I, -9)]);
    assert_eq!(answer(&never, &[]), "safe [1]");
}

#[test]
fn an_index_counts_elements_of_the_pointer() {
    let with_size = |size: i32, k: i32| {
        let mut table = draft(vec![
            dynamic_check(with_literal(P, NOT_EQUAL, 0)),
            dynamic_check(below_n()),
            load(X, P, I, k),
        ]);
        table.variables[P as usize][1] = size;
        table.variables[Q as usize] = [0; 8];
        answer_draft(&table, &[])
    };
    for (size, last) in [(1, 0), (3, 2), (8, 7)] {
        assert_eq!([0, last].map(|k| with_size(size, k)), ["safe [2]"; 2]);
        assert_eq!([-1, last + 1].map(|k| with_size(size, k)), ["safe []"; 2]);
    }
}

#[test]
fn a_run_takes_the_list_too() {
    let words = draft(scan(with_variable(I, NOT_EQUAL, N))).words();
    let lent = || RunInput {
        directory: vec![1, 10],
        cells: vec![7; 11],
        values: vec![1, 10, 0, 0, 0, 0],
        origins: vec![1, 0, 0, 0, 0, 0],
        allowance: 100,
    };
    let run = |facts: &[i32]| machine::run_with_facts(&words, facts, &mut lent());
    assert_eq!(run(&[]), machine::run(&words, &mut lent()));
    assert_eq!(run(&[2, I, N, 0]), RunAnswer::Done { steps: 33 });
    assert_eq!(run(&[2, I, N, -1]).to_string(), "refused 17 0");
    let mut wrong = RunInput { cells: vec![], ..lent() };
    assert_eq!(machine::run_with_facts(&words, &[2, I, N], &mut wrong).to_string(), "refused 17 0");
    assert_eq!(machine::run_with_facts(&words, &[2, I, N, 0], &mut wrong).to_string(), "refused 10 0");
}

#[test]
fn an_observer_is_told_which_entry_is_not_shown() {
    struct Seen(Option<(usize, Entry, Asked, i64)>);
    impl Observer for Seen {
        fn unshown(&mut self, number: usize, entry: Entry, asked: Asked, facts: &Facts) {
            self.0 = Some((number, entry, asked, facts.sum(entry.x, entry.y)));
        }
    }
    let seen = |condition, entry: [i32; 4]| {
        let routine = decode(&draft(scan(condition)).words()).unwrap();
        let list = LoopFacts::read(&routine, &[[2, -1, I, 0], entry].concat()).unwrap();
        let mut seen = Seen(None);
        watch_with_facts(&routine, &list, &mut seen).expect_err("17");
        let (number, entry, asked, best) = seen.0.expect("an entry");
        assert_eq!((number, entry.head), (1, 2));
        (asked, best)
    };
    // Before the loop i = 0; at its end i <= n + 1, since i <= n was assumed.
    assert_eq!(seen(below_n(), [2, I, -1, -1]), (Asked::BeforeLoop, 0));
    assert_eq!(seen(with_literal(I, LESS, 10), [2, I, N, 0]), (Asked::AtBodyEnd, 1));
}
