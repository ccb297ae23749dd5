use super::*;
use crate::library::check_table;
use crate::lsp::changes::{change, Change};
use crate::program::Program;
use std::thread;

const SEQUENCES: usize = 10_000;
const EDITS: usize = 3;

struct Random(u64);

impl Random {
    fn below(&mut self, limit: usize) -> usize {
        self.0 = self.0.wrapping_mul(6_364_136_223_846_793_005).wrapping_add(1_442_695_040_888_963_407);
        (self.0 >> 33) as usize % limit.max(1)
    }

    fn pick<'a>(&mut self, from: &[&'a str]) -> &'a str {
        from[self.below(from.len())]
    }
}

/// Statements of all sorts, some with blocks, that are accepted wherever they stand.
const PIECES: [&str; 12] = [
    "dynamic_check(n > 2);",
    "dynamic_check(p != NULL);",
    "x = p[0];",
    "p[1] = x;",
    "x = x + n;",
    "x = 4000000000;",
    "p = NULL;",
    "dynamic_check(n > 0); n = n - 1;",
    "dynamic_check(n > 0); bundled { p = p + 1; n = n - 1; }",
    "if (n > 0) { x = p[0]; n = n - 1; } else { x = 0; }",
    "while (x != n) { x = x + 1; if (x > 9) { x = n; } }",
    "while (n > 3) { bundled { p = p + 1; n = n - 1; } }",
];

/// Others that are refused, or are accepted only behind a check, or declare bounds.
const DOUBTFUL: [&str; 6] = [
    "n = n + 1;",
    "n = n - 1;",
    "bundled { p = p + 1; x = p[0]; n = n - 1; }",
    "bundled { p = p + 1; n = n - 1; }",
    "where p : count(0);",
    "if (x == n) { where p : count(0); }",
];

fn piece(random: &mut Random) -> &'static str {
    if random.below(60) == 0 {
        random.pick(&DOUBTFUL)
    } else {
        random.pick(&PIECES)
    }
}

fn program(statements: &[&str]) -> Program {
    let body = statements.join("\n    ");
    let text =
        format!("void f(array_ptr<unsigned> p : count(n), unsigned n, unsigned x)\n{{\n    {body}\n}}\n");
    Program::of_text("r.c", text, true).expect("a text")
}

/// One or several statements come, go or are replaced in one place.
fn edit(random: &mut Random, statements: &mut Vec<&str>) {
    let first = random.below(statements.len() + 1);
    let gone = [0, 0, 1, 1, 1, 2, 6][random.below(7)].min(statements.len() - first);
    let come = [0, 1, 1, 1, 2, 7][random.below(6)];
    let new: Vec<&str> = (0..come).map(|_| piece(random)).collect();
    statements.splice(first..first + gone, new);
}

/// Verdicts of the service; how many of them by edits, and how many of a refused routine.
type Counts = [usize; 3];

/// One text that is edited again and again: the service's verdict is that of a check of the table now.
fn sequence(number: usize) -> Counts {
    let mut random = Random((number as u64).wrapping_mul(0x9e37_79b9_7f4a_7c15));
    let mut statements: Vec<&str> = (0..5 + random.below(26)).map(|_| piece(&mut random)).collect();
    let mut service = Service::default();
    let mut before = program(&statements);
    let mut counts = Counts::default();
    for _ in 0..EDITS {
        edit(&mut random, &mut statements);
        let now = program(&statements);
        let (old_table, table) = (&before.tables[0], &now.tables[0]);
        if let Change::Statements { old, new } = change(&before, &now) {
            let is_started = service.editor.is_some();
            let verdict = service.verdict(old_table, (old, new), table);
            assert_eq!(verdict, Some(check_table(table, &[]).verdict), "{:?}", now.text);
            let is_refused = verdict != Some(Verdict::Accepted);
            counts = added(counts, [1, usize::from(is_started), usize::from(is_refused)]);
        }
        before = now;
    }
    counts
}

fn added(a: Counts, b: Counts) -> Counts {
    [a[0] + b[0], a[1] + b[1], a[2] + b[2]]
}

/// Most of the time goes to the texts, so that all processors take part.
#[test]
fn the_service_says_what_a_whole_check_says() {
    let threads = thread::available_parallelism().map_or(1, usize::from);
    let part = |first: usize| (first..SEQUENCES).step_by(threads).map(sequence).fold([0; 3], added);
    let [served, resumed, refused] = thread::scope(|scope| {
        let parts: Vec<_> = (0..threads).map(|first| scope.spawn(move || part(first))).collect();
        parts.into_iter().map(|part| part.join().expect("equal verdicts")).fold([0; 3], added)
    });
    assert!(served > 2 * SEQUENCES && resumed > SEQUENCES, "{served} {resumed}");
    assert!(refused > served / 10 && refused < served / 2, "{served} {refused}");
}

#[test]
fn one_place_becomes_edits_at_positions_of_the_new_table() {
    let record = |kind| [kind, 0, 0, 0, 0, 0, 0];
    let (one, bundle) = ([record(1)], [[13, 1, 0, 0, 0, 0, 0], record(1)]);
    let come: Vec<&[[i32; STATEMENT_WORDS]]> = vec![&bundle, &one];
    let made = steps(1, &come, 4..7);
    assert_eq!(made, [(4, Edit::Replace(bundle.as_flattened())), (6, Edit::Insert(one.as_flattened()))]);
    assert_eq!(steps(2, &[], 4..4), [(4, Edit::Remove); 2]);
    assert_eq!(steps(3, &[&one], 0..1)[1..], [(1, Edit::Remove); 2]);
}

/// A table that somebody else holds is taken anew; a table that is none is not taken.
#[test]
fn the_table_before_has_to_be_the_one_that_was_checked() {
    let [first, second, third] =
        ["x = 1;", "x = 2;", "n = n + 1;"].map(|text| program(&[text]).tables.remove(0));
    let mut service = Service::default();
    assert_eq!(service.verdict(&first, (0..1, 0..1), &second), Some(Verdict::Accepted));
    assert!(service.editor.is_some());
    // Edits of another table than it holds.
    let verdict = service.verdict(&first, (0..1, 0..1), &third);
    assert_eq!(verdict, Some(check_table(&third, &[]).verdict));
    assert_eq!(service.verdict(&third, (0..1, 0..1), &third[..9]), None);
    assert!(service.editor.is_none());
}
