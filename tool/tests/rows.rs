//! Bounds declared at statements: what refuses them, how a run shows them.

use mizzengrape_tool::command::{run_program, verdict};
use mizzengrape_tool::program::Program;

fn program(text: &str) -> Program {
    Program::of_text("r.c", text.to_string(), false).unwrap_or_else(|wrong| panic!("{wrong}"))
}

/// The explanation of a refusal without the source line and its caret, then the verdict.
fn explained(program: &Program) -> Vec<String> {
    let output = verdict(program, false).expect("a verdict");
    let told =
        |line: &&str| line.starts_with("r.c:") || line.starts_with("note: ") || line.starts_with("help: ");
    let lines = output.err.lines().filter(told).chain(output.out.lines());
    lines.map(|line| line.trim_start_matches("r.c:").to_string()).collect()
}

/// A routine with p : count(n), q : count(m) and integers n, m, i; its body begins on line 3.
fn body(statements: &str) -> Vec<String> {
    explained(&program(&format!(
        "void f(array_ptr<unsigned> p : count(n), array_ptr<unsigned> q : count(m), unsigned n, unsigned m, unsigned i)\n{{\n\
         {statements}\n}}\n"
    )))
}

#[test]
fn rows_that_differ_behind_an_if() {
    assert_eq!(
        body("dynamic_check(n >= 4);\nif (i == 0) {\nwhere p : count(3);\n} else {\nwhere p : count(4);\n}"),
        [
            "4:1: error: refused 13: `p` has other bounds after the then block than after the else block: count(3) (line 5) and count(4) (line 7)",
            "help: write where p : count(3); at the end of the else block",
            "refused 13 1",
        ]
    );
    assert_eq!(
        body("if (i == 0) {\nwhere p : count(0) and q : count(0);\n}"),
        [
            "3:1: error: refused 13: `p` has other bounds after the then block than without it: count(0) (line 4) and its own, count(n)",
            "note: so has `q`: count(0) (line 4) and its own, count(m)",
            "help: add else { where p : count(0) and q : count(0); }",
            "refused 13 0",
        ]
    );
    assert_eq!(
        body("#define a bounds(p, p + n)\n#define b bounds(p, p + n)\nif (i == 0) {\nwhere p : b;\n} else {\nwhere p : a;\n}"),
        [
            "5:1: error: refused 13: `p` has other bounds after the then block than after the else block: count(n) (line 6) and count(n) (line 8)",
            "note: they are two rows (1 and 0), and rows count by number",
            "help: write where p : b; at the end of the else block",
            "refused 13 0",
        ]
    );
}

#[test]
fn rows_that_differ_around_a_body() {
    assert_eq!(
        body("while (i > 0) {\nwhere p : count(n);\ni = i - 1;\n}"),
        [
            "3:1: error: refused 13: `p` has other bounds at the end of the body than at the head: count(n) (line 4) and its own, count(n)",
            "note: they are two rows (0 and -1, its own), and rows count by number",
            "help: write where p : count(n); before line 3",
            "refused 13 0",
        ]
    );
    // What was in force before the loop would be lost at its second test: no advice is certain.
    assert_eq!(
        body("dynamic_check(n > 1);\nwhere p : count(1);\nwhile (i > 0) {\nwhere p : count(0);\n}\nwhere p : count(1);"),
        [
            "5:1: error: refused 13: `p` has other bounds at the end of the body than at the head: count(0) (line 6) and count(1) (line 4)",
            "help: write where p : count(0); before line 5",
            "refused 13 2",
        ]
    );
}

#[test]
fn an_inner_head_comes_first() {
    let inner = "while (i > 0) {\nif (n > 0) {\nwhere p : count(1);\n}\n}";
    assert_eq!(
        body(inner),
        [
            "4:1: error: refused 13: `p` has other bounds after the then block than without it: count(1) (line 5) and its own, count(n)",
            "refused 13 1",
        ]
    );
}

#[test]
fn a_where_that_declares_more() {
    assert_eq!(
        body("where p : count(2);"),
        [
            "3:1: error: refused 8: the bounds of `p` are not shown: this where declares more than is known",
            "1:28: note: declared before: p : count(n)",
            "note: not shown: declared upper end p + 2 <= known upper end p + n: short by 2",
            "note: known here: nothing",
            "help: write dynamic_check(n >= 2); before line 3; it stops a run where n < 2",
            "refused 8 0 0",
        ]
    );
    // No wider bound comes back, and no check can make it.
    assert_eq!(
        body("where p : count(0);\nwhere p : bounds(p, q);"),
        [
            "4:1: error: refused 8: the bounds of `p` are not shown: this where declares more than is known",
            "3:1: note: declared before: p : count(0)",
            "note: not shown: declared upper end q <= known upper end p: nothing relates them",
            "note: known here: nothing",
            "refused 8 1 0",
        ]
    );
    assert_eq!(
        body("bundled {\np = q;\nwhere p : count(n);\n}"),
        [
            "5:1: error: refused 8: the bounds of `p` are not shown: this where declares more than is known",
            "1:28: note: declared before: p : count(n)",
            "note: not shown: declared upper end p + n <= known upper end q + m: nothing relates them (line 4: p = q)",
            "note: known here: p == q",
            "help: write dynamic_check(n <= m); before line 3; it stops a run where n > m",
            "refused 8 2 0",
        ]
    );
}

#[test]
fn the_row_in_force_is_what_is_asked_for() {
    assert_eq!(
        body("where p : bounds(p, p + i);\ni = i - 1;"),
        [
            "3:1: error: refused 8: the bounds of `p` are not shown: this where declares more than is known",
            "1:28: note: declared before: p : count(n)",
            "note: not shown: declared upper end p + i <= known upper end p + n: nothing relates them",
            "note: known here: nothing",
            "help: write dynamic_check(i <= n); before line 3; it stops a run where i > n",
            "refused 8 0 0",
        ]
    );
    let lowered = "dynamic_check(i <= n);\nwhere p : count(i);\nn = 0;\nbundled {\np = p + 1;\nm = p[0];\ni = i - 1;\n}";
    assert_eq!(
        body(&lowered.replace("m = p[0];", "")),
        [
            "6:1: error: refused 8: the bounds of `p` are not shown at the end of this bundle",
            "4:1: note: declared here: p : count(i)",
            "note: the known upper end was lost at line 9: i = i - 1 may wrap: i >= 1 is not shown there",
            "note: known here: p != NULL",
            "help: write dynamic_check(i >= 1); before line 6; it stops a run where i < 1",
            "refused 8 3 0",
        ]
    );
    assert_eq!(
        body(&lowered.replace("i <= n", "i == n")),
        [
            "8:1: error: refused 9: in a bundle an access through `p` needs its declared bounds, and they are not shown here",
            "4:1: note: declared here: p : count(i)",
            "note: not shown: declared upper end p + i <= known upper end p + i - 1: short by 1 (line 7: p = p + 1)",
            "note: known here: p != NULL",
            "help: move the access behind line 9: i = i - 1, and write dynamic_check(i >= 1); before line 6; it stops a run where i < 1",
            "refused 9 5",
        ]
    );
}

/// A check that could never hold is no advice, though everything is shown behind it.
#[test]
fn no_advice_that_always_stops() {
    let lines = body("dynamic_check(n == 1);\nwhere p : count(2);");
    assert_eq!(lines.last().map(String::as_str), Some("refused 8 1 0"));
    assert!(lines.iter().all(|line| !line.starts_with("help: ")), "{lines:?}");
}

#[test]
fn rows_that_do_not_read() {
    assert_eq!(
        body("where p : bounds(p, p + 70000);"),
        [
            "3:11: error: refused 4: the constant 70000 in the upper end of these bounds is beyond 65,536",
            "refused 4 5"
        ]
    );
    let many: Vec<String> = (0..65).map(|k| format!("where p : bounds(p - {k}, p);")).collect();
    assert_eq!(
        body(&many.join("\n")),
        ["67:11: error: refused 2: the routine has 65 bounds rows; it may have at most 64", "refused 2 0"]
    );
    let table = |words: &[i32]| explained(&Program::of_tables("r.c", vec![words.to_vec()], Vec::new()));
    let pointer = [1, 0, 0, -1, 0, 0, -1, 0];
    let with = |row: [i32; 6], statement: [i32; 7]| {
        [&[8, 0, 8, 8, 16, 7, 23, 6][..], &pointer, &statement, &row].concat()
    };
    let row = [0, -1, 0, 0, -1, 0];
    assert_eq!(table(&with(row, [14, 0, 0, 0, 0, 0, 0])), ["accepted"]);
    assert_eq!(
        table(&with([0, -1, 0, 1, -1, 0], [14, 0, 0, 0, 0, 0, 0])),
        [
            " error: refused 4: word 3 of the record: 1 names no pointer",
            "note: the words of the record are 0 -1 0 1 -1 0",
            "refused 4 1",
        ]
    );
    for (statement, reason) in [
        ([14, 0, 1, 0, 0, 0, 0], "field 2 of kind 14: 1 names no bounds row"),
        ([14, 0, -1, 0, 0, 0, 0], "field 2 of kind 14: -1 names no bounds row"),
        ([14, 1, 0, 0, 0, 0, 0], "field 1 of kind 14: 1 names no pointer"),
        ([14, 0, 0, 1, 0, 0, 0], "field 3 of kind 14 is unused: 0 is due, not 1"),
    ] {
        assert_eq!(table(&with(row, statement))[0], format!(" error: refused 5: {reason}"));
    }
    let without = [&[6, 0, 6, 8, 14, 7][..], &pointer, &[14, 0, 0, 0, 0, 0, 0]].concat();
    assert_eq!(table(&without)[0], " error: refused 5: this table has no bounds rows: its first offset is 6");
}

#[test]
fn tables_with_rows_may_be_longer() {
    let table = |first: i32, words: usize| {
        let mut table = vec![0; words];
        table[0] = first;
        explained(&Program::of_tables("r.c", vec![table], Vec::new()))[0].clone()
    };
    assert_eq!(table(6, 7_319), " error: refused 1: the table has 7319 words; it may have 6 to 7318");
    assert_eq!(table(8, 7_705), " error: refused 1: the table has 7705 words; it may have 6 to 7704");
    assert_eq!(table(8, 7), " error: refused 2: the table is shorter than its directory");
    assert!(
        table(6, 7_318).starts_with(" error: refused 2: ")
            && table(8, 7_704).starts_with(" error: refused 2: ")
    );
}

const NARROWED: &str = "\
unsigned o checked[4];
void f(array_ptr<unsigned> p : count(n), unsigned n, unsigned x)
{
    dynamic_check(n > 2);
    where p : count(2);
    where p : count(1);
    x = p[1];
}
";

#[test]
fn a_trace_shows_the_bounds() {
    let run = |image: &str, traced| {
        let output = run_program(program(NARROWED), "image", image.to_string(), traced, false);
        output.expect("a run")
    };
    let trace = run("p = o + 1; n = 3;", true);
    let expected = "\
#1 r.c:4:5  0 dynamic_check(n > 2);    3 > 2, yes
#2 r.c:5:5  1 where p : count(2);      bounds of p: count(n) -> count(2) (cells 2 to 3)
#3 r.c:6:5  2 where p : count(1);      bounds of p: count(2) -> count(1) (cell 2)
#4 r.c:7:5  3 x = p[1];
stopped after 4 steps
";
    assert_eq!((trace.out.as_str(), trace.status), (expected, 3));
    let stop = "r.c:7:5: stopped at check 3: `p[1]` is cell 3; the bounds of `p`, now count(1), are cells 2 up to 3, 3 not included";
    assert_eq!((trace.err.as_str(), trace.end.lines().next()), ("", Some(stop)));
    let whole = run("p = o + 1; n = 3;", false);
    assert_eq!(whole.out, "stopped after 4 steps\nbounds of p: count(n) -> count(1) (cell 2)\n");
    let spent = run("p = o + 1; n = 3; allowance 2;", false);
    assert_eq!(spent.out, "spent after 2 steps\nbounds of p: count(n) -> count(2) (cells 2 to 3)\n");
    let null = run("n = 3;", false);
    assert_eq!(null.out, "stopped after 4 steps\nbounds of p: count(n) -> count(1)\n");
}
