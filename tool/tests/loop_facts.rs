//! Loop facts: lists that are taken, refusal 17 in each of its forms, the report of accesses that cannot stop, runs with lists.

#[path = "support/folder.rs"]
mod folder;

use folder::Folder;
use mizzengrape_tool::command::{verdict, Output};
use mizzengrape_tool::program::Program;

/// The sum of a block's cells, with this behind the condition of its loop.
fn sum(facts: &str) -> String {
    format!(
        "unsigned o checked[4];\n\
         void sum(array_ptr<unsigned> row : count(rows), unsigned rows, unsigned i, unsigned x, unsigned total)\n\
         {{\n    dynamic_check(row != NULL);\n    i = 0;\n    while (i != rows){facts} {{\n        x = row[i];\n        \
         total = total + x;\n        i = i + 1;\n    }}\n    x = row[i];\n}}\n"
    )
}

fn answer(text: &str) -> Output {
    let program = Program::of_text("r.c", text.to_string(), false).unwrap_or_else(|wrong| panic!("{wrong}"));
    verdict(&program, false).expect("a verdict")
}

/// What is said of a refused list: the error, and notes and help behind it.
fn refused(text: &str) -> (String, Vec<String>) {
    let output = answer(text);
    assert_eq!(output.status, 1, "{text}\n{}", output.out);
    let mut lines = output.err.lines();
    let first = lines.next().expect("an error").trim_start_matches("r.c:").to_string();
    (first, lines.skip(2).map(str::to_string).collect())
}

#[test]
fn a_list_makes_accesses_safe() {
    assert_eq!(answer(&sum("")).out, "accepted\n");
    assert_eq!(answer(&sum(" where i <= rows")).out, "accepted\nsafe: 3\n");
    let folder = Folder::new("facts-report");
    let text = folder.write("sum.c", sum(" where i <= rows"));
    let report = folder.command(&["check", "--report", &text]);
    let expected = "accepted\nsafe: 3\nsum.c:7:9: safe: x = row[i]\nsum.c:11:5: may stop: x = row[i]: i < rows is not known\n";
    assert_eq!((report.out.as_str(), report.err.as_str()), (expected, ""));
    let without = folder.write("without.c", sum("").replace("    dynamic_check(row != NULL);\n", ""));
    let report = folder.command(&["check", "--report", &without]);
    let why = "row != NULL is not known, i < rows is not known";
    let expected = format!(
        "accepted\nwithout.c:6:9: may stop: x = row[i]: {why}\nwithout.c:10:5: may stop: x = row[i]: {why}\n"
    );
    assert_eq!(report.out, expected);
}

/// An end that no single condition compares is written out; both ends are asked.
#[test]
fn the_report_tells_what_is_not_known() {
    let folder = Folder::new("facts-why");
    let text = "void f(array_ptr<unsigned> p : bounds(q, p + 3), array_ptr<unsigned> q : count(n), unsigned n, unsigned x)\n\
                {\n    x = p[-1];\n    x = q[n + 2];\n    x = q[n];\n    dynamic_check(q != NULL);\n    dynamic_check(n >= 1);\n    x = q[0];\n}\n";
    let file = folder.write("f.c", text);
    let expected = "accepted\nsafe: 5\n\
                    f.c:3:5: may stop: x = p[-1]: p != NULL is not known, q <= p - 1 is not known\n\
                    f.c:4:5: may stop: x = q[n + 2]: q != NULL is not known, q + n + 3 <= q + n is not known\n\
                    f.c:5:5: may stop: x = q[n]: q != NULL is not known, q + n + 1 <= q + n is not known\n\
                    f.c:8:5: safe: x = q[0]\n";
    assert_eq!(folder.command(&["check", "--report", &file]).out, expected);
}

#[test]
fn a_fact_that_is_not_shown_before_the_loop() {
    let (first, notes) = refused(&sum(" where i >= 1"));
    assert_eq!(first, "6:29: error: refused 17: the loop fact `i >= 1` is not shown before the loop");
    assert_eq!(notes, ["note: known here: i == 0"]);
    let (first, notes) = refused(&sum(" where i <= rows and rows <= 4"));
    assert_eq!(first, "6:43: error: refused 17: the loop fact `rows <= 4` is not shown before the loop");
    assert_eq!(
        notes,
        [
            "note: known here: nothing",
            "help: write dynamic_check(rows <= 4); before line 6; it stops a run where rows > 4"
        ]
    );
    let taken = sum(" where i <= rows and rows <= 4")
        .replace("    while", "    dynamic_check(rows <= 4);\n    while");
    assert_eq!(answer(&taken).out, "accepted\nsafe: 4\n");
}

#[test]
fn a_fact_that_is_not_shown_again() {
    let (first, notes) = refused(&sum(" where i <= 4"));
    assert_eq!(
        first,
        "6:29: error: refused 17: the loop fact `i <= 4` is not shown again at the end of the body"
    );
    assert_eq!(notes, ["note: best: i <= 5", "note: known here: i >= 1, i <= 5"]);
    // A fact that is lost, not moved: the line that loses it.
    let lost = sum(" where i <= rows").replace("i = i + 1;", "i = x;");
    let (first, notes) = refused(&lost);
    assert_eq!(
        first,
        "6:29: error: refused 17: the loop fact `i <= rows` is not shown again at the end of the body"
    );
    assert_eq!(notes[0], "note: it was known up to line 9: i = x");
    // Lost in a loop inside.
    let inner = sum(" where i <= rows").replace("i = i + 1;", "while (x > 0) {\n x = x - 1;\n i = x;\n }");
    let (_, notes) = refused(&inner);
    assert_eq!(notes[0], "note: it was known up to line 9; the loop assigns i and x");
    // And on one side of an if.
    let side = sum(" where i <= rows").replace("i = i + 1;", "if (x > 0) {\n i = x;\n } else {\n x = 1;\n }");
    let (_, notes) = refused(&side);
    assert_eq!(notes[0], "note: it was known up to line 10: i = x");
}

#[test]
fn entries_of_a_wrong_form_in_a_text() {
    let (first, notes) = refused(&sum(" where i <= rows and i <= 65537"));
    assert_eq!(first, "6:43: error: refused 17: the constant 65537 is beyond 65,536");
    assert!(notes.is_empty(), "{notes:?}");
    let many = format!(" where {}", vec!["i <= rows"; 300].join("\n and "));
    let (first, _) = refused(&sum(&many));
    assert_eq!(first, "262:6: error: refused 17: there are 300 loop facts; 256 is the limit");
    let kinds = "void f(array_ptr<unsigned> p : count(0), nt_array_ptr<unsigned> s : count(0))\n{\n    \
                 while (p == NULL) where p <= s {\n    }\n}\n";
    assert_eq!(refused(kinds).0, "3:29: error: refused 17: `p` and `s` are of different kinds");
}

/// A list beside a table, in a file.
#[test]
fn entries_of_a_wrong_form_in_words() {
    let folder = Folder::new("facts-words");
    let text = folder.write("sum.c", sum(" where i <= rows"));
    assert_eq!(folder.command(&["asm", &text]), Output::default());
    let table = folder.path("sum.tbl");
    assert_eq!(folder.command(&["check", &table]).out, "accepted\n");
    assert_eq!(
        folder.command(&["check", &table, "--facts", &folder.path("sum.facts")]).out,
        "accepted\nsafe: 3\n"
    );
    for (words, entry, message) in [
        (&[2, 2, 1][..], 0, "entry 0 is cut short"),
        (&[2, 2, 1, 0, 2], 1, "entry 1 is cut short"),
        (&[0, 2, 1, 0], 0, "entry 0 names no while"),
        (&[2, 2, 9, 0], 0, "entry 0 names no variable"),
        (&[2, -1, -1, 0], 0, "entry 0 names no variable"),
        (&[2, 2, 1, 0, 2, 0, 1, 0], 1, "`p0` and `n1` are of different kinds"),
        (&[2, 2, 1, -65537], 0, "the constant -65537 is beyond 65,536"),
    ] {
        let bytes: Vec<u8> = words.iter().flat_map(|word: &i32| word.to_le_bytes()).collect();
        let list = folder.write("wrong.facts", &bytes);
        let output = folder.command(&["check", "--short", &table, "--facts", &list]);
        assert_eq!(output.out, format!("refused 17 {entry}\n"), "{words:?}");
        assert_eq!(output.err, format!("sum.tbl: error: refused 17: {message}\n"), "{words:?}");
    }
    let two = "table: 6 0 6 8 14 14 0 0 0 0 0 0 0 0 12 0 4 1 0 0 0 12 0 5 1 0 0 0\nfacts: 1 0 0 0 0 0 0 0\n";
    let file = folder.write("two.words", two);
    let output = folder.command(&["check", &file]);
    let order =
        "two.words: error: refused 17: entry 1 is out of order\nnote: the words of the entry are 0 0 0 0\n";
    assert_eq!((output.err.as_str(), output.out.as_str()), (order, "refused 17 1\n"));
}

#[test]
fn a_line_of_loop_facts_is_explained() {
    let folder = Folder::new("facts-explain");
    let text = folder.write("sum.c", sum("\n        where i <= rows\n          and total >= 0\n   "));
    let known = "declared: row : count(rows)\nknown: row != NULL, i == 0\nloop fact: i <= rows\nloop fact: total >= 0\n";
    let expected = format!("sum.c:6:5: before while (i != rows)\n{known}");
    for line in ["6", "7", "8"] {
        assert_eq!(folder.command(&["explain", "--short", &text, line]).out, expected, "{line}");
    }
    // In the body the facts are known; behind the loop too, with the negation of its condition.
    let body = folder.command(&["explain", "--short", &text, "10"]);
    assert!(body.out.ends_with("known: row != NULL, i < rows\n"), "{}", body.out);
    let behind = folder.command(&["explain", "--short", &text, "14"]);
    assert!(behind.out.ends_with("known: row != NULL, rows == i\n"), "{}", behind.out);
    // The refused entry is looked up by itself.
    let wrong = folder.write("wrong.c", sum(" where i < rows"));
    assert!(folder
        .command(&["explain", "--short", &wrong])
        .out
        .starts_with("wrong.c:6:5: before while (i != rows)\n"));
}

#[test]
fn runs_and_traces_take_lists() {
    let folder = Folder::new("facts-run");
    let image = "o = { 1, 2, 3 }; row = o; rows = 3;";
    let taken = sum(" where i <= rows").replace("    x = row[i];\n}", "}");
    let run = folder.call(&["run", "--short"], &taken, image);
    assert_eq!(run.out, "done 15\nvalues: 1 3 3 3 6\ncells: 0 1 2 3 0\n");
    let trace = folder.call(&["trace"], &taken, image);
    assert_eq!((trace.out.lines().count(), trace.status), (16, 0));
    assert!(trace.out.ends_with("done after 15 steps\n"), "{}", trace.out);
    let refused = folder.call(&["run", "--short"], &sum(" where i < rows"), image);
    assert_eq!((refused.out.as_str(), refused.status), ("refused 17 0\n", 1));
    // The same from a table and a file beside it.
    let text = folder.write("sum.c", &taken);
    assert_eq!(folder.command(&["asm", &text]), Output::default());
    let lent = folder.write("table.img", "o0 = { 1, 2, 3 }; p0 = o0; n1 = 3;");
    let (table, list) = (folder.path("sum.tbl"), folder.path("sum.facts"));
    let of_table = folder.command(&["run", "--short", &table, &lent, "--facts", &list]);
    assert_eq!(of_table.out, run.out);
}
