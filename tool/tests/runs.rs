//! Runs and traces of routines with images: outcomes, their lines, exit statuses.

#[path = "support/folder.rs"]
mod folder;

use folder::Folder;
use mizzengrape_tool::command::Output;
use std::fs;
use std::path::PathBuf;

fn first_club() -> String {
    let path = PathBuf::from(env!("CARGO_MANIFEST_DIR")).join("tests/language/first_club.c");
    fs::read_to_string(path).expect("the first club's routine")
}

const LAST_ROW: &str = "first at 1 = { 11, 12, 13, 0 }; row = first + 3; rows = 1; boat = 77; allowance 20;";

#[test]
fn a_trace_has_a_line_a_step() {
    let folder = Folder::new("trace");
    let expected = "\
#1 routine.c:8:5   0 dynamic_check(rows > 0);    1 > 0, yes
#2 routine.c:9:5   1 row[0] = boat;              first[3] (cell 4): 0 -> 77
#3 routine.c:10:5  2 bundled
#4 routine.c:11:9  3 row = row + 1;              row: first + 3 -> first + 4
#5 routine.c:12:9  4 rows = rows - 1;            rows: 1 -> 0
done after 5 steps
";
    let output = folder.call(&["trace"], &first_club(), LAST_ROW);
    assert_eq!(output, Output { out: expected.to_string(), ..Output::default() });
    let lines: Vec<&str> = expected.lines().collect();
    let middle = folder.call(&["trace", "--from", "3", "--steps", "2"], &first_club(), LAST_ROW);
    let more = format!("{}\n{}\nmore with --from 5\ndone after 5 steps\n", lines[2], lines[3]);
    assert_eq!(middle, Output { out: more, ..Output::default() });
}

#[test]
fn a_run_says_what_changed() {
    let folder = Folder::new("changes");
    let changes =
        "done after 5 steps\nrow: first + 3 -> first + 4\nrows: 1 -> 0\nfirst[3] (cell 4): 0 -> 77\n";
    assert_eq!(folder.call(&["run"], &first_club(), LAST_ROW).out, changes);
    let short = folder.call(&["run", "--short"], &first_club(), LAST_ROW);
    assert_eq!(short.out, "done 5\nvalues: 5 0 77\ncells: 0 11 12 13 77 0 0 0 0 0 0 0 0\n");
}

#[test]
fn a_spent_run_names_the_next_line() {
    let folder = Folder::new("spent");
    let output = folder.call(&["run", "--allowance", "3"], &first_club(), LAST_ROW);
    let line = "routine.c:11:9: spent: the allowance of 3 steps is used; line 11 is next\n";
    let bundle = "note: this is inside of the bundle of line 10; all bounds are true here\n";
    assert_eq!(output.err, format!("{line}        row = row + 1;\n        ^\n{bundle}"));
    assert_eq!(
        (output.out.as_str(), output.status),
        ("spent after 3 steps\nfirst[3] (cell 4): 0 -> 77\n", 4)
    );
}

const COUNTS_DOWN: &str = "void f(unsigned n, unsigned m)\n{\n    while (n > 0) {\n        n = n - 1;\n    }\n    dynamic_check(m > 0);\n}\n";

#[test]
fn a_trace_ends_as_its_run_does() {
    let folder = Folder::new("trace-end");
    let stop = "routine.c:6:5: stopped at check 1: dynamic_check(m > 0) is false: m is 0\n    dynamic_check(m > 0);\n    ^\n";
    let whole = folder.call(&["trace"], COUNTS_DOWN, "n = 2;");
    // The reason comes last, behind the steps.
    assert_eq!((whole.err.as_str(), whole.end.as_str(), whole.status), ("", stop, 3));
    assert!(
        whole
            .out
            .ends_with("#6 routine.c:6:5  2 dynamic_check(m > 0);    0 > 0, no\nstopped after 6 steps\n"),
        "{}",
        whole.out
    );
    // A listing that is not finished tells how the run ends, and has its status.
    let part = folder.call(&["trace"], COUNTS_DOWN, "n = 600;");
    assert!(part.out.ends_with("more with --from 1001\nstopped after 1202 steps\n"), "{}", part.out);
    assert_eq!((part.out.lines().count(), part.end.as_str(), part.status), (1002, stop, 3));
    let done = folder.call(&["trace"], COUNTS_DOWN, "n = 600; m = 1;");
    assert_eq!((done.end.as_str(), done.status), ("", 0));
    let spent = folder.call(&["trace", "--steps", "2", "--allowance", "9"], COUNTS_DOWN, "n = 600;");
    assert_eq!(spent.status, 4);
    assert!(spent.end.contains("spent: the allowance of 9 steps is used; line 4 is next\n"), "{}", spent.end);
    let printed = {
        let (mut terminal, mut nothing) = (Vec::new(), Vec::new());
        whole.print(&mut nothing, &mut terminal);
        String::from_utf8(terminal).expect("a text")
    };
    assert_eq!(printed, stop);
}

#[test]
fn numbers_have_their_range() {
    let folder = Folder::new("range");
    let output = folder.call(&["run", "--allowance", "4294967296"], &first_club(), LAST_ROW);
    let message = "error: --allowance wants a number from 0 to 4294967295, not 4294967296\n";
    assert_eq!(output, Output::wrong(message.to_string()));
}

/// A routine of one statement that stops, by its check.
fn stops(statement: &str, image: &str) -> String {
    let folder = Folder::new(&format!("stop-{}", statement.len()));
    let text = format!(
        "unsigned o checked[4];\nvoid f(array_ptr<unsigned> p : count(n), array_ptr<unsigned> q : bounds(p, p), unsigned n, \
         unsigned i)\n{{\n{statement}\n}}\n"
    );
    let output = folder.call(&["run", "--short"], &text, image);
    assert_eq!(output.status, 3, "{}", output.err);
    output.err.trim_start_matches("routine.c:4:1: stopped at ").trim_end().to_string()
}

#[test]
fn each_stop_has_its_sentence() {
    assert_eq!(
        stops("dynamic_check(n < i);", "n = 4; p = o; i = 3;"),
        "check 1: dynamic_check(n < i) is false: n is 4, i is 3"
    );
    assert_eq!(stops("i = p[0];", "n = 0;"), "check 2: `p` is NULL");
    let outside = "check 3: `p[i + 1]` is cell 5; the bounds of `p` are cells 1 up to 5, 5 not included";
    assert_eq!(stops("p[i + 1] = n;", "n = 4; p = o; i = 3;"), outside);
    assert_eq!(stops("q = q + i;", "i = 3;"), "check 4: `q` is NULL: nothing can be added to it");
    let range = "check 5: q + i is 4294967296, which is no address (1 to 4294967295)";
    assert_eq!(stops("q = q + i; // far", "p = o; q = o; i = 4294967295;"), range);
}

#[test]
fn entries_are_refused_at_the_line_of_the_image() {
    let folder = Folder::new("entry");
    let refused = |image: &str, place: &str, sentence: &str| {
        let output = folder.call(&["run", "--short"], &first_club(), image);
        assert_eq!(output.status, 1, "{image}");
        assert_eq!(output.err, format!("image:{place}: error: {sentence}\n"));
    };
    refused(
        "first at 0;",
        "1:1",
        "refused 10: object `first` at cells 0 to 3 lies at cell 0, which is in no object",
    );
    refused("\nsecond at 3;", "2:1", "refused 10: object `second` at cells 3 to 6 overlaps `first`");
    refused(
        "first at 9; second at 3;",
        "1:13",
        "refused 10: object `second` at cells 3 to 6 is placed before `first`",
    );
    refused(
        "memory 7;",
        "1:1",
        "refused 10: object `second` at cells 5 to 8 ends beyond the memory of 7 cells",
    );
    refused(
        "memory 4000000000;",
        "1:1",
        "refused 10: the memory has 4000000000 cells; 16,777,216 is the limit",
    );
    let untrue =
        "refused 12: the bounds of `row` are untrue at entry: its upper end row + rows is cell 5 + 6 = 11, \
                  but `first` ends at 5";
    refused("rows = 6;\nrow = first + 4;", "2:1", untrue);
    let nowhere = "refused 12: `row` is 3 and belongs to no object: write it as OBJECT + NUMBER";
    refused("row = 3;", "1:1", nowhere);
    refused("rows = first;", "1:1", "refused 12: `rows` is an integer and is given the address of an object");
}

#[test]
fn a_wrong_image_ends_with_2() {
    let folder = Folder::new("wrong");
    for (image, message) in [
        (
            "boats = 3;",
            "1:1: error: `boats` is no object and no variable of the routine that is run: there are first, second, third, row, rows, boat",
        ),
        ("rows = 3", "1:9: error: expected `;`, found end of text"),
        ("rows = 3; rows = 4;", "1:11: error: `rows` is given twice"),
        ("first = { 1, 2, 3, 4, 5 };", "1:9: error: `first` has 4 cells, 5 are given"),
        ("first = \"abcd", "1:9: error: this string does not end"),
        ("row = first - 2;", "1:1: error: -1 is no address"),
        ("memory 99999999999;", "1:8: error: number above 4294967295"),
        ("allowance 4294967296;", "1:11: error: number above 4294967295"),
        ("memory = 4;", "1:8: error: expected a number, found `=`"),
        ("rows = 1; } rows = 2;", "1:11: error: expected a name, found `}`"),
        (
            "first = \"a\\q\";",
            "1:11: error: `\\q` is no escape here; the escapes are \\n \\t \\\\ \\\" \\' \\0 to \\377 \\x0 to \\xFF",
        ),
        ("first = \"\\x\";", "1:10: error: `\\x` is no escape here; the escapes are \\n \\t \\\\ \\\" \\' \\0 to \\377 \\x0 to \\xFF"),
        ("first = \"\\x100\";", "1:10: error: this escape is above 255, and no byte is"),
        ("first = \"\\400\";", "1:10: error: this escape is above 255, and no byte is"),
        ("first = \"a\\", "1:9: error: this string does not end"),
    ] {
        let output = folder.call(&["run", "--short"], &first_club(), image);
        assert_eq!((output.err, output.status), (format!("image:{message}\n"), 2));
    }
}

/// The cells of an object of 16 that a string gives.
fn cells_of(string: &str) -> Vec<u32> {
    let folder = Folder::new(&format!("string-{}", string.len()));
    let routine = "unsigned o checked[16];\nvoid f(unsigned x)\n{\n}\n";
    let output = folder.call(&["run", "--short"], routine, &format!("o = \"{string}\";"));
    let line = output.out.lines().find_map(|line| line.strip_prefix("cells: 0 ")).expect(string);
    line.split(' ').map(|cell| cell.parse().expect("a cell")).collect()
}

#[test]
fn strings_have_the_escapes_of_c() {
    let expected = |bytes: &[u8]| {
        let mut cells: Vec<u32> = bytes.iter().copied().map(u32::from).collect();
        cells.resize(16, 0);
        cells
    };
    assert_eq!(cells_of(r"a\0b\x41\t"), expected(b"a\0b\x41\t"));
    assert_eq!(cells_of(r#"\n\\\"\'\101\1018\377"#), expected(b"\n\\\"'A\x418\xff"));
    assert_eq!(cells_of("\u{e9}//*"), expected("\u{e9}//*".as_bytes()));
}
