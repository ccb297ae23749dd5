//! What a stopped run shows: the blocks of its statement, the bundle that it is in; and what a run changed, when that is much.

#[path = "support/folder.rs"]
mod folder;

use folder::Folder;
use mizzengrape_tool::command::{call_into, Output};
use std::io::{self, ErrorKind, Write};

/// The lines below the caret of a run that ends early, at this line of the routine.
fn below(name: &str, routine: &str, image: &str, more: &[&str]) -> Vec<String> {
    let folder = Folder::new(name);
    let output = folder.call(&[&["run"], more].concat(), routine, image);
    assert!(output.status >= 3, "{}{}", output.err, output.out);
    output.err.lines().skip(3).map(str::to_string).collect()
}

const ROWS: &str = "\
unsigned dinghies checked[4][2];
unsigned keelboats checked[3][2];
unsigned finishers checked[2];
void late(array_ptr<unsigned checked[2]> row : count(rows), unsigned rows, unsigned boat, unsigned i)
{
    row[i][1] = boat;
    bundled {
        row = row + 1;
        dynamic_check(boat > 0);
        dynamic_check(rows >= 1);
        rows = rows - 1;
    }
}
";

#[test]
fn an_access_outside_of_its_bounds_is_drawn() {
    let image = "keelboats = { 0, 0, 21, 701, 22, 703 }; row = keelboats + 2; rows = 2; i = 2;";
    let expected = [
        "keelboats  dinghies #|   0   0 |  21 701 |  22 703 |# finishers",
        "cells                    9        11        13",
        "                                   ^ row = keelboats + 2, bounds: cells 11 to 14",
        "                                                   ^ row[i][1] is cell 16",
    ];
    assert_eq!(below("outside", ROWS, image, &[]), expected);
}

#[test]
fn a_stop_in_a_bundle_says_what_is_untrue() {
    let image = "row = keelboats + 2; rows = 2;";
    let expected = "note: this is inside of the bundle of line 7: the bounds of `row` are untrue here, and lent again they are refused with 12";
    assert_eq!(below("untrue", ROWS, image, &[]).last().map(String::as_str), Some(expected));
    let spent = below("spent", ROWS, image, &["--allowance", "3"]);
    assert_eq!(spent, [expected]);
    let before = below("before", ROWS, image, &["--allowance", "2"]);
    assert_eq!(before, ["note: this is inside of the bundle of line 7; all bounds are true here"]);
    assert_eq!(below("outside-of-it", ROWS, image, &["--allowance", "0"]), [""; 0]);
}

/// Of a long block what lies around the pointer is drawn, on 80 columns.
#[test]
fn a_long_block_is_cut() {
    let routine = "unsigned o checked[1000];\nvoid f(array_ptr<unsigned> p : count(n), unsigned n, unsigned x)\n{\n    x = p[n];\n}\n";
    let lines = below("long", routine, "p = o + 500; n = 3;", &[]);
    assert_eq!(lines[0], format!("{:<7}{}| ..", "o", "| 0 ".repeat(17)));
    assert!(lines.iter().all(|line| line.len() <= 80), "{lines:#?}");
    assert!(
        lines[1].contains(" 501 ") && lines[2].contains("^ p = o + 500, bounds: cells 501 to 503"),
        "{lines:#?}"
    );
    // A pointer of a null statement has no block.
    assert_eq!(below("null", routine, "n = 3;", &[]), [""; 0]);
}

#[test]
fn letters_of_a_name_are_shown() {
    let routine = "unsigned name nt_checked[6];\nvoid f(nt_array_ptr<unsigned> s : count(n), unsigned n, unsigned x)\n{\n    s[n] = x;\n}\n";
    let lines = below("letters", routine, "name = \"Eos\"; s = name; n = 3; x = 65;", &[]);
    assert_eq!(lines[0], "name   | 'E' | 'o' | 's' |   0 |   0 |   0 |");
}

const FILL: &str = "\
unsigned o checked[20][3];
void fill(array_ptr<unsigned checked[3]> p : count(n), unsigned n, unsigned i)
{
    dynamic_check(p != NULL);
    while (i < n) {
        p[i][0] = n;
        p[i][1] = n;
        p[i][2] = n;
        i = i + 1;
    }
}
";

#[test]
fn many_cells_are_told_as_ranges() {
    let folder = Folder::new("ranges");
    let output = folder.call(&["run"], FILL, "p = o + 3; n = 19;");
    let range = "o[1][0] to [19][2] (57 cells, 4 to 60): 0 0 0 0 0 0 0 0 .. -> 19 19 19 19 19 19 19 19 ..";
    assert_eq!(output.out, format!("done after 97 steps\ni: 0 -> 19\n{range}\n"));
    let few = folder.call(&["run"], FILL, "p = o + 3; n = 1;");
    let cells = "o[1][0] (cell 4): 0 -> 1\no[1][1] (cell 5): 0 -> 1\no[1][2] (cell 6): 0 -> 1\n";
    assert_eq!(few.out, format!("done after 7 steps\ni: 0 -> 1\n{cells}"));
}

/// A trace is made in one go, so that its time grows with its steps; each line is printed as it is made.
#[test]
fn a_long_trace_is_made_in_one_go() {
    let folder = Folder::new("long-trace");
    let routine = "void f(unsigned n)\n{\n    while (n > 0) {\n        n = n - 1;\n    }\n}\n";
    let output = folder.call(&["trace", "--steps", "200001"], routine, "n = 100000;");
    let lines: Vec<&str> = output.out.lines().collect();
    assert_eq!((lines.len(), output.status), (200_002, 0));
    assert_eq!(lines[0], "#1      routine.c:3:5  0 while (n > 0)    100000 > 0, yes");
    assert_eq!(lines[199_999], "#200000 routine.c:4:9  1 n = n - 1;       n: 1 -> 0");
    assert_eq!(lines[200_001], "done after 200001 steps");
}

/// A place to write that takes so many lines and then fails.
struct Failing(usize, ErrorKind);

impl Write for Failing {
    fn write(&mut self, bytes: &[u8]) -> io::Result<usize> {
        self.0 = self.0.checked_sub(1).ok_or(io::Error::from(self.1))?;
        Ok(bytes.len())
    }

    fn flush(&mut self) -> io::Result<()> {
        Ok(())
    }
}

#[test]
fn a_reader_that_goes_away_is_no_fault_and_a_full_disk_is() {
    let folder = Folder::new("unread");
    let routine =
        folder.write("r.c", "void f(unsigned n)\n{\n    while (n > 0) {\n        n = n - 1;\n    }\n}\n");
    let image = folder.write("r.img", "n = 100;");
    let arguments = ["trace".to_string(), routine, image];
    assert_eq!(call_into(&arguments, &mut Failing(3, ErrorKind::BrokenPipe)), Output::default());
    let full = call_into(&arguments, &mut Failing(3, ErrorKind::StorageFull));
    assert_eq!((full.status, full.err.starts_with("error: standard output: ")), (2, true), "{}", full.err);
}
