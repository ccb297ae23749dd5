//! Several routines in turn over one memory: where their objects lie, how each ends, which turns there are, why they are refused.

#[path = "support/folder.rs"]
mod folder;

use folder::Folder;
use mizzengrape_tool::command::Output;

/// Writes so many boats into the rows, each in six steps and a test.
const LATE: &str = "\
unsigned block checked[2];

void late(array_ptr<unsigned> row : count(rows), unsigned rows, unsigned boats)
{
    while (boats > 0) {
        dynamic_check(rows > 0);
        row[0] = boats;
        bundled {
            row = row + 1;
            rows = rows - 1;
        }
        boats = boats - 1;
    }
}
";

/// The command over a routine for each image.
fn run(folder: &Folder, options: &[&str], images: &[&str]) -> Output {
    run_each(folder, options, &images.iter().map(|image| (LATE, *image)).collect::<Vec<_>>())
}

fn run_each(folder: &Folder, options: &[&str], lent: &[(&str, &str)]) -> Output {
    let mut words = vec!["run".to_string()];
    for (number, (routine, image)) in lent.iter().enumerate() {
        words.push(folder.write(&format!("r{number}.c"), routine));
        words.push(folder.write(&format!("i{number}.img"), image));
    }
    words.extend(options.iter().map(|option| option.to_string()));
    folder.command(&words.iter().map(String::as_str).collect::<Vec<_>>())
}

#[test]
fn each_ends_as_by_itself_and_the_blocks_touch() {
    let folder = Folder::new("in-turn");
    let images = ["row = block; rows = 2; boats = 2;", "row = block; rows = 1; boats = 2;"];
    let output = run(&folder, &["--quantum", "4"], &images);
    let ends = "\
routine 0, r0.c lent i0.img: done after 15 steps
row: block -> block + 2
rows: 2 -> 0
boats: 2 -> 0
block[0] (cell 1): 0 -> 2
block[1] (cell 2): 0 -> 1
routine 1, r1.c lent i1.img: stopped after 9 steps
row: block -> block + 1
rows: 1 -> 0
boats: 2 -> 1
block[0] (cell 3): 0 -> 2
";
    assert_eq!((output.out.as_str(), output.status), (ends, 3));
    // The neighbour of the block that the stop is about is another routine's.
    let stop = "\
r1.c: in routine 1, lent i1.img:
r1.c:6:9: stopped at check 1: dynamic_check(rows > 0) is false: rows is 0
        dynamic_check(rows > 0);
        ^
block  block of routine 0 #| 2 | 0 |
cells                        3   4
                                 ^ row = block + 1, bounds: no cell
";
    assert_eq!(output.err, stop);
}

#[test]
fn turns_are_listed_in_their_order() {
    let folder = Folder::new("turns");
    let images = ["row = block; rows = 2; boats = 1;", "", "row = block; rows = 2; boats = 1;"];
    let output = run(&folder, &["--quantum", "5", "--turns"], &images);
    let turns = "\
#1 routine 0: 5 steps, line 10 is next; row: block -> block + 1, block[0] (cell 1): 0 -> 1
#2 routine 1: 1 step, done
#3 routine 2: 5 steps, line 10 is next; row: block -> block + 1, block[0] (cell 5): 0 -> 1
#4 routine 0: 3 steps, done; rows: 2 -> 1, boats: 1 -> 0
#5 routine 2: 3 steps, done; rows: 2 -> 1, boats: 1 -> 0
";
    assert!(output.out.starts_with(&format!("{turns}routine 0, ")), "{}", output.out);
    assert!(output.out.contains("routine 1, r1.c lent i1.img: done after 1 step; nothing changed\n"));
    // For programs as in the vectors; the turns too where they are asked for.
    let short = run(&folder, &["--quantum", "5", "--turns", "--short"], &images);
    let words = "\
routine 0: done 8
values: 2 1 0
routine 1: done 1
values: 0 0 0
routine 2: done 8
values: 6 1 0
cells: 0 1 0 0 0 1 0
order: 0:5 1:1 2:5 0:3 2:3
";
    assert_eq!(short, Output { out: words.to_string(), ..Output::default() });
    assert!(!run(&folder, &["--quantum", "5", "--short"], &images).out.contains("order:"));
    // One step a turn where nothing else is asked for, and one routine is enough.
    let one = run(&folder, &["--turns", "--short"], &images[..1]);
    assert!(one.out.ends_with("order: 0:1 0:1 0:1 0:1 0:1 0:1 0:1 0:1\n"), "{}", one.out);
}

const WAITS: &str = "void wait(unsigned n)\n{\n    while (n > 0) {\n        n = n - 1;\n    }\n}\n";

#[test]
fn only_so_many_turns_are_listed() {
    let folder = Folder::new("many-turns");
    let output = run_each(&folder, &["--turns"], &[(WAITS, "n = 700;"), (WAITS, "n = 3;")]);
    let lines: Vec<&str> = output.out.lines().collect();
    let end = "#14 routine 1: 1 step, done";
    let alone = "#17 routine 0: 1 step, line 3 is next; n: 696 -> 695";
    assert_eq!((lines[13], lines[16]), (end, alone));
    assert_eq!(lines[999..1001], ["#1000 routine 0: 1 step, line 4 is next", "and 408 turns more"]);
}

const FILLS: &str = "\
unsigned block checked[20];

void fill(array_ptr<unsigned> p : count(20), unsigned i, unsigned n)
{
    while (i < n) {
        p[i] = n;
        i = i + 1;
    }
}
";

#[test]
fn of_a_turn_so_many_changes_are_told() {
    let folder = Folder::new("many-changes");
    let output = run_each(&folder, &["--turns", "--quantum", "1000"], &[(FILLS, "p = block; n = 21;")]);
    let cells: String = (0..7).map(|i| format!(", block[{i}] (cell {}): 0 -> 21", i + 1)).collect();
    let line = format!("#1 routine 0: 62 steps, stopped at line 6; i: 0 -> 20{cells}, and 13 more");
    assert_eq!(output.out.lines().next(), Some(line.as_str()));
}

#[test]
fn the_total_is_that_of_all() {
    let folder = Folder::new("total");
    let waits = [(WAITS, "n = 50; allowance 7;"), (WAITS, "n = 50; allowance 6;")];
    let ends = |options: &[&str]| {
        let output = run_each(&folder, options, &waits);
        assert_eq!(output.status, 4, "{}", output.err);
        let of_routines = output.out.lines().filter(|line| line.starts_with("routine "));
        (of_routines.map(str::to_string).collect::<Vec<_>>().join(", "), output.err)
    };
    // What the images say together: 13 steps in turns of 4, 4, 4 and 1.
    let (out, err) = ends(&["--quantum", "4", "--short"]);
    assert_eq!(out, "routine 0: spent 8 0, routine 1: spent 5 1");
    assert!(err.contains("r0.c:3:5: spent: the allowance of 13 steps is used; line 3 is next\n"), "{err}");
    assert_eq!(ends(&["--allowance", "5", "--short"]).0, "routine 0: spent 3 1, routine 1: spent 2 0");
    // One that is never served.
    assert_eq!(ends(&["--allowance", "0", "--short"]).0, "routine 0: spent 0 0, routine 1: spent 0 0");
}

#[test]
fn images_share_one_memory() {
    let folder = Folder::new("memory");
    let cells = |images: &[&str]| {
        let output = run(&folder, &["--short"], images);
        assert_eq!(output.status, 0, "{}", output.err);
        output.out.lines().last().unwrap_or_default().to_string()
    };
    let [one, two] = ["block = { 1, 2 };", "block = { 3, 4 };"];
    assert_eq!(cells(&[one, two]), "cells: 0 1 2 3 4");
    // Behind all objects of the images before, wherever these lie.
    assert_eq!(cells(&["block at 4 = { 1, 2 };", two]), "cells: 0 0 0 0 1 2 3 4");
    assert_eq!(cells(&["block at 4 = { 1, 2 };", "block at 2 = { 3, 4 };", one]), "cells: 0 0 3 4 1 2 1 2");
    // The greatest memory that an image gives.
    assert_eq!(cells(&["memory 3; block = { 1, 2 };", "memory 6; block = { 3, 4 };"]), "cells: 0 1 2 3 4 0");
}

fn refused(folder: &Folder, options: &[&str], lent: &[(&str, &str)], out: &str, reason: &str) {
    let output = run_each(folder, &[options, &["--short"]].concat(), lent);
    assert_eq!((output.out, output.status), (format!("{out}\n"), 1), "{}", output.err);
    assert_eq!(output.err, format!("{reason}\n"));
}

#[test]
fn refusals_name_the_routine() {
    let folder = Folder::new("turns-refused");
    let [fine, raised] = [
        "row = block; rows = 2;",
        "void f(array_ptr<unsigned> p : count(n), unsigned n)\n{\n    n = n + 1;\n}\n",
    ];
    let late = (LATE, fine);
    let overlap = "i1.img:1:1: error: refused 14: object `block` of routine 1 (cells 2 to 3) overlaps `block` of routine 0, lent i0.img (cells 1 to 2)";
    refused(&folder, &[], &[late, (LATE, "block at 2;"), late], "refused 14 1", overlap);
    let bounds = "r1.c:3:5: error: refused 8: the bounds of `p` are not shown after this statement";
    refused(&folder, &[], &[late, (raised, ""), late], "refused routine 1 8 0 0", bounds);
    let entry = "i2.img:1:1: error: refused 12: the bounds of `row` are untrue at entry: its upper end row + rows is cell 5 + 3 = 8, but `block` ends at 7";
    refused(&folder, &[], &[late, late, (LATE, "row = block; rows = 3;")], "refused routine 2 12 0", entry);
    let memory =
        "i1.img:1:1: error: refused 10: object `block` at cells 3 to 4 ends beyond the memory of 4 cells";
    refused(&folder, &[], &[(LATE, "memory 4;"), (LATE, fine)], "refused routine 1 10 0", memory);
    let name = "unsigned name nt_checked[3];\nvoid f(unsigned n)\n{\n}\n";
    let terminator = "i1.img:1:1: error: refused 16: the last cell of the terminated object `name` (cell 5) is 99 at entry; it must be 0";
    refused(&folder, &[], &[late, (name, "name = \"abc\";")], "refused routine 1 16 0", terminator);
    let steps = "error: refused 15: a turn has 1001 steps; 1 to 1,000 are allowed";
    refused(&folder, &["--quantum", "1001"], &[late, (raised, "")], "refused 15 0", steps);
    let many = "error: refused 15: there are 9 routines; 1 to 8 are allowed";
    refused(&folder, &[], &[(raised, ""); 9], "refused 15 0", many);
    // A table that has no text is refused by its form, before its image can be read.
    let table = folder.write("short.words", "table: 6 0 6\n");
    let image = folder.write("i.img", "n = 1;");
    let late_c = folder.write("late.c", LATE);
    let output = folder.command(&["run", &late_c, &image.replace("i.img", "none.img"), &table, &image]);
    assert_eq!(output.status, 2);
    let lent = folder.write("none.img", "");
    let output = folder.command(&["run", &late_c, &lent, &table, &image, "--short"]);
    assert_eq!((output.out.as_str(), output.status), ("refused routine 1 1 0\n", 1));
}

#[test]
fn wrong_calls_end_with_2() {
    let folder = Folder::new("turns-wrong");
    let routine = folder.write("late.c", LATE);
    let image = folder.write("late.img", "");
    let wrong = folder.write("wrong.img", "rows = 3");
    let set = folder.write("set.c", format!("{WAITS}{}", WAITS.replace("wait", "other")));
    let ends = |words: &[&str], message: &str| {
        let output = folder.command(&[&["run", "--short"], words].concat());
        assert_eq!((output.err.as_str(), output.status), (message, 2));
    };
    ends(
        &[&routine, &image, &routine],
        "error: each routine wants its image behind it: FILE IMAGE FILE IMAGE ..\n",
    );
    ends(
        &[&routine, &image, &routine, &image, "--facts", "f"],
        "error: --facts is for one routine; a .words file has its list in it\n",
    );
    ends(&[&routine, &image, &routine, &wrong], "wrong.img:1:9: error: expected `;`, found end of text\n");
    ends(
        &[&routine, &image, &set, &image],
        "set.c:7:6: error: a set has no turns: routines in turn are each by themselves\n",
    );
    ends(
        &[&routine, &image, "--quantum", "x"],
        "error: --quantum wants a number from 0 to 4294967295, not x\n",
    );
}
