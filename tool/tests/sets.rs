//! Sets of routines by the library: checked, run, traced, assembled and printed; the handicap formula of `routines/`.

#[path = "support/folder.rs"]
mod folder;

use folder::Folder;
use mizzengrape_tool::command::Output;
use std::fs;
use std::path::PathBuf;

/// The scoring routines, with the image of a day.
fn day(folder: &Folder) -> [String; 2] {
    let routines = PathBuf::from(env!("CARGO_MANIFEST_DIR")).join("../routines");
    ["handicap.c", "race_day.img"]
        .map(|name| folder.write(name, fs::read(routines.join(name)).expect("a file of routines/")))
}

#[test]
fn a_day_is_scored() {
    let folder = Folder::new("set-run");
    let [set, image] = day(&folder);
    assert_eq!(folder.command(&["check", &set]).out, "accepted\n");
    let expected =
        "done after 75 steps\nbest_dinghy: 0 -> 2470\nbest_keelboat: 0 -> 2315\nguest: 0 -> 2320\n\
                    row: NULL -> keelboats\nrows: 0 -> 2\ndinghies[0][2] (cell 3): 0 -> 2470\n\
                    dinghies[1][2] (cell 6): 0 -> 2505\ndinghies[2][2] (cell 9): 0 -> 2480\n\
                    keelboats[0][2] (cell 12): 0 -> 2318\nkeelboats[1][2] (cell 15): 0 -> 2315\n";
    assert_eq!(
        folder.command(&["run", &set, &image]),
        Output { out: expected.to_string(), ..Output::default() }
    );
    let short = folder.command(&["run", "--short", &set, &image]);
    assert!(
        short.out.starts_with("done 75\nvalues: 6 2500 30 2470 2315 2320 10 2\ncells: 0 2710 "),
        "{}",
        short.out
    );
    // While a callee runs, the values are those of the routine that was run.
    let spent = folder.command(&["run", "--short", "--allowance", "12", &set, &image]);
    assert!(spent.out.starts_with("spent 12 0 3\nvalues: 6 2500 30 0 0 0 1 3\n"), "{}", spent.out);
}

#[test]
fn a_trace_names_the_routine_and_the_depth_of_its_calls() {
    let folder = Folder::new("set-trace");
    let [set, image] = day(&folder);
    let trace = |options: &[&str]| folder.command(&[&["trace", &set, &image], options].concat()).out;
    let lines = trace(&["--from", "12", "--steps", "3"]);
    let expected = "\
#12 handicap.c:12:5   . . handicap     2 if (credit < elapsed)                                       240 < 2710, yes
#13 handicap.c:13:9   . . handicap     3 corrected = elapsed - credit;                               back in score_class, corrected: 0 -> 2470
#14 handicap.c:28:9   . score_class    5 row[i][2] = corrected;                                      dinghies[0][2] (cell 3): 0 -> 2470
more with --from 15
done after 75 steps
";
    assert_eq!(lines, expected);
    let call = trace(&["--from", "71", "--steps", "1"]);
    let called = "calls handicap(elapsed = 2500, allowance = 30, miles = 6)\n";
    assert!(call.lines().next().is_some_and(|line| line.ends_with(called.trim_end())), "{call}");
    assert!(trace(&["--from", "70", "--steps", "1"])
        .contains("2 < 2, no, back in score_day, best_keelboat: 0 -> 2315\n"));
}

#[test]
fn an_end_in_a_callee_names_its_callers() {
    let folder = Folder::new("set-callers");
    let [set, image] = day(&folder);
    let spent = folder.command(&["run", "--allowance", "12", &set, &image]);
    let expected = "handicap.c:13:9: spent: the allowance of 12 steps is used; line 13 is next\n        corrected = elapsed - credit;\n        ^\n\
                    handicap.c:27:9: note: called here, in score_class: corrected = handicap(elapsed, allowance, miles)\n\
                    handicap.c:47:5: note: called here, in score_day: best_dinghy = score_class(row, rows, miles)\n";
    assert_eq!((spent.err.as_str(), spent.status), (expected, 4));
    assert_eq!(spent.out, "spent after 12 steps\nrow: NULL -> dinghies\nrows: 0 -> 3\n");
    // A stop has the values of the routine that stopped.
    let text = "unsigned o checked[2];\n\nunsigned at(array_ptr<unsigned> p : count(n), unsigned n, unsigned i)\n{\n    unsigned x;\n\n    \
                x = p[i];\n    return x;\n}\n\nvoid f(array_ptr<unsigned> q : count(m), unsigned m, unsigned k, unsigned y)\n{\n    \
                y = at(q, m, k);\n}\n";
    let stopped = folder.call(&["run"], text, "o = { 5, 6 }; q = o; m = 2; k = 4;");
    let expected = "routine.c:7:5: stopped at check 3: `p[i]` is cell 5; the bounds of `p` are cells 1 up to 3, 3 not included\n    x = p[i];\n    ^\n\
                    o      | 5 | 6 |\ncells    1   2\n         ^ p = o, bounds: cells 1 to 2\n               ^ p[i] is cell 5\n\
                    routine.c:13:5: note: called here, in f: y = at(q, m, k)\n";
    assert_eq!((stopped.err.as_str(), stopped.status), (expected, 3));
    assert_eq!(stopped.out, "stopped after 2 steps; nothing changed\n");
    let short = folder.call(&["run", "--short"], text, "o = { 5, 6 }; q = o; m = 2; k = 4;");
    assert!(short.out.starts_with("stopped 2 0 0 3\nvalues: 1 2 4 0\n"), "{}", short.out);
    // What is lent is the last routine's.
    let refused = folder.call(&["run"], text, "q = o; m = 3;");
    assert_eq!((refused.out.as_str(), refused.status), ("refused routine 1 12 0\n", 1));
    assert!(
        refused.err.starts_with("image:1:1: error: refused 12: the bounds of `q` are untrue at entry"),
        "{}",
        refused.err
    );
}

#[test]
fn refusals_name_the_routine() {
    let folder = Folder::new("set-refused");
    let text = "unsigned id(unsigned n)\n{\n    return n;\n}\n\nvoid f(unsigned n, unsigned m)\n{\n    n = id(n, m);\n}\n";
    let set = folder.write("set.c", text);
    let refused = folder.command(&["check", "--short", &set]);
    let error = "set.c:8:5: error: refused 20: `id` has 1 variable, 2 arguments are given\n";
    assert_eq!(
        (refused.err.as_str(), refused.out.as_str(), refused.status),
        (error, "refused routine 1 20 0\n", 1)
    );
    let json = folder.command(&["check", "--format", "json", &set]).out;
    assert!(json.contains("\"number\":20,\"place\":0,") && json.ends_with("\"routine\":1}\n"), "{json}");
    // What is known before a call.
    let known = folder.command(&["explain", "--short", &set]).out;
    assert_eq!(known, "set.c:8:5: before n = id(n, m)\nknown: nothing\n");
    // In a routine by itself there is nobody to call.
    let alone = folder.write("alone.c", "unsigned r(unsigned n)\n{\n    n = r(n);\n    return n;\n}\n");
    let refused = folder.command(&["check", "--short", &alone]);
    let error = "alone.c:3:5: error: refused 19: a routine by itself has nobody to call\n";
    assert_eq!((refused.err.as_str(), refused.out.as_str()), (error, "refused 19 0\n"));
}

#[test]
fn tables_of_a_set_go_there_and_back() {
    let folder = Folder::new("set-tables");
    let [set, _] = day(&folder);
    assert_eq!(folder.command(&["asm", &set, "-o", &folder.path("day.tbl")]), Output::default());
    let tables = [0, 1, 2].map(|number| folder.path(&format!("day.{number}.tbl")));
    let [first, second, third] = &tables;
    assert_eq!(folder.command(&["check", first, second, third]).out, "accepted\n");
    let printed = folder.command(&["dis", first, second, third]);
    let again = folder.write("again.c", &printed.out);
    let words = |file: &str| folder.command(&["asm", "--words", file]).out;
    assert_eq!(words(&again), words(&set));
    // In another order they are not the same set; one alone has no objects of another's.
    assert_eq!(folder.command(&["check", "--short", second, third]).out, "refused routine 0 19 4\n");
    assert_eq!(folder.command(&["check", "--short", third]).out, "refused 5 1\n");
    let listed = folder.command(&["check", "--short", second, first]);
    assert_eq!(listed.out, "refused routine 0 19 4\n");
    assert_eq!(folder.command(&["dis", "--short", second, first]).out, "refused routine 1 3 0\n");
    let header = folder.command(&["asm", "--c-header", &set]).out;
    for part in [
        "score_day_tables[]",
        "score_day_table_lengths[]",
        "score_day_routine_handicap,",
        "score_class_lines[]",
    ] {
        assert!(header.contains(part), "{part}: {header}");
    }
}
