//! Calls between routines, explained at their lines: refusals 19 and 20, and what would repair them. The verdicts are those of the second
//! implementation; `sets.rs` has the library's.

use mizzengrape_tool::explain::{explained, help};
use mizzengrape_tool::image::read_image;
use mizzengrape_tool::library::{Lent, Refusal, Verdict};
use mizzengrape_tool::program::Program;
use mizzengrape_tool::repair::{apply, edits};
use oracle::answer::RunInput;
use oracle::set::{self, SetRefusal};
use std::fs;
use std::path::Path;

/// A routine that sums the rows it is given, and one that calls it so.
fn calls(statement: &str) -> String {
    format!(
        "unsigned block checked[4];\n\nunsigned sum(array_ptr<unsigned> row : count(n), unsigned n)\n{{\n    unsigned total;\n\n    \
         total = n;\n    return total;\n}}\n\nvoid f(array_ptr<unsigned> p : count(rows), unsigned rows, unsigned k, unsigned t)\n{{\n    \
         {statement}\n}}\n"
    )
}

fn program(text: &str) -> Program {
    Program::of_text("set.c", text.to_string(), false).unwrap_or_else(|wrong| panic!("{wrong}"))
}

fn verdict(program: &Program) -> Verdict {
    match set::check(&program.tables) {
        Ok(()) => Verdict::Accepted,
        Err(SetRefusal { routine, refusal }) => Verdict::Refused(Refusal {
            routine: (refusal.cause != 15).then_some(routine),
            number: refusal.cause.into(),
            place: refusal.place as usize,
            pointer: refusal.pointer.map(usize::from),
        }),
    }
}

/// The reason for a refusal as it is printed, without the source line, and what would help.
fn reason(text: &str) -> (String, Vec<String>) {
    let program = program(text);
    let verdict = verdict(&program);
    let checked = explained(&program, verdict, Some(Vec::new()));
    assert_eq!(checked.other, None, "{text}");
    let (Some(reason), Verdict::Refused(refusal)) = (checked.reason, verdict) else {
        return (verdict.to_string(), Vec::new());
    };
    let shown = reason.show(&program, false);
    let lines: Vec<&str> = shown.lines().collect();
    let quoted = lines.get(2).is_some_and(|line| line.trim() == "^");
    let kept = lines.iter().enumerate().filter(|(number, _)| !quoted || !(1..=2).contains(number));
    let shown: String = kept.map(|(_, line)| format!("{line}\n")).collect();
    (shown, help(&program, &refusal).into_iter().map(|help| help.message).collect())
}

fn shown(text: &str) -> String {
    reason(text).0
}

#[test]
fn a_call_that_fits_is_accepted() {
    for statement in ["t = sum(p, rows);", "sum(p, rows);", "p = NULL; t = sum(p, k);", "t = sum();"] {
        assert_eq!(shown(&calls(statement)), "accepted", "{statement}");
    }
}

#[test]
fn bounds_that_are_not_shown() {
    let (shown, helps) = reason(&calls("t = sum(p, k);"));
    let expected = "set.c:13:5: error: refused 20: the bounds of parameter `row`, here bounds(p, p + k), are not shown\n\
                    set.c:3:34: note: declared here: row : count(n)\n\
                    note: not shown: p + k <= p + rows: nothing relates them\n\
                    note: known here: nothing\n";
    assert_eq!(shown, expected);
    assert_eq!(helps, ["write dynamic_check(k <= rows); before line 13; it stops a run where k > rows"]);
    // With a number too many it is short by that much; a callee that loses its own bounds is its own refusal.
    let short = calls("k = rows + 1;\n    t = sum(p, k);");
    assert!(reason(&short).0.contains("are not shown"), "{}", reason(&short).0);
    let own = "set.c:13:5: error: refused 8: the bounds of `p` are not shown after this statement\n";
    let shown = reason(&calls("rows = sum(p, rows);")).0;
    assert!(shown.starts_with(own) && shown.contains("lost at line 13: rows = sum(p, rows)"), "{shown}");
}

#[test]
fn what_helps_is_accepted() {
    let text = calls("t = sum(p, k);");
    let program = program(&text);
    let Verdict::Refused(refusal) = verdict(&program) else { panic!("refused") };
    let repair = help(&program, &refusal).remove(0).repair.expect("a change of the text");
    let map = &program.text.as_ref().expect("a text").map.routines[1];
    let repaired = apply(&text, &edits(&repair, &text, map).expect("edits")).expect("a text");
    assert_eq!(shown(&repaired), "accepted", "{repaired}");
}

#[test]
fn arguments_that_do_not_fit() {
    let says = |statement: &str, sentence: &str, note: &str| {
        let expected = format!("set.c:13:5: error: refused 20: {sentence}\n{note}");
        assert_eq!(reason(&calls(statement)), (expected, Vec::new()));
    };
    let row = "set.c:3:34: note: declared here: array_ptr<unsigned> row : count(n)\n";
    says("t = sum(void, k);", "argument 1 is left out before argument 2", "");
    says("t = sum(k, k);", "argument 1, `k`, is an integer; parameter `row` is an array_ptr", row);
    says("t = sum(p, rows, k, k);", "`sum` has 3 variables, 4 arguments are given", "");
    let row = "set.c:3:34: note: declared here: row : count(n)\n";
    says("t = sum(p);", "the bounds of parameter `row` name `n`, which gets no argument in this call", row);
}

#[test]
fn a_last_variable_that_is_no_result() {
    let text =
        "void last(unsigned n, array_ptr<unsigned> q : count(n))\n{\n}\n\nvoid f(unsigned n)\n{\n    last(n);\n}\n";
    let expected = "set.c:7:5: error: refused 20: `last` has no result: its last variable `q` is a pointer\n\
                    set.c:1:43: note: declared here: array_ptr<unsigned> q : count(n)\n";
    assert_eq!(shown(text), expected);
}

#[test]
fn only_routines_above_are_called() {
    let error = "set.c:13:5: error: refused 19: ";
    let itself = "`f` calls itself: a routine calls only routines above it\n";
    assert_eq!(shown(&calls("t = f(p, rows);")), format!("{error}{itself}"));
    assert_eq!(shown(&calls("t = routines[7]();")), format!("{error}the set has no routine 7\n"));
    let below =
        "void g(unsigned n)\n{\n    later(n);\n}\n\nunsigned later(unsigned m)\n{\n    return m;\n}\n";
    let expected = "set.c:3:5: error: refused 19: `later` is not before this routine in the set: a routine calls only routines above it\n\
                    set.c:6:10: note: `later` is declared here, below its caller\n";
    assert_eq!(shown(below), expected);
}

#[test]
fn a_set_of_nine() {
    let nine: String = (0..9).map(|number| format!("void r{number}(unsigned n)\n{{\n}}\n")).collect();
    let expected = "set.c:25:6: error: refused 15: the set has 9 routines; 1 to 8 are allowed\n";
    assert_eq!(shown(&nine), expected);
}

/// The scoring routines of `routines/`, by the second implementation.
#[test]
fn the_handicap_formula_is_called_from_both_scoring_routines() {
    let folder = Path::new(env!("CARGO_MANIFEST_DIR")).join("../routines");
    let [text, image] = ["handicap.c", "race_day.img"]
        .map(|name| fs::read_to_string(folder.join(name)).expect("a file of routines/"));
    let program = program(&text);
    assert_eq!(set::check(&program.tables), Ok(()));
    let text = program.text.as_ref().expect("a text");
    let read = read_image(&image, &text.parts, &text.names).expect("an image that reads");
    let Lent { directory, cells, values, origins, allowance } = read.lent;
    let mut input = RunInput { directory, cells, values, origins, allowance };
    assert_eq!(set::run(&program.tables, &mut input).to_string(), "done 75");
    assert_eq!(input.values[3..6], [2470, 2315, 2320]);
    let corrected: Vec<u32> = input.cells[1..].chunks(3).map(|row| row[2]).collect();
    assert_eq!(corrected, [2470, 2505, 2480, 2318, 2315]);
    let callers = program.tables.iter().filter(|table| table.windows(2).any(|words| words == [15, 0]));
    assert_eq!(callers.count(), 2);
}
