//! Output for programs: JSON and SARIF, read back by a reader that is not ours; several files; headers for C; the forms of arguments.

#[path = "support/folder.rs"]
mod folder;

use folder::Folder;
use std::io::Write;
use std::process::{Command, Stdio};

const REFUSED: &str = "void f(array_ptr<unsigned> p : count(n), unsigned n)\n{\n    n = n - 1;\n}\n";
const ACCEPTED: &str = "unsigned o checked[2];\nvoid late(array_ptr<unsigned> row : count(rows), unsigned rows, unsigned boat)\n{\n    \
                        dynamic_check(rows > 0);\n    row[0] = boat;\n}\n";
const WRONG: &str = "void f(unsigned x)\n{\n    x = \"a\u{e9}\\\";\n    x = m;\n}\n";

/// What a program in Python prints of a text on its standard input.
fn python(program: &str, text: &str) -> String {
    let mut child = Command::new("python3")
        .args(["-c", program])
        .stdin(Stdio::piped())
        .stdout(Stdio::piped())
        .spawn()
        .expect("python3 runs");
    child.stdin.take().expect("an input").write_all(text.as_bytes()).expect("it reads");
    let output = child.wait_with_output().expect("it ends");
    assert!(output.status.success(), "{text}");
    String::from_utf8(output.stdout).expect("a text")
}

#[test]
fn json_is_read_back() {
    let folder = Folder::new("json");
    let files =
        [("r.c", REFUSED), ("a.c", ACCEPTED), ("w.c", WRONG)].map(|(name, text)| folder.write(name, text));
    let output = folder.command(&["check", "--format", "json", &files[0], &files[1], &files[2]]);
    assert_eq!((output.err.as_str(), output.status), ("", 2));
    let program = "import json, sys\nfor line in sys.stdin:\n d = json.loads(line)\n print(d['file'], d['line'], d['column'], \
                   d['end'], d['severity'], d['number'], d['place'], d['pointer'], d['message'])\n print([n['message'] for n in \
                   d['notes']], d['help'])\n";
    let expected = "\
r.c 3 5 {'line': 3, 'column': 15} error 8 0 0 refused 8: the bounds of `p` are not shown after this statement
['declared here: p : count(n)', 'the known upper end was lost at line 3: n = n - 1 may wrap: n >= 1 is not shown there', \
'known here: nothing'] [{'message': 'write dynamic_check(n >= 1); before line 3; it stops a run where n < 1', 'edits': [{'from': {'line': 3, 'column': 5}, \
'to': {'line': 3, 'column': 5}, 'text': 'dynamic_check(n >= 1);\\n    '}]}]
w.c 3 9 {'line': 3, 'column': 10} error None None None this string does not end
[] []
";
    assert_eq!(python(program, &output.out), expected);
}

/// The fields that the schema of SARIF 2.1.0 requires, and what they may be.
const SARIF_CHECK: &str = r#"
import json, sys
log = json.load(sys.stdin)
assert log["version"] == "2.1.0" and log["$schema"].endswith("sarif-2.1.0.json")
assert isinstance(log["runs"], list)
for run in log["runs"]:
    driver = run["tool"]["driver"]
    assert isinstance(driver["name"], str) and run["columnKind"] in ("utf16CodeUnits", "unicodeCodePoints")
    rules = [rule["id"] for rule in driver["rules"]]
    assert len(rules) == len(set(rules)) and all(rule["shortDescription"]["text"] for rule in driver["rules"])
    def region(r):
        assert all(isinstance(r[k], int) and r[k] >= 1 for k in ("startLine", "startColumn", "endLine", "endColumn"))
        assert (r["startLine"], r["startColumn"]) <= (r["endLine"], r["endColumn"])
    for result in run["results"]:
        assert result["message"]["text"] and result["level"] in ("none", "note", "warning", "error")
        assert result["ruleId"] in rules
        for location in result["locations"] + result["relatedLocations"]:
            physical = location["physicalLocation"]
            assert isinstance(physical["artifactLocation"]["uri"], str)
            if "region" in physical: region(physical["region"])
        for fix in result["fixes"]:
            assert fix["description"]["text"] and fix["artifactChanges"]
            for change in fix["artifactChanges"]:
                assert change["artifactLocation"]["uri"] and change["replacements"]
                for replacement in change["replacements"]:
                    region(replacement["deletedRegion"])
                    assert isinstance(replacement["insertedContent"]["text"], str)
        print(result["ruleId"], result["level"], len(result["fixes"]), result["message"]["text"].split("\n")[0])
"#;

#[test]
fn sarif_has_what_its_schema_requires() {
    let folder = Folder::new("sarif");
    let files =
        [("r c.c", REFUSED), ("a.c", ACCEPTED), ("w.c", WRONG)].map(|(name, text)| folder.write(name, text));
    let output = folder.command(&["check", "--format=sarif", &files[0], &files[1], &files[2]]);
    assert_eq!((output.err.as_str(), output.status), ("", 2));
    let expected = "refused-8 error 1 refused 8: the bounds of `p` are not shown after this statement\n\
                    text-error error 0 this string does not end\n";
    assert_eq!(python(SARIF_CHECK, &output.out), expected);
    assert!(output.out.contains("r%20c.c"), "{}", output.out);
    assert_eq!(python(SARIF_CHECK, &folder.command(&["check", "--format=sarif", &files[1]]).out), "");
    assert_eq!(folder.command(&["check", "--format", "xml", &files[1]]).status, 2);
}

#[test]
fn several_files_have_the_worst_status() {
    let folder = Folder::new("several");
    let [refused, accepted] =
        [("r.c", REFUSED), ("a.c", ACCEPTED)].map(|(name, text)| folder.write(name, text));
    let output = folder.command(&["check", "--short", &accepted, &refused, &accepted]);
    assert_eq!(
        (output.out.as_str(), output.status),
        ("a.c: accepted\nr.c: refused 8 0 0\na.c: accepted\n", 1)
    );
    let missing = folder.path("none.c");
    let output = folder.command(&["check", "--short", &refused, &missing, &accepted]);
    assert_eq!((output.out.as_str(), output.status), ("r.c: refused 8 0 0\na.c: accepted\n", 2));
}

#[test]
fn a_header_is_c() {
    let folder = Folder::new("header");
    let text = folder.write("late.c", ACCEPTED);
    let header = folder.command(&["asm", "--c-header", &text]);
    assert_eq!((header.err.as_str(), header.status), ("", 0));
    folder.write("late.h", &header.out);
    let program = "#include \"late.h\"\n#include <stdio.h>\nint main(void) {\n\
                   printf(\"%d %d %d %u %u %d %d\\n\", (int)late_table_length, late_variable_boat, late_object_o, (unsigned)late_lengths[0],\n\
                   (unsigned)late_lines[1], (int)late_lines_length, (int)late_facts_length);\nreturn late_table[0] != 6;\n}\n";
    let (source, binary) = (folder.write("main.c", program), folder.path("main"));
    let flags = ["-std=c11", "-Wall", "-Wextra", "-Werror", "-pedantic", "-o"];
    assert!(Command::new("cc").args(flags).arg(&binary).arg(&source).status().expect("cc runs").success());
    let output = Command::new(&binary).output().expect("it runs");
    assert_eq!(String::from_utf8_lossy(&output.stdout), "45 2 0 2 5 2 0\n");
    // An empty routine has no objects and no statements.
    let empty = folder.write("empty.c", "void idle(unsigned x)\n{\n}\n");
    folder.write("late.h", folder.command(&["asm", "--c-header", &empty]).out);
    let main = folder.write(
        "main.c",
        "#include \"late.h\"\nint main(void) { return idle_lengths_length + idle_table[0] - 6; }\n",
    );
    assert!(Command::new("cc").args(flags).arg(&binary).arg(&main).status().expect("cc runs").success());
    assert!(Command::new(&binary).status().expect("it runs").success());
}

#[test]
fn a_table_goes_to_standard_output_and_has_names() {
    let folder = Folder::new("names");
    let text = folder.write("late.c", ACCEPTED);
    let (table, names) = (folder.path("late.tbl"), folder.path("late.names"));
    assert_eq!(folder.command(&["asm", &text, "--names", &names]).status, 0);
    let printed = Command::new(env!("CARGO_BIN_EXE_mizzengrape"))
        .args(["asm", &text, "-o", "-"])
        .output()
        .expect("it runs");
    assert_eq!(printed.stdout, std::fs::read(&table).expect("a table"));
    let image = folder.write("late.img", "row = o; rows = 1; boat = 77;");
    let run = folder.command(&["run", &table, &image, "--names", &names]);
    assert_eq!(run.out, "done after 2 steps\no[0] (cell 1): 0 -> 77\n");
    let trace = folder.command(&["trace", &table, &image, "--names", &names]);
    assert!(trace.out.contains("row[0] = boat;"), "{}", trace.out);
    assert_eq!(folder.command(&["run", &text, &image, "--names", &names]).status, 2);
}

#[test]
fn arguments_have_the_usual_forms() {
    let folder = Folder::new("arguments");
    let (text, image) = (folder.write("-late.c", ACCEPTED), folder.write("late.img", "row = o; rows = 1;"));
    assert_eq!(folder.command(&["run", "--allowance=1", "--short", &text, &image]).status, 4);
    assert_eq!(folder.command(&["check", "--short", "--", &text]).out, "accepted\n");
    let missing = folder.command(&["check", "--", "--short"]);
    assert!(missing.err.starts_with("--short: error: "), "{}", missing.err);
}
