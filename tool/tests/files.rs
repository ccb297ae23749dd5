//! Files that are read and written: their lengths, what they may hold, output that is not lost.

#[path = "support/folder.rs"]
mod folder;

use folder::Folder;
use mizzengrape_tool::command::Output;
use std::fs::{self, File};
use std::io::{self, ErrorKind, Write};
use std::path::Path;
use std::process::{Command, Stdio};

const ROUTINE: &str =
    "unsigned o checked[1000000];\nvoid f(array_ptr<unsigned> p : count(n), unsigned n, unsigned x)\n{\n    x = 0;\n}\n";
const TABLE: &str = "table: 6 0 6 8 14 0 0 0 0 0 0 0 0 0\n";
const MEBIBYTE: usize = 1 << 20;

fn wrong(message: &str) -> Output {
    Output::wrong(format!("{message}\n"))
}

#[test]
fn nothing_is_cut() {
    let folder = Folder::new("cut");
    let blanks = " ".repeat(MEBIBYTE);
    // An image is read to its end, however far away that is.
    let twice = format!("n = 0;{blanks}\nn = 1; @@@@");
    assert_eq!(
        folder.call(&["run"], ROUTINE, &twice).err.lines().next(),
        Some("image:2:1: error: `n` is given twice")
    );
    // The other files have a limit, which is said.
    let words = folder.write("long.words", format!("{TABLE}{blanks}\nand no words"));
    assert_eq!(
        folder.command(&["check", &words]),
        wrong("long.words: error: a file of words has 1 MiB at most")
    );
    let words = folder.write("most.words", format!("{TABLE}{}", &blanks[TABLE.len()..]));
    assert_eq!(folder.command(&["check", &words]).out, "accepted\n");
    // Of a table the length is the library's to judge.
    let table = folder.write("long.tbl", vec![0; 2_000_000]);
    let answer = folder.command(&["check", &table]);
    assert_eq!(answer.out, "refused 1 0\n");
    assert_eq!(answer.err, "long.tbl: error: refused 1: the table has 500000 words; it may have 6 to 7318\n");
    let table = folder.write("short.tbl", [0; 24]);
    let facts = folder.write("facts", vec![0; MEBIBYTE + 4]);
    let answer = folder.command(&["check", &table, "--facts", &facts]);
    assert_eq!(answer, wrong("facts: error: a list of loop facts has 1 MiB at most"));
    // A letter of two bytes at the limit makes no false reason.
    let text = folder.write("long.c", format!("//{}\u{e9}\n{ROUTINE}", &blanks[3..]));
    assert_eq!(folder.command(&["check", &text]), wrong("long.c: error: a text has 1 MiB at most"));
    let table = folder.write("t.tbl", words_of(TABLE));
    let names = folder.write("long.names", format!("{blanks} "));
    let answer = folder.command(&["dis", &table, "--names", &names]);
    assert_eq!(answer, wrong("long.names: error: a names file has 1 MiB at most"));
}

fn words_of(line: &str) -> Vec<u8> {
    let words = line.trim_start_matches("table:").split_whitespace();
    words.flat_map(|word| word.parse::<i32>().expect("a word").to_le_bytes()).collect()
}

#[test]
fn the_greatest_object_is_filled() {
    let folder = Folder::new("filled");
    let cells: Vec<String> = (0..1_000_000u32).map(|cell| (4_000_000_000 + cell).to_string()).collect();
    let image = format!("o = {{ {} }};\np = o; n = 1000000;", cells.join(", "));
    let run = folder.call(&["run", "--short"], ROUTINE, &image);
    let expected = format!("done 1\nvalues: 1 1000000 0\ncells: 0 {}\n", cells.join(" "));
    assert!(run == Output { out: expected, ..Output::default() }, "{}", run.err);
}

/// The command itself with its output in a file.
fn status_with(folder: &Folder, arguments: &[&str], out: &Path) -> (Option<i32>, String) {
    let out = File::options().write(true).create(true).truncate(false).open(out).expect("a file to write to");
    let child = Command::new(env!("CARGO_BIN_EXE_mizzengrape"))
        .args(arguments)
        .current_dir(&folder.0)
        .stdout(out)
        .stderr(Stdio::piped())
        .output()
        .expect("the command runs");
    (child.status.code(), String::from_utf8_lossy(&child.stderr).into_owned())
}

#[test]
fn output_that_cannot_be_written_is_an_error() {
    let full = Path::new("/dev/full");
    if !full.exists() {
        return;
    }
    let folder = Folder::new("full");
    folder.write("r.c", ROUTINE);
    folder.write("t.tbl", words_of(TABLE));
    folder.write("r.img", "p = o;");
    for arguments in [
        &["check", "r.c"][..],
        &["fmt", "r.c"],
        &["dis", "t.tbl"],
        &["asm", "--words", "r.c"],
        &["run", "r.c", "r.img"],
        &["trace", "r.c", "r.img"],
        &["explain", "8"],
        &["--help"],
    ] {
        let (status, message) = status_with(&folder, arguments, full);
        assert_eq!(status, Some(2), "{arguments:?}");
        assert!(message.starts_with("error: standard output: "), "{arguments:?}: {message}");
        assert_eq!(status_with(&folder, arguments, Path::new("/dev/null")), (Some(0), String::new()));
    }
}

#[test]
fn an_output_that_is_closed_is_an_error_where_something_is_printed() {
    if !Path::new("/proc/self/fdinfo/1").exists() {
        return;
    }
    let folder = Folder::new("closed");
    folder.write("r.c", ROUTINE);
    for (arguments, status, said) in [
        ("asm --words r.c", 2, "error: standard output: it is closed\n"),
        ("check r.c", 2, "error: standard output: it is closed\n"),
        ("asm r.c -o r.tbl", 0, ""),
    ] {
        let call = format!("exec \"$0\" {arguments} >&-");
        let output = Command::new("sh")
            .args(["-c", &call, env!("CARGO_BIN_EXE_mizzengrape")])
            .current_dir(&folder.0)
            .output()
            .expect("a shell");
        assert_eq!(output.status.code(), Some(status), "{arguments}");
        assert_eq!(String::from_utf8_lossy(&output.stderr), said, "{arguments}");
    }
}

/// A stream that fails in one way.
struct Failing(ErrorKind);

impl Write for Failing {
    fn write(&mut self, _: &[u8]) -> io::Result<usize> {
        Err(self.0.into())
    }

    fn flush(&mut self) -> io::Result<()> {
        Ok(())
    }
}

#[test]
fn a_reader_may_go_away() {
    let output = Output { out: "refused 1 0\n".to_string(), status: 1, ..Output::default() };
    let printed = |kind: ErrorKind| {
        let mut err = Vec::new();
        let status = output.print(&mut Failing(kind), &mut err);
        (status, String::from_utf8(err).expect("a text"))
    };
    assert_eq!(printed(ErrorKind::BrokenPipe), (1, String::new()));
    assert_eq!(printed(ErrorKind::TimedOut), (2, "error: standard output: timed out\n".to_string()));
    // Diagnostics that are lost are an error too.
    let output = Output { err: "reason\n".to_string(), ..output };
    assert_eq!(output.print(&mut Vec::new(), &mut Failing(ErrorKind::TimedOut)), 2);
}

#[test]
fn no_output_goes_over_the_input() {
    let folder = Folder::new("over");
    let text = folder.write("over.c", ROUTINE);
    let link = folder.path("link");
    #[cfg(unix)]
    std::os::unix::fs::symlink(&text, &link).expect("a link");
    let around = folder.path("../").trim_end_matches('/').to_string()
        + &text[text.rfind("/mizzengrape-").expect("the folder")..];
    let over = "this is the file that is read: nothing is written over it";
    for arguments in [["-o", &text], ["--names", &text], ["--map", &text], ["-o", &link], ["-o", &around]] {
        let answer = folder.command(&["asm", &text, arguments[0], arguments[1]]);
        assert!(
            answer.status == 2 && answer.err.ends_with(&format!(": error: {over}\n")),
            "{arguments:?}: {}",
            answer.err
        );
        assert_eq!(fs::read_to_string(&text).expect("the text"), ROUTINE);
    }
    let [table, other] = ["out.tbl", "other"].map(|name| folder.path(name));
    let answer = folder.command(&["asm", &text, "-o", &table, "--names", &table]);
    assert_eq!(answer, wrong("out.tbl: error: two outputs are this file"));
    assert!(!Path::new(&table).exists());
    let answer = folder.command(&["asm", &text, "-o", &table, "--names", &other, "--map", "/dev/null"]);
    assert_eq!(answer, Output::default());
    assert!(Path::new(&table).exists() && Path::new(&other).exists());
}

#[test]
fn files_that_are_something_else() {
    let folder = Folder::new("else");
    let bytes: Vec<u8> = [0xff; 24].to_vec();
    let answer = folder.command(&["check", "--short", &folder.write("F.TBL", &bytes)]);
    assert_eq!(answer, wrong("F.TBL:1:1: error: this text is not UTF-8; a table's name ends in .tbl"));
    let routine = folder.write("r.c", ROUTINE);
    let image = folder.write("r.img", &bytes);
    let answer = folder.command(&["run", "--short", &routine, &image]);
    assert_eq!(answer, wrong("r.img:1:1: error: this text is not UTF-8"));
    let empty = folder.write("empty.words", "\n");
    for command in ["check", "dis", "explain"] {
        let answer = folder.command(&[command, &empty]);
        assert_eq!(answer, wrong("empty.words: error: no line `table:` stands here"), "{command}");
    }
    // Editors write a byte order mark; columns are as without it.
    let marked = folder.write("marked.c", format!("\u{feff}{ROUTINE}"));
    assert_eq!(folder.command(&["check", &marked]).out, "accepted\n");
    let wrong_text = folder.write("wrong.c", "\u{feff}int x;");
    let answer = folder.command(&["check", "--short", &wrong_text]);
    assert_eq!(
        answer.err,
        "wrong.c:1:1: error: `int` is not part of the subset: the one integer type is unsigned\n"
    );
}

#[test]
fn lost_comments_are_told() {
    let folder = Folder::new("comments");
    let text = folder.write("c.c", "void f(unsigned n)\n{\n    n = 1; // one\n}\n");
    let answer = folder.command(&["dis", "--short", &text]);
    assert_eq!(answer.err, "c.c:3:12: warning: the canonical form has no comments\n");
    assert_eq!((answer.out.as_str(), answer.status), ("void f(\n    unsigned n)\n{\n    n = 1;\n}\n", 0));
}

/// The names of a table are not those of any text: they are listed.
#[test]
fn an_image_for_a_table_is_told_its_names() {
    let folder = Folder::new("names");
    let text = folder.write("r.c", ROUTINE);
    let table = folder.path("r.tbl");
    assert_eq!(folder.command(&["asm", &text]), Output::default());
    let image = folder.write("r.img", "rows = 2;");
    let message = "r.img:1:1: error: `rows` is no object and no variable of the routine that is run: there are o0, p0, n1, n2";
    assert_eq!(folder.command(&["run", "--short", &table, &image]), wrong(message));
}
