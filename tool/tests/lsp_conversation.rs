//! A writer's hour with the language server, held by a file: the second club's routine is opened, looked at, repaired by the quick fix, broken,
//! mended, formatted and closed. The client starts the command itself.

mod support;

use mizzengrape_tool::lsp::json::Json;
use std::fs;
use std::path::{Path, PathBuf};
use support::client::{replaced, Client};

const URI: &str = "file:///club/second_club.c";

fn start() -> Client {
    Client::start(Path::new(env!("CARGO_BIN_EXE_mizzengrape")))
}

fn repository() -> PathBuf {
    Path::new(env!("CARGO_MANIFEST_DIR")).join("..")
}

fn document() -> (&'static str, Json) {
    ("textDocument", Json::object([("uri", URI.into())]))
}

fn position(line: u32, character: u32) -> Json {
    Json::object([("line", line.into()), ("character", character.into())])
}

/// A request of the code actions at a position.
fn actions(client: &mut Client, line: u32) -> Vec<Json> {
    let range = Json::object([("start", position(line, 4)), ("end", position(line, 4))]);
    let context = Json::object([("diagnostics", Json::Array(Vec::new()))]);
    let answer = client.request(
        "textDocument/codeAction",
        Json::object([document(), ("range", range), ("context", context)]),
    );
    answer.get("result").and_then(Json::as_array).expect("a list").to_vec()
}

/// The edits of a code action as changes, the last one first, so that none moves another.
fn changes(action: &Json) -> Vec<Json> {
    let edits =
        action.at(&["edit", "documentChanges"]).and_then(|changes| changes.as_array()?[0].get("edits"));
    let change = |edit: &Json| {
        let member = |name| edit.get(name).expect("an edit").clone();
        Json::object([("range", member("range")), ("text", member("newText"))])
    };
    edits.and_then(Json::as_array).expect("edits").iter().rev().map(change).collect()
}

fn codes(diagnostics: &[Json]) -> Vec<Option<u32>> {
    diagnostics.iter().map(|diagnostic| diagnostic.get("code").and_then(Json::as_u32)).collect()
}

#[test]
fn a_routine_is_opened_repaired_broken_and_mended() {
    let mut client = start();
    client.initialize();
    let text = fs::read_to_string(repository().join("routines/second_club.c")).expect("the routine");
    client.open(URI, &text);
    assert_eq!(codes(&client.diagnostics()), [Some(8)]);
    client.request("textDocument/hover", Json::object([document(), ("position", position(8, 6))]));
    client.request("textDocument/documentSymbol", Json::object([document()]));
    let offered = actions(&mut client, 7);
    assert_eq!(offered.len(), 1);
    client.change(URI, 2, changes(&offered[0]));
    assert_eq!(codes(&client.diagnostics()), []);
    assert_eq!(actions(&mut client, 9), []);
    // A letter too many, which a fix takes out again.
    client.change(URI, 3, vec![replaced(9, 8, 8, "x")]);
    assert_eq!(codes(&client.diagnostics()), [None]);
    let offered = actions(&mut client, 9);
    client.change(URI, 4, changes(&offered[0]));
    assert_eq!(codes(&client.diagnostics()), []);
    // The whole text at once, on one line: formatted, it has its comment still.
    let whole = "void f(array_ptr<unsigned> p : count(n), unsigned n) { dynamic_check(n > 0); n--; } // one boat less\n";
    client.change(URI, 5, vec![Json::object([("text", whole.into())])]);
    assert_eq!(codes(&client.diagnostics()), []);
    let options = Json::object([("tabSize", 4.into()), ("insertSpaces", true.into())]);
    let answer = client.request("textDocument/formatting", Json::object([document(), ("options", options)]));
    let edit = &answer.get("result").and_then(Json::as_array).expect("edits")[0];
    let [range, text] = ["range", "newText"].map(|name| edit.get(name).expect("an edit").clone());
    client.change(URI, 6, vec![Json::object([("range", range), ("text", text)])]);
    assert_eq!(codes(&client.diagnostics()), []);
    client.notify("textDocument/didSave", Json::object([document()]));
    assert_eq!(codes(&client.diagnostics()), []);
    client.request("textDocument/rename", Json::object([document()]));
    client.send_bytes(b"Content-Length: 8\r\n\r\n{\"id\": 7");
    client.receive();
    client.notify("textDocument/didClose", Json::object([document()]));
    assert_eq!(codes(&client.diagnostics()), []);
    assert_eq!(client.end(), 0);
    held("tests/lsp/conversation.txt", &client.transcript.replace(env!("CARGO_PKG_VERSION"), "VERSION"));
}

/// What was said is what the file holds; otherwise it is written beside the test's other files, to be looked at.
fn held(path: &str, said: &str) {
    let file = Path::new(env!("CARGO_MANIFEST_DIR")).join(path);
    let written = Path::new(env!("CARGO_TARGET_TMPDIR")).join("conversation.txt");
    if fs::read_to_string(&file).unwrap_or_default() != said {
        fs::write(&written, said).expect("a file");
        panic!("{path} holds another conversation than {}", written.display());
    }
}

/// A refused routine whose help is a check: the fix is what one would do, and the editor is told so.
#[test]
fn helps_are_offered_first() {
    let mut client = start();
    client.initialize();
    client.open(URI, "void f(array_ptr<unsigned> p : count(n), unsigned n)\n{\n    n = n - 1;\n}\n");
    assert_eq!(codes(&client.diagnostics()), [Some(8)]);
    let offered = actions(&mut client, 2);
    let preferred = |action: &Json| action.get("isPreferred").and_then(Json::as_bool);
    let titles: Vec<&str> = offered.iter().filter_map(|action| action.get("title")?.as_str()).collect();
    assert_eq!(titles[0], "write dynamic_check(n >= 1); before line 3; it stops a run where n < 1");
    assert_eq!(
        (preferred(&offered[0]), offered[1..].iter().any(|action| preferred(action) != Some(false))),
        (Some(true), false)
    );
    for (version, action) in (2..).step_by(2).zip(&offered) {
        client.change(URI, version, changes(action));
        assert_eq!(codes(&client.diagnostics()), [], "{action}");
        let text = "void f(array_ptr<unsigned> p : count(n), unsigned n)\n{\n    n = n - 1;\n}\n";
        client.change(URI, version + 1, vec![Json::object([("text", text.into())])]);
        assert_eq!(codes(&client.diagnostics()), [Some(8)]);
    }
    assert_eq!(actions(&mut client, 1), []);
    assert_eq!(client.end(), 0);
}

/// The end without `shutdown` is an error, by `exit` and by the end of the stream alike.
#[test]
fn the_exit_status_is_the_protocols() {
    use std::process::{Command, Stdio};
    let status = |input: &str| {
        let mut server = Command::new(env!("CARGO_BIN_EXE_mizzengrape"));
        let mut server = server
            .args(["lsp", "--stdio"])
            .stdin(Stdio::piped())
            .stdout(Stdio::null())
            .spawn()
            .expect("a server");
        std::io::Write::write_all(&mut server.stdin.take().expect("a pipe"), input.as_bytes())
            .expect("the server reads");
        server.wait().expect("the server ends").code()
    };
    let message = |body: &str| format!("Content-Length: {}\r\n\r\n{body}", body.len());
    let exit = message(r#"{"jsonrpc":"2.0","method":"exit"}"#);
    let ask =
        |method: &str| message(&format!(r#"{{"jsonrpc":"2.0","id":1,"method":"{method}","params":{{}}}}"#));
    assert_eq!(status(""), Some(1));
    assert_eq!(status(&exit), Some(1));
    assert_eq!(status(&[ask("initialize"), ask("shutdown")].concat()), Some(0));
    assert_eq!(status(&[ask("initialize"), ask("shutdown"), exit.clone()].concat()), Some(0));
    assert_eq!(status(&[ask("shutdown"), exit].concat()), Some(1));
}
