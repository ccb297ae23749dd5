//! The server message by message, without a stream: what waits for what, and what is answered.

use super::json::Json;
use super::server::{guarded, Next, Server};
use super::transport::{Received, Receiver};

const ALL: &str = r#"{"capabilities":{"textDocument":{"publishDiagnostics":{"relatedInformation":true},
    "hover":{"contentFormat":["markdown","plaintext"]},"documentSymbol":{"hierarchicalDocumentSymbolSupport":true},
    "codeAction":{"codeActionLiteralSupport":{},"resolveSupport":{"properties":["edit"]}}},"workspace":{"workspaceEdit":{"documentChanges":true}}}}"#;
const REFUSED: &str =
    "void f(array_ptr<unsigned> p : count(n), unsigned n, unsigned x)\n{\n    n = n - 1;\n    x = 0;\n}\n";

struct Conversation {
    server: Server<Vec<u8>>,
    read: usize,
}

impl Conversation {
    fn new() -> Conversation {
        Conversation { server: Server::new(Vec::new()), read: 0 }
    }

    fn initialized(params: &str) -> Conversation {
        let mut conversation = Conversation::new();
        conversation.ask(0, "initialize", params);
        conversation.answers();
        conversation
    }

    fn send(&mut self, message: &str) {
        let message = Json::read(message).unwrap_or_else(|damage| panic!("{damage}: {message}"));
        assert!(matches!(self.server.take(Received::Message(message)), Ok(Next::GoOn)));
    }

    fn ask(&mut self, id: u32, method: &str, params: &str) {
        self.send(&format!(r#"{{"jsonrpc":"2.0","id":{id},"method":"{method}","params":{params}}}"#));
    }

    fn tell(&mut self, method: &str, params: &str) {
        self.send(&format!(r#"{{"jsonrpc":"2.0","method":"{method}","params":{params}}}"#));
    }

    fn open(&mut self, text: &str) {
        let text = Json::from(text);
        self.tell(
            "textDocument/didOpen",
            &format!(r#"{{"textDocument":{{"uri":"u","version":1,"text":{text}}}}}"#),
        );
    }

    fn change(&mut self, changes: &str) {
        let document = r#""textDocument":{"uri":"u","version":2}"#;
        self.tell("textDocument/didChange", &format!(r#"{{{document},"contentChanges":{changes}}}"#));
    }

    fn hover(&mut self, id: u32, line: u32) {
        let at = format!(r#"{{"textDocument":{{"uri":"u"}},"position":{{"line":{line},"character":5}}}}"#);
        self.ask(id, "textDocument/hover", &at);
    }

    /// What the server has sent since, with all work done.
    fn answers(&mut self) -> Vec<Json> {
        while self.server.work().expect("a vector grows") {}
        let bytes = &self.server.output()[self.read..];
        self.read += bytes.len();
        let mut receiver = Receiver::new(bytes);
        let messages = std::iter::from_fn(|| receiver.receive().expect("a vector"));
        messages
            .map(|received| match received {
                Received::Message(message) => message,
                Received::Damaged(what) => panic!("{what}"),
            })
            .collect()
    }

    /// The only answer.
    fn answer(&mut self) -> Json {
        let answers = self.answers();
        assert_eq!(answers.len(), 1, "{answers:?}");
        answers[0].clone()
    }
}

#[track_caller]
fn is_error(answer: &Json, id: &str, code: &str) {
    assert_eq!(answer.get("id").map(Json::to_string).as_deref(), Some(id), "{answer}");
    assert_eq!(answer.at(&["error", "code"]).map(Json::to_string).as_deref(), Some(code), "{answer}");
}

fn shown(hover: &Json) -> &str {
    hover.at(&["result", "contents", "value"]).and_then(Json::as_str).unwrap_or("nothing")
}

#[test]
fn a_request_that_is_overtaken_is_answered_with_the_new_text() {
    let mut conversation = Conversation::initialized(ALL);
    conversation.open(REFUSED);
    conversation.answers();
    conversation.hover(1, 2);
    conversation.change(r#"[{"range":{"start":{"line":2,"character":0},"end":{"line":2,"character":0}},"text":"    dynamic_check(n > 3);\n"}]"#);
    conversation.hover(2, 3);
    let answers = conversation.answers();
    // One list of diagnostics for all changes, then the answers, both of the new text.
    assert_eq!(answers.len(), 3, "{answers:?}");
    assert_eq!(answers[0].at(&["params", "diagnostics"]), Some(&Json::Array(Vec::new())));
    assert!(shown(&answers[1]).contains("before dynamic_check(n > 3)"), "{}", answers[1]);
    assert!(shown(&answers[2]).contains("known: n >= 4"), "{}", answers[2]);
}

#[test]
fn changes_that_come_together_are_checked_once() {
    let mut conversation = Conversation::initialized(ALL);
    conversation.open(REFUSED);
    (0..5).for_each(|_| conversation.change(r#"[{"text":"void f(unsigned n) { n = 1; }"}]"#));
    assert_eq!(conversation.answers().len(), 1);
}

/// What closes a document waits for the requests before it.
#[test]
fn requests_are_answered_before_a_document_is_closed() {
    let mut conversation = Conversation::initialized(ALL);
    conversation.open(REFUSED);
    conversation.hover(1, 2);
    conversation.tell("textDocument/didClose", r#"{"textDocument":{"uri":"u"}}"#);
    conversation.hover(2, 2);
    let answers = conversation.answers();
    assert_eq!(answers.len(), 4, "{answers:?}");
    assert!(shown(&answers[1]).contains("before n = n - 1"), "{}", answers[1]);
    assert_eq!(answers[2].at(&["params", "diagnostics"]), Some(&Json::Array(Vec::new())));
    is_error(&answers[3], "2", "-32602");
}

#[test]
fn a_request_can_be_cancelled() {
    let mut conversation = Conversation::initialized(ALL);
    conversation.open(REFUSED);
    conversation.answers();
    conversation.hover(7, 2);
    conversation.tell("$/cancelRequest", r#"{"id":7}"#);
    conversation.tell("$/cancelRequest", r#"{"id":8}"#);
    is_error(&conversation.answer(), "7", "-32800");
}

#[test]
fn stages_are_kept() {
    let mut conversation = Conversation::new();
    conversation.hover(1, 2);
    is_error(&conversation.answer(), "1", "-32002");
    // Before it is initialized the server follows no notification, and tells none.
    conversation.open(REFUSED);
    assert_eq!(conversation.answers(), []);
    conversation.ask(2, "initialize", "{}");
    conversation.answers();
    conversation.ask(3, "initialize", "{}");
    is_error(&conversation.answer(), "3", "-32600");
    conversation.ask(4, "textDocument/unknown", "null");
    is_error(&conversation.answer(), "4", "-32601");
    conversation.tell("textDocument/unknown", "null");
    conversation.send(r#"{"jsonrpc":"2.0","id":9,"result":null}"#);
    assert_eq!(conversation.answers(), []);
    conversation.ask(5, "shutdown", "null");
    assert_eq!(conversation.answer().get("result"), Some(&Json::Null));
    conversation.hover(6, 2);
    is_error(&conversation.answer(), "6", "-32600");
    assert_eq!(conversation.server.status(), 0);
}

#[test]
fn what_is_no_request_is_an_error() {
    let mut conversation = Conversation::initialized(ALL);
    for (message, id) in [
        ("7", "null"),
        ("[]", "null"),
        ("{}", "null"),
        (r#"{"id":"a"}"#, "\"a\""),
        (r#"{"id":1,"method":2}"#, "1"),
        (r#"{"id":null,"method":"shutdown"}"#, "null"),
        (r#"{"id":[1],"method":"shutdown"}"#, "null"),
    ] {
        conversation.send(message);
        is_error(&conversation.answer(), id, "-32600");
    }
    let damaged = Received::Damaged("no JSON".to_string());
    assert!(matches!(conversation.server.take(damaged), Ok(Next::GoOn)));
    is_error(&conversation.answer(), "null", "-32700");
    // An id goes back exactly as it came.
    conversation.send(r#"{"id":123456789012345678901.50,"method":"unknown"}"#);
    is_error(&conversation.answer(), "123456789012345678901.50", "-32601");
}

#[test]
fn a_fault_is_an_answer() {
    assert_eq!(guarded(|| 7).expect("no fault"), 7);
    let fault = guarded(|| -> u32 { panic!("a fault that is made for this test") });
    assert_eq!(fault.map_err(|failure| failure.code).expect_err("a fault"), -32603);
}

/// A damaged change leaves the text as it was and is told to the log.
#[test]
fn damaged_changes_are_told() {
    let mut conversation = Conversation::initialized(ALL);
    conversation.open(REFUSED);
    conversation.answers();
    for changes in [
        "null",
        "[{}]",
        "[{\"text\":7}]",
        r#"[{"text":"x"},{"range":{"start":{"line":-1,"character":0}},"text":"y"}]"#,
    ] {
        conversation.change(changes);
        assert_eq!(
            conversation.answer().get("method").and_then(Json::as_str),
            Some("window/logMessage"),
            "{changes}"
        );
    }
    conversation.hover(1, 2);
    assert!(shown(&conversation.answer()).contains("before n = n - 1"));
}

#[test]
fn a_refusal_has_its_page() {
    let mut conversation = Conversation::initialized(ALL);
    conversation.open(REFUSED);
    conversation.answers();
    conversation.hover(1, 2);
    let hover = conversation.answer();
    assert!(
        shown(&hover)
            .starts_with("```text\nu:3:5: before n = n - 1\ndeclared: p : count(n)\nknown: nothing\n```\n"),
        "{hover}"
    );
    assert!(shown(&hover).contains("\n---\n\nRefusal 8: declared bounds are not shown\n"), "{hover}");
    conversation.hover(2, 3);
    assert_eq!(
        shown(&conversation.answer()),
        "```text\nrefused 8 0 0: the check ended before this statement\n```\n"
    );
    conversation.hover(3, 1);
    assert_eq!(conversation.answer().get("result"), Some(&Json::Null));
}

/// An access that the library reports stops no run; of another one it is said what is not known.
#[test]
fn an_access_says_whether_it_can_stop() {
    let mut conversation = Conversation::initialized("{}");
    let head = "void f(array_ptr<unsigned> p : count(n), unsigned n, unsigned i)\n{\n    dynamic_check(p != NULL);\n";
    conversation.open(&format!("{head}    dynamic_check(i < n);\n    n = p[i]; i = p[i + 1];\n}}\n"));
    conversation.answers();
    conversation.change(
        r#"[{"range":{"start":{"line":4,"character":4},"end":{"line":4,"character":5}},"text":"i"}]"#,
    );
    conversation.answers();
    conversation.hover(1, 4);
    let hover = conversation.answer();
    assert!(shown(&hover).ends_with("\nsafe: i = p[i]\n"), "{hover}");
    let second = r#"{"textDocument":{"uri":"u"},"position":{"line":4,"character":16}}"#;
    conversation.ask(2, "textDocument/hover", second);
    let hover = conversation.answer();
    assert!(shown(&hover).contains("\nmay stop: i = p[i + 1]: "), "{hover}");
}

/// A client that says nothing of itself gets plain forms.
#[test]
fn simple_clients_are_served() {
    let mut conversation = Conversation::initialized("{}");
    conversation.open(REFUSED);
    let diagnostics = conversation.answer().at(&["params", "diagnostics"]).cloned().expect("a list");
    let first = &diagnostics.as_array().expect("a list")[0];
    assert_eq!(first.get("relatedInformation"), None);
    let message = first.get("message").and_then(Json::as_str).expect("a message");
    assert!(message.contains("\nnote: declared here: p : count(n)\n"), "{message}");
    conversation.ask(1, "textDocument/documentSymbol", r#"{"textDocument":{"uri":"u"}}"#);
    let symbols = conversation.answer().get("result").cloned().expect("symbols");
    let containers = symbols
        .as_array()
        .expect("a list")
        .iter()
        .map(|symbol| symbol.get("containerName").and_then(Json::as_str));
    assert_eq!(containers.collect::<Vec<_>>(), [None, Some("f"), Some("f"), Some("f")]);
    let range = r#"{"start":{"line":2,"character":0},"end":{"line":2,"character":0}}"#;
    conversation.ask(
        2,
        "textDocument/codeAction",
        &format!(r#"{{"textDocument":{{"uri":"u"}},"range":{range}}}"#),
    );
    assert_eq!(conversation.answer().get("result"), Some(&Json::Array(Vec::new())));
}

#[test]
fn other_kinds_of_actions_are_not_offered() {
    let mut conversation = Conversation::initialized(ALL);
    conversation.open(REFUSED);
    conversation.answers();
    let range = r#"{"start":{"line":2,"character":0},"end":{"line":2,"character":0}}"#;
    for (only, offered) in [
        ("[]", false),
        (r#"["refactor"]"#, false),
        (r#"["source","quickfix"]"#, true),
        (r#"["quick"]"#, false),
        (r#"[""]"#, true),
        ("null", true),
    ] {
        let context = format!(r#"{{"diagnostics":[],"only":{only}}}"#);
        let params = format!(r#"{{"textDocument":{{"uri":"u"}},"range":{range},"context":{context}}}"#);
        conversation.ask(1, "textDocument/codeAction", &params);
        let answer = conversation.answer();
        let count = answer.get("result").and_then(Json::as_array).map_or(0, <[Json]>::len);
        assert_eq!(count > 0, offered, "{only}: {answer}");
    }
}

/// All errors of a text are told, and what is plain is repaired: a name that is one letter off, a semicolon.
#[test]
fn errors_of_a_text_have_fixes() {
    let mut conversation = Conversation::initialized(ALL);
    conversation.open(
        "void f(unsigned boats)\n{\n    boats = boast + 1;\n    boats = 1\n    for (; boats < 9; boats++) {\n    }\n}\n",
    );
    let found = conversation
        .answer()
        .at(&["params", "diagnostics"])
        .and_then(Json::as_array)
        .expect("a list")
        .to_vec();
    let messages = found.iter().map(|one| one.get("message").and_then(Json::as_str).expect("a message"));
    let due = [
        "`boast` is not declared: did you mean `boats`?",
        "expected `;`, found `for`",
        "`for` is not part of the subset: write while (boats < 9) { boats++; }",
    ];
    assert_eq!(messages.collect::<Vec<_>>(), due);
    let lines = r"while (boats < 9) {\n        boats++;\n    }";
    for (line, title, text) in
        [(2, "write `boats`", "boats"), (3, "write `;`", ";"), (4, "write it as a while", lines)]
    {
        let range =
            format!(r#"{{"start":{{"line":{line},"character":0}},"end":{{"line":{line},"character":0}}}}"#);
        conversation.ask(
            1,
            "textDocument/codeAction",
            &format!(r#"{{"textDocument":{{"uri":"u"}},"range":{range}}}"#),
        );
        let answer = conversation.answer();
        let offered = answer.get("result").and_then(Json::as_array).expect("a list");
        assert_eq!(offered.len(), 1, "{answer}");
        assert_eq!(offered[0].get("title").and_then(Json::as_str), Some(title));
        assert_eq!(offered[0].get("diagnostics").and_then(Json::as_array), Some(&found[line - 2..line - 1]));
        assert!(answer.to_string().contains(&format!(r#""newText":"{text}""#)), "{answer}");
    }
}

/// Loop facts are offered on a loop's line and made when they are chosen, for the text as it is then.
#[test]
fn loop_facts_are_written() {
    let mut conversation = Conversation::initialized(ALL);
    let routine = concat!(env!("CARGO_MANIFEST_DIR"), "/../routines/elapsed_times.c");
    let text = std::fs::read_to_string(routine).expect("the routine");
    let bare = text.replace(" where i <= rows", "");
    assert!(bare != text);
    conversation.open(&bare);
    conversation.answers();
    let line = bare.lines().position(|line| line.contains("while")).expect("a loop");
    let offered = |conversation: &mut Conversation, line: usize| {
        let at = format!(r#"{{"line":{line},"character":0}}"#);
        let range = format!(r#"{{"start":{at},"end":{at}}}"#);
        let context = r#"{"diagnostics":[],"only":["refactor"]}"#;
        let params = format!(r#"{{"textDocument":{{"uri":"u"}},"range":{range},"context":{context}}}"#);
        conversation.ask(1, "textDocument/codeAction", &params);
        conversation.answer().get("result").and_then(Json::as_array).expect("a list").to_vec()
    };
    assert_eq!(offered(&mut conversation, line - 1), []);
    let action = offered(&mut conversation, line)[0].clone();
    assert_eq!(action.get("edit"), None);
    conversation.ask(2, "codeAction/resolve", &action.to_string());
    let resolved = conversation.answer();
    let changes = resolved.at(&["result", "edit", "documentChanges"]).and_then(Json::as_array);
    let written = changes.and_then(|changes| changes[0].get("edits")).expect("edits").to_string();
    assert!(written.contains("where i <= rows"), "{resolved}");
    conversation.change(r#"[{"text":"void f(unsigned n) { n = 1; }"}]"#);
    conversation.answers();
    conversation.ask(3, "codeAction/resolve", &action.to_string());
    is_error(&conversation.answer(), "3", "-32803");
}

/// The outline of a text that does not read just now is the last one.
#[test]
fn an_outline_stays_while_one_writes() {
    let mut conversation = Conversation::initialized(ALL);
    conversation.open(REFUSED);
    let symbols = |conversation: &mut Conversation| {
        conversation.answers();
        conversation.ask(1, "textDocument/documentSymbol", r#"{"textDocument":{"uri":"u"}}"#);
        conversation.answer().get("result").cloned().expect("symbols")
    };
    let whole = symbols(&mut conversation);
    conversation.change(
        r#"[{"range":{"start":{"line":3,"character":4},"end":{"line":3,"character":10}},"text":"x ="}]"#,
    );
    assert_eq!(symbols(&mut conversation), whole);
    conversation.change(r#"[{"text":"void f"}]"#);
    let clamped = symbols(&mut conversation);
    assert!(clamped.to_string().contains(r#""name":"f","#), "{clamped}");
}
