//! A client of the language server: starts the command and speaks the protocol with it.

use mizzengrape_tool::lsp::json::Json;
use mizzengrape_tool::lsp::transport::{send, Received, Receiver};
use std::io::{BufReader, Write};
use std::path::Path;
use std::process::{Child, ChildStdin, Command, Stdio};
use std::sync::mpsc;
use std::time::Duration;

pub struct Client {
    process: Child,
    input: ChildStdin,
    messages: mpsc::Receiver<Json>,
    /// Every message: `-->` those of the client, `<--` those of the server.
    pub transcript: String,
    requests: u32,
}

/// A server that is silent for so long is stuck.
const PATIENCE: Duration = Duration::from_secs(60);

impl Client {
    pub fn start(command: &Path) -> Client {
        let mut process = Command::new(command)
            .arg("lsp")
            .stdin(Stdio::piped())
            .stdout(Stdio::piped())
            .spawn()
            .unwrap_or_else(|error| panic!("{}: {error}", command.display()));
        let input = process.stdin.take().expect("a pipe");
        let output = BufReader::new(process.stdout.take().expect("a pipe"));
        let (sender, messages) = mpsc::channel();
        std::thread::spawn(move || {
            let mut receiver = Receiver::new(output);
            while let Ok(Some(Received::Message(message))) = receiver.receive() {
                if sender.send(message).is_err() {
                    return;
                }
            }
        });
        Client { process, input, messages, transcript: String::new(), requests: 0 }
    }

    pub fn send(&mut self, message: &Json) {
        self.transcript.push_str(&format!("--> {}\n", in_lines(message, "    ")));
        send(&mut self.input, message).expect("the server reads");
    }

    /// Bytes as they are, which need not be a message.
    pub fn send_bytes(&mut self, bytes: &[u8]) {
        self.transcript.push_str(&format!("--> {}\n", String::from_utf8_lossy(bytes).escape_debug()));
        self.input.write_all(bytes).and_then(|()| self.input.flush()).expect("the server reads");
    }

    pub fn receive(&mut self) -> Json {
        let message = self.messages.recv_timeout(PATIENCE).expect("the server answers");
        self.transcript.push_str(&format!("<-- {}\n", in_lines(&message, "    ")));
        message
    }

    pub fn notify(&mut self, method: &str, params: Json) {
        let message = [("jsonrpc", "2.0".into()), ("method", method.into()), ("params", params)];
        self.send(&Json::object(message));
    }

    /// A request and its answer, which comes next.
    pub fn request(&mut self, method: &str, params: Json) -> Json {
        self.requests += 1;
        let id = Json::from(self.requests);
        let message =
            [("jsonrpc", "2.0".into()), ("id", id.clone()), ("method", method.into()), ("params", params)];
        self.send(&Json::object(message));
        let answer = self.receive();
        assert_eq!(answer.get("id"), Some(&id), "{answer}");
        answer
    }

    /// A client that can do everything.
    pub fn initialize(&mut self) {
        let capabilities = r#"{"capabilities":{"textDocument":{"publishDiagnostics":{"relatedInformation":true},
            "hover":{"contentFormat":["plaintext"]},"documentSymbol":{"hierarchicalDocumentSymbolSupport":true},
            "codeAction":{"codeActionLiteralSupport":{}}},"workspace":{"workspaceEdit":{"documentChanges":true}}}}"#;
        self.request("initialize", Json::read(capabilities).expect("JSON"));
        self.notify("initialized", Json::object([]));
    }

    pub fn open(&mut self, uri: &str, text: &str) {
        let document =
            [("uri", uri.into()), ("languageId", "c".into()), ("version", 1.into()), ("text", text.into())];
        self.notify("textDocument/didOpen", Json::object([("textDocument", Json::object(document))]));
    }

    /// Changes as the protocol writes them, which make a version.
    pub fn change(&mut self, uri: &str, version: u32, changes: Vec<Json>) {
        let document = Json::object([("uri", uri.into()), ("version", version.into())]);
        let params = [("textDocument", document), ("contentChanges", Json::Array(changes))];
        self.notify("textDocument/didChange", Json::object(params));
    }

    /// What the server tells of a document next.
    pub fn diagnostics(&mut self) -> Vec<Json> {
        let message = self.receive();
        assert_eq!(
            message.get("method").and_then(Json::as_str),
            Some("textDocument/publishDiagnostics"),
            "{message}"
        );
        let listed = message.at(&["params", "diagnostics"]).and_then(Json::as_array);
        listed.expect("a list").to_vec()
    }

    /// Ends the server as the protocol asks for; its exit status.
    pub fn end(&mut self) -> i32 {
        self.request("shutdown", Json::Null);
        self.notify("exit", Json::Null);
        self.process.wait().expect("the server ends").code().expect("a status")
    }
}

impl Drop for Client {
    fn drop(&mut self) {
        // A test that fails leaves no server behind.
        let _ = self.process.kill();
        let _ = self.process.wait();
    }
}

/// A change of the text between two positions on one line.
pub fn replaced(line: u32, from: u32, to: u32, text: &str) -> Json {
    let position = |character: u32| Json::object([("line", line.into()), ("character", character.into())]);
    let range = Json::object([("start", position(from)), ("end", position(to))]);
    Json::object([("range", range), ("text", text.into())])
}

/// A value as people read it: what is longer than a line is laid out member by member.
fn in_lines(value: &Json, indentation: &str) -> String {
    const LINE: usize = 120;
    let short = value.to_string();
    let inside = format!("{indentation}    ");
    let listed = |open: &str, lines: Vec<String>, close: &str| {
        format!(
            "{open}\n{}\n{indentation}{close}",
            lines.iter().map(|line| format!("{inside}{line}")).collect::<Vec<_>>().join(",\n")
        )
    };
    match value {
        _ if short.len() + indentation.len() <= LINE => short,
        Json::Array(values) => {
            listed("[", values.iter().map(|value| in_lines(value, &inside)).collect(), "]")
        }
        Json::Object(members) => {
            let member = |(name, value): &(String, Json)| {
                format!("{}:{}", Json::from(name.as_str()), in_lines(value, &inside))
            };
            listed("{", members.iter().map(member).collect(), "}")
        }
        _ => short,
    }
}
