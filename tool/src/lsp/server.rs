//! The server: what each message asks for. Changes come first: a request that is overtaken by one is answered with the new text.

use super::actions::{actions, resolved, Known, KINDS};
use super::document::Document;
use super::findings::findings;
use super::formatting::formatting;
use super::hover::hover;
use super::json::Json;
use super::protocol::*;
use super::symbols::symbols;
use super::text::Text;
use super::transport::{send, Received};
use super::version::Version;
use std::collections::{HashMap, VecDeque};
use std::io::{self, Write};
use std::panic::{catch_unwind, AssertUnwindSafe};

/// How far a client has come.
#[derive(PartialEq, Eq)]
enum Stage {
    Started,
    Initialized,
    /// It has asked for the end.
    ShutDown,
}

pub struct Server<W> {
    output: W,
    stage: Stage,
    client: Client,
    documents: HashMap<String, Open>,
    /// Requests that are not answered yet.
    requests: VecDeque<Request>,
    /// Documents whose findings are to be told, in the order of their changes.
    changed: VecDeque<String>,
}

/// A document and the version that the client gave it.
struct Open {
    document: Document,
    version: Version,
}

struct Request {
    id: Json,
    method: String,
    params: Json,
}

/// Whether the server goes on.
pub enum Next {
    GoOn,
    Exit,
}

impl<W: Write> Server<W> {
    pub fn new(output: W) -> Server<W> {
        Server {
            output,
            stage: Stage::Started,
            client: Client::default(),
            documents: HashMap::new(),
            requests: VecDeque::new(),
            changed: VecDeque::new(),
        }
    }

    /// The exit status that the protocol asks for: 0 where the client has asked for the end before.
    pub fn status(&self) -> u8 {
        u8::from(self.stage != Stage::ShutDown)
    }

    #[cfg(test)]
    pub fn output(&self) -> &W {
        &self.output
    }

    /// A message as it arrives. A request waits until nothing more arrives; all but changes wait until the requests are answered.
    pub fn take(&mut self, received: Received) -> io::Result<Next> {
        let message = match received {
            Received::Damaged(what) => Err((Json::Null, Failure::new(PARSE_ERROR, what))),
            Received::Message(json) => Message::read(&json),
        };
        match message {
            Err((id, failure)) => self.answer(id, Err(failure))?,
            Ok(Message::Response) => {}
            Ok(Message::Request { id, method, params }) => {
                self.requests.push_back(Request { id, method, params });
            }
            Ok(Message::Notification { method, params }) => return self.notified(&method, &params),
        }
        Ok(Next::GoOn)
    }

    /// Does one thing of what waits; false where nothing does.
    pub fn work(&mut self) -> io::Result<bool> {
        if let Some(uri) = self.changed.pop_front() {
            self.publish(&uri)?;
        } else if let Some(Request { id, method, params }) = self.requests.pop_front() {
            let answer = guarded(|| self.requested(&method, &params)).and_then(|answer| answer);
            self.answer(id, answer)?;
        } else {
            return Ok(false);
        }
        Ok(true)
    }

    fn answer(&mut self, id: Json, answer: Answer) -> io::Result<()> {
        send(&mut self.output, &response(id, answer))
    }

    fn notified(&mut self, method: &str, params: &Json) -> io::Result<Next> {
        match method {
            "$/cancelRequest" => self.cancel(params)?,
            "textDocument/didChange" if self.stage == Stage::Initialized => self.changed(params)?,
            _ => {
                while self.work()? {}
                match method {
                    "exit" => return Ok(Next::Exit),
                    _ if self.stage != Stage::Initialized => {}
                    "textDocument/didOpen" => self.opened(params)?,
                    "textDocument/didClose" => self.closed(params)?,
                    "textDocument/didSave" => self.saved(params),
                    _ => {}
                }
            }
        }
        Ok(Next::GoOn)
    }

    fn cancel(&mut self, params: &Json) -> io::Result<()> {
        let Some(at) = self.requests.iter().position(|request| Some(&request.id) == params.get("id")) else {
            return Ok(());
        };
        let request = self.requests.remove(at).expect("a request at its position");
        self.answer(request.id, Err(Failure::new(REQUEST_CANCELLED, "cancelled")))
    }

    fn opened(&mut self, params: &Json) -> io::Result<()> {
        let member = |name| params.at(&["textDocument", name]);
        let (Some(uri), Some(text)) =
            (member("uri").and_then(Json::as_str), member("text").and_then(Json::as_str))
        else {
            return self.log("textDocument/didOpen: uri or text is missing");
        };
        let document = Document::new(name_of(uri), text.to_string());
        self.documents.insert(uri.to_string(), Open { document, version: Version::read(params) });
        self.note_change(uri);
        Ok(())
    }

    fn changed(&mut self, params: &Json) -> io::Result<()> {
        let uri = uri_of(params);
        let Some((uri, open)) = uri.and_then(|uri| Some((uri, self.documents.get_mut(uri)?))) else {
            return self.log("textDocument/didChange: no such document is open");
        };
        let Some(text) =
            params.get("contentChanges").and_then(|changes| edited(&open.document.text, changes))
        else {
            return self.log("textDocument/didChange: a change is damaged; the text is as it was");
        };
        open.version = Version::read(params);
        if let Some(text) = text {
            open.document.replace(text);
        }
        self.note_change(uri);
        Ok(())
    }

    fn saved(&mut self, params: &Json) {
        if let Some(uri) = uri_of(params).filter(|uri| self.documents.contains_key(*uri)) {
            self.note_change(uri);
        }
    }

    fn closed(&mut self, params: &Json) -> io::Result<()> {
        let Some(uri) = uri_of(params).filter(|uri| self.documents.contains_key(*uri)) else {
            return self.log("textDocument/didClose: no such document is open");
        };
        self.documents.remove(uri);
        let nothing = Json::object([("uri", uri.into()), ("diagnostics", Json::Array(Vec::new()))]);
        send(&mut self.output, &notification("textDocument/publishDiagnostics", nothing))
    }

    fn note_change(&mut self, uri: &str) {
        if !self.changed.iter().any(|changed| changed == uri) {
            self.changed.push_back(uri.to_string());
        }
    }

    fn publish(&mut self, uri: &str) -> io::Result<()> {
        let Some(Open { document, version }) = self.documents.get(uri) else { return Ok(()) };
        let found = match guarded(|| findings(document)) {
            Ok(found) => found,
            Err(failure) => return self.log(&failure.message),
        };
        let diagnostics = Json::array(found.iter().map(|finding| finding.json(uri, &self.client)));
        let params = version.named(Json::object([("uri", uri.into())])).with("diagnostics", diagnostics);
        send(&mut self.output, &notification("textDocument/publishDiagnostics", params))
    }

    /// A notification that cannot be followed has no answer: it is told to the client's log.
    fn log(&mut self, what: &str) -> io::Result<()> {
        const ERROR: u32 = 1;
        let params = Json::object([("type", ERROR.into()), ("message", what.into())]);
        send(&mut self.output, &notification("window/logMessage", params))
    }

    fn requested(&mut self, method: &str, params: &Json) -> Answer {
        match (&self.stage, method) {
            (Stage::Started, "initialize") => {
                self.client = Client::read(params);
                self.stage = Stage::Initialized;
                Ok(initialized())
            }
            (Stage::Started, _) => Err(Failure::new(NOT_INITIALIZED, "initialize comes first")),
            (Stage::ShutDown, _) => Err(Failure::new(INVALID_REQUEST, "the server is shut down")),
            (Stage::Initialized, "initialize") => Err(Failure::new(INVALID_REQUEST, "initialize comes once")),
            (Stage::Initialized, "shutdown") => {
                self.stage = Stage::ShutDown;
                Ok(Json::Null)
            }
            (Stage::Initialized, method) => self.asked(method, params),
        }
    }

    /// What is asked of a document.
    fn asked(&self, method: &str, params: &Json) -> Answer {
        let open = || {
            // An action that was offered names its document in its data.
            let uri = uri_of(params).or_else(|| params.at(&["data", "uri"])?.as_str());
            let uri = uri.ok_or_else(|| invalid_params("textDocument.uri"))?;
            let open =
                self.documents.get(uri).ok_or_else(|| invalid_params("an open document of this uri"))?;
            Ok((uri, open))
        };
        match method {
            "textDocument/hover" => {
                let at = read_position(params.get("position")).ok_or_else(|| invalid_params("position"))?;
                Ok(hover(&open()?.1.document, at, &self.client))
            }
            "textDocument/codeAction" => {
                let range = read_range(params.get("range")).ok_or_else(|| invalid_params("range"))?;
                let (uri, Open { document, version }) = open()?;
                let known = Known { uri, version, client: &self.client };
                let only = params.at(&["context", "only"]).and_then(Json::as_array);
                Ok(actions(document, &known, &range, only))
            }
            "codeAction/resolve" => {
                let (uri, Open { document, version }) = open()?;
                let known = Known { uri, version, client: &self.client };
                let nothing = "no loop fact makes an access safe that is not, or repairs anything";
                resolved(params, document, &known).ok_or_else(|| Failure::new(REQUEST_FAILED, nothing))
            }
            "textDocument/formatting" => formatting(&open()?.1.document),
            "textDocument/documentSymbol" => {
                let (uri, open) = open()?;
                Ok(symbols(&open.document, uri, &self.client))
            }
            _ => Err(Failure::new(METHOD_NOT_FOUND, format!("no method {method}"))),
        }
    }
}

fn initialized() -> Json {
    const INCREMENTAL: u32 = 2;
    let sync =
        Json::object([("openClose", true.into()), ("change", INCREMENTAL.into()), ("save", true.into())]);
    let kinds = Json::array(KINDS.map(Json::from));
    let actions = Json::object([("codeActionKinds", kinds), ("resolveProvider", true.into())]);
    let capabilities = Json::object([
        ("positionEncoding", "utf-16".into()),
        ("textDocumentSync", sync),
        ("hoverProvider", true.into()),
        ("codeActionProvider", actions),
        ("documentFormattingProvider", true.into()),
        ("documentSymbolProvider", true.into()),
    ]);
    let server =
        Json::object([("name", "mizzengrape".into()), ("version", env!("CARGO_PKG_VERSION").into())]);
    Json::object([("capabilities", capabilities), ("serverInfo", server)])
}

/// A fault of this program at one text is told, and ends nothing.
pub fn guarded<T>(work: impl FnOnce() -> T) -> Result<T, Failure> {
    const FAULT: &str = "this is a fault of mizzengrape; please report this text";
    catch_unwind(AssertUnwindSafe(work)).map_err(|_| Failure::new(INTERNAL_ERROR, FAULT))
}

fn uri_of(params: &Json) -> Option<&str> {
    params.at(&["textDocument", "uri"])?.as_str()
}

/// The last part of a uri, as messages name the file.
fn name_of(uri: &str) -> String {
    uri.rsplit('/').next().unwrap_or(uri).to_string()
}

/// A text with changes made one after the other, all or none; none inside where there is no change.
fn edited(text: &Text, changes: &Json) -> Option<Option<Text>> {
    let mut edited: Option<Text> = None;
    for change in changes.as_array()? {
        let new = change.get("text")?.as_str()?;
        edited = Some(match change.get("range") {
            None | Some(Json::Null) => Text::new(new.to_string()),
            range => edited.as_ref().unwrap_or(text).replaced(read_range(range)?, new),
        });
    }
    Some(edited)
}
