//! The protocol's forms in JSON: positions, ranges, requests, answers, what a client can do.

use super::json::Json;
use super::text::Position;
use std::ops::Range;

/// What is wrong with a request, by the protocol's numbers.
#[derive(Debug)]
pub struct Failure {
    pub code: i32,
    pub message: String,
}

pub const PARSE_ERROR: i32 = -32700;
pub const INVALID_REQUEST: i32 = -32600;
pub const METHOD_NOT_FOUND: i32 = -32601;
pub const INVALID_PARAMS: i32 = -32602;
pub const INTERNAL_ERROR: i32 = -32603;
pub const NOT_INITIALIZED: i32 = -32002;
pub const REQUEST_FAILED: i32 = -32803;
pub const REQUEST_CANCELLED: i32 = -32800;

impl Failure {
    pub fn new(code: i32, message: impl Into<String>) -> Failure {
        Failure { code, message: message.into() }
    }
}

pub type Answer = Result<Json, Failure>;

pub fn response(id: Json, answer: Answer) -> Json {
    let (name, value) = match answer {
        Ok(result) => ("result", result),
        Err(Failure { code, message }) => {
            ("error", Json::object([("code", code.into()), ("message", message.into())]))
        }
    };
    Json::object([("jsonrpc", "2.0".into()), ("id", id), (name, value)])
}

pub fn notification(method: &str, params: Json) -> Json {
    Json::object([("jsonrpc", "2.0".into()), ("method", method.into()), ("params", params)])
}

/// A message of a client.
#[derive(Debug)]
pub enum Message {
    Request {
        id: Json,
        method: String,
        params: Json,
    },
    Notification {
        method: String,
        params: Json,
    },
    /// An answer to a request of the server, which makes none.
    Response,
}

impl Message {
    /// The error comes with the id to answer it under.
    pub fn read(message: &Json) -> Result<Message, (Json, Failure)> {
        let id = message.get("id").filter(|id| matches!(id, Json::Number(_) | Json::String(_)));
        let invalid = |what: &str| {
            (id.cloned().unwrap_or(Json::Null), Failure::new(INVALID_REQUEST, format!("no request: {what}")))
        };
        if !matches!(message, Json::Object(_)) {
            return Err(invalid("it is no object"));
        }
        let params = message.get("params").cloned().unwrap_or(Json::Null);
        match (message.get("method"), message.get("id")) {
            (Some(Json::String(method)), None) => {
                Ok(Message::Notification { method: method.clone(), params })
            }
            (Some(Json::String(method)), Some(_)) => match id {
                Some(id) => Ok(Message::Request { id: id.clone(), method: method.clone(), params }),
                None => Err(invalid("its id is neither a number nor a string")),
            },
            (Some(_), _) => Err(invalid("its method is no string")),
            (None, _) if message.get("result").or(message.get("error")).is_some() => Ok(Message::Response),
            (None, _) => Err(invalid("it has no method")),
        }
    }
}

pub fn invalid_params(what: &str) -> Failure {
    Failure::new(INVALID_PARAMS, format!("{what} is missing or damaged"))
}

pub fn read_position(json: Option<&Json>) -> Option<Position> {
    let number = |name| json?.get(name)?.as_u32();
    Some(Position { line: number("line")?, character: number("character")? })
}

pub fn read_range(json: Option<&Json>) -> Option<Range<Position>> {
    Some(read_position(json?.get("start"))?..read_position(json?.get("end"))?)
}

fn position(at: Position) -> Json {
    Json::object([("line", at.line.into()), ("character", at.character.into())])
}

pub fn range(range: &Range<Position>) -> Json {
    Json::object([("start", position(range.start)), ("end", position(range.end))])
}

pub fn text_edit(replaced: &Range<Position>, text: &str) -> Json {
    Json::object([("range", range(replaced)), ("newText", text.into())])
}

/// What a client can do with an answer.
#[derive(Clone, Copy, Debug, Default)]
pub struct Client {
    /// Notes of a diagnostic with places of their own.
    pub related_information: bool,
    pub hover_markdown: bool,
    pub symbols_in_symbols: bool,
    /// Edits of a text that name its version.
    pub document_changes: bool,
    pub code_action_literals: bool,
    /// Actions whose edits are asked for when they are chosen.
    pub resolves_edits: bool,
}

impl Client {
    /// By the parameters of initialize.
    pub fn read(params: &Json) -> Client {
        let capability =
            |path: &[&str]| params.get("capabilities").and_then(|capabilities| capabilities.at(path));
        let flag = |path: &[&str]| capability(path).and_then(Json::as_bool) == Some(true);
        // The first format is what the client likes best.
        let hover = capability(&["textDocument", "hover", "contentFormat"]).and_then(Json::as_array);
        let resolved = capability(&["textDocument", "codeAction", "resolveSupport", "properties"])
            .and_then(Json::as_array);
        Client {
            related_information: flag(&["textDocument", "publishDiagnostics", "relatedInformation"]),
            hover_markdown: hover.and_then(|formats| formats.first()?.as_str()) == Some("markdown"),
            symbols_in_symbols: flag(&[
                "textDocument",
                "documentSymbol",
                "hierarchicalDocumentSymbolSupport",
            ]),
            document_changes: flag(&["workspace", "workspaceEdit", "documentChanges"]),
            resolves_edits: resolved.is_some_and(|names| names.contains(&Json::from("edit"))),
            code_action_literals: capability(&["textDocument", "codeAction", "codeActionLiteralSupport"])
                .is_some(),
        }
    }
}
