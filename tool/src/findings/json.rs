//! Findings as JSON, an object each.

use super::Finding;
use crate::diagnostics::Pos;
use crate::lsp::json::Json;
use crate::repair::Edit;

/// Lines and columns count from 1; a column is a character. Ends are not included.
pub fn json(finding: &Finding) -> Json {
    let position = |at: Option<Pos>| match at {
        Some(at) => (at.line.into(), at.column.into()),
        None => (Json::Null, Json::Null),
    };
    let (line, column) = position(finding.at.map(|(at, _)| at));
    let end = finding.at.map_or(Json::Null, |(_, end)| placed(end));
    let number = |value: Option<usize>| value.map_or(Json::Null, |value| (value as u32).into());
    let refusal = finding.refusal.as_ref();
    let note = |(at, message): &(Option<Pos>, String)| {
        let (line, column) = position(*at);
        Json::object([("line", line), ("column", column), ("message", message.as_str().into())])
    };
    let help = |(message, edits): &(String, Vec<Edit>)| {
        Json::object([("message", message.as_str().into()), ("edits", Json::array(edits.iter().map(edit)))])
    };
    let mut json = Json::object([
        ("file", finding.file.as_str().into()),
        ("line", line),
        ("column", column),
        ("end", end),
        ("severity", finding.severity.into()),
        ("number", number(refusal.map(|refusal| refusal.number as usize))),
        ("place", number(refusal.map(|refusal| refusal.place))),
        ("pointer", number(refusal.and_then(|refusal| refusal.pointer))),
        ("message", finding.message.as_str().into()),
        ("notes", Json::array(finding.notes.iter().map(note))),
        ("help", Json::array(finding.helps.iter().map(help))),
    ]);
    // Of a set also the routine that is refused.
    if let Some(routine) = refusal.and_then(|refusal| refusal.routine) {
        json = json.with("routine", (routine as u32).into());
    }
    json
}

fn placed(at: Pos) -> Json {
    Json::object([("line", at.line.into()), ("column", at.column.into())])
}

fn edit(edit: &Edit) -> Json {
    Json::object([("from", placed(edit.from)), ("to", placed(edit.to)), ("text", edit.text.as_str().into())])
}
