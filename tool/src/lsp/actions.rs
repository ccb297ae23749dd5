//! The protocol's code actions: quick fixes of what is refused, loop facts for a loop.

use super::document::Document;
use super::findings::{findings, Finding};
use super::fixes::Fix;
use super::json::Json;
use super::loop_facts;
use super::protocol::{text_edit, Client};
use super::text::Position;
use super::version::Version;
use std::ops::Range;

const QUICK_FIX: &str = "quickfix";
const REWRITE: &str = "refactor.rewrite";
pub const KINDS: [&str; 2] = [QUICK_FIX, REWRITE];

/// A document as its client knows it.
pub struct Known<'a> {
    pub uri: &'a str,
    pub version: &'a Version,
    pub client: &'a Client,
}

impl Known<'_> {
    /// Edits of the document as an edit of the workspace.
    fn edit(&self, edits: &[(Range<Position>, String)]) -> Json {
        let edits = edits.iter().map(|(range, text)| text_edit(range, text));
        self.version.edit(self.uri, Json::array(edits), self.client)
    }
}

/// What can be done on these lines; `only` names the kinds that are wanted.
pub fn actions(document: &Document, known: &Known, lines: &Range<Position>, only: Option<&[Json]>) -> Json {
    if !known.client.code_action_literals {
        return Json::Array(Vec::new());
    }
    let mut actions = Vec::new();
    if is_wanted(QUICK_FIX, only) {
        actions.extend(quick_fixes(document, known, lines));
    }
    if known.client.resolves_edits && is_wanted(REWRITE, only) && loop_facts::is_offered(document, lines) {
        let data = Json::object([("uri", known.uri.into())]);
        actions.push(Json::object([
            ("title", loop_facts::TITLE.into()),
            ("kind", REWRITE.into()),
            ("data", data),
        ]));
    }
    Json::Array(actions)
}

/// A kind stands for all kinds below it, the empty one for all.
fn is_wanted(kind: &str, only: Option<&[Json]>) -> bool {
    let includes = |wanted: &Json| {
        let below = wanted.as_str().and_then(|wanted| kind.strip_prefix(wanted).map(|rest| (wanted, rest)));
        below.is_some_and(|(wanted, rest)| wanted.is_empty() || rest.is_empty() || rest.starts_with('.'))
    };
    only.is_none_or(|kinds| kinds.iter().any(includes))
}

/// The fixes for what is found on these lines.
fn quick_fixes(document: &Document, known: &Known, lines: &Range<Position>) -> Vec<Json> {
    let found = findings(document);
    let touches =
        |range: &Range<Position>| range.start.line <= lines.end.line && lines.start.line <= range.end.line;
    if !found.iter().any(|finding| touches(&finding.range)) {
        return Vec::new();
    }
    let on_lines = document.fixes().iter().map(|fix| (fix, &found[fix.finding]));
    let on_lines = on_lines.filter(|(_, finding)| touches(&finding.range));
    let action = |(fix, finding): (&Fix, &Finding)| {
        Json::object([
            ("title", fix.title.as_str().into()),
            ("kind", QUICK_FIX.into()),
            ("diagnostics", Json::array([finding.json(known.uri, known.client)])),
            ("isPreferred", fix.is_preferred.into()),
            ("edit", known.edit(&fix.edits)),
        ])
    };
    on_lines.map(action).collect()
}

/// An offered action with its edit, made for the text as it is now.
pub fn resolved(action: &Json, document: &Document, known: &Known) -> Option<Json> {
    Some(action.clone().with("edit", known.edit(&loop_facts::edits(document)?)))
}
