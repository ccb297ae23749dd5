//! What is told at a line: what is known before its statement, whether its access can stop a run, and the manual's page where it is refused.

use super::document::{Analysed, Analysis, Document};
use super::findings::findings;
use super::json::Json;
use super::protocol::Client;
use super::text::Position;
use crate::diagnostics::Pos;
use crate::explain::{pages::page, report, state};

pub fn hover(document: &Document, at: Position, client: &Client) -> Json {
    let known = match document.analysis() {
        Analysis::Read(analysed) => known(analysed, document.text.place(at)),
        Analysis::Wrong(_) => None,
    };
    let refused = findings(document).into_iter().find(|finding| finding.range.start.line == at.line);
    let page = refused.and_then(|finding| page(&format!("Refusal {}", finding.number?)));
    let known =
        known.map(|known| if client.hover_markdown { format!("```text\n{known}```\n") } else { known });
    let parts: Vec<String> = known.into_iter().chain(page).collect();
    if parts.is_empty() {
        return Json::Null;
    }
    let (kind, between) = if client.hover_markdown { ("markdown", "\n---\n\n") } else { ("plaintext", "\n") };
    let contents = Json::object([("kind", kind.into()), ("value", parts.join(between).into())]);
    Json::object([("contents", contents)])
}

/// What is known before the statement at a place: the last one of its line that begins up to there, else the first one.
fn known(analysed: &Analysed, at: Pos) -> Option<String> {
    let program = &analysed.program;
    let routines = program.text.as_ref()?.map.routines.iter().enumerate();
    let statements = routines.flat_map(|(routine, map)| {
        map.statements.iter().enumerate().map(move |(number, start)| (*start, (routine, number)))
    });
    let on_line: Vec<_> = statements.filter(|(start, _)| start.line == at.line).collect();
    let under = on_line.iter().rfind(|(start, _)| start.column <= at.column);
    let (start, statement) = under.or(on_line.first())?;
    // Behind a refused statement nothing is known, and that is said.
    let mut known = state(program, *statement, true).unwrap_or_else(|why| why + "\n");
    let place = format!("{}:{start}: ", program.name);
    match analysed.safe() {
        Some(Ok(safe)) => {
            let reported = report(program, &safe);
            known.extend(
                reported.lines().filter_map(|line| Some(format!("{}\n", line.strip_prefix(&place)?))),
            );
        }
        Some(Err(what)) => known.push_str(&format!("{what}\n")),
        None => {}
    }
    Some(known)
}
