//! Findings as a SARIF 2.1.0 log, which code hosts show beside a change.

use super::Finding;
use crate::diagnostics::Pos;
use crate::explain::pages::headings;
use crate::lsp::json::Json;
use crate::repair::Edit;
use std::collections::BTreeSet;

const SCHEMA: &str = "https://json.schemastore.org/sarif-2.1.0.json";

pub fn sarif(findings: &[Finding]) -> Json {
    let rules: BTreeSet<String> = findings.iter().map(rule_of).collect();
    let driver = Json::object([
        ("name", "mizzengrape".into()),
        ("version", env!("CARGO_PKG_VERSION").into()),
        ("rules", Json::array(rules.iter().map(|rule| described(rule)))),
    ]);
    let run = Json::object([
        ("tool", Json::object([("driver", driver)])),
        ("columnKind", "unicodeCodePoints".into()),
        ("results", Json::array(findings.iter().map(result))),
    ]);
    Json::object([("$schema", SCHEMA.into()), ("version", "2.1.0".into()), ("runs", Json::array([run]))])
}

fn rule_of(finding: &Finding) -> String {
    match finding.refusal {
        Some(refusal) => format!("refused-{}", refusal.number),
        None => format!("text-{}", finding.severity),
    }
}

/// A refusal's heading in the manual tells what it is.
fn described(rule: &str) -> Json {
    let number = rule.strip_prefix("refused-");
    let heading = number.and_then(|number| {
        let begins = format!("Refusal {number}: ");
        headings("Refusal").lines().find_map(|line| line.strip_prefix(&begins).map(str::to_string))
    });
    let text = heading.unwrap_or_else(|| "What the text of a routine is asked for".to_string());
    Json::object([("id", rule.into()), ("shortDescription", message(&text))])
}

fn message(text: &str) -> Json {
    Json::object([("text", text.into())])
}

fn result(finding: &Finding) -> Json {
    let related = |(at, text): &(Option<Pos>, String)| {
        at.map(|at| located(&finding.file, Some((at, at))).with("message", message(text)))
    };
    let said = finding.notes.iter().filter(|(at, _)| at.is_none()).map(|(_, text)| format!("\nnote: {text}"));
    let helped = finding.helps.iter().map(|(text, _)| format!("\nhelp: {text}"));
    let text: String = [finding.message.clone()].into_iter().chain(said).chain(helped).collect();
    let fixes = finding.helps.iter().filter(|(_, edits)| !edits.is_empty());
    let fixes = Json::array(fixes.map(|(text, edits)| fix(&finding.file, text, edits)));
    Json::object([
        ("ruleId", rule_of(finding).into()),
        ("level", finding.severity.into()),
        ("message", message(&text)),
        ("locations", Json::array([located(&finding.file, finding.at)])),
        ("relatedLocations", Json::array(finding.notes.iter().filter_map(related))),
        ("fixes", fixes),
    ])
}

/// A location in a file, as a URI: what such a reference may not hold is written by its bytes.
fn located(file: &str, at: Option<(Pos, Pos)>) -> Json {
    let mut physical = Json::object([("artifactLocation", artifact(file))]);
    if let Some((from, to)) = at {
        physical = physical.with("region", region(from, to));
    }
    Json::object([("physicalLocation", physical)])
}

fn artifact(file: &str) -> Json {
    let shown = |byte: u8| match byte {
        b'a'..=b'z' | b'A'..=b'Z' | b'0'..=b'9' | b'-' | b'.' | b'_' | b'~' | b'/' => {
            char::from(byte).to_string()
        }
        _ => format!("%{byte:02X}"),
    };
    Json::object([("uri", file.bytes().map(shown).collect::<String>().into())])
}

fn region(from: Pos, to: Pos) -> Json {
    Json::object([
        ("startLine", from.line.into()),
        ("startColumn", from.column.into()),
        ("endLine", to.line.into()),
        ("endColumn", to.column.into()),
    ])
}

fn fix(file: &str, text: &str, edits: &[Edit]) -> Json {
    let replacement = |edit: &Edit| {
        let deleted = region(edit.from, edit.to);
        Json::object([("deletedRegion", deleted), ("insertedContent", message(&edit.text))])
    };
    let change = Json::object([
        ("artifactLocation", artifact(file)),
        ("replacements", Json::array(edits.iter().map(replacement))),
    ]);
    Json::object([("description", message(text)), ("artifactChanges", Json::array([change]))])
}
