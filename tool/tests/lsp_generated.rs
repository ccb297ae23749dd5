//! Generated routines in the language server: each quick fix leaves the refusal behind, formatting changes no verdict and is done after once.

mod support;

use mizzengrape_tool::lsp::json::Json;
use mizzengrape_tool::names::Names;
use mizzengrape_tool::printer::print;
use mizzengrape_tool::program::printable;
use std::path::Path;
use support::client::Client;
use support::generate::case;
use support::Random;

const ROUTINES: u64 = 1000;
const URI: &str = "file:///r.c";

/// A routine as text; half of them with comments, whose letters have two UTF-16 units.
fn text(random: &mut Random) -> Option<String> {
    let case = case(random);
    let parts = printable(&case.tables, &case.facts).filter(|parts| parts.len() == 1)?;
    let text = print(&parts, &case.facts, &Names::canonical(&parts));
    if random.chance(50) {
        return Some(text);
    }
    let mut commented = |line: &str| match random.below(6) {
        0 => format!("{line} // \u{26f5}\n"),
        1 if !line.trim_start().starts_with('#') => format!("/* \u{1f600} */ {line}\n"),
        _ => format!("{line}\n"),
    };
    Some(text.lines().map(&mut commented).collect())
}

/// A text with the edits of an answer, counted in UTF-16 units.
fn applied(text: &str, edits: &[Json]) -> String {
    let mut units: Vec<u16> = text.encode_utf16().collect();
    let starts: Vec<usize> = [0]
        .into_iter()
        .chain(units.iter().enumerate().filter(|(_, unit)| **unit == 10).map(|(at, _)| at + 1))
        .collect();
    let at = |edit: &Json, end: &str| {
        let number =
            |name| edit.at(&["range", end, name]).and_then(Json::as_u32).expect("a position") as usize;
        starts[number("line")] + number("character")
    };
    // The last one first, so that none moves another.
    for edit in edits.iter().rev() {
        let new = edit.get("newText").and_then(Json::as_str).expect("a text");
        units.splice(at(edit, "start")..at(edit, "end"), new.encode_utf16());
    }
    String::from_utf16(&units).expect("whole characters")
}

/// A document in the server, with its text.
struct Document {
    client: Client,
    text: String,
    version: u32,
}

impl Document {
    fn set(&mut self, text: &str) -> Vec<Json> {
        self.text = text.to_string();
        self.version += 1;
        self.client.change(URI, self.version, vec![Json::object([("text", text.into())])]);
        self.client.diagnostics()
    }

    fn ask(&mut self, method: &str, more: &[(&str, Json)]) -> Json {
        let params = Json::object([("textDocument", Json::object([("uri", URI.into())]))]);
        let params = more.iter().fold(params, |params, (name, value)| params.with(name, value.clone()));
        let answer = self.client.request(method, params);
        answer.get("result").unwrap_or_else(|| panic!("{answer}\n{}", self.text)).clone()
    }

    /// The edits of each quick fix on a diagnostic's line.
    fn fixes(&mut self, diagnostic: &Json) -> Vec<Vec<Json>> {
        let range = diagnostic.get("range").expect("a range").clone();
        let offered = self.ask("textDocument/codeAction", &[("range", range)]);
        let edits = |action: &Json| {
            action.at(&["edit", "documentChanges"])?.as_array()?[0]
                .get("edits")?
                .as_array()
                .map(<[Json]>::to_vec)
        };
        offered.as_array().expect("a list").iter().map(|action| edits(action).expect("edits")).collect()
    }
}

/// A refusal among diagnostics: its number, its line, and how many lines there are from it to the end of the text.
struct Refusal {
    number: u32,
    line: usize,
    to_end: usize,
}

fn refusal(diagnostics: &[Json], text: &str) -> Option<Refusal> {
    let refusal = |diagnostic: &Json| {
        let line = diagnostic.at(&["range", "start", "line"])?.as_u32()? as usize;
        Some(Refusal { number: diagnostic.get("code")?.as_u32()?, line, to_end: text.lines().count() - line })
    };
    diagnostics.iter().find_map(refusal)
}

#[test]
fn fixes_and_formatting_hold() {
    let mut client = Client::start(Path::new(env!("CARGO_BIN_EXE_mizzengrape")));
    client.initialize();
    client.open(URI, "");
    client.diagnostics();
    let mut document = Document { client, text: String::new(), version: 1 };
    let (mut fixed, mut accepted, mut formatted) = (0, 0, 0);
    for number in 0..ROUTINES {
        document.client.transcript.clear();
        let mut random = Random::of(37, number);
        let Some(text) = text(&mut random) else { continue };
        let found = document.set(&text);
        if let Some(refused) = refusal(&found, &text) {
            for edits in document.fixes(&found[0]) {
                let repaired = applied(&text, &edits);
                let left = refusal(&document.set(&repaired), &repaired);
                // What is left stands nearer to the end, or at a head around, which is above and found later.
                let is_past = |left: &Refusal| left.to_end < refused.to_end || left.line < refused.line;
                assert!(left.as_ref().is_none_or(is_past), "{text}\n{repaired}");
                accepted += u32::from(left.is_none());
                fixed += 1;
            }
        }
        document.set(&text);
        let symbols = document.ask("textDocument/documentSymbol", &[]);
        assert!(symbols.as_array().is_some_and(|symbols| !symbols.is_empty()), "{text}");
        let line = random.below(text.lines().count()) as u32;
        let position = Json::object([("line", line.into()), ("character", 9.into())]);
        document.ask("textDocument/hover", &[("position", position)]);
        let untidy = text.replace("    ", "  ").replace(" = ", "=");
        let before = refusal(&document.set(&untidy), &untidy).map(|refusal| refusal.number);
        let edits = document.ask("textDocument/formatting", &[]);
        let tidy = applied(&untidy, edits.as_array().expect("edits"));
        let after = refusal(&document.set(&tidy), &tidy).map(|refusal| refusal.number);
        assert_eq!(before, after, "{text}\n{tidy}");
        assert_eq!(document.ask("textDocument/formatting", &[]), Json::Array(Vec::new()), "{tidy}");
        match text.matches("/*").count() + text.matches("//").count() {
            0 => assert_eq!(tidy, text),
            comments => {
                assert_eq!(comments, tidy.matches("/*").count() + tidy.matches("//").count(), "{tidy}")
            }
        }
        formatted += 1;
    }
    println!("{fixed} fixes, {accepted} accepted; {formatted} formatted");
    assert!(
        fixed > 40 && accepted > 10 && formatted > 80,
        "{fixed} fixes, {accepted} accepted; {formatted} formatted"
    );
    assert_eq!(document.client.end(), 0);
}
