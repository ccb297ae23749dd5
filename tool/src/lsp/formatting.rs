//! A document in its canonical form, as `fmt` prints it.

use super::changes::common_ends;
use super::document::{Analysis, Document};
use super::json::Json;
use super::protocol::{text_edit, Answer, Failure, REQUEST_FAILED};
use crate::command::formatted;
use crate::diagnostics::Pos;

/// The lines that change, as one edit. A text that does not read is left as it is: its errors are told elsewhere.
pub fn formatting(document: &Document) -> Answer {
    let Analysis::Read(analysed) = document.analysis() else { return Ok(Json::Null) };
    let program = &analysed.program;
    let Some(text) = &program.text else { return Ok(Json::Null) };
    let new = formatted(program, text, false).map_err(|wrong| Failure::new(REQUEST_FAILED, wrong.message))?;
    let old = document.text.checked();
    if old == new {
        return Ok(Json::Array(Vec::new()));
    }
    let [old, new] = [old, &new].map(|text| text.split_inclusive('\n').collect::<Vec<&str>>());
    let (first, rest) = common_ends(&old, &new);
    let start_of_line = |line: usize| document.text.position(Pos { line: line as u32 + 1, column: 1 });
    let replaced = start_of_line(first)..start_of_line(old.len() - rest);
    Ok(Json::array([text_edit(&replaced, &new[first..new.len() - rest].concat())]))
}
