//! `mizzengrape lsp`: a language server for editors.

use super::arguments::{Arguments, Usage};
use super::Output;
use crate::lsp::serve;
use std::io::Write;

pub const USAGE: Usage = Usage {
    help: "\
mizzengrape lsp [--stdio]

A language server (Language Server Protocol 3.17) on standard input and output:
an editor starts it and shows the verdict beside the line, with what is known
there and what would repair it. docs/EDITORS.md tells how to set up an editor.

    --stdio   changes nothing; some editors give it
",
    flags: &["--stdio"],
    options: &[],
    least_files: 0,
    most_files: 0,
};

pub fn lsp(_: &Arguments, out: &mut dyn Write) -> Result<Output, String> {
    let served = serve(std::io::stdin(), out);
    let status = served.map_err(|error| format!("error: standard output: {error}\n"))?;
    Ok(Output { status, ..Output::default() })
}
