//! The command `mizzengrape`.

use mizzengrape_tool::closed::Checked;
use mizzengrape_tool::command::call_into;
use std::io::IsTerminal;
use std::process::ExitCode;

fn main() -> ExitCode {
    let arguments = std::env::args_os().skip(1).map(|argument| argument.to_string_lossy().into_owned());
    let mut out = Checked::new(std::io::stdout().lock());
    let output = call_into(&arguments.collect::<Vec<String>>(), &mut out);
    let mut err = std::io::stderr();
    ExitCode::from(output.shown(err.is_terminal()).print(&mut out, &mut err))
}
