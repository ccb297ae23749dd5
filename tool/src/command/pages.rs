//! `mizzengrape man` and `mizzengrape completion`: the help texts as a manual page, the commands and options as a script for bash.

use super::arguments::{Arguments, Usage};
use super::{Output, COMMANDS, HELP};

pub const MAN_USAGE: Usage = Usage {
    help: "\
mizzengrape man

Prints the help texts as a manual page: mizzengrape man | man -l -
",
    flags: &[],
    options: &[],
    least_files: 0,
    most_files: 0,
};

pub const COMPLETION_USAGE: Usage = Usage {
    help: "\
mizzengrape completion

Prints a script that completes commands, options and files in bash:
source <(mizzengrape completion)
",
    flags: &[],
    options: &[],
    least_files: 0,
    most_files: 0,
};

pub fn man(_: &Arguments) -> Result<Output, String> {
    let version = env!("CARGO_PKG_VERSION");
    let mut page = format!(".TH MIZZENGRAPE 1 \"\" \"mizzengrape {version}\" \"User Commands\"\n.SH NAME\n");
    page.push_str("mizzengrape \\- routines for late entries and scoring, in Checked C\n");
    page.push_str(&section("SYNOPSIS AND EXIT STATUS", HELP));
    for (name, usage, _) in &COMMANDS {
        page.push_str(&section(&name.to_uppercase(), usage.help));
    }
    page.push_str(&section(
        "SEE ALSO",
        "FORMAT.md among the documents: the manual for those who write routines.\n",
    ));
    Ok(Output { out: page, ..Output::default() })
}

/// A text as it stands, below a heading.
fn section(heading: &str, text: &str) -> String {
    let line = |line: &str| {
        let line = line.replace('\\', "\\e").replace('-', "\\-");
        // A line that begins so would be a request.
        if line.starts_with(['.', '\'']) {
            format!("\\&{line}\n")
        } else {
            format!("{line}\n")
        }
    };
    let lines: String = text.lines().map(line).collect();
    format!(".SH {heading}\n.nf\n{lines}.fi\n")
}

pub fn completion(_: &Arguments) -> Result<Output, String> {
    let names: Vec<&str> = COMMANDS.iter().map(|(name, ..)| *name).collect();
    let options = |usage: &Usage| {
        let all = usage.flags.iter().chain(usage.options).chain(&["--color", "--help"]);
        all.copied().collect::<Vec<&str>>().join(" ")
    };
    let cases = COMMANDS
        .iter()
        .map(|(name, usage, _)| format!("        {name}) options=\"{}\" ;;\n", options(usage)));
    let script = format!(
        "_mizzengrape() {{\n    local word=${{COMP_WORDS[COMP_CWORD]}} options\n    if [ \"$COMP_CWORD\" -eq 1 ]; then\n        \
         mapfile -t COMPREPLY < <(compgen -W \"{} --help --version\" -- \"$word\")\n        return\n    fi\n    case ${{COMP_WORDS[1]}} in\n{}    \
         esac\n    case $word in\n        -*) mapfile -t COMPREPLY < <(compgen -W \"$options\" -- \"$word\") ;;\n        \
         *) mapfile -t COMPREPLY < <(compgen -f -- \"$word\") ;;\n    esac\n}}\ncomplete -o filenames -F _mizzengrape mizzengrape\n",
        names.join(" "),
        cases.collect::<String>()
    );
    Ok(Output { out: script, ..Output::default() })
}
