//! `mizzengrape check`: the library's verdict, and the reason for a refusal.

use super::arguments::{Arguments, Usage};
use super::{Output, DIFFER, DONE, REFUSED, WRONG};
use crate::explain::{self, report, Checked};
use crate::files::shown_name;
use crate::findings::{examine, json, sarif, Finding};
use crate::library::Verdict;
use crate::program::Program;

pub const USAGE: Usage = Usage {
    help: "\
mizzengrape check FILE .. [--facts F] [--report] [--format F] [--short]

Prints the verdict of the proved library: `accepted`, or `refused NUMBER PLACE`
(for 8 also the pointer). The reason for a refusal goes to standard error. Of
an accepted routine a line `safe: 4 7` has the statements of the accesses that
are shown to stop no run at check 2 or 3, where there are some.

Several files are checked one after the other, and the worst status is given;
several tables, .tbl, are a set.

    --facts F       the list of loop facts of a table, as words in a file
    --report        a line for each access: safe, or what is not known before it
    --format text   for people
    --format json   for programs: a line for each diagnostic, an object
    --format sarif  for code hosts: a SARIF 2.1.0 log
    --short         diagnostics of one line
",
    flags: &["--report", "--short"],
    options: &["--facts", "--format"],
    least_files: 1,
    most_files: usize::MAX,
};

pub fn check(arguments: &Arguments) -> Result<Output, String> {
    match arguments.option("--format") {
        None | Some("text") => {}
        Some("json") => {
            return formatted(arguments, |findings| {
                findings.iter().map(|one| format!("{}\n", json(one))).collect()
            })
        }
        Some("sarif") => return formatted(arguments, |findings| format!("{}\n", sarif(findings))),
        Some(other) => return Err(format!("error: --format is text, json or sarif, not {other}\n")),
    }
    let is_set = arguments.files.iter().all(|file| file.ends_with(".tbl"));
    if arguments.files.len() == 1 || is_set {
        return checked(&arguments.files, arguments);
    }
    let mut all = Output::default();
    for file in &arguments.files {
        let one = checked(std::slice::from_ref(file), arguments).unwrap_or_else(Output::wrong);
        let named = one.out.lines().map(|line| format!("{}: {line}\n", shown_name(file)));
        all.out.extend(named);
        all.err.push_str(&one.err);
        all.status = all.status.max(one.status);
    }
    Ok(all)
}

/// The findings of all files in a format, and the worst status.
fn formatted(arguments: &Arguments, format: impl Fn(&[Finding]) -> String) -> Result<Output, String> {
    let mut output = Output::default();
    let mut findings = Vec::new();
    for file in &arguments.files {
        match examine(file, arguments.option("--facts")) {
            Err(message) => {
                output.err.push_str(&message);
                output.status = output.status.max(WRONG);
            }
            Ok(found) => {
                let status = match found.verdict {
                    _ if found.is_at_odds => DIFFER,
                    Some(Verdict::Accepted) => DONE,
                    Some(Verdict::Refused(_)) => REFUSED,
                    None => WRONG,
                };
                output.status = output.status.max(status);
                findings.extend(found.findings);
            }
        }
    }
    output.out = format(&findings);
    Ok(output)
}

/// One program, as `check` prints it.
fn checked(files: &[String], arguments: &Arguments) -> Result<Output, String> {
    let short = arguments.is_short();
    let program = Program::load(files, arguments.option("--facts"), short)?;
    let (mut output, checked) = answer(&program, short)?;
    if arguments.flag("--report") && checked.verdict == Verdict::Accepted {
        output.out.push_str(&report(&program, checked.safe()));
    }
    Ok(output)
}

/// The verdict on a program, as `check` prints it.
pub fn verdict(program: &Program, short: bool) -> Result<Output, String> {
    answer(program, short).map(|(output, _)| output)
}

fn answer(program: &Program, short: bool) -> Result<(Output, Checked), String> {
    let mut output = Output { err: program.warnings(short), ..Output::default() };
    let mut checked =
        explain::check(program).map_err(|lack| format!("{}{}", output.err, program.lacking(lack, short)))?;
    output.out = format!("{}\n", checked.verdict);
    output.out.extend(checked.safe_line().map(|line| format!("{line}\n")));
    output.status = if checked.verdict == Verdict::Accepted { DONE } else { REFUSED };
    if let Some(other) = &checked.other {
        output.at_odds(program, other);
    }
    if let (Some(reason), Verdict::Refused(refusal)) = (&mut checked.reason, checked.verdict) {
        reason.help = explain::help(program, &refusal);
        output.err.push_str(&reason.show(program, short));
    }
    Ok((output, checked))
}
