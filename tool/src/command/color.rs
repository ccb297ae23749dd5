//! Colours for what is said on a terminal.

/// Whether to colour: where a terminal reads and NO_COLOR is not set, always, or never.
#[derive(Clone, Copy, Debug, Default, PartialEq, Eq)]
pub enum Color {
    #[default]
    Auto,
    Always,
    Never,
}

const OPTION: &str = "--color";

impl Color {
    /// Takes `--color WHEN` and `--color=WHEN` out of the arguments before `--`, the last one counts.
    pub fn taken_from(arguments: &[String]) -> Result<(Vec<String>, Color), String> {
        let (mut others, mut color) = (Vec::new(), Color::Auto);
        let mut rest = arguments.iter();
        while let Some(argument) = rest.next() {
            let when = match argument.strip_prefix(OPTION) {
                Some("") => rest.next().map(String::as_str).unwrap_or_default(),
                Some(value) if value.starts_with('=') => &value[1..],
                _ => {
                    others.push(argument.clone());
                    if argument == "--" {
                        others.extend(rest.by_ref().cloned());
                    }
                    continue;
                }
            };
            color = match when {
                "auto" => Color::Auto,
                "always" => Color::Always,
                "never" => Color::Never,
                _ => return Err(format!("{OPTION} wants auto, always or never")),
            };
        }
        Ok((others, color))
    }

    pub fn is_wanted(self, is_terminal: bool) -> bool {
        let is_refused = || std::env::var_os("NO_COLOR").is_some_and(|value| !value.is_empty());
        match self {
            Color::Auto => is_terminal && !is_refused(),
            Color::Always => true,
            Color::Never => false,
        }
    }
}

const RED: &str = "\u{1b}[1;31m";
const YELLOW: &str = "\u{1b}[1;33m";
const BLUE: &str = "\u{1b}[1;34m";
const GREEN: &str = "\u{1b}[1;32m";
const PLAIN: &str = "\u{1b}[0m";

/// What begins a message, and its colour.
const WORDS: [(&str, &str); 6] = [
    ("error:", RED),
    ("stopped at check", RED),
    ("spent:", YELLOW),
    ("warning:", YELLOW),
    ("note:", BLUE),
    ("help:", GREEN),
];

/// Diagnostics with their first words and carets in colour.
pub fn colored(text: &str) -> String {
    text.split_inclusive('\n').map(colored_line).collect()
}

fn colored_line(line: &str) -> String {
    if line.trim() == "^" {
        return line.replace('^', &format!("{GREEN}^{PLAIN}"));
    }
    // A message begins its line, or stands behind the place that it is about.
    let begins = |at: usize| at == 0 || line[..at].ends_with(": ");
    let found = WORDS.iter().filter_map(|(word, color)| Some((line.find(word)?, word, color)));
    match found.filter(|(at, ..)| begins(*at)).min_by_key(|(at, ..)| *at) {
        Some((at, word, color)) => {
            format!("{}{color}{word}{PLAIN}{}", &line[..at], &line[at + word.len()..])
        }
        None => line.to_string(),
    }
}
