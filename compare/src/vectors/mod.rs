//! The reader of the vector files, and the check of this implementation by them. Each kind of case has a module.

pub mod edit;
pub mod run;
pub mod set;
pub mod turns;

use crate::proved::Implementation;
use std::path::Path;

/// One case with its right answers.
#[derive(Clone, Debug)]
pub enum Vector {
    Run(run::Vector),
    Edit(edit::Vector),
    Set(set::Vector),
    Turns(turns::Vector),
}

impl Vector {
    /// The differences of the plain and of the fast form.
    pub fn differences(&self) -> Vec<String> {
        match self {
            Vector::Run(vector) => run::differences(vector),
            Vector::Edit(vector) => edit::differences(vector),
            Vector::Set(vector) => set::differences(vector),
            Vector::Turns(vector) => turns::differences(vector),
        }
    }

    /// What differs between the plain form and another implementation.
    pub fn difference(&self, other: &dyn Implementation) -> Option<String> {
        let (name, what) = match self {
            Vector::Run(vector) => (&vector.name, run::difference(vector, other)),
            Vector::Edit(vector) => (&vector.name, edit::difference(vector, other)),
            Vector::Set(vector) => (&vector.name, set::difference(vector, other)),
            Vector::Turns(vector) => (&vector.name, turns::difference(vector, other)),
        };
        what.map(|what| format!("{name} ({}): {what}", other.name()))
    }
}

/// The lines `name: value` of a case, in their order.
struct Lines<'a> {
    number: usize,
    lines: Vec<(&'a str, &'a str)>,
}

impl<'a> Lines<'a> {
    fn new(number: usize, text: &'a str) -> Lines<'a> {
        let lines =
            text.lines().filter(|line| !line.starts_with('>')).filter_map(|line| line.split_once(':'));
        Lines { number, lines: lines.map(|(name, value)| (name.trim(), value.trim())).collect() }
    }

    fn get(&self, name: &str) -> Option<&'a str> {
        self.lines.iter().find(|(line, _)| *line == name).map(|(_, value)| *value)
    }

    fn text(&self, name: &str) -> Result<&'a str, String> {
        self.get(name).ok_or(format!("case {}: no line `{name}`", self.number))
    }

    fn words<T: std::str::FromStr>(&self, name: &str) -> Result<Vec<T>, String> {
        numbers(self.text(name)?)
    }

    fn number<T: std::str::FromStr + Copy>(&self, name: &str) -> Result<T, String> {
        self.words(name)?.first().copied().ok_or(format!("case {}: empty {name}", self.number))
    }

    fn name(&self) -> String {
        self.get("name").map_or_else(|| format!("#{}", self.number), str::to_string)
    }
}

fn numbers<T: std::str::FromStr>(text: &str) -> Result<Vec<T>, String> {
    text.split_whitespace()
        .map(|word| word.parse().map_err(|_| format!("not a number here: {word}")))
        .collect()
}

/// Words as they stand in a line.
pub fn join<T: ToString>(words: &[T]) -> String {
    words.iter().map(T::to_string).collect::<Vec<_>>().join(" ")
}

/// The lines of an answer, which begin with `> `.
fn answer_of(text: &str) -> Vec<String> {
    let lines = text.lines().filter_map(|line| line.strip_prefix('>'));
    lines.map(|line| line.trim().to_string()).collect()
}

/// The first line of an answer that is not the right one, in words.
fn wrong_answer(name: &str, form: &str, answer: &[String], right: &[String]) -> Option<String> {
    let place = (0..answer.len().max(right.len())).find(|&line| answer.get(line) != right.get(line))?;
    let [ours, right] = [answer, right].map(|lines| lines.get(place).map_or("no line", String::as_str));
    Some(format!("{name} ({form}): line {place}: {ours}, but right is {right}"))
}

fn read_case(text: &str, number: usize) -> Result<Vector, String> {
    let lines = Lines::new(number, text);
    match lines.get("kind") {
        None | Some("run") => run::read(&lines).map(Vector::Run),
        Some("edit") => edit::read(&lines, text).map(Vector::Edit),
        Some("set") => set::read(&lines, text).map(Vector::Set),
        Some("dispatch") => turns::read(&lines, text).map(Vector::Turns),
        Some(kind) => Err(format!("case {number}: no such kind: {kind}")),
    }
}

pub fn read(text: &str) -> Result<Vec<Vector>, String> {
    text.split("---\n")
        .filter(|case| !case.trim().is_empty())
        .enumerate()
        .map(|(number, case)| read_case(case, number))
        .collect()
}

pub fn read_file(path: &Path) -> Result<Vec<Vector>, String> {
    let text = std::fs::read_to_string(path).map_err(|e| format!("{}: {e}", path.display()))?;
    read(&text)
}

#[cfg(test)]
mod tests {
    use super::*;

    #[test]
    fn both_forms_are_right_on_the_files_of_the_repository() {
        let folder = Path::new(env!("CARGO_MANIFEST_DIR")).join("../vectors");
        for file in ["named.txt", "near_misses.txt", "random.txt"] {
            for vector in read_file(&folder.join(file)).unwrap() {
                assert_eq!(vector.differences(), [""; 0], "{file}");
            }
        }
    }

    #[test]
    fn refuses_what_is_no_number_and_no_kind() {
        assert!(read("table: 6 x\n").is_err());
        assert!(read("kind: walk\ntable: 6\n").is_err());
    }
}
