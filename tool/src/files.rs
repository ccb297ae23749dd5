//! Files: each sort is read up to the length that it may have, and none is written over what it is made from.

use crate::diagnostics::{without_controls, Diagnostic, Pos, Source};
use std::fs::{self, File};
use std::io::Read;
use std::path::{Path, PathBuf};

/// A message for people: the file, the text or the call is wrong.
pub type Loaded<T> = Result<T, String>;

/// A sort of file. A longer one is an error; nothing is cut.
pub struct Sort {
    what: &'static str,
    /// Its greatest length in MiB.
    most: usize,
    /// What may be meant where such a file is no text.
    if_no_text: &'static str,
}

const A_TABLE: &str = "; a table's name ends in .tbl";

pub const TEXT: Sort = Sort { what: "a text", most: 1, if_no_text: A_TABLE };
pub const WORDS: Sort = Sort { what: "a file of words", most: 1, if_no_text: A_TABLE };
/// Far longer ones than any that is accepted, so that the library's verdict on their length is given.
pub const TABLE: Sort = Sort { what: "a table", most: 256, if_no_text: "" };
pub const LIST: Sort = Sort { what: "a list of loop facts", most: 1, if_no_text: "" };
pub const NAMES: Sort = Sort { what: "a names file", most: 1, if_no_text: "" };
/// Sixteen objects of 1,000,000 cells, each written with ten digits, a comma and a blank, take 183 MiB.
pub const IMAGE: Sort = Sort { what: "an image", most: 256, if_no_text: "" };

impl Sort {
    fn most_bytes(&self) -> usize {
        self.most << 20
    }

    /// An error for a file that is too long.
    pub fn may_have(&self, bytes: usize) -> Loaded<()> {
        if bytes > self.most_bytes() {
            return Err(format!("{} has {} MiB at most", self.what, self.most));
        }
        Ok(())
    }
}

/// As messages name a file.
pub fn shown_name(path: &str) -> String {
    if path == "-" {
        "<standard input>".to_string()
    } else {
        without_controls(path)
    }
}

/// The bytes of a file, or of standard input for `-`.
pub fn read_bytes(path: &str, sort: &Sort) -> Loaded<Vec<u8>> {
    let mut bytes = Vec::new();
    // One byte more than it may have tells that there are too many.
    let limit = sort.most_bytes() as u64 + 1;
    let read = match path {
        "-" => std::io::stdin().take(limit).read_to_end(&mut bytes),
        _ => File::open(path).and_then(|file| file.take(limit).read_to_end(&mut bytes)),
    };
    let wrong = |what: String| format!("{}: error: {what}\n", shown_name(path));
    read.map_err(|error| wrong(error.to_string()))?;
    sort.may_have(bytes.len()).map_err(wrong)?;
    Ok(bytes)
}

pub fn read_text(path: &str, sort: &Sort, short: bool) -> Loaded<String> {
    as_text(path, read_bytes(path, sort)?, sort, short)
}

/// Bytes as text without the byte order mark that some editors write, or an error at the first that is none.
pub fn as_text(path: &str, bytes: Vec<u8>, sort: &Sort, short: bool) -> Loaded<String> {
    let mut text = String::from_utf8(bytes).map_err(|error| {
        let valid = error.utf8_error().valid_up_to();
        let text = String::from_utf8_lossy(&error.as_bytes()[..valid]).into_owned();
        let (line, last) = (text.matches('\n').count(), text.rsplit('\n').next().unwrap_or(""));
        let at = Pos { line: line as u32 + 1, column: last.chars().count() as u32 + 1 };
        let source = Source { name: &shown_name(path), text: &text };
        let message = format!("this text is not UTF-8{}", sort.if_no_text);
        source.error(&Diagnostic::new(at, message), short)
    })?;
    const BYTE_ORDER_MARK: char = '\u{feff}';
    if text.starts_with(BYTE_ORDER_MARK) {
        text.remove(0);
    }
    Ok(text)
}

/// Writes files that are made from an input: none of them is the input, and no two are one file.
pub fn write_files(input: &str, files: &[(String, Vec<u8>)]) -> Loaded<()> {
    let mut taken = Vec::new();
    if input != "-" {
        taken.push((place_of(input), "this is the file that is read: nothing is written over it"));
    }
    for (path, _) in files.iter().filter(|(path, _)| is_kept(path)) {
        let place = place_of(path);
        if let Some((_, reason)) = taken.iter().find(|(other, _)| *other == place) {
            return Err(format!("{path}: error: {reason}\n"));
        }
        taken.push((place, "two outputs are this file"));
    }
    for (path, content) in files {
        fs::write(path, content).map_err(|error| format!("{path}: error: {error}\n"))?;
    }
    Ok(())
}

/// Whether a path leads to a file, or to none yet: what a device is given twice is not lost.
fn is_kept(path: &str) -> bool {
    !fs::metadata(path).is_ok_and(|found| !found.is_file())
}

/// Where a path leads, whether a file is there already or not.
fn place_of(path: &str) -> PathBuf {
    let path = Path::new(path);
    fs::canonicalize(path).unwrap_or_else(|_| {
        let folder = path.parent().filter(|folder| !folder.as_os_str().is_empty());
        let folder = fs::canonicalize(folder.unwrap_or(Path::new("."))).unwrap_or_default();
        folder.join(path.file_name().unwrap_or_default())
    })
}
