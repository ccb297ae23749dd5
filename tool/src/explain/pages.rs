//! The manual's pages about refusals and stops: parts of docs/FORMAT.md, so that there is one text of them.

const MANUAL: &str = include_str!("../../../docs/FORMAT.md");

/// The part of the manual below a heading `### HEADING: ..`, with its heading.
pub fn page(heading: &str) -> Option<String> {
    let start = MANUAL.find(&format!("### {heading}: "))?;
    let part = &MANUAL[start..];
    let end = part[1..].find("\n##").map_or(part.len(), |end| end + 2);
    let mut page = String::new();
    let mut example = false;
    for line in part[..end].trim_start_matches("### ").trim_end().lines() {
        if line.starts_with("```") {
            example = !example;
        } else if example && !line.is_empty() {
            page.push_str(&format!("    {line}\n"));
        } else {
            page.push_str(&format!("{line}\n"));
        }
    }
    Some(page)
}

/// The headings of all pages of a sort, a line each: `Stop 1: a dynamic check is false`.
pub fn headings(sort: &str) -> String {
    let headings = MANUAL.lines().filter_map(|line| line.strip_prefix("### "));
    headings.filter(|heading| heading.starts_with(sort)).map(|heading| format!("{heading}\n")).collect()
}
