//! What a number of a refusal or a stop means is said alike in the header, in the module for Python and in Rust, for every number that there is.

use std::collections::BTreeMap;
use std::fs;
use std::path::Path;

fn read(file: &str) -> String {
    fs::read_to_string(Path::new(env!("CARGO_MANIFEST_DIR")).join("..").join(file)).expect(file)
}

/// The numbers of the enumerators that begin so: `MIZZENGRAPE_REFUSED_BOUNDS = 8,`.
fn numbers(header: &str, begins: &str) -> BTreeMap<String, u32> {
    let lines = header.lines().map(str::trim).filter(|line| line.starts_with(begins));
    let pairs = lines.filter_map(|line| {
        let (name, rest) = line.split_once(" = ")?;
        let digits: String = rest.chars().take_while(char::is_ascii_digit).collect();
        Some((name.to_string(), digits.parse().ok()?))
    });
    pairs.collect()
}

/// The texts by number: of each enumerator the one that the header gives back for it.
fn in_header(header: &str, begins: &str) -> BTreeMap<u32, String> {
    let text = |(name, number): (String, u32)| {
        let case = format!("case {name}: return \"");
        let rest = &header[header.find(&case).unwrap_or_else(|| panic!("no text for {name}")) + case.len()..];
        (number, rest.split('"').next().expect("a text").to_string())
    };
    numbers(header, begins).into_iter().map(text).collect()
}

/// The entries `8: "declared bounds are not shown",` of a dictionary.
fn in_python(module: &str, name: &str) -> BTreeMap<u32, String> {
    let start = module.find(&format!("{name} = {{")).expect("a dictionary");
    let entries = module[start..].lines().skip(1).take_while(|line| *line != "}");
    let entry = |line: &str| {
        let (number, text) = line.trim().split_once(": ").expect("an entry");
        (number.parse().expect("a number"), text.trim_end_matches(',').trim_matches('"').to_string())
    };
    entries.map(entry).collect()
}

#[test]
fn each_number_has_one_text() {
    let (header, module) = (read("include/mizzengrape.h"), read("examples/python/mizzengrape.py"));
    let refusals = in_header(&header, "MIZZENGRAPE_REFUSED_");
    assert!(refusals.len() >= 15 && refusals[&17].contains("loop fact"), "{refusals:?}");
    assert_eq!(refusals, in_python(&module, "REFUSALS"));
    for (number, text) in &refusals {
        assert_eq!(mizzengrape::Cause::from(*number).to_string(), *text);
    }
    let stops = in_header(&header, "MIZZENGRAPE_STOP_");
    assert_eq!((stops.len(), &stops), (6, &in_python(&module, "STOPS")));
}
