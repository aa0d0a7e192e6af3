//! The declarations in `src/library.rs` equal those that `scripts/declarations` makes from the library's source.
use std::collections::BTreeMap;

const MADE: &str = include_str!("../../../examples/rust/arachne_grants/declared.rs");
const WRITTEN: &str = include_str!("../src/library.rs");

/// For each type, its name in the generated declarations and its name in `library.rs`.
const NAMES: [(&str, &str); 4] = [
    ("ArachneArbiter", "Handle"),
    ("ArachneMessage", "RawMessage"),
    ("ArachneAction", "RawAction"),
    ("ArachneShare", "Share"),
];

/// Returns the lines of code in `text`, with the names of `library.rs` for the types.
fn lines(text: &str) -> Vec<String> {
    let code = text.lines().map(|line| line.trim().trim_start_matches("pub ")).filter(|line| !line.starts_with("//"));
    code.map(|line| NAMES.iter().fold(line.to_string(), |line, (made, written)| line.replace(made, written))).collect()
}

fn functions(text: &str) -> Vec<String> {
    lines(text).into_iter().filter(|line| line.starts_with("fn arachne_")).collect()
}

fn codes(text: &str) -> Vec<String> {
    lines(text).into_iter().filter(|line| line.starts_with("const ") && line.contains(": u32 = ")).collect()
}

fn fields(text: &str) -> BTreeMap<String, Vec<String>> {
    let lines = lines(text);
    let begins =
        lines.iter().enumerate().filter_map(|(at, line)| Some((at, line.strip_prefix("struct ")?.strip_suffix(" {")?)));
    begins
        .filter(|(_, name)| NAMES.iter().any(|(_, written)| written == name))
        .map(|(at, name)| (name.to_string(), lines[at + 1..].iter().take_while(|line| *line != "}").cloned().collect()))
        .collect()
}

#[test]
fn declarations_are_the_sources() {
    assert_eq!(functions(WRITTEN).len(), 13);
    assert_eq!(functions(WRITTEN), functions(MADE));
    assert_eq!(fields(WRITTEN).len(), NAMES.len());
    assert_eq!(fields(WRITTEN), fields(MADE));
    let made = codes(MADE);
    assert!(codes(WRITTEN).iter().all(|code| made.contains(code)), "{:?}", codes(WRITTEN));
}
