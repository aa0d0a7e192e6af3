//! The crate's declarations of the proved library agree with its C header: codes, structs and signatures.
use std::collections::BTreeMap;
use std::path::PathBuf;

/// Returns the header that is beside the library's archive or, if there is none, the repository's.
fn header() -> Option<String> {
    let beside = std::env::var("ARACHNE_LIBS").ok().map(|folder| PathBuf::from(folder).join("arachne_exec.h"));
    // In the folder of scripts/release, and in the repository.
    let places = ["../arachne_exec.h", "../../examples/c/arachne_exec.h"];
    let places = places.map(|place| PathBuf::from(env!("CARGO_MANIFEST_DIR")).join(place));
    beside.into_iter().chain(places).find_map(|path| std::fs::read_to_string(path).ok())
}

fn without_comments(text: &str) -> String {
    let mut rest = text;
    let mut out = String::new();
    while let Some(at) = rest.find("/*") {
        out.push_str(&rest[..at]);
        rest = &rest[at..][rest[at..].find("*/").expect("an open comment") + 2..];
    }
    out.push_str(rest);
    out.lines()
        .map(|line| line.split("//").next().unwrap_or(""))
        .filter(|l| !l.trim_start().starts_with('#'))
        .collect::<Vec<_>>()
        .join("\n")
}

fn rust_type(c: &str) -> String {
    let c = c.trim();
    if let Some(to) = c.strip_suffix('*') {
        return match to.trim().strip_prefix("const ") {
            Some(to) => format!("*const {}", rust_type(to)),
            None => format!("*mut {}", rust_type(to)),
        };
    }
    match c {
        "uint64_t" => "u64",
        "uint32_t" => "u32",
        "uint8_t" => "u8",
        "size_t" => "usize",
        "void" => "c_void",
        other => other,
    }
    .to_string()
}

fn declared(text: &str) -> (String, String) {
    let text = text.trim();
    let at = text.rfind(|c: char| !(c.is_alphanumeric() || c == '_')).expect("a type and a name");
    (rust_type(&text[..=at]), text[at + 1..].to_string())
}

#[derive(Default, PartialEq, Debug)]
struct Declarations {
    codes: BTreeMap<String, String>,
    structs: BTreeMap<String, Vec<(String, String)>>,
    functions: BTreeMap<String, (Vec<(String, String)>, String)>,
}

fn fields_of_c(body: &str) -> Vec<(String, String)> {
    let mut fields = Vec::new();
    for line in body.split(';').filter(|line| !line.trim().is_empty()) {
        let mut parts = line.split(',');
        let first = parts.next().expect("a field");
        let (plain, array) = match first.find('[') {
            Some(at) => (&first[..at], Some(first[at + 1..].trim_end_matches(']').trim())),
            None => (first, None),
        };
        let (kind, name) = declared(plain);
        fields.push((name, array.map_or(kind.clone(), |len| format!("[{kind}; {len}]"))));
        fields.extend(parts.map(|name| (name.trim().to_string(), kind.clone())));
    }
    fields
}

fn of_header(text: &str) -> Declarations {
    let text = without_comments(text).replace("extern \"C\" {", "");
    let mut all = Declarations::default();
    let mut rest = text.as_str();
    while let Some(at) = rest.find("enum {") {
        let body = &rest[at + 6..];
        let end = body.find('}').expect("an open enum");
        for code in body[..end].split(',').filter(|code| code.contains('=')) {
            let (name, value) = code.split_once('=').expect("a value");
            all.codes.insert(name.trim().into(), value.trim().into());
        }
        rest = &body[end..];
    }
    let mut rest = text.as_str();
    while let Some(at) = rest.find("typedef struct") {
        let body = &rest[at..][rest[at..].find('{').expect("a body") + 1..];
        let end = body.find('}').expect("an open struct");
        let after = &body[end + 1..];
        let name = after[..after.find(';').expect("a name")].trim();
        all.structs.insert(name.into(), fields_of_c(&body[..end]));
        rest = after;
    }
    for statement in text.split(';') {
        let statement = statement.rsplit('}').next().unwrap_or("").trim();
        if let (Some(open), Some(close)) = (statement.find('('), statement.rfind(')')) {
            let (result, name) = declared(&statement[..open]);
            let arguments = statement[open + 1..close].split(',').map(declared).map(|(kind, name)| (name, kind));
            all.functions.insert(name, (arguments.collect(), result));
        }
    }
    all
}

fn pairs(text: &str) -> Vec<(String, String)> {
    let pairs = text.split(',').filter(|pair| pair.contains(':'));
    pairs
        .map(|pair| pair.trim().trim_start_matches("pub(crate) ").split_once(':').expect("a type"))
        .map(|(a, b)| (a.trim().to_string(), b.trim().to_string()))
        .collect()
}

fn of_rust(text: &str) -> Declarations {
    let mut all = Declarations::default();
    let text = text.lines().map(|line| line.split("//").next().unwrap_or("")).collect::<Vec<_>>().join(" ");
    for part in text.split("pub(crate) const ").skip(1) {
        let (name, rest) = part.split_once(':').expect("a type");
        let value = rest[rest.find('=').expect("a value") + 1..].split(';').next().expect("an end");
        all.codes.insert(name.trim().into(), value.trim().into());
    }
    for part in text.split("pub(crate) struct ").skip(1) {
        let (name, rest) = part.split_once('{').expect("a body");
        all.structs.insert(name.trim().into(), pairs(&rest[..rest.find('}').expect("an end")]));
    }
    for part in text.split("pub(crate) fn ").skip(1) {
        let (name, rest) = part.split_once('(').expect("arguments");
        let close = rest.find(')').expect("an end");
        let result = rest[close + 1..].split(';').next().unwrap_or("").trim().trim_start_matches("->").trim();
        let result = if result.is_empty() { "c_void" } else { result };
        all.functions.insert(name.trim().into(), (pairs(&rest[..close]), result.to_string()));
    }
    all
}

#[test]
fn declarations_agree_with_the_header() {
    let header = match header() {
        Some(text) => of_header(&text),
        None => {
            assert!(cfg!(feature = "model"), "there is no arachne_exec.h to compare with");
            return println!("no arachne_exec.h was found: nothing was compared");
        }
    };
    let rust = of_rust(include_str!("../src/core/declarations.rs"));
    assert!(rust.codes.len() > 20 && rust.structs.len() == 6 && rust.functions.len() > 20, "{rust:?}");
    for (name, value) in &header.codes {
        assert_eq!(rust.codes.get(name), Some(value), "the code {name}");
    }
    assert_eq!(rust.codes.len(), header.codes.len());
    for (name, fields) in &rust.structs {
        assert_eq!(header.structs.get(name), Some(fields), "the fields of {name}");
    }
    for (name, signature) in &rust.functions {
        assert_eq!(header.functions.get(name), Some(signature), "the signature of {name}");
    }
}

#[test]
fn a_slip_would_be_seen() {
    let text =
        "enum { A_DONE = 0, A_LOST = 4, };\ntypedef struct { uint64_t x, y; uint32_t code[2]; void *at; } a_told;\n\
                /* (;) */ a_told a_call(const a_told *to, size_t n);\nvoid a_close(a_told *to);";
    let right = "pub(crate) const A_DONE: u32 = 0; pub(crate) const A_LOST: u32 = 4;\n\
                 pub(crate) struct a_told { pub(crate) x: u64, pub(crate) y: u64, pub(crate) code: [u32; 2], pub(crate) at: *mut c_void, }\n\
                 pub(crate) fn a_call(to: *const a_told, n: usize) -> a_told; pub(crate) fn a_close(to: *mut a_told);";
    assert_eq!(of_header(text), of_rust(right));
    for (old, new) in
        [("= 4", "= 5"), ("y: u64", "y: u32"), ("n: usize", "n: u32"), ("*const", "*mut"), ("; 2]", "; 3]")]
    {
        assert_ne!(of_header(text), of_rust(&right.replacen(old, new, 1)), "{old}");
    }
}
