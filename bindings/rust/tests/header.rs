//! The declarations of src/ffi.rs are those of the C header, parameter by parameter, and the header's are those of the library: on that their soundness
//! rests. So are those of the benchmarks and of the comparison with the original. The header's numbers and sentences are those of this crate.
use basinpantry::{EXCLUSIONS_BYTES, HELD_BYTES, List, MAX_CASE_BYTES, MAX_TRANSACTION_BYTES, OutPoint, Refusal};
use std::collections::BTreeMap;
use std::path::Path;

/// A function's parameters and answer, in Rust's words.
type Signature = Vec<(String, String)>;

fn text(path: &str) -> String {
    std::fs::read_to_string(Path::new(env!("CARGO_MANIFEST_DIR")).join(path)).expect(path)
}

/// The text without C comments.
fn uncommented(mut text: &str) -> String {
    let mut out = String::new();
    while let Some((before, rest)) = text.split_once("/*") {
        out += before;
        text = rest.split_once("*/").expect("the end of a comment").1;
    }
    out + text
}

/// Everything up to here is the name.
fn name_of(declaration: &str) -> &str {
    declaration.split('(').next().expect("a name").trim()
}

fn rust_type(c: &str) -> &'static str {
    match c {
        "const uint8_t *" => "*const u8",
        "uint8_t *" => "*mut u8",
        "uint64_t *" | "uint64_t [4]" => "*mut u64",
        "uint64_t" => "u64",
        "uint32_t" => "u32",
        "size_t" => "usize",
        "bool" => "bool",
        other => panic!("{other}"),
    }
}

/// The header's text in three parts: the function that it defines itself, and what stands before and after it.
fn header_parts() -> [String; 3] {
    let text = text("../c/basinpantry.h");
    let (before, rest) = text.split_once("static inline ").expect("a function with a body");
    let (body, after) = rest.split_once("\n}\n").expect("its end");
    assert!(!after.contains("static inline "));
    [before, body, after].map(str::to_string)
}

fn header() -> BTreeMap<String, Signature> {
    let [before, _, after] = header_parts();
    let text = uncommented(&(before + &after));
    let mut found = BTreeMap::new();
    for statement in text.split(';') {
        let Some(at) = statement.find(" basinpantry_") else { continue };
        let (before, declaration) = statement.split_at(at);
        let answer = before.split_whitespace().last().expect("a type");
        let parameters = declaration.split_once('(').expect("parameters").1.trim_end_matches(')');
        let mut signature: Signature = parameters
            .split(',')
            .map(|parameter| {
                let parameter = parameter.split_whitespace().collect::<Vec<_>>().join(" ");
                let at = parameter.rfind([' ', '*']).expect("a type and a name") + 1;
                // an array is lent by its pointer
                match parameter[at..].split_once('[') {
                    Some((name, size)) => (name.to_string(), rust_type(&format!("{}[{size}", &parameter[..at])).to_string()),
                    None => (parameter[at..].to_string(), rust_type(parameter[..at].trim_end()).to_string()),
                }
            })
            .collect();
        signature.push(("->".to_string(), rust_type(answer).to_string()));
        found.insert(name_of(declaration).to_string(), signature);
    }
    found
}

fn declared() -> BTreeMap<String, Signature> {
    let text = text("src/ffi.rs");
    let mut found = BTreeMap::new();
    for statement in text.split(';') {
        let Some((_, declaration)) = statement.split_once("pub fn basinpantry_") else { continue };
        let (parameters, answer) = declaration.split_once('(').expect("parameters").1.split_once(')').expect("an end");
        let mut signature: Signature = parameters
            .split(',')
            .filter(|parameter| !parameter.trim().is_empty())
            .map(|parameter| {
                let (name, kind) = parameter.split_once(':').expect("a name and a type");
                (name.trim().to_string(), kind.trim().to_string())
            })
            .collect();
        signature.push(("->".to_string(), answer.trim().trim_start_matches("->").trim().to_string()));
        found.insert(format!("basinpantry_{}", name_of(declaration)), signature);
    }
    found
}

/// The text of the library's crate for C, without comments.
fn library_text() -> String {
    let folder = Path::new(env!("CARGO_MANIFEST_DIR")).join("../../crates/capi/src");
    let mut out = String::new();
    for entry in std::fs::read_dir(folder).expect("crates/capi/src") {
        let path = entry.expect("a file").path();
        assert!(path.extension().is_some_and(|extension| extension == "rt"), "{path:?}");
        for line in std::fs::read_to_string(path).expect("its text").lines() {
            out += line.split("//").next().unwrap_or_default();
            out.push('\n');
        }
    }
    out
}

/// A type of the library as it crosses to C: a slice is a pointer and then a length, the words of an answer are a pointer.
fn crossing(kind: &str) -> &'static [&'static str] {
    match kind.replace("&'a ", "&").as_str() {
        "&[u8]" => &["*const u8", "usize"],
        "&mut [u8]" => &["*mut u8", "usize"],
        "&mut [u64]" => &["*mut u64", "usize"],
        "&mut [u64; WORDS]" => &["*mut u64"],
        "u64" => &["u64"],
        "u32" => &["u32"],
        "usize" => &["usize"],
        "bool" => &["bool"],
        other => panic!("{other}"),
    }
}

/// The functions that the library has for C: the types of their parameters, then that of the answer.
fn library() -> BTreeMap<String, Vec<&'static str>> {
    let text = library_text();
    let mut found = BTreeMap::new();
    for declaration in text.split("#[unsafe(no_mangle)]").skip(1) {
        let declaration = declaration.trim_start().strip_prefix("pub extern \"C\" fn ").expect("a function for C");
        let (parameters, rest) = declaration.split_once('(').expect("parameters").1.split_once(')').expect("an end");
        let answer = rest.trim_start().strip_prefix("->").expect("an answer").split_whitespace().next().expect("a type");
        let kinds = parameters.split(',').map(str::trim).filter(|parameter| !parameter.is_empty());
        let kinds = kinds.map(|parameter| parameter.split_once(':').expect("a name and a type").1.trim());
        let signature = kinds.chain([answer]).flat_map(crossing).copied().collect();
        let name = name_of(declaration).trim_end_matches("<'a>").to_string();
        assert!(found.insert(name, signature).is_none());
    }
    assert_eq!(found.len(), text.matches("extern \"C\"").count());
    found
}

#[test]
fn the_library_has_what_the_header_declares() {
    let header = header();
    assert!(header.len() >= 28, "{}", header.len());
    let kinds = header.iter().map(|(name, signature)| (name.clone(), signature.iter().map(|(_, kind)| kind.as_str()).collect()));
    assert_eq!(library(), kinds.collect::<BTreeMap<String, Vec<&str>>>());
    // a length has the name of the pointer before it; the values have none
    for (name, signature) in &header {
        for pair in signature.windows(2).filter(|pair| pair[0].1.starts_with('*') && pair[0].0 != "values") {
            assert_eq!(pair[1].0, format!("{}_len", pair[0].0), "{name}");
        }
    }
}

#[test]
fn declarations() {
    let (header, declared) = (header(), declared());
    assert!(header.len() >= 28, "{}", header.len());
    assert_eq!(declared, header);
}

#[test]
fn declarations_of_the_benchmarks() {
    assert_eq!(declared_by_kinds("../../bench/library.rs"), header());
    let text = text("../../bench/library.rs");
    assert!(text.contains(&format!("const HELD_BYTES: usize = {};", thousands(HELD_BYTES))));
    assert!(text.contains(&format!("const EXCLUSIONS_BYTES: usize = {};", thousands(EXCLUSIONS_BYTES))));
}

/// A number as Rust's source has it.
fn thousands(n: usize) -> String {
    format!("{}_{:03}", n / 1000, n % 1000)
}

/// The declarations of the comparison or of the benchmarks: a kind of slice is a pointer and then a length.
fn declared_by_kinds(path: &str) -> BTreeMap<String, Signature> {
    let text = text(path);
    let block = text.split_once("\ninterface! {").expect("the declarations").1.split_once("\n}").expect("their end").0;
    let mut found = BTreeMap::new();
    for declaration in block.split(';').filter(|declaration| !declaration.trim().is_empty()) {
        let declaration = declaration.split_once(" = ").expect("a name and a symbol").1;
        let (parameters, answer) = declaration.split_once('(').expect("parameters").1.split_once(')').expect("an end");
        let mut signature = Signature::new();
        for parameter in parameters.split(',') {
            let (name, kind) = parameter.trim().split_once(": ").expect("a name and a kind");
            let pointer = match kind {
                "bytes" => Some("*const u8"),
                "buffer" => Some("*mut u8"),
                "words" | "values" => Some("*mut u64"),
                _ => None,
            };
            signature.push((name.to_string(), pointer.unwrap_or(kind).to_string()));
            if pointer.is_some() && kind != "values" {
                signature.push((format!("{name}_len"), "usize".to_string()));
            }
        }
        signature.push(("->".to_string(), answer.trim().trim_start_matches("->").trim().to_string()));
        found.insert(name_of(declaration).to_string(), signature);
    }
    found
}

#[test]
fn declarations_of_the_comparison() {
    assert_eq!(declared_by_kinds("../../oracle/src/bin/compare/library.rs"), header());
}

/// A name of the header for a name of Rust.
fn in_capitals(name: &str) -> String {
    let mut out = String::new();
    for c in name.chars() {
        if c.is_uppercase() && !out.is_empty() {
            out.push('_');
        }
        out.extend(c.to_uppercase());
    }
    out
}

/// Every refusal, in the order of the numbers, each of which is a byte.
fn refusals() -> impl Iterator<Item = Refusal> {
    (0..=255).filter_map(|number| Refusal::from_number(number, [0; 4]))
}

#[test]
fn numbers() {
    let text = text("../c/basinpantry.h");
    let mut defines: BTreeMap<String, usize> = text
        .lines()
        .filter_map(|line| line.strip_prefix("#define BASINPANTRY_"))
        .filter_map(|line| line.split_once(' '))
        .map(|(name, number)| (name.to_string(), number.parse().expect("a number and nothing else")))
        .collect();
    let mut has = |name: &str, number: usize| assert_eq!(defines.remove(name), Some(number), "{name}");
    for why in refusals() {
        has(&in_capitals(why.name()), why.number() as usize);
    }
    for list in [List::CellDeps, List::HeaderDeps, List::Inputs, List::Outputs, List::OutputsData, List::Witnesses] {
        has(&in_capitals(&format!("{list:?}")), list as usize);
    }
    has("VERSION", 100); // tests/version.rs sees that it is the crate's
    has("MAX_TRANSACTION_BYTES", MAX_TRANSACTION_BYTES);
    has("MAX_CASE_BYTES", MAX_CASE_BYTES);
    has("HELD_BYTES", HELD_BYTES);
    has("EXCLUSIONS_BYTES", EXCLUSIONS_BYTES);
    has("OUT_POINT_BYTES", OutPoint::default().to_bytes().len());
    has("LOCK_HELD_BYTES", 4 + 256 * 36);
    has("EXCLUSIONS_APPLY_BYTES", 4 + 512 * 36);
    // those that this crate keeps to itself
    for (name, file, kept) in [
        ("LINE_BYTES", "src/case_file.rs", "const LINE_BYTES: usize = "),
        ("ANSWER_WORDS", "src/replay.rs", "const ANSWER_WORDS: usize = "),
        ("PLACE_WORDS", "src/transaction.rs", "const PLACE_WORDS: usize = "),
        ("VALUES", "src/ffi.rs", "const VALUES: usize = "),
    ] {
        let text = self::text(file);
        let number = text.split_once(kept).expect(kept).1.split_once(';').expect("an end").0;
        has(name, number.parse().expect("a number"));
    }
    assert!(defines.is_empty(), "{defines:?}");
}

/// One sentence for a number: in the header, in this crate, and in the comment on the case.
#[test]
fn sentences() {
    let [_, body, _] = header_parts();
    let mut cases = body.split("    case ").skip(1);
    let documented = text("src/refusal.rs");
    for why in refusals() {
        let (number, sentence) = (why.number(), why.sentence());
        let case = cases.next().expect("a case").split("    default:").next().expect("its text");
        assert_eq!(case, format!("{number}:\n        return \"{sentence}\";\n"));
        assert!(documented.contains(&format!("    /// {number}: {sentence}.\n")), "{number}");
    }
    assert!(cases.next().is_none());
    assert!(body.ends_with("    default:\n        return NULL;\n    }"), "{body}");
}

#[test]
fn lines_are_not_too_long() {
    for (i, line) in text("../c/basinpantry.h").lines().enumerate() {
        assert!(line.len() <= 160, "line {}", i + 1);
    }
}
