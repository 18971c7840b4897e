//! include/chakaqel.h and this crate say the same: each prototype, the arrays, the numbers of the enumerations, the refusals.

use chakaqel::{Fade, MixOrder, Refusal, ReplayMode, entries};

const HEADER: &str = include_str!("../../../include/chakaqel.h");

/// The text without comments and with single spaces.
fn plain(text: &str) -> String {
    let mut rest = text;
    let mut code = String::new();
    while let Some((before, after)) = rest.split_once("/*") {
        code += before;
        rest = after.split_once("*/").expect("a comment ends").1;
    }
    code += rest;
    let words: Vec<&str> = code.split_whitespace().collect();
    words.join(" ")
}

/// A C type in Rust.
fn rust_type(name: &str) -> &str {
    match name {
        "double" => "f64",
        "float" => "f32",
        "uint32_t" => "u32",
        "uint64_t" => "u64",
        "size_t" => "usize",
        name => panic!("the type {name}"),
    }
}

/// A C parameter in Rust: `const float *pool` is `pool: *const f32`.
fn rust_parameter(parameter: &str) -> String {
    let (kind, name) = parameter.rsplit_once(' ').expect("a type and a name");
    let Some(name) = name.strip_prefix('*') else {
        return format!("{name}: {}", rust_type(kind));
    };
    match kind.strip_prefix("const ") {
        Some(kind) => format!("{name}: *const {}", rust_type(kind)),
        None => format!("{name}: *mut {}", rust_type(kind)),
    }
}

/// A C prototype in Rust.
fn rust_prototype(prototype: &str) -> String {
    let (head, parameters) = prototype.split_once('(').expect("parameters");
    let (answer, name) = head.rsplit_once(' ').expect("an answer and a name");
    let parameters: Vec<String> = parameters
        .trim_end_matches(')')
        .split(", ")
        .map(rust_parameter)
        .collect();
    let answer = match answer {
        "void" => String::new(),
        kind => format!(" -> {}", rust_type(kind)),
    };
    format!("pub fn {name}({}){answer};", parameters.join(", "))
}

#[test]
fn prototypes() {
    let declared = plain(include_str!("../src/entries.rs"));
    let header = plain(HEADER);
    let mut entries = 0;
    for statement in header.split(';') {
        let entry = statement.trim().rsplit("{ ").next().unwrap_or_default();
        let entry = entry.rsplit("#endif ").next().unwrap_or_default();
        let Some(start) = ["uint64_t chakaqel_", "void chakaqel_", "double chakaqel_"]
            .iter()
            .find_map(|answer| entry.find(answer))
        else {
            continue;
        };
        let rust = rust_prototype(entry[start..].trim());
        assert!(declared.contains(&rust), "{rust}");
        entries += 1;
    }
    assert_eq!(entries, 13);
    assert_eq!(declared.matches("pub fn chakaqel_").count(), 13);
}

#[test]
fn arrays() {
    let declared = plain(include_str!("../src/arrays.rs"));
    let header = plain(HEADER);
    let (_, fields) = header
        .split_once("typedef struct chakaqel_engine { ")
        .expect("the struct");
    let (fields, _) = fields.split_once(" }").expect("its end");
    let mut last = 0;
    for field in fields.split_terminator(';') {
        let (kind, array) = field.trim().split_once(' ').expect("a field");
        let (name, length) = array.split_once('[').expect("an array");
        let length = length.trim_end_matches(']');
        let field = format!("pub {name}: [{}; {length}],", rust_type(kind));
        let at = declared.find(&field);
        let at = at.unwrap_or_else(|| panic!("{field}"));
        assert!(at > last, "the fields' order");
        last = at;
    }
    assert_eq!(fields.matches(';').count(), 4);
}

#[test]
fn numbers() {
    let header = plain(HEADER);
    for (name, number) in [
        ("ALL", ReplayMode::All.number().into()),
        ("NONE", ReplayMode::None.number().into()),
        ("POWER", Fade::Power.number().into()),
        ("SMOOTH", Fade::Smooth.number().into()),
        ("APPLIED", 0),
        ("PAST", entries::PAST),
        ("STORED", entries::STORED),
        ("NO_PLACE", entries::NO_PLACE),
    ] {
        let word = format!("CHAKAQEL_{name} = {number}");
        let ends = [" ", ","].map(|end| header.contains(&format!("{word}{end}")));
        assert!(ends.contains(&true), "{word}");
    }
    // The header names no number for a mark: it says them in words.
    assert_eq!(MixOrder::Forward.number(), 0);
    assert_eq!(MixOrder::Backward.number(), 1);
}

#[test]
fn refusals() {
    // The header says 8 by its 3, and has neither the desk's 13 nor a tape's 15.
    for refusal in Refusal::ALL {
        let listed = format!(" {:>2}  {}", refusal.number(), refusal.words());
        let said = ![8, 13, 15].contains(&refusal.number());
        assert_eq!(HEADER.contains(&listed), said, "{refusal}");
    }
}
