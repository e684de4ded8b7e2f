//! What is declared of the exported functions, in C and in Rust, is what the
//! proved source exports: names, parameters in order, results; the structs that
//! Rust declares have the source's fields (the gate compares the header's with
//! Rust's). The numbers that the header and the wrapper name are the source's.

use std::collections::BTreeMap;
use std::fs;
use std::path::Path;

/// The types of each function's parameters, and of its result last.
type Declared = BTreeMap<String, Vec<String>>;

fn text(path: &str) -> String {
    let top = Path::new(env!("CARGO_MANIFEST_DIR")).join("../..");
    fs::read_to_string(top.join(path)).expect(path)
}

/// One space where there was any white.
fn plain(text: &str) -> String {
    text.split_whitespace().collect::<Vec<_>>().join(" ")
}

/// The functions of a Rust or Rattle text, each after `mark`.
fn rust_functions(text: &str, mark: &str) -> Declared {
    let text = plain(text);
    let functions = text.split(mark).skip(1).map(|function| {
        let (name, after) = function.split_once('(').expect("parameters");
        let (parameters, after) = after.split_once(')').expect("their end");
        let result = after.trim_start_matches(" -> ");
        let end = result.find([' ', ';']).expect("the result's end");
        let mut types: Vec<String> = parameters
            .split(',')
            .filter_map(|parameter| parameter.split_once(':'))
            .flat_map(|(_, kind)| lent(kind.trim()))
            .collect();
        types.push(result[..end].to_string());
        (name.to_string(), types)
    });
    functions.collect()
}

/// A lent slice is an address and a length.
fn lent(kind: &str) -> Vec<String> {
    let (pointer, element) = match kind.strip_prefix("&mut [") {
        Some(element) => ("*mut ", element),
        None => ("*const ", kind.strip_prefix("&[").unwrap_or("")),
    };
    match element.strip_suffix(']') {
        Some(element) => vec![format!("{pointer}{element}"), "usize".to_string()],
        None => vec![kind.to_string()],
    }
}

/// The functions of a C text without comments.
fn c_functions(text: &str) -> Declared {
    let functions = text.split(';').filter_map(|declared| {
        let declared = plain(declared.rsplit(['}', '#']).next()?);
        let (before, parameters) = declared.split_once('(')?;
        let (result, name) = before.rsplit_once(' ')?;
        let parameters = parameters.strip_suffix(')')?;
        name.starts_with("head_").then_some(())?;
        let mut types: Vec<String> = parameters.split(',').map(c_parameter).collect();
        types.push(rust_name(result));
        Some((name.to_string(), types))
    });
    functions.collect()
}

fn c_parameter(parameter: &str) -> String {
    let end = parameter.rfind([' ', '*']).map_or(0, |at| at + 1);
    rust_name(parameter[..end].trim())
}

fn rust_name(c: &str) -> String {
    if let Some(element) = c.strip_suffix(" *") {
        return match element.strip_prefix("const ") {
            Some(element) => format!("*const {}", rust_name(element)),
            None => format!("*mut {}", rust_name(element)),
        };
    }
    match c {
        "uint8_t" => "u8",
        "uint16_t" => "u16",
        "uint32_t" => "u32",
        "uint64_t" => "u64",
        "size_t" => "usize",
        "struct head_session" => "Session",
        "struct head_end" => "HeadEnd",
        "struct head_line" => "HeadLine",
        "struct head_line_read" => "LineRead",
        other => other,
    }
    .to_string()
}

fn without_comments(text: &str) -> String {
    let parts = text.split("/*").enumerate();
    let code = parts.map(|(i, part)| match part.split_once("*/") {
        Some((_, code)) if i > 0 => code,
        _ => part,
    });
    code.collect()
}

fn exported() -> Declared {
    let source = ["lib.rt", "calls.rt", "reading.rt"];
    let source: String = source
        .map(|file| text(&format!("crates/ffi/src/{file}")))
        .concat();
    let functions = exported_by(&source);
    assert_eq!(functions, exported_by(&text("crates/ffi_c/src/lib.rt")));
    functions
}

fn exported_by(source: &str) -> Declared {
    let functions = rust_functions(source, "pub extern \"C\" fn ");
    assert_eq!(functions.len(), source.matches("#[unsafe(no_mangle)]").count());
    assert!(!functions.is_empty());
    functions
}

#[test]
fn the_header_declares_what_is_exported() {
    let header = without_comments(&text("include/head.h"));
    assert_eq!(c_functions(&header), exported());
}

#[test]
fn the_rust_declarations_are_of_what_is_exported() {
    let source = text("outside/proved/src/lib.rs");
    let (_, linked) = source
        .split_once("extern \"C\" {")
        .expect("the declarations");
    let (linked, _) = linked.split_once("\n    }\n").expect("their end");
    assert_eq!(rust_functions(linked, "pub fn "), exported());
}

/// The fields of a public struct, each with its type, in order.
fn fields(text: &str, name: &str) -> Vec<String> {
    let (_, after) = text
        .split_once(&format!("pub struct {name} {{"))
        .expect(name);
    let (fields, _) = after.split_once('}').expect("the struct's end");
    let fields = fields.split(",\n").map(plain);
    fields.filter(|field| !field.is_empty()).collect()
}

#[test]
fn the_rust_structs_are_those_of_the_proved_source() {
    let source = [
        "state/src/lib.rt",
        "head/src/session.rt",
        "ffi/src/calls.rt",
        "ffi/src/reading.rt",
    ];
    let source = source.map(|file| text(&format!("crates/{file}"))).concat();
    assert_eq!(fields(&source, "Held"), ["pub of: [State; Group::HEADS]"]);
    let source: String = source
        .split_inclusive('\n')
        .filter(|line| !line.starts_with("#[derive("))
        .collect();
    let source = source
        .replace(": Held", ": [State; Group::HEADS]")
        .replace("Group::HEADS", "16")
        .replace("Group::PLACES", "16");
    let declared = text("outside/proved/src/lib.rs");
    for name in ["State", "Session", "HeadEnd", "HeadLine", "LineRead"] {
        assert_eq!(fields(&declared, name), fields(&source, name), "{name}");
        assert!(
            source.contains(&format!("#[repr(C)]\npub struct {name} {{")),
            "{name}"
        );
    }
}

type Numbers = BTreeMap<String, u64>;

/// `OldView` as `OLD_VIEW`.
fn upper(name: &str) -> String {
    let mut upper = String::new();
    for (i, letter) in name.chars().enumerate() {
        if i > 0 && letter.is_uppercase() {
            upper.push('_');
        }
        upper.extend(letter.to_uppercase());
    }
    upper
}

/// The numbers of an enum's cases in a Rattle text.
fn cases(text: &str, name: &str, prefix: &str) -> Numbers {
    let (_, after) = text.split_once(&format!("pub enum {name} {{")).expect(name);
    let (cases, _) = after.split_once('}').expect("its end");
    let cases = cases.split(',').filter_map(|case| {
        let (variant, number) = case.trim().split_once(" = ")?;
        let number = number.parse().ok()?;
        Some((format!("HEAD_{prefix}{}", upper(variant)), number))
    });
    cases.collect()
}

/// The constants of a Rattle text.
fn constants(text: &str, name: &str) -> Numbers {
    let constants = text.split("pub const ").skip(1).filter_map(|constant| {
        let (variant, after) = constant.split_once(": ")?;
        let (_, after) = after.split_once(" = ")?;
        let number = after.split_once(';')?.0.parse().ok()?;
        Some((format!("HEAD_{name}{variant}"), number))
    });
    constants.collect()
}

/// The numbers of a C text: `#define NAME n` and `NAME = n`.
fn c_numbers(text: &str) -> Numbers {
    let text = text.replace(',', " ");
    let words: Vec<&str> = text.split_whitespace().collect();
    let numbers = words.windows(3).filter_map(|three| {
        let name = match three {
            ["#define", name, _] | [name, "=", _] => name,
            _ => return None,
        };
        Some((name.to_string(), three[2].parse().ok()?))
    });
    numbers.collect()
}

#[test]
fn the_wrapper_names_the_refusals_of_the_proved_source() {
    let named = head::Refusal::ALL.map(|refusal| {
        (
            format!("HEAD_REFUSED_{}", upper(&format!("{refusal:?}"))),
            refusal,
        )
    });
    let numbers = named.map(|(name, refusal)| (name, u64::from(refusal.number())));
    let answers = text("crates/group/src/answers.rt");
    assert_eq!(
        Numbers::from(numbers),
        cases(&answers, "Refusal", "REFUSED_")
    );
}

#[test]
fn the_header_names_the_numbers_of_the_proved_source() {
    let answers = text("crates/group/src/answers.rt");
    let mut source = cases(&answers, "Refusal", "REFUSED_");
    source.extend(constants(&text("crates/codes/src/lib.rt"), ""));
    source.extend(constants(&text("crates/fitting/src/stage.rt"), "STAGE_"));
    source.extend(constants(&text("crates/writer/src/lib.rt"), ""));
    source.extend(constants(&text("crates/group/src/lib.rt"), ""));
    // The highest head: the header says 16 heads.
    source.remove("HEAD_LAST");

    let mut header = c_numbers(&without_comments(&text("include/head.h")));
    // These stand for themselves in the source.
    let spelled = ["HEAD_WORD_", "HEAD_KIND_", "HEAD_DONE", "HEAD_STORES_MOST"];
    header.retain(|name, _| !spelled.iter().any(|start| name.starts_with(start)));
    assert_eq!(header, source);
}
