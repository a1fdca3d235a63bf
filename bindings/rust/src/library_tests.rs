//! The declarations against the header for C.

use crate::library::*;
use std::collections::BTreeMap;

const HEADER: &str = "../../include/nitrasovy.h";
const DECLARATIONS: &str = include_str!("library.rs");

/// A type of `library.rs` as C has it.
fn in_c(kind: &str) -> String {
    match kind {
        "u8" => "uint8_t".into(),
        "u32" => "uint32_t".into(),
        "u64" | "usize" | "Word" => "uint64_t".into(),
        "bool" => "bool".into(),
        "AigerAnd" => "NitGate".into(),
        other => format!("Nit{other}"),
    }
}

/// The arguments of a call in `library.rs` as C has them.
fn arguments_in_c(arguments: &str) -> Vec<String> {
    let mut found = Vec::new();
    for argument in parts(arguments, ',') {
        let (name, kind) = argument.split_once(": ").expect("a name and a type");
        let (before, kind) = match kind.strip_prefix("&mut ") {
            Some(kind) => ("", kind),
            None => ("const ", kind),
        };
        let element = in_c(kind.trim_matches(['&', '[', ']']));
        if kind.contains('[') {
            found.push(format!("{before}{element} *{name}"));
            found.push(format!("size_t {name}_length"));
        } else if before.is_empty() {
            found.push(format!("{element} *{name}"));
        } else {
            found.push(format!("{element} {name}"));
        }
    }
    found
}

/// A field of a struct in `library.rs` as C has it.
fn field_in_c(field: &str) -> String {
    let field = field.strip_prefix("pub ").expect("a public field");
    let (name, kind) = field.split_once(": ").expect("a name and a type");
    match kind.trim_matches(['[', ']']).split_once("; ") {
        Some((element, length)) => format!("{} {name}[{length}]", in_c(element)),
        None => format!("{} {name}", in_c(kind)),
    }
}

/// What stands between the marks, each with single blanks.
fn parts(text: &str, mark: char) -> Vec<String> {
    let plain = |part: &str| part.split_whitespace().collect::<Vec<_>>().join(" ");
    let parts = text.split(mark).map(plain);
    parts.filter(|part| !part.is_empty()).collect()
}

fn header() -> String {
    let header = std::fs::read_to_string(HEADER).expect("the header of this repository");
    let parts = header.split("*/");
    parts.filter_map(|part| part.split("/*").next()).collect()
}

/// The answer and the arguments of each call in the header.
fn prototypes() -> BTreeMap<String, (String, Vec<String>)> {
    let mut found = BTreeMap::new();
    for statement in parts(&header(), ';') {
        let Some((start, arguments)) = statement.split_once('(') else {
            continue;
        };
        let mut words = start.split(' ').rev();
        let name = words.next().unwrap_or_default();
        if name.starts_with("nit_") {
            let answer = words.next().expect("an answer").to_string();
            let arguments = parts(arguments.trim_end_matches(')'), ',');
            found.insert(name.to_string(), (answer, arguments));
        }
    }
    found
}

/// The fields of each struct that such a word begins.
fn structs(text: &str, word: &str, mark: char) -> BTreeMap<String, Vec<String>> {
    let found = text.split(word).skip(1).map(|after| {
        let (name, fields) = after.split_once(" {").expect("a struct");
        let (fields, _) = fields.split_once('}').expect("the end of a struct");
        (name.to_string(), parts(fields, mark))
    });
    found.collect()
}

#[test]
fn calls_are_those_of_the_header() {
    let (_, calls) = DECLARATIONS.split_once("\ncalls! {").expect("the calls");
    let (calls, _) = calls.split_once("\n}").expect("the end of the calls");
    let mut declared = BTreeMap::new();
    for call in parts(calls, ';') {
        let (name, rest) = call.split_once('(').expect("arguments");
        let (arguments, answer) = rest.split_once(") -> ").expect("an answer");
        let name = name.strip_prefix("fn ").expect("a call").to_string();
        declared.insert(name, (in_c(answer), arguments_in_c(arguments)));
    }
    assert_eq!(declared.len(), 9, "{:?}", declared.keys());
    assert_eq!(declared, prototypes());
}

#[test]
fn structs_are_those_of_the_header() {
    let declared: BTreeMap<_, Vec<_>> = structs(DECLARATIONS, "\npub struct ", ',')
        .into_iter()
        .map(|(name, fields)| (in_c(&name), fields.iter().map(|f| field_in_c(f)).collect()))
        .collect();
    assert_eq!(declared.len(), 10, "{:?}", declared.keys());
    assert_eq!(declared, structs(&header(), "typedef struct ", ';'));
}

/// The header's structs have words alone: how many.
#[test]
fn structs_have_the_size_of_the_headers() {
    let words = |bytes: usize| bytes / 8;
    assert_eq!(words(size_of::<Read>()), 214);
    assert_eq!(words(size_of::<Stepped>()), 4);
    assert_eq!(words(size_of::<Made>()), 3);
    assert_eq!(words(size_of::<Witness>()), 8);
    assert_eq!(words(size_of::<Composed>()), 2);
    assert_eq!(words(size_of::<Taken>()), 2);
    assert_eq!(words(size_of::<Cursor>()), 1);
    assert_eq!(align_of::<AigerAnd>(), align_of::<u64>());
    assert_eq!(RECORD_WORDS, 213);
}

#[test]
fn gates_are_lent_as_words() {
    let gate = |output, left, right| AigerAnd {
        output,
        left,
        right,
    };
    assert_eq!(
        gate_words(&[gate(6, 4, 2), gate(8, 7, 1)]),
        [6, 4, 2, 8, 7, 1]
    );
    assert!(gate_words(&[]).is_empty());
}
