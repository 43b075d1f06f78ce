//! The exports as they are declared in C and in Rust are those of the library's source, parameter by parameter.

use std::path::Path;
use std::{fs, iter};

const HEADER: &str = include_str!("../../../include/colorgrad_calls.h");
const TABLE: &str = include_str!("../src/ffi.rs");
const SOURCE: &str = concat!(env!("CARGO_MANIFEST_DIR"), "/../../crates/colorgrad_exports/src");

/// An export: its name, the name and the type of each parameter, and the type of its answer.
#[derive(PartialEq, Debug)]
struct Export {
    name: String,
    parameters: Vec<(String, String)>,
    answer: String,
}

/// The text of parameters from an open bracket on, and what comes after it.
fn bracketed(text: &str) -> (&str, &str) {
    text.split_once('(').and_then(|(_, rest)| rest.split_once(')')).expect("brackets")
}

fn words(text: &str) -> String {
    text.split_whitespace().collect::<Vec<_>>().join(" ")
}

fn listed(parameters: &str) -> impl Iterator<Item = String> + '_ {
    parameters.split(',').map(words).filter(|parameter| !parameter.is_empty())
}

fn pair(name: &str, kind: &str) -> (String, String) {
    (name.into(), kind.into())
}

/// Of `name(a: T, b: U) -> V`, as Rust and the library's source write it.
fn of_rust(text: &str) -> Export {
    let (parameters, rest) = bracketed(text);
    let parameter = |p: String| p.split_once(": ").map(|(name, kind)| pair(name, kind)).expect("a name and a type");
    let answer = rest.trim_start().strip_prefix("-> ").expect("an answer");
    let answer = answer.split(|c: char| !c.is_alphanumeric()).next().unwrap_or_default();
    let name = text.split('(').next().unwrap_or_default();
    Export { name: name.into(), parameters: listed(parameters).map(parameter).collect(), answer: answer.into() }
}

fn number_of_c(kind: &str) -> &str {
    match kind {
        "uint8_t" => "u8",
        "uint32_t" => "u32",
        "size_t" => "usize",
        "float" => "f32",
        _ => panic!("no such type: {kind}"),
    }
}

/// Of `V name(T a, ..)`: a pointer, with its length after it, is a slice.
fn of_c(answer: &str, text: &str) -> Export {
    let mut parameters = listed(bracketed(text).0).filter(|parameter| parameter != "void");
    let slice = |kind: &str, name: &str, length: Option<String>| {
        assert_eq!(length, Some(format!("size_t {name}_length")));
        match kind.strip_prefix("const ") {
            Some(item) => pair(name, &format!("&[{}]", number_of_c(item))),
            None => pair(name, &format!("&mut [{}]", number_of_c(kind))),
        }
    };
    let next = || {
        let parameter = parameters.next()?;
        Some(match parameter.split_once(" *") {
            Some((kind, name)) => slice(kind, name, parameters.next()),
            None => {
                parameter.split_once(' ').map(|(kind, name)| pair(name, number_of_c(kind))).expect("a type and a name")
            }
        })
    };
    let parameters = iter::from_fn(next).collect();
    let name = text.split('(').next().unwrap_or_default();
    Export { name: name.into(), parameters, answer: number_of_c(answer).into() }
}

fn sorted(mut exports: Vec<Export>) -> Vec<Export> {
    exports.sort_by(|one, other| one.name.cmp(&other.name));
    exports
}

fn of_header() -> Vec<Export> {
    let declared = |line: (usize, &str)| {
        let (answer, rest) = line.1.split_once(" colorgrad_")?;
        let is_declared = ["uint32_t", "size_t", "float"].contains(&answer) && rest.contains('(');
        is_declared.then(|| of_c(answer, &HEADER[line.0 + answer.len() + 1..]))
    };
    let starts = HEADER.split_inclusive('\n').scan(0, |at, line| {
        *at += line.len();
        Some((*at - line.len(), line))
    });
    sorted(starts.filter_map(declared).collect())
}

fn of_table() -> Vec<Export> {
    sorted(TABLE.split(" = ").skip(1).filter(|text| text.starts_with("colorgrad_")).map(of_rust).collect())
}

fn of_source() -> Vec<Export> {
    let files = fs::read_dir(Path::new(SOURCE)).expect("the library's source");
    let files = files.map(|file| file.expect("a file").path());
    let texts: Vec<String> = files.map(|path| fs::read_to_string(path).expect("its text")).collect();
    let exports = texts.iter().flat_map(|text| text.split("pub extern \"C\" fn ").skip(1));
    sorted(exports.map(of_rust).collect())
}

#[test]
fn header_and_table_declare_the_same() {
    assert_eq!(of_header(), of_table());
    assert!(of_header().len() >= 24, "every export is found");
}

/// Names of parameters are each file's own.
#[test]
fn and_so_does_the_source() {
    let types = |exports: Vec<Export>| {
        let of = |export: Export| {
            (export.name, export.parameters.into_iter().map(|p| p.1).collect::<Vec<_>>(), export.answer)
        };
        exports.into_iter().map(of).collect::<Vec<_>>()
    };
    assert_eq!(types(of_table()), types(of_source()));
}
