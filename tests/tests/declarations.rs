//! The declarations of vetchdawn.h against the exported functions of the crates: the same names, and the same parameters by name, type and
//! order.
use std::collections::BTreeMap;
use std::fs;
use std::path::{Path, PathBuf};
use vetchdawn_tests::programs::root;

/// What stands between two texts, each time.
fn between<'a>(text: &'a str, start: &'a str, end: &'a str) -> impl Iterator<Item = &'a str> {
    text.split(start).skip(1).map(move |rest| rest.split(end).next().unwrap())
}

/// Without comments, each run of blanks as one.
fn plain(text: &str) -> String {
    let kept: String = text.split("/*").map(|part| part.split_once("*/").map_or(part, |(_, rest)| rest)).collect();
    kept.split_whitespace().collect::<Vec<_>>().join(" ")
}

/// A parameter of an exported function in C: a slice is a pointer and a length; `class` is a word of C++.
fn in_c(parameter: &str) -> Vec<String> {
    let (name, kind) = parameter.split_once(": ").unwrap();
    let name = if name == "class" { "class_number" } else { name };
    let number = |kind: &str| format!("uint{}_t", kind.strip_prefix('u').unwrap());
    let slice = |kind: &str| kind.strip_prefix('[').and_then(|kind| kind.strip_suffix(']')).map(number);
    let (reference, constant) = match kind.strip_prefix('&') {
        Some(kind) => kind.strip_prefix("mut ").map_or((kind, "const "), |kind| (kind, "")),
        None => return vec![format!("{} {name}", number(kind))],
    };
    match slice(reference) {
        Some(element) => vec![format!("{constant}{element} *{name}"), format!("size_t {name}_len")],
        None => vec![format!("{constant}{} *{name}", number(reference))],
    }
}

/// But for what `rt` makes, in folders `out`.
fn sources(folder: &Path, found: &mut Vec<PathBuf>) {
    for entry in fs::read_dir(folder).unwrap().map(Result::unwrap).filter(|entry| entry.file_name() != "out") {
        if entry.file_type().unwrap().is_dir() {
            sources(&entry.path(), found);
        } else if entry.path().extension().is_some_and(|ending| ending == "rt") {
            found.push(entry.path());
        }
    }
}

/// The exported functions of all crates, as C has them.
fn exported() -> BTreeMap<String, String> {
    let mut files = Vec::new();
    sources(&root().join("crates"), &mut files);
    let texts: Vec<String> = files.iter().map(|file| fs::read_to_string(file).unwrap()).collect();
    let heads = texts.iter().flat_map(|text| between(text, "pub extern \"C\" fn ", " -> u32"));
    heads.map(|head| {
        let (name, rest) = head.split_once('(').unwrap();
        let parameters: Vec<String> = rest.trim_end_matches(')').split(',').map(str::trim).filter(|parameter| !parameter.is_empty()).flat_map(in_c).collect();
        (name.to_string(), if parameters.is_empty() { "void".to_string() } else { parameters.join(", ") })
    }).collect()
}

/// The functions that the header declares.
fn declared() -> BTreeMap<String, String> {
    let header = fs::read_to_string(root().join("include/vetchdawn.h")).unwrap();
    let calls = plain(header.split("extern \"C\" {").nth(1).unwrap());
    between(&calls, "uint32_t vetch_", ");").map(|head| {
        let (name, parameters) = head.split_once('(').unwrap();
        (format!("vetch_{name}"), parameters.to_string())
    }).collect()
}

#[test]
fn the_header_declares_what_the_crates_export() {
    let exported = exported();
    assert!(exported.len() > 10);
    assert_eq!(exported, declared());
}
