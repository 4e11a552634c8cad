//! The headers as C programs use them: in every C and C++ without a warning; their names for numbers; the calls on the struct of tables; the
//! stack that calls take; README's first program; an index saved and loaded.
use std::fs;
use std::path::{Path, PathBuf};
use std::process::Command;
use vetchdawn_tests::programs::{built, done, failed, root, watched};

fn folder(name: &str) -> PathBuf {
    let folder = Path::new(env!("CARGO_TARGET_TMPDIR")).join(name);
    fs::create_dir_all(&folder).unwrap();
    folder
}

/// A header by itself, in some languages.
fn clean(header: &str, compiler: &str, language: &str, standards: &[&str]) {
    for std in standards {
        let mut command = Command::new(compiler);
        command.args(["-x", language, &format!("-std={std}"), "-pedantic", "-Wall", "-Wextra", "-Wshadow", "-Wconversion", "-Werror", "-fsyntax-only"]);
        done(command.arg(root().join("include").join(header)));
    }
}

#[test]
fn headers_in_c_and_cpp() {
    clean("vetchdawn.h", "cc", "c", &["c89", "c99", "c11", "c17", "c2x"]);
    clean("vetchdawn_tables.h", "cc", "c", &["c99", "c11", "c17", "c2x"]);
    clean("vetchdawn_tables.h", "c++", "c++", &["c++11", "c++14", "c++17", "c++20"]);
}

#[test]
fn names_for_numbers() {
    let program = built(&folder("numbers"), "c89", "tests/c/numbers.c");
    done(&mut watched(&program));
}

#[test]
fn calls_on_tables() {
    let program = built(&folder("tables"), "c99", "tests/c/tables.c");
    done(&mut watched(&program));
}

#[test]
fn stack_of_calls() {
    let program = built(&folder("stack"), "c99", "tests/c/stack.c");
    println!("{}", done(&mut Command::new(program)));
}

/// The lines of README's first program, which are indented there.
fn first_program() -> String {
    let readme = fs::read_to_string(root().join("README.md")).unwrap();
    let lines = readme.lines().skip_while(|line| *line != "    #include <stdio.h>").take_while(|line| line.is_empty() || line.starts_with("    "));
    lines.map(|line| line.strip_prefix("    ").unwrap_or(line).to_string() + "\n").collect()
}

const PRINTED: &str = "page 7 at distance 0\npage 2 at distance 1\n";

#[test]
fn first_program_of_the_readme() {
    let folder = folder("readme");
    let source = folder.join("first.c");
    fs::write(&source, first_program()).unwrap();
    let program = built(&folder, "c99", source.to_str().unwrap());
    assert_eq!(done(&mut watched(&program)), PRINTED);
    assert!(done(Command::new("nm").arg(&program)).contains(" vetch_version_3\n"), "the major version is asked for");
}

/// The same program in C++, which links by the names of C.
#[test]
fn first_program_in_cpp() {
    let folder = folder("readme_cpp");
    let (source, program) = (folder.join("first.cpp"), folder.join("first"));
    fs::write(&source, first_program()).unwrap();
    let mut command = Command::new("c++");
    command.args(["-std=c++11", "-pedantic", "-Wall", "-Werror", "-I"]).arg(root().join("include"));
    done(command.arg(&source).arg(root().join("target/staticlib/libvetchdawn.a")).arg("-o").arg(&program));
    assert_eq!(done(&mut Command::new(&program)), PRINTED);
}

/// Saved and loaded; then the file cut, longer, of another byte order, and with one word changed.
#[test]
fn saved_and_loaded() {
    let folder = folder("saving");
    let (program, file) = (built(&folder, "c99", "examples/saving.c"), folder.join("index"));
    let near = "page 4 at distance 0\npage 3 at distance 1\npage 5 at distance 1\n";
    assert_eq!(done(Command::new(&program).arg("save").arg(&file)), "");
    assert_eq!(done(watched(&program).arg("load").arg(&file)), near);
    let bytes = fs::read(&file).unwrap();
    let said = |changed: &[u8]| {
        fs::write(&file, changed).unwrap();
        let said = failed(Command::new(&program).arg("load").arg(&file));
        said.rsplit_once(": ").unwrap().1.trim_end().to_string()
    };
    assert_eq!(said(&bytes[..bytes.len() - 1]), "not as long as these settings need it, or of another layout");
    assert_eq!(said(&[&bytes[..], &[0]].concat()), "not as long as these settings need it, or of another layout");
    let swapped: Vec<u8> = bytes.chunks(4).flat_map(|word| word.iter().rev().copied()).collect();
    assert_eq!(said(&swapped), "no opening, or a table too short for it");
    let mut damaged = bytes.clone();
    damaged[bytes.len() - 100 * 8 + 4 * 8] ^= 1;
    assert_eq!(said(&damaged), "damaged");
    fs::write(&file, &bytes).unwrap();
    assert_eq!(done(Command::new(&program).arg("load").arg(&file)), near);
}
