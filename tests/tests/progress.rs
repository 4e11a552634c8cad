//! .ci/progress: what it shows and keeps of a command that stands for `rt`.
use std::fs;
use std::io::{BufRead, BufReader, Read};
use std::os::unix::fs::PermissionsExt;
use std::path::{Path, PathBuf};
use std::process::{Command, Stdio};
use vetchdawn_tests::programs::scratch;

/// A folder with a list of crates, b above a, and a script as its `rt`.
fn folder_with(name: &str, script: &str) -> PathBuf {
    let folder = scratch(name);
    fs::write(folder.join("crates.txt"), "# two: and no third\na:\nb staticlib: a json\n").unwrap();
    fs::write(folder.join("rt"), format!("#!/bin/sh\n{script}")).unwrap();
    fs::set_permissions(folder.join("rt"), fs::Permissions::from_mode(0o755)).unwrap();
    folder
}

/// `progress` on `rt all check` in that folder.
fn progress(folder: &Path) -> Command {
    let mut command = Command::new(Path::new(env!("CARGO_MANIFEST_DIR")).join("../.ci/progress"));
    command.args(["log", "rt", "all", "check"]).current_dir(folder).env_remove("BEGAN").stderr(Stdio::piped());
    command.env("PATH", format!("{}:{}", folder.display(), std::env::var("PATH").unwrap()));
    command
}

/// The lines without their seconds.
fn shown(text: &str) -> Vec<&str> {
    text.lines().map(|line| line.split_once(" s  ").map_or(line, |parts| parts.1)).collect()
}

/// A crate is shown while `rt` still waits: here until the line was seen.
#[test]
fn a_crate_is_shown_when_it_is_done() {
    let proved = ["== a\nfn a: proved\nlogic=proved functions=1\n", "== b\nlogic=proved functions=1\n== summary\na: ok\nb: ok\n2 of 2 crates ok\n"];
    let script = format!("printf '{}'\nuntil [ -e seen ]; do sleep 0.1; done\nprintf '{}'\n", proved[0], proved[1]);
    let folder = folder_with("early", &script);
    let mut child = progress(&folder).spawn().unwrap();
    let mut said = BufReader::new(child.stderr.take().unwrap());
    let mut text = String::new();
    said.read_line(&mut text).unwrap();
    assert_eq!(shown(&text), ["1 of 2  a proved"]);
    fs::write(folder.join("seen"), "").unwrap();
    said.read_to_string(&mut text).unwrap();
    assert!(child.wait().unwrap().success());
    assert_eq!(shown(&text)[1..], ["2 of 2  b proved", "2 of 2 crates ok"]);
    assert_eq!(fs::read_to_string(folder.join("log")).unwrap(), proved.concat());
}

/// `rt` says nothing behind the name of such a crate, or where it found what is kept of it.
#[test]
fn unchanged_crates_are_one_line() {
    let script = "printf '== a\n== b\nrt: b: begins with what a check kept in /c/crates/b\n== summary\na: ok\nb: ok\n2 of 2 crates ok\n'\n";
    let output = progress(&folder_with("unchanged", script)).output().unwrap();
    assert_eq!(shown(&String::from_utf8(output.stderr).unwrap()), ["2 unchanged since they were last proved", "2 of 2 crates ok"]);
}

#[test]
fn a_failure_is_handed_on_with_what_was_said_of_it() {
    let script = "printf '== a\nloaded\nlogic=proved functions=1\n== b\n\nwhy\nlogic=not-proved\n== summary\na: ok\nb: failed (1)\n1 of 2 crates ok\n'\nexit 3\n";
    let folder = folder_with("failure", script);
    let output = progress(&folder).output().unwrap();
    assert_eq!(output.status.code(), Some(3));
    let lines = ["1 of 2  a proved", "2 of 2  b NOT PROVED", "b: failed (1)", "1 of 2 crates ok"];
    let faults = ["== b", "", "why", "logic=not-proved", "== summary", "b: failed (1)", "1 of 2 crates ok", "all of it: log"];
    assert_eq!(shown(&String::from_utf8(output.stderr).unwrap()), [&lines[..], &faults[..]].concat());
    assert!(fs::read_to_string(folder.join("log")).unwrap().starts_with("== a\nloaded\nlogic=proved functions=1\n"));
}

/// Where `rt` stops before it names a crate, and of edits those that were not refused.
#[test]
fn what_stopped_rt_is_handed_on() {
    let script = "printf 'src/lib.rt:1:1: error\nrt: mend these first\nrt: must-fail a/x.edit: refused, as it must be\nrt: must-fail a/y.edit: NOT REFUSED\n'\nexit 1\n";
    let output = progress(&folder_with("stopped", script)).output().unwrap();
    assert_eq!(output.status.code(), Some(1));
    let lines = ["mend these first", "must-fail a/x.edit: refused, as it must be", "must-fail a/y.edit: NOT REFUSED"];
    let faults = ["src/lib.rt:1:1: error", "rt: mend these first", "rt: must-fail a/y.edit: NOT REFUSED", "all of it: log"];
    assert_eq!(shown(&String::from_utf8(output.stderr).unwrap()), [&lines[..], &faults[..]].concat());
}
