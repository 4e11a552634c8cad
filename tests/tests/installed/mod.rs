//! What `make install` puts below a folder, and the tools that tests use on it.
#![allow(dead_code)]
use std::path::{Path, PathBuf};
use std::process::Command;
use std::sync::{Mutex, OnceLock};
use vetchdawn_tests::programs::{compile, done, root, scratch};

/// What examples/server.c prints.
pub const SERVER: &str = "\
page 7 again: refused by question 9
Anna, within 1: 34:0 35:0 36:0 37:0 38:0 39:0 28:1 29:1 30:1 31:1 32:1 33:1
Boris, within 1: 34:0 35:0 37:0 38:0 28:1 29:1 31:1 32:1
Anna, the file sealed, within 1: 34:0 35:0 37:0 38:0 28:1 29:1 31:1 32:1
Boris, no longer in the reading room, within 1: none
Anna, the nearest six dropped, within 2: 28:1 29:1 31:1 32:1 22:2 23:2 25:2 26:2
the store is sound
";

/// `make` in the repository, without what an outer `make` hands on.
pub fn make(words: &[&str]) -> Command {
    let mut command = Command::new("make");
    command.args(["--no-print-directory", "-C"]).arg(root()).args(words);
    for name in ["MAKEFLAGS", "MFLAGS", "MAKELEVEL", "DESTDIR", "PREFIX", "LIBDIR"] {
        command.env_remove(name);
    }
    command
}

/// `make install`, one at a time: if something is to be built, two must not build it.
pub fn install(words: &[&str]) {
    static ONE: Mutex<()> = Mutex::new(());
    let _one = ONE.lock().unwrap_or_else(|broken| broken.into_inner());
    done(make(&["install"]).args(words));
}

/// The folder that all is installed below, once for all tests of a program.
pub fn installed() -> &'static Path {
    static FOLDER: OnceLock<PathBuf> = OnceLock::new();
    FOLDER.get_or_init(|| {
        let folder = scratch("installed");
        install(&[&format!("PREFIX={}", folder.display())]);
        folder
    })
}

/// A C compiler that gives no warning, on examples/server.c; what links the library is for the caller to add.
pub fn compile_server(built: &Path) -> Command {
    compile("c99", "examples/server.c", built)
}
