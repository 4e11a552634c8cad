//! The header and the archive as installed, and as a C program uses them: examples/server.c, without a warning and without an error
//! under valgrind.
mod installed;

use installed::{compile_server, installed, SERVER};
use std::process::Command;
use vetchdawn_tests::programs::{done, scratch, watched};

#[test]
fn server_in_c() {
    let folder = installed();
    let built = scratch("server").join("server");
    done(compile_server(&built).arg("-I").arg(folder.join("include")).arg(folder.join("lib/libvetchdawn.a")));
    assert_eq!(done(&mut Command::new(&built)), SERVER);
    assert_eq!(done(&mut watched(&built)), SERVER);
}
