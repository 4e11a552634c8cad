//! Commands and programs in C that tests run.
use std::fs;
use std::io::Write;
use std::path::{Path, PathBuf};
use std::process::{Command, Output};

/// The repository.
pub fn root() -> PathBuf {
    Path::new(env!("CARGO_MANIFEST_DIR")).parent().unwrap().to_path_buf()
}

/// An empty folder of this name, outside the repository: below its top `rt` takes no link and no second list of crates.
pub fn scratch(name: &str) -> PathBuf {
    let folder = std::env::temp_dir().join(format!("vetchdawn{}", root().display()).replace('/', "-")).join(name);
    let _ = fs::remove_dir_all(&folder);
    fs::create_dir_all(&folder).unwrap();
    folder
}

pub fn ended(command: &mut Command) -> Output {
    command.output().unwrap_or_else(|error| panic!("{command:?}: {error}"))
}

/// What a command prints that must succeed.
pub fn done(command: &mut Command) -> String {
    let output = ended(command);
    assert!(output.status.success(), "{command:?}: {}", String::from_utf8_lossy(&output.stderr));
    String::from_utf8(output.stdout).unwrap()
}

/// What a command says that must fail, with 1.
pub fn failed(command: &mut Command) -> String {
    let output = ended(command);
    assert_eq!(output.status.code(), Some(1), "{command:?}");
    String::from_utf8(output.stderr).unwrap()
}

/// Whether a tool is there; where it is not, that is said, past the capture of what a test prints.
pub fn there(tool: &str) -> bool {
    let found = Command::new(tool).arg("--version").output().is_ok_and(|output| output.status.success());
    if !found {
        let test = std::thread::current().name().unwrap_or("a test").to_string();
        writeln!(std::io::stderr(), "{test}: skipped, there is no {tool}").unwrap();
    }
    found
}

/// A program under valgrind, which fails at an error and at a leak.
pub fn watched(program: &Path) -> Command {
    let mut valgrind = Command::new("valgrind");
    valgrind.args(["--quiet", "--error-exitcode=1", "--leak-check=full"]).arg(program);
    valgrind
}

/// A C compiler that gives no warning, on a source of the repository; what links the library is for the caller to add.
pub fn compile(std: &str, source: &str, program: &Path) -> Command {
    let mut command = Command::new("cc");
    command.arg(format!("-std={std}")).args(["-pedantic", "-O2", "-Wall", "-Wextra", "-Wconversion", "-Wno-sign-conversion", "-Werror", "-o"]);
    command.arg(program).arg(root().join(source));
    command
}

/// A program of the repository in a folder, built with its headers and its archive; nothing is bound lazily.
pub fn built(folder: &Path, std: &str, source: &str) -> PathBuf {
    let program = folder.join(Path::new(source).file_stem().unwrap());
    let mut command = compile(std, source, &program);
    done(command.arg("-I").arg(root().join("include")).arg(root().join("target/staticlib/libvetchdawn.a")).arg("-Wl,-z,now"));
    program
}
