//! What `make install` puts in place: that it is all there, what the shared library offers, that pkg-config, CMake and Python find it,
//! and that `make uninstall` leaves nothing.
mod installed;

use installed::{compile_server, install, installed, make, SERVER};
use std::collections::BTreeSet;
use std::fs;
use std::path::{Path, PathBuf};
use std::process::Command;
use vetchdawn_tests::programs::{done, ended, root, scratch, there};

const PYTHON: &str = "\
page 7 again: refused by question 9
no class granted: []
the open stacks: [(1, 0), (2, 0), (3, 1), (5, 1), (6, 2), (7, 2)]
the sealed file too: [(0, 0), (1, 0), (2, 0), (3, 1), (4, 1), (5, 1), (6, 2), (7, 2), (8, 2)]
page 7: [9, 10, 3, 4, 5, 6, 7, 8]
page 50: None
";

/// The three numbers of the header's version.
fn version() -> [String; 3] {
    let text = fs::read_to_string(root().join("include/vetchdawn.h")).unwrap();
    ["MAJOR", "MINOR", "PATCH"].map(|part| {
        let head = format!("#define VETCHDAWN_VERSION_{part} ");
        let number = text.lines().find_map(|line| line.strip_prefix(&head)).unwrap_or_else(|| panic!("no {head}"));
        assert!(number.parse::<u32>().is_ok(), "{head}{number}");
        number.to_string()
    })
}

/// The files and links below a folder, by their paths from there.
fn files(folder: &Path) -> BTreeSet<String> {
    let mut found = BTreeSet::new();
    let mut folders = vec![folder.to_path_buf()];
    while let Some(next) = folders.pop() {
        for entry in fs::read_dir(next).unwrap().map(Result::unwrap) {
            if entry.file_type().unwrap().is_dir() {
                folders.push(entry.path());
            } else {
                found.insert(entry.path().strip_prefix(folder).unwrap().to_str().unwrap().to_string());
            }
        }
    }
    found
}

/// The names of the files in a folder of the repository, with this ending, each behind a path.
fn names(folder: &str, ending: &str, path: &str) -> Vec<String> {
    let entries = fs::read_dir(root().join(folder)).unwrap().map(Result::unwrap).filter(|entry| entry.file_type().unwrap().is_file());
    entries.map(|entry| entry.file_name().into_string().unwrap()).filter(|name| name.ends_with(ending)).map(|name| path.to_string() + &name).collect()
}

/// What is installed below a prefix whose libraries are in this folder.
fn expected(lib: &str) -> BTreeSet<String> {
    let [major, minor, patch] = version();
    let documents = "share/doc/vetchdawn/";
    let mut all: BTreeSet<String> = ["bin/vetchdawn", "share/man/man1/vetchdawn.1", "share/doc/vetchdawn/installed.txt"].map(String::from).into();
    let libraries = ["libvetchdawn.a", "libvetchdawn.so", "pkgconfig/vetchdawn.pc", "cmake/vetchdawn/vetchdawnConfig.cmake", "cmake/vetchdawn/vetchdawnConfigVersion.cmake"];
    all.extend(libraries.map(|name| format!("{lib}/{name}")));
    all.extend([format!("{lib}/libvetchdawn.so.{major}"), format!("{lib}/libvetchdawn.so.{major}.{minor}.{patch}")]);
    all.extend(names("include", ".h", "include/"));
    let docs = ["docs", "docs/bench", "docs/landings"].into_iter().flat_map(|folder| [".md", ".svg", ".txt"].map(|ending| (folder, ending)));
    for (folder, ending) in docs.chain([("examples", ".c"), ("examples", ".py")]) {
        all.extend(names(folder, ending, &format!("{documents}{folder}/")));
    }
    all.extend(["README.md", "CHANGELOG.md"].map(|name| format!("{documents}{name}")));
    all
}

/// The functions that a header declares without defining them.
fn declared(header: &str) -> BTreeSet<String> {
    let mut text = header.to_string();
    while let Some(start) = text.find("/*") {
        let length = text[start..].find("*/").unwrap() + 2;
        text.replace_range(start..start + length, " ");
    }
    let plain: Vec<&str> = text.lines().filter(|line| !line.starts_with('#') && !line.starts_with("extern \"C\"")).collect();
    let (mut depth, mut part, mut found) = (0u32, String::new(), BTreeSet::new());
    for letter in plain.join("\n").chars() {
        match letter {
            '{' => depth += 1,
            '}' => depth = depth.saturating_sub(1),
            ';' if depth == 0 && !part.trim_start().starts_with("static") => found.extend(called(&part)),
            _ if depth == 0 => part.push(letter),
            _ => {}
        }
        if "{};".contains(letter) {
            part.clear();
        }
    }
    found
}

/// The name before the first bracket, if it is one of the library's.
fn called(declaration: &str) -> Option<String> {
    let name = declaration.split_once('(')?.0.split_whitespace().last()?.trim_start_matches('*');
    name.starts_with("vetch_").then(|| name.to_string())
}

fn shared(folder: &Path) -> PathBuf {
    folder.join("lib/libvetchdawn.so")
}

/// The words that pkg-config gives for the installed folder.
fn words(options: &[&str]) -> Vec<String> {
    let mut command = Command::new("pkg-config");
    command.env("PKG_CONFIG_PATH", installed().join("lib/pkgconfig")).args(options).arg("vetchdawn");
    done(&mut command).split_whitespace().map(String::from).collect()
}

fn needed(program: &Path) -> bool {
    done(Command::new("readelf").arg("-d").arg(program)).contains("Shared library: [libvetchdawn.so.")
}

/// Runs a program with the installed shared library.
fn run_shared(program: &Path, folder: &Path) -> String {
    assert!(needed(program));
    done(Command::new(program).env("LD_LIBRARY_PATH", folder.join("lib")))
}

#[test]
fn all_files() {
    assert_eq!(files(installed()), expected("lib"));
}

#[test]
fn soname() {
    let [major, minor, patch] = version();
    let said = done(Command::new("readelf").arg("-d").arg(shared(installed())));
    assert!(said.contains(&format!("Library soname: [libvetchdawn.so.{major}]")), "{said}");
    assert!(!said.contains("TEXTREL") && said.contains("NOW"), "{said}");
    let file = fs::canonicalize(shared(installed())).unwrap();
    assert!(file.ends_with(format!("libvetchdawn.so.{major}.{minor}.{patch}")), "{file:?}");
}

#[test]
fn exported_calls() {
    let said = done(Command::new("nm").args(["-D", "--defined-only", "--format=posix"]).arg(shared(installed())));
    let exported: BTreeSet<String> = said.lines().map(|line| line.split(' ').next().unwrap().to_string()).collect();
    assert!(exported.contains(&format!("vetch_version_{}", version()[0])));
    let headers = names("include", ".h", "include/");
    let calls: BTreeSet<String> = headers.iter().flat_map(|path| declared(&fs::read_to_string(installed().join(path)).unwrap())).collect();
    assert!(calls.len() > 10);
    assert_eq!(exported, calls);
}

#[test]
fn declarations_are_told_from_definitions() {
    let header = "#define A 1;\n/* vetch_no(void); */\nextern \"C\" {\nuint32_t vetch_a(int x,\n   int y);\nstatic inline int vetch_b(void) { vetch_c(); return 1; }\nint *vetch_d(void);\n}\nstatic int vetch_e(void);\n";
    assert_eq!(declared(header), BTreeSet::from(["vetch_a".to_string(), "vetch_d".to_string()]));
}

#[test]
fn shared_library_by_pkg_config() {
    if there("pkg-config") {
        let built = scratch("by_pkg_config").join("server");
        done(compile_server(&built).args(words(&["--cflags", "--libs"])));
        assert_eq!(run_shared(&built, installed()), SERVER);
        assert_eq!(words(&["--modversion"]), [version().join(".")]);
    }
}

#[test]
fn archive_by_pkg_config() {
    if there("pkg-config") {
        let built = scratch("archive_by_pkg_config").join("server");
        done(compile_server(&built).args(words(&["--cflags"])).args(words(&["--variable=archive"])));
        assert!(!needed(&built));
        assert_eq!(done(&mut Command::new(&built)), SERVER);
        done(compile_server(&built).arg("-static").args(words(&["--static", "--cflags", "--libs"])));
        assert_eq!(done(&mut Command::new(&built)), SERVER);
    }
}

#[test]
fn example_in_python() {
    if there("python3") {
        let script = installed().join("share/doc/vetchdawn/examples/search.py");
        assert_eq!(done(Command::new("python3").arg(&script).arg(shared(installed()))), PYTHON);
        assert_eq!(done(Command::new("python3").arg(&script).env("LD_LIBRARY_PATH", installed().join("lib"))), PYTHON);
    }
}

/// CMake, in a folder with these lines as its CMakeLists.txt, on what is installed below another.
fn cmake(folder: &Path, lines: &str, prefix: &Path) -> Command {
    fs::write(folder.join("CMakeLists.txt"), format!("cmake_minimum_required(VERSION 3.10)\nproject(test C)\n{lines}")).unwrap();
    let mut command = Command::new("cmake");
    command.arg("-S").arg(folder).arg("-B").arg(folder.join("built")).arg(format!("-DCMAKE_PREFIX_PATH={}", prefix.display()));
    command
}

#[test]
fn cmake_package() {
    if there("cmake") {
        let folder = scratch("cmake");
        // installed elsewhere, and moved
        let moved = folder.join("moved");
        done(Command::new("cp").arg("-a").arg(installed()).arg(&moved));
        let lines = format!(
            "find_package(vetchdawn {1} REQUIRED CONFIG)\n\
             add_executable(with_shared {0}/examples/server.c)\ntarget_link_libraries(with_shared vetchdawn::vetchdawn)\n\
             add_executable(with_archive {0}/examples/server.c)\ntarget_link_libraries(with_archive vetchdawn::vetchdawn_static)\n",
            root().display(),
            version()[0]
        );
        done(&mut cmake(&folder, &lines, &moved));
        done(Command::new("cmake").arg("--build").arg(folder.join("built")));
        assert_eq!(run_shared(&folder.join("built/with_shared"), &moved), SERVER);
        assert!(!needed(&folder.join("built/with_archive")));
        assert_eq!(done(&mut Command::new(folder.join("built/with_archive"))), SERVER);
    }
}

#[test]
fn cmake_versions() {
    if there("cmake") {
        let folder = scratch("cmake_versions");
        let next = version()[0].parse::<u32>().unwrap() + 1;
        let tried = [format!("{next}"), "0.9".into(), format!("{}.9999", next - 1)];
        let asked: Vec<String> = tried.iter().map(|version| format!("find_package(vetchdawn {version} CONFIG QUIET)\nmessage(STATUS \"found ${{vetchdawn_FOUND}}\")\n")).collect();
        let said = done(&mut cmake(&folder, &asked.concat(), installed()));
        assert_eq!(said.matches("found 0").count(), tried.len(), "{said}");
    }
}

#[test]
fn man_page() {
    if there("groff") {
        let output = ended(Command::new("groff").args(["-t", "-man", "-Tutf8", "-ww"]).arg(root().join("docs/vetchdawn.1")));
        assert!(output.status.success() && output.stderr.is_empty(), "{}", String::from_utf8_lossy(&output.stderr));
    }
}

/// The man page's example, given to a shell.
#[test]
fn example_of_the_man_page() {
    let text = fs::read_to_string(installed().join("share/man/man1/vetchdawn.1")).unwrap();
    let from = text.find("\n{\n").unwrap();
    let length = text[from..].find(".RE").unwrap();
    let printed = done(Command::new("/bin/sh").arg("-c").arg(text[from..from + length].replace("\\e", "\\")).env("PATH", installed().join("bin")));
    assert_eq!(printed, fs::read_to_string(root().join("crates/vetchdawn/stdout")).unwrap());
    assert!(text.contains(&printed));
}

#[test]
fn package_below_another_folder() {
    let folder = scratch("package");
    let places = [&format!("DESTDIR={}", folder.display()), "PREFIX=/usr", "LIBDIR=lib/x86_64-linux-gnu"];
    install(&places);
    assert_eq!(files(&folder.join("usr")), expected("lib/x86_64-linux-gnu"));
    let text = fs::read_to_string(folder.join("usr/lib/x86_64-linux-gnu/pkgconfig/vetchdawn.pc")).unwrap();
    assert!(text.starts_with("prefix=/usr\nlibdir=${prefix}/lib/x86_64-linux-gnu\nincludedir=${prefix}/include\n"), "{text}");
    let text = fs::read_to_string(folder.join("usr/lib/x86_64-linux-gnu/cmake/vetchdawn/vetchdawnConfig.cmake")).unwrap();
    assert!(text.contains("/../../../../include\"") && !text.contains('@'), "{text}");
    done(&mut make(&["uninstall", places[0], places[1]]));
    assert_eq!(fs::read_dir(&folder).unwrap().count(), 0);
}

/// What was there before is there afterwards, an empty folder too, though it was installed twice.
#[test]
fn uninstall_leaves_what_was_there() {
    let folder = scratch("uninstalled");
    fs::create_dir(folder.join("bin")).unwrap();
    fs::create_dir_all(folder.join("share/doc/vetchdawn")).unwrap();
    fs::write(folder.join("share/doc/vetchdawn/notes"), "mine").unwrap();
    let prefix = format!("PREFIX={}", folder.display());
    install(&[&prefix]);
    install(&[&prefix]);
    done(&mut make(&["uninstall", &prefix]));
    assert_eq!(files(&folder), BTreeSet::from(["share/doc/vetchdawn/notes".to_string()]));
    let left: BTreeSet<String> = fs::read_dir(&folder).unwrap().map(|entry| entry.unwrap().file_name().into_string().unwrap()).collect();
    assert_eq!(left, BTreeSet::from(["bin".to_string(), "share".to_string()]));
}

/// A folder that was copied is uninstalled by itself.
#[test]
fn uninstall_of_a_copy() {
    let folder = scratch("copied");
    let copy = folder.join("copy");
    done(Command::new("cp").arg("-a").arg(installed()).arg(&copy));
    done(&mut make(&["uninstall", &format!("PREFIX={}", copy.display())]));
    assert_eq!(fs::read_dir(&copy).unwrap().count(), 0);
    assert_eq!(files(installed()), expected("lib"));
}

/// What cannot be removed keeps the record, so that the next time removes the rest.
#[test]
fn uninstall_in_two_times() {
    let folder = scratch("twice");
    let prefix = format!("PREFIX={}", folder.display());
    install(&[&prefix]);
    let archive = folder.join("lib/libvetchdawn.a");
    fs::remove_file(&archive).unwrap();
    fs::create_dir(&archive).unwrap();
    assert!(!ended(&mut make(&["uninstall", &prefix])).status.success());
    fs::remove_dir(&archive).unwrap();
    done(&mut make(&["uninstall", &prefix]));
    assert_eq!(files(&folder), BTreeSet::new());
}

#[test]
fn places_are_asked_for_first() {
    let told = |place: &str| {
        let output = ended(&mut make(&["install", place]));
        assert!(!output.status.success());
        String::from_utf8(output.stderr).unwrap()
    };
    assert!(told("PREFIX=/tmp/p q").starts_with("PREFIX and LIBDIR are made of "));
    assert!(told("PREFIX=/tmp/p&q").starts_with("PREFIX and LIBDIR are made of "));
    assert!(told(&format!("PREFIX={}", root().display())).starts_with("PREFIX is this repository"));
}

/// The times of all that is built, and of what was kept of runs of `rt`.
fn times() -> Vec<(String, std::time::SystemTime)> {
    let folders = ["target/bin", "target/lib", "target/staticlib", "target/log"].map(|folder| root().join(folder));
    folders.iter().flat_map(|folder| files(folder).into_iter().map(|name| folder.join(name))).map(|path| (path.display().to_string(), fs::symlink_metadata(path).unwrap().modified().unwrap())).collect()
}

#[test]
fn install_builds_nothing_again() {
    installed();
    let before = times();
    install(&[&format!("PREFIX={}", scratch("again").display())]);
    assert!(before == times());
}

/// A folder with links to some tools, to be the whole PATH.
fn path_with(name: &str, tools: &[&str]) -> PathBuf {
    let folder = scratch(name);
    for tool in tools {
        let found = done(Command::new("sh").arg("-c").arg(format!("command -v {tool}")));
        std::os::unix::fs::symlink(found.trim_end(), folder.join(tool)).unwrap();
    }
    folder
}

#[test]
fn missing_tools_are_named() {
    let path = path_with("few_tools", &["make", "sh", "awk", "find", "date"]);
    for (target, start) in [("prove", "rt, the command of the Rattle kit, is not on the PATH: "), ("fuzz", "cargo, "), ("picture", "python3, ")] {
        let output = ended(make(&[target]).env("PATH", &path));
        let said = String::from_utf8(output.stderr).unwrap();
        assert!(!output.status.success() && said.starts_with(start), "{said}");
    }
    assert!(done(make(&[]).env("PATH", &path)).contains("make install"));
}
