//! Programs in C and in Rust, compiled and run as a user does it.
#![allow(dead_code)]
use std::fs;
use std::path::{Path, PathBuf};
use std::process::Command;

/// What C is compiled with.
const C_FLAGS: [&str; 5] = ["-std=c11", "-Wall", "-Wextra", "-Werror", "-pedantic"];

pub fn root() -> PathBuf {
    Path::new(env!("CARGO_MANIFEST_DIR")).parent().unwrap().to_owned()
}

/// The folder with the archive: LIPVEZOR_LIB_DIR, or where a release or `make archive` has it.
fn archive_folder() -> PathBuf {
    let named = std::env::var_os("LIPVEZOR_LIB_DIR").filter(|value| !value.is_empty()).map(PathBuf::from);
    let mut places = named.map_or_else(|| vec![root().join("lib"), root().join("target/staticlib")], |folder| vec![folder]).into_iter();
    let place = places.find(|place| place.join("liblipvezor.a").exists()).expect("the archive is there");
    place.canonicalize().unwrap()
}

/// A folder of Cargo's own for what is built.
fn folder(name: &str) -> PathBuf {
    let folder = Path::new(env!("CARGO_TARGET_TMPDIR")).with_file_name(name);
    fs::create_dir_all(&folder).unwrap();
    folder
}

/// Runs a command, which must exit with 0: what it prints.
pub fn run(command: &mut Command) -> String {
    let output = command.output().unwrap_or_else(|error| panic!("{command:?}: {error}"));
    let (printed, errors) = (String::from_utf8_lossy(&output.stdout), String::from_utf8_lossy(&output.stderr));
    assert!(output.status.success(), "{command:?}: {}\n{printed}{errors}", output.status);
    printed.into_owned()
}

/// Runs a command, which must fail: what it says of that.
pub fn fail(command: &mut Command) -> String {
    let output = command.output().unwrap_or_else(|error| panic!("{command:?}: {error}"));
    assert!(!output.status.success(), "{command:?} doesn't fail");
    String::from_utf8_lossy(&output.stderr).into_owned()
}

/// Compiles a C program.
pub fn c_program(name: &str, text: &str) -> PathBuf {
    let folder = folder(name);
    let (source, program) = (folder.join("main.c"), folder.join("main"));
    fs::write(&source, text).unwrap();
    let mut cc = Command::new("cc");
    cc.args(C_FLAGS).arg("-I").arg(root().join("include")).arg(&source).arg(archive_folder().join("liblipvezor.a")).arg("-o").arg(&program);
    run(&mut cc);
    program
}

/// Compiles a C program and runs it: what it prints.
pub fn c(name: &str, text: &str) -> String {
    run(Command::new(c_program(name, text)).current_dir(folder(name)))
}

/// An archive with functions of these texts, in a folder of its own.
pub fn archive(name: &str, text: &str) -> PathBuf {
    let folder = folder(name);
    let (source, object, archive) = (folder.join("calls.c"), folder.join("calls.o"), folder.join("liblipvezor.a"));
    fs::write(&source, text).unwrap();
    run(Command::new("cc").args(C_FLAGS).arg("-c").arg(&source).arg("-o").arg(&object));
    run(Command::new("ar").arg("rcs").arg(&archive).arg(&object));
    folder
}

/// How a Rust program is built with the crate as its only dependency, over the archive in a folder; and the program.
pub fn cargo(name: &str, text: &str, archive: &Path) -> (Command, PathBuf) {
    let folder = folder(name);
    fs::create_dir_all(folder.join("src")).unwrap();
    fs::write(folder.join("src/main.rs"), text).unwrap();
    let manifest = format!(
        "[package]\nname = \"user\"\nversion = \"0.0.0\"\nedition = \"2021\"\n\n[dependencies]\nlipvezor = {{ path = {:?} }}\n\n[workspace]\n",
        env!("CARGO_MANIFEST_DIR")
    );
    fs::write(folder.join("Cargo.toml"), manifest).unwrap();
    let mut cargo = Command::new(env!("CARGO"));
    cargo.args(["rustc", "--offline", "--quiet", "--jobs", "1", "--", "-D", "warnings"]).current_dir(&folder);
    cargo.env("LIPVEZOR_LIB_DIR", archive).env("CARGO_TARGET_DIR", folder.join("target")).env_remove("LIPVEZOR_EARLIER");
    (cargo, folder.join("target/debug/user"))
}

/// Builds an example of the crate.
pub fn example(name: &str) -> PathBuf {
    let target = folder("example");
    let mut cargo = Command::new(env!("CARGO"));
    cargo.args(["build", "--offline", "--quiet", "--jobs", "1", "--example", name]).current_dir(env!("CARGO_MANIFEST_DIR"));
    cargo.env("LIPVEZOR_LIB_DIR", archive_folder()).env("CARGO_TARGET_DIR", &target).env_remove("LIPVEZOR_EARLIER");
    run(&mut cargo);
    target.join("debug/examples").join(name)
}

/// Builds a Rust program and runs it: what it prints.
pub fn rust(name: &str, text: &str) -> String {
    let (mut cargo, program) = cargo(name, text, &archive_folder());
    run(&mut cargo);
    run(Command::new(program).current_dir(folder(name)))
}
