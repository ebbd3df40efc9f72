//! An archive that is not of the crate's version is not used: its records may have other lengths.
mod programs;

use std::fs;
use std::process::Command;

/// C functions with the names of the archive's, without a version; none is ever called.
fn calls() -> String {
    let ffi = fs::read_to_string(programs::root().join("rust/src/ffi.rs")).unwrap();
    let names = ffi.lines().filter_map(|line| line.trim().strip_prefix("pub fn lipvezor_")?.split('(').next());
    let others: Vec<&str> = names.filter(|name| *name != "version").collect();
    assert!(others.len() >= 16, "{others:?}");
    others.iter().map(|name| format!("void lipvezor_{name}(void) {{}}\n")).collect()
}

/// The three ways in: a record, and without one a unit that is read and the rows that tiles need.
const PROGRAM: &str = "use lipvezor::*;

fn main() {
    match std::env::args().nth(1).as_deref() {
        None => _ = Record::new(Code::C1, 1),
        Some(\"unit\") => _ = Unit::read(&[0; 20]),
        _ => _ = calls::rows_needed(5, &[1]),
    }
}
";

#[test]
fn of_the_next_version() {
    let own = env!("CARGO_PKG_VERSION");
    let [first, second] = [env!("CARGO_PKG_VERSION_MAJOR"), env!("CARGO_PKG_VERSION_MINOR")].map(|part| part.parse::<usize>().unwrap());
    let number = first * 10_000 + (second + 1) * 100 + 7;
    let version = format!("unsigned long lipvezor_version(void) {{ return {number}; }}\n");
    let archive = programs::archive("other_archive/next", &(calls() + &version));
    let (mut cargo, program) = programs::cargo("other_archive/user_of_next", PROGRAM, &archive);
    programs::run(&mut cargo);
    for arguments in [&[][..], &["unit"], &["rows"]] {
        let said = programs::fail(Command::new(&program).args(arguments));
        let due =
            format!("lipvezor: the crate is {own} and liblipvezor.a is {first}.{}.7; the first two numbers must be the same", second + 1);
        assert!(said.lines().any(|line| line == due), "{said}");
    }
}

/// From before 0.3.0, which had no version: it does not link.
#[test]
fn without_a_version() {
    let archive = programs::archive("other_archive/none", &calls());
    let (mut cargo, _) = programs::cargo("other_archive/user_of_none", PROGRAM, &archive);
    let said = programs::fail(&mut cargo);
    assert!(said.contains("lipvezor_version"), "{said}");
}
