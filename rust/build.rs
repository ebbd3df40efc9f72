// Names the proved archive, liblipvezor.a. It is looked for in
//   1. the folder LIPVEZOR_LIB_DIR, if that is set,
//   2. lib beside this crate's folder, as in a release,
//   3. target/staticlib beside this crate's folder, where `make archive` puts it.
//
// Where LIPVEZOR_EARLIER names a folder with the archive of an earlier version, the examples get that too, with its calls renamed earlier_…, and
// cfg(earlier): `make bench` then measures beside it. Only this needs objcopy.
use std::path::{Path, PathBuf};
use std::process::Command;

/// The calls of an earlier version that the bench makes.
const CALLED: [&str; 6] = ["version", "n", "encode", "write", "take", "close"];

/// Ends the build with one line that says why.
fn fail(why: String) -> ! {
    eprintln!("lipvezor: {why}");
    std::process::exit(1)
}

/// A folder that cargo or the caller names.
fn folder(variable: &str) -> Option<PathBuf> {
    std::env::var_os(variable).filter(|value| !value.is_empty()).map(PathBuf::from)
}

/// The archive in a folder.
fn archive(folder: &Path) -> PathBuf {
    folder.join("liblipvezor.a")
}

/// The folder with the archive.
fn find() -> PathBuf {
    if let Some(named) = folder("LIPVEZOR_LIB_DIR") {
        if !archive(&named).exists() {
            let hint = if named.is_relative() { ": it must be an absolute path" } else { "" };
            fail(format!("LIPVEZOR_LIB_DIR is {}, and no liblipvezor.a is there{hint}", named.display()));
        }
        return named;
    }
    let here = folder("CARGO_MANIFEST_DIR").expect("cargo sets it");
    let places = [here.join("../lib"), here.join("../target/staticlib")];
    match places.iter().find(|place| archive(place).exists()) {
        Some(place) => place.clone(),
        None => fail(format!(
            "no liblipvezor.a in {} or {}: `make archive` makes it, and LIPVEZOR_LIB_DIR may name another folder",
            places[0].display(),
            places[1].display()
        )),
    }
}

/// Ends the build where an archive is from before 0.3.0, whose calls are others than those that the bench declares: it has no lipvezor_version.
fn check_shape(archive: &Path) {
    let name = b"lipvezor_version";
    match std::fs::read(archive) {
        Ok(bytes) if bytes.windows(name.len()).any(|part| part == name) => {}
        Ok(_) => fail(format!("the bench declares the calls of 0.3.0 and later, and {} is an earlier one", archive.display())),
        Err(why) => fail(format!("LIPVEZOR_EARLIER: {}: {why}", archive.display())),
    }
}

/// A copy of an archive in which the calls that the bench makes begin with earlier_, and nothing else is seen from outside.
fn rename(archive: &Path, copy: &Path) {
    let mut objcopy = Command::new("objcopy");
    for call in CALLED {
        objcopy.arg(format!("--redefine-sym=lipvezor_{call}=earlier_{call}")).arg(format!("--keep-global-symbol=earlier_{call}"));
    }
    match objcopy.arg(archive).arg(copy).status() {
        Ok(done) if done.success() => {}
        Ok(_) => fail(format!("objcopy can't read {}", archive.display())),
        Err(why) => fail(format!("LIPVEZOR_EARLIER needs objcopy: {why}")),
    }
}

fn main() {
    println!("cargo:rerun-if-env-changed=LIPVEZOR_LIB_DIR");
    println!("cargo:rerun-if-env-changed=LIPVEZOR_EARLIER");
    println!("cargo:rustc-check-cfg=cfg(earlier)");
    let place = find();
    println!("cargo:rustc-link-search=native={}", place.display());
    println!("cargo:rustc-link-lib=static=lipvezor");
    println!("cargo:rerun-if-changed={}", archive(&place).display());
    if let Some(named) = folder("LIPVEZOR_EARLIER") {
        let earlier = archive(&named);
        let copy = folder("OUT_DIR").expect("cargo sets it").join("libearlier.a");
        check_shape(&earlier);
        rename(&earlier, &copy);
        println!("cargo:rerun-if-changed={}", earlier.display());
        println!("cargo:rustc-link-arg-examples={}", copy.display());
        println!("cargo:rustc-cfg=earlier");
    }
}
