//! Where `libkapitsa.a` is: in the folder that `KAPITSA_LIB_DIR` names; else `bindings/build` makes it,
//! in the repository and where `rt` is on the PATH, or was before.

use std::env;
use std::path::{Path, PathBuf};
use std::process::Command;

const ARCHIVE: &str = "libkapitsa.a";

fn main() {
    println!("cargo:rerun-if-env-changed=KAPITSA_LIB_DIR");
    println!("cargo:rerun-if-env-changed=PATH");
    if env::var("CARGO_CFG_TARGET_ARCH").as_deref() != Ok("x86_64") {
        fail("libkapitsa.a is for x86-64");
    }
    let folder = match env::var_os("KAPITSA_LIB_DIR") {
        Some(folder) => PathBuf::from(folder),
        None => built(),
    };
    let Ok(archive) = folder.join(ARCHIVE).canonicalize() else {
        fail(&format!("there is no '{}'", folder.join(ARCHIVE).display()))
    };
    println!("cargo:rerun-if-changed={}", archive.display());
    let folder = archive.parent().expect("it lies in a folder");
    println!("cargo:rustc-link-search=native={}", folder.display());
    println!("cargo:rustc-link-lib=static=kapitsa");
}

/// The folder of the archive that `bindings/build` makes.
fn built() -> PathBuf {
    let package = PathBuf::from(env::var_os("CARGO_MANIFEST_DIR").expect("cargo sets it"));
    let build = package.join("../build");
    let to = PathBuf::from(env::var_os("OUT_DIR").expect("cargo sets it"));
    if !build.is_file() {
        fail("set KAPITSA_LIB_DIR to the folder of libkapitsa.a, such as PREFIX/lib of bindings/install");
    }
    println!("cargo:rerun-if-changed={}", build.display());
    println!("cargo:rerun-if-changed={}", package.join("../../crates").display());
    run(&build, &to);
    to
}

fn run(build: &Path, to: &Path) {
    let made = Command::new(build).arg(to).output();
    match made {
        Ok(output) if output.status.success() => {}
        Ok(output) => fail(&String::from_utf8_lossy(&output.stderr)),
        Err(error) => fail(&format!("'{}': {error}", build.display())),
    }
}

fn fail(why: &str) -> ! {
    eprintln!("kapitsa: {why}");
    std::process::exit(1);
}
