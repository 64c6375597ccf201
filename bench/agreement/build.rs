//! Builds the C interpreter into an archive.

use std::env;
use std::path::{Path, PathBuf};
use std::process::Command;

fn run(command: &mut Command) {
    assert!(command.status().is_ok_and(|status| status.success()), "{command:?}");
}

fn main() {
    let folder = Path::new(env!("CARGO_MANIFEST_DIR")).join("..");
    let out = PathBuf::from(env::var_os("OUT_DIR").expect("cargo sets OUT_DIR"));
    let mut archive = Command::new("ar");
    archive.arg("rcs").arg(out.join("libinterpreter.a"));
    for name in ["interpreter", "checker", "translator"] {
        let object = out.join(name).with_extension("o");
        let source = folder.join(name).with_extension("c");
        run(Command::new("gcc").args(["-O3", "-fPIE", "-c", "-o"]).arg(&object).arg(source));
        archive.arg(object);
    }
    run(&mut archive);
    println!("cargo:rustc-link-search=native={}", out.display());
    println!("cargo:rustc-link-lib=static=interpreter");
    println!("cargo:rerun-if-changed={}", folder.display());
}
