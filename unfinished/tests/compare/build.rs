//! Links the archive that `rt lib` writes in crates/recorder, and of the C host what is compared here.

use std::env;
use std::path::{Path, PathBuf};
use std::process::Command;

/// The host's files that are compared, and those that they use; none calls the library.
const HOST: [&str; 8] = [
    "used_pointer",
    "evaluation",
    "operators",
    "block",
    "text",
    "table",
    "record",
    "number",
];

fn main() {
    let root = Path::new(env!("CARGO_MANIFEST_DIR")).join("../..");
    let library = root.join("crates/recorder/out");
    link(&library, "recorder");
    rerun_if_changed(&library.join("librecorder.a"));
    let out = PathBuf::from(env::var_os("OUT_DIR").expect("cargo sets OUT_DIR"));
    let objects = HOST.map(|name| compiled(&root, name, &out));
    let archive = out.join("libhost.a");
    run(Command::new("ar").arg("rcs").arg(archive).args(objects));
    link(&out, "host");
}

/// The object of a file of the C host.
fn compiled(root: &Path, name: &str, out: &Path) -> PathBuf {
    let (host, include) = (root.join("host"), root.join("include"));
    let source = host.join(name).with_extension("c");
    let object = out.join(name).with_extension("o");
    let mut gcc = Command::new("gcc");
    gcc.args(["-std=c11", "-O2", "-Wall", "-Wextra", "-Werror", "-c"]);
    gcc.arg("-I").arg(&include).arg("-I").arg(&host);
    run(gcc.arg("-o").arg(&object).arg(&source));
    rerun_if_changed(&source);
    rerun_if_changed(&source.with_extension("h"));
    rerun_if_changed(&host.join("layout.h"));
    rerun_if_changed(&host.join("table.h"));
    rerun_if_changed(&include.join("recorder.h"));
    object
}

fn run(command: &mut Command) {
    let status = command.status().expect("the command can be run");
    assert!(status.success(), "{command:?}: {status}");
}

fn link(folder: &Path, name: &str) {
    println!("cargo:rustc-link-search=native={}", folder.display());
    println!("cargo:rustc-link-lib=static={name}");
}

fn rerun_if_changed(file: &Path) {
    println!("cargo:rerun-if-changed={}", file.display());
}
