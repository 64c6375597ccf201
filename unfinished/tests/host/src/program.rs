//! The program, run on words, and files for it.

use std::ffi::OsStr;
use std::io::Write;
use std::path::{Path, PathBuf};
use std::process::{Command, Stdio};
use std::sync::atomic::{AtomicUsize, Ordering};
use std::{env, fs, process};

pub fn root() -> PathBuf {
    Path::new(env!("CARGO_MANIFEST_DIR")).join("../..")
}

/// What a run of the program left.
#[derive(Debug)]
pub struct Ran {
    pub status: i32,
    pub output: Vec<u8>,
    pub error: String,
}

/// The program that the variable RECORDER names, from the repository's root, else the one that make builds.
fn program() -> PathBuf {
    let named = env::var_os("RECORDER").unwrap_or_else(|| "build/recorder".into());
    root().join(named)
}

/// Runs the program in the repository's root with this standard input.
pub fn recorder<Word: AsRef<OsStr>>(words: impl IntoIterator<Item = Word>, input: &[u8]) -> Ran {
    let mut child = Command::new(program())
        .args(words)
        .current_dir(root())
        .stdin(Stdio::piped())
        .stdout(Stdio::piped())
        .stderr(Stdio::piped())
        .spawn()
        .unwrap_or_else(|error| panic!("{}: {error}", program().display()));
    // A program that does not read its standard input may have ended by now.
    let _ = child.stdin.take().expect("a pipe").write_all(input);
    let left = child.wait_with_output().expect("the program ends");
    Ran {
        status: left.status.code().expect("no signal ends the program"),
        output: left.stdout,
        error: String::from_utf8_lossy(&left.stderr).into_owned(),
    }
}

/// A folder for a test's files, removed with it.
pub struct Scratch {
    folder: PathBuf,
}

impl Scratch {
    #[allow(clippy::new_without_default)]
    pub fn new() -> Scratch {
        static COUNT: AtomicUsize = AtomicUsize::new(0);
        let number = COUNT.fetch_add(1, Ordering::Relaxed);
        let folder = env::temp_dir().join(format!("recorder-{}-{number}", process::id()));
        fs::create_dir(&folder).expect("a new folder");
        Scratch { folder }
    }

    /// The path of a file or folder that need not be there.
    pub fn path(&self, name: impl AsRef<OsStr>) -> PathBuf {
        self.folder.join(name.as_ref())
    }

    /// A file with this content.
    pub fn file(&self, name: impl AsRef<OsStr>, content: &[u8]) -> PathBuf {
        let path = self.path(name);
        fs::write(&path, content).expect("a file");
        path
    }
}

impl Drop for Scratch {
    fn drop(&mut self) {
        // What cannot be removed fails no test.
        let _ = fs::remove_dir_all(&self.folder);
    }
}
