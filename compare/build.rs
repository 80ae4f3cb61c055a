//! Finds the library under test and compiles the baselines and the stack's probe as C.

use std::env;
use std::path::{Path, PathBuf};
use std::process::Command;

const SOURCES: [&str; 5] = ["plain", "tuned", "plain_sentences", "tuned_sentences", "stack"];

/// Optimised in every profile: the baselines are there to be fast. Without the alignment, code
/// that both share takes up to a fifth longer in one of them, by where it happens to stand.
const OPTIONS: [&str; 10] = [
    "-std=c99",
    "-O3",
    "-falign-functions=64",
    "-falign-loops=32",
    "-Wall",
    "-Wextra",
    "-Wpedantic",
    "-Wconversion",
    "-fPIC",
    "-c",
];

fn main() {
    link_library();
    link_baselines();
}

fn link_library() {
    println!("cargo:rerun-if-env-changed=SEQOPCHI_LIB");
    let folder = env::var("SEQOPCHI_LIB").unwrap_or_else(|_| "../build".into());
    let archive = Path::new(&folder).join("libseqopchi.a");
    println!("cargo:rerun-if-changed={}", archive.display());
    let Ok(archive) = archive.canonicalize() else {
        panic!(
            "no {}: `make build/libseqopchi.a` in the folder above makes it; or set SEQOPCHI_LIB",
            archive.display()
        );
    };
    link_archive(archive.parent().expect("a file is in a folder"), "seqopchi");
}

fn link_baselines() {
    println!("cargo:rerun-if-changed=baseline");
    println!("cargo:rerun-if-env-changed=CC");
    let compiler = env::var("CC").unwrap_or_else(|_| "cc".into());
    let folder = PathBuf::from(env::var("OUT_DIR").expect("cargo sets OUT_DIR"));
    let objects = SOURCES.map(|name| compile(&compiler, name, &folder));
    let archive = folder.join("libbaseline.a");
    run(Command::new("ar").arg("crs").arg(&archive).args(&objects));
    link_archive(&folder, "baseline");
    println!("cargo:rustc-env=BASELINE_COMPILER={}", first_line(&compiler));
}

fn compile(compiler: &str, name: &str, folder: &Path) -> PathBuf {
    let source = format!("baseline/{name}.c");
    let object = folder.join(format!("{name}.o"));
    run(Command::new(compiler).args(OPTIONS).arg(source).arg("-o").arg(&object));
    object
}

fn link_archive(folder: &Path, name: &str) {
    println!("cargo:rustc-link-search=native={}", folder.display());
    println!("cargo:rustc-link-lib=static={name}");
}

fn run(command: &mut Command) {
    let status = command.status().unwrap_or_else(|error| panic!("{command:?}: {error}"));
    assert!(status.success(), "{command:?}: {status}");
}

/// The first line of the compiler's account of itself, for the benchmark's table.
fn first_line(compiler: &str) -> String {
    let output = Command::new(compiler).arg("--version").output();
    let text = output.map(|output| String::from_utf8_lossy(&output.stdout).into_owned());
    text.unwrap_or_default().lines().next().unwrap_or("an unnamed compiler").to_string()
}
