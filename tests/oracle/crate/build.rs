// Writes OUT_DIR/published.rs, which names the published files as modules, each at the path where it
// stands: nothing is copied or changed. OSNMA_SRC is the folder that has them, as NAME.rs, from the
// project's root.
use std::{env, fmt::Write, fs, path::PathBuf};

const PUBLIC: [&str; 9] = [
    "bitfields",
    "dsm",
    "mack",
    "maclt",
    "storage",
    "subframe",
    "tesla",
    "types",
    "validation",
];
const PRIVATE: [&str; 1] = ["gst"];

fn main() {
    println!("cargo:rerun-if-env-changed=OSNMA_SRC");
    let src = env::var("OSNMA_SRC");
    let src = src
        .as_deref()
        .unwrap_or("../shared/docs/src/galileo-osnma/src");
    let here = PathBuf::from(env::var("CARGO_MANIFEST_DIR").unwrap());
    let dir = here.join("../../..").join(src);
    let mut out = String::new();
    let public = PUBLIC.iter().map(|name| (name, "pub "));
    let private = PRIVATE.iter().map(|name| (name, ""));
    for (name, word) in public.chain(private) {
        let path = dir.join(format!("{name}.rs"));
        let path = fs::canonicalize(&path).unwrap_or_else(|e| panic!("{}: {e}", path.display()));
        println!("cargo:rerun-if-changed={}", path.display());
        writeln!(out, "#[path = {path:?}]\n{word}mod {name};").unwrap();
    }
    fs::write(
        PathBuf::from(env::var("OUT_DIR").unwrap()).join("published.rs"),
        out,
    )
    .unwrap();
}
