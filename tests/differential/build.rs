// Links the archives that FIRMWARE_ARCHIVE and PROBE_ARCHIVE name into the programs that call them; the others need none.
fn main() {
    let links = [
        ("FIRMWARE_ARCHIVE", "compare"),
        ("PROBE_ARCHIVE", "sequences"),
        ("PROBE_ARCHIVE", "written"),
        ("PROBE_ARCHIVE", "walks"),
        ("PROBE_ARCHIVE", "merges"),
    ];
    for (variable, program) in links {
        println!("cargo:rerun-if-env-changed={variable}");
        if let Some(archive) = std::env::var(variable).ok().filter(|path| !path.is_empty()) {
            println!("cargo:rerun-if-changed={archive}");
            println!("cargo:rustc-link-arg-bin={program}={archive}");
        }
    }
}
