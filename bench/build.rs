// Links the archives that FIRMWARE_ARCHIVE and, on x86-64, PROBE_ARCHIVE name.
fn main() {
    let mut variables = vec!["FIRMWARE_ARCHIVE"];
    if std::env::var("CARGO_CFG_TARGET_ARCH").is_ok_and(|arch| arch == "x86_64") {
        variables.push("PROBE_ARCHIVE");
    }
    for variable in variables {
        println!("cargo:rerun-if-env-changed={variable}");
        let archive = std::env::var(variable).unwrap_or_else(|_| panic!("{variable} is not set"));
        println!("cargo:rerun-if-changed={archive}");
        println!("cargo:rustc-link-arg={archive}");
    }
}
