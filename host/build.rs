//! Links the archives of `lister_c` and the other static libraries, as .ci/run makes them: the printer, and with the feature `pieces` its pieces.

fn main() {
    let archives = std::path::Path::new(env!("CARGO_MANIFEST_DIR")).join("../target/staticlib");
    println!("cargo:rustc-link-search=native={}", archives.display());
    let mut names = vec!["lister"];
    if std::env::var_os("CARGO_FEATURE_PIECES").is_some() {
        names.extend(["file", "probe", "lowered", "tables"]);
    }
    for name in names {
        println!("cargo:rustc-link-lib=static={name}");
        println!("cargo:rerun-if-changed={}", archives.join(format!("lib{name}.a")).display());
    }
}
