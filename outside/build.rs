//! Links the proved library that `tools/library` wrote.
fn main() {
    if std::env::var_os("CARGO_FEATURE_LINKED").is_some() {
        let here = std::env::var("CARGO_MANIFEST_DIR").expect("cargo gives the folder");
        println!("cargo:rustc-link-search=native={here}/../target/staticlib");
        println!("cargo:rustc-link-lib=static=bench");
        println!("cargo:rerun-if-changed={here}/../target/staticlib/libbench.a");
    }
}
