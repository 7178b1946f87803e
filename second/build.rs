//! Links the library under comparison, which lies in the folder that
//! HIBERNAXO_LIB_DIR names.

fn main() {
    println!("cargo::rerun-if-env-changed=HIBERNAXO_LIB_DIR");
    println!("cargo::rerun-if-changed=build.rs");
    if std::env::var_os("CARGO_FEATURE_EXPORTS").is_none() {
        return;
    }
    let Ok(named) = std::env::var("HIBERNAXO_LIB_DIR") else {
        println!("cargo::error=HIBERNAXO_LIB_DIR is not set: name the folder of libhibernaxo.a.");
        return;
    };
    // A name that is not absolute counts from this package's folder.
    let folder = std::fs::canonicalize(&named).unwrap_or_default();
    let archive = folder.join("libhibernaxo.a");
    if !archive.is_file() {
        println!("cargo::error=HIBERNAXO_LIB_DIR is {named}, but no libhibernaxo.a is there.");
        return;
    }
    println!("cargo::rerun-if-changed={}", archive.display());
    println!("cargo::rustc-link-search=native={}", folder.display());
    println!("cargo::rustc-link-lib=static:-bundle=hibernaxo");
}
