// Where the archive is: AML_LIB_DIR, or where `tools/built link` puts it.
use std::env;

fn main() {
    println!("cargo:rerun-if-env-changed=AML_LIB_DIR");
    let here = env::var("CARGO_MANIFEST_DIR").unwrap();
    let folder = env::var("AML_LIB_DIR").unwrap_or(format!("{here}/../../target/staticlib"));
    println!("cargo:rerun-if-changed={folder}/liblink.a");
    println!("cargo:rustc-link-search=native={folder}");
    println!("cargo:rustc-link-lib=static=link");
}
