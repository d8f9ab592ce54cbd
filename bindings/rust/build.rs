//! Links libpureefjord.a: from the folder that PUREEFJORD_LIB names, or else from lib/ beside this file.
fn main() {
    let beside = || format!("{}/lib", std::env::var("CARGO_MANIFEST_DIR").expect("Cargo names the crate's folder"));
    let folder = std::env::var("PUREEFJORD_LIB").unwrap_or_else(|_| beside());
    println!("cargo:rerun-if-env-changed=PUREEFJORD_LIB");
    println!("cargo:rustc-link-search=native={folder}");
    println!("cargo:rustc-link-lib=static=pureefjord");
}
