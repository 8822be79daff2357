// Links libcrpd.a, which `tools/library.sh` writes, from the folder in CRPD_LIBRARY or from the
// repository's target/staticlib.
fn main() {
    let folder = std::env::var("CRPD_LIBRARY").unwrap_or_else(|_| {
        format!(
            "{}/../../target/staticlib",
            std::env::var("CARGO_MANIFEST_DIR").unwrap()
        )
    });
    println!("cargo:rustc-link-search=native={folder}");
    println!("cargo:rerun-if-env-changed=CRPD_LIBRARY");
    println!("cargo:rerun-if-changed={folder}/libcrpd.a");
}
