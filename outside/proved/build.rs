// Links the proved library that `outside/gate/10-library` puts there.
fn main() {
    let top = std::path::Path::new(env!("CARGO_MANIFEST_DIR")).join("../../target/staticlib");
    println!("cargo:rustc-link-search=native={}", top.display());
    println!("cargo:rustc-link-lib=static=ffi");
    println!("cargo:rerun-if-changed={}", top.join("libffi.a").display());
}
