// The archive of all C calls, which `make archives` puts together.
fn main() {
    let root = std::env::var("CARGO_MANIFEST_DIR").unwrap();
    println!("cargo:rustc-link-search=native={root}/../target/staticlib");
    println!("cargo:rustc-link-lib=static=vetchdawn");
    println!("cargo:rerun-if-changed={root}/../target/staticlib/libvetchdawn.a");
}
