//! Links the proved calls, target/staticlib/libc_abi.a (tests/staticlib makes it).

fn main() {
    let folder = std::env::var("CARGO_MANIFEST_DIR").expect("cargo sets it") + "/../target/staticlib";
    println!("cargo:rustc-link-search=native={folder}");
    println!("cargo:rustc-link-lib=static=c_abi");
    println!("cargo:rerun-if-changed={folder}/libc_abi.a");
}
