//! Links the proved library, which `rt lib` has built in crates/bridge.

fn main() {
    let top = format!("{}/../..", std::env::var("CARGO_MANIFEST_DIR").expect("cargo sets it"));
    println!("cargo:rustc-link-search=native={top}/crates/bridge/out");
    println!("cargo:rustc-link-lib=static=bridge");
    println!("cargo:rerun-if-changed={top}/crates/bridge/out/libbridge.a");
}
