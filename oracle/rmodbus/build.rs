// lib.rs says `#[cfg(test)] mod tests;`. This sets that cfg for this package alone, so that our tests.rs is compiled
// into the library and no byte of lib.rs is changed.
fn main() {
    println!("cargo:rerun-if-changed=build.rs");
    println!("cargo:rustc-cfg=test");
}
