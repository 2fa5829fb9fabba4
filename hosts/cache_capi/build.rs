//! How the shared library is linked: by the name that programs look for, and so that it stays once it
//! is loaded, since a cache has threads in it.
fn main() {
    println!("cargo:rerun-if-changed=build.rs");
    println!("cargo:rustc-cdylib-link-arg=-Wl,-soname,libkrl_cache.so.0,-z,nodelete");
}
