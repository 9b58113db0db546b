//! Passes on whether the published file is there: `cfg(published)`.

fn main() {
    println!("cargo:rerun-if-changed=build.rs");
    println!("cargo:rustc-check-cfg=cfg(published)");
    if std::env::var_os("DEP_PUBLISHED_FOUND").is_some() {
        println!("cargo:rustc-cfg=published");
    }
}
