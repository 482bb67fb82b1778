//! Sets `cfg(larnt)` where the original was found: the build script of crates that depend on this one.

fn main() {
    println!("cargo::rustc-check-cfg=cfg(larnt)");
    println!("cargo::rerun-if-env-changed=DEP_LARNT_PRESENT");
    if std::env::var_os("DEP_LARNT_PRESENT").is_some() {
        println!("cargo::rustc-cfg=larnt");
    }
}
