//! Finds libinet: in the folder that INET_LIB_DIR names, else in out/inet of this repository, where `bindings/library make` puts it, else by
//! pkg-config. It is linked statically, unless INET_DYNAMIC is set.
use std::env;
use std::path::{Path, PathBuf};
use std::process::Command;

/// The folder of a library that pkg-config knows.
fn known_to_pkg_config() -> Option<PathBuf> {
    let found = Command::new("pkg-config").args(["--variable=libdir", "inet"]).output().ok()?;
    let folder = String::from_utf8(found.stdout).ok()?;
    let folder = folder.trim();
    (found.status.success() && !folder.is_empty()).then(|| PathBuf::from(folder))
}

fn main() {
    println!("cargo:rerun-if-env-changed=INET_LIB_DIR");
    println!("cargo:rerun-if-env-changed=INET_DYNAMIC");
    println!("cargo:rerun-if-env-changed=PKG_CONFIG_PATH");
    let made = Path::new(env!("CARGO_MANIFEST_DIR")).join("../../out/inet/lib");
    let named = env::var_os("INET_LIB_DIR").map(PathBuf::from);
    let folder = named.or_else(|| made.join("libinet.a").exists().then_some(made)).or_else(known_to_pkg_config);
    let folder = folder.unwrap_or_else(|| {
        eprintln!("no libinet: `bindings/library make` puts it into out/inet; or set INET_LIB_DIR, or PKG_CONFIG_PATH");
        std::process::exit(1);
    });
    let kind = if env::var_os("INET_DYNAMIC").is_some() { "dylib" } else { "static" };
    println!("cargo:rustc-link-search=native={}", folder.display());
    println!("cargo:rustc-link-lib={kind}=inet");
    println!("cargo:rerun-if-changed={}", folder.join("libinet.a").display());
}
