//! Finds the C library: in the folder that REFSKOLD_DIR names, as `tools/lib` and `tools/install` make one; else as pkg-config says.

use std::env;
use std::path::PathBuf;
use std::process::{exit, Command};

/// What pkg-config says of the library, if it knows it.
fn said_by_pkg_config() -> Option<String> {
    let program = env::var("PKG_CONFIG").unwrap_or_else(|_| "pkg-config".to_owned());
    let output = Command::new(program).args(["--variable=libdir", "refskold"]).output().ok()?;
    let folder = String::from_utf8(output.stdout).ok()?.trim().to_owned();
    (output.status.success() && !folder.is_empty()).then_some(folder)
}

fn main() {
    for name in ["REFSKOLD_DIR", "REFSKOLD_SHARED", "PKG_CONFIG", "PKG_CONFIG_PATH"] {
        println!("cargo:rerun-if-env-changed={name}");
    }
    let named = env::var_os("REFSKOLD_DIR").map(|folder| PathBuf::from(folder).join("lib"));
    let Some(folder) = named.or_else(|| said_by_pkg_config().map(PathBuf::from)) else {
        eprintln!("the C library refskold is not found: name its folder by REFSKOLD_DIR, or the folder of refskold.pc by PKG_CONFIG_PATH");
        exit(1);
    };
    let kind = if env::var_os("REFSKOLD_SHARED").is_some() { "dylib" } else { "static" };
    println!("cargo:rustc-link-search=native={}", folder.display());
    println!("cargo:rustc-link-lib={kind}=refskold");
}
