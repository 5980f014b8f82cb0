//! Finds libicehub.a: in the directory ICEHUB_LIB_DIR if that is set, else where pkg-config says it is installed, else
//! in target/staticlib of the repository that holds this crate.

use std::env;
use std::path::PathBuf;
use std::process::Command;

fn main() {
    println!("cargo:rerun-if-env-changed=ICEHUB_LIB_DIR");
    println!("cargo:rerun-if-env-changed=PKG_CONFIG");
    println!("cargo:rerun-if-env-changed=PKG_CONFIG_PATH");
    let directory = env::var_os("ICEHUB_LIB_DIR").map(PathBuf::from).or_else(installed).unwrap_or_else(built);
    let library = directory.join("libicehub.a");
    if !library.exists() {
        println!(
            "cargo:warning=no {}: build it with `make library`, install it with `make install`, or set ICEHUB_LIB_DIR",
            library.display()
        );
    }
    println!("cargo:rerun-if-changed={}", library.display());
    println!("cargo:rustc-link-search=native={}", directory.display());
    println!("cargo:rustc-link-lib=static=icehub");
}

/// Where pkg-config finds the library. It knows the libraries of this machine, so it is not asked for another.
fn installed() -> Option<PathBuf> {
    if env::var_os("HOST") != env::var_os("TARGET") {
        return None;
    }
    let program = env::var_os("PKG_CONFIG").unwrap_or_else(|| "pkg-config".into());
    let output = Command::new(program).args(["--variable=libdir", "icehub"]).output().ok()?;
    let directory = String::from_utf8(output.stdout).ok()?;
    let directory = directory.trim_end_matches('\n');
    (output.status.success() && !directory.is_empty()).then(|| PathBuf::from(directory))
}

/// Where `make library` puts it.
fn built() -> PathBuf {
    PathBuf::from(env::var_os("CARGO_MANIFEST_DIR").unwrap_or_default()).join("../../target/staticlib")
}
