//! With the feature `library`: links libicehub.a from the directory ICEHUB_LIB_DIR.

use std::env;

fn main() {
    println!("cargo:rerun-if-env-changed=ICEHUB_LIB_DIR");
    if env::var_os("CARGO_FEATURE_LIBRARY").is_some() {
        if let Ok(directory) = env::var("ICEHUB_LIB_DIR") {
            println!("cargo:rustc-link-search=native={directory}");
            println!("cargo:rerun-if-changed={directory}/libicehub.a");
        }
        println!("cargo:rustc-link-lib=static=icehub");
    }
}
