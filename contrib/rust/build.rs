//! Links libtkhost: from the folder that TKHOST_LIB_DIR names, else from where pkg-config finds it.
use std::process::Command;

fn main() {
    println!("cargo:rerun-if-env-changed=TKHOST_LIB_DIR");
    println!("cargo:rerun-if-env-changed=PKG_CONFIG_PATH");
    let folder = std::env::var("TKHOST_LIB_DIR").ok().or_else(|| {
        let said = Command::new("pkg-config").args(["--variable=libdir", "tkhost"]).output().ok()?;
        said.status.success().then(|| String::from_utf8_lossy(&said.stdout).trim().to_owned())
    });
    if let Some(folder) = folder {
        println!("cargo:rustc-link-search=native={folder}");
    }
    println!("cargo:rustc-link-lib=static=tkhost");
}
