//! Links the installed library: `LLFREE_LIB` names the folder of `libllfree.a`, else pkg-config does.
use std::{env, process::Command};

fn main() {
    println!("cargo:rerun-if-env-changed=LLFREE_LIB");
    println!("cargo:rerun-if-env-changed=PKG_CONFIG_PATH");
    let folder = env::var("LLFREE_LIB").ok().or_else(|| {
        let said = Command::new("pkg-config").args(["--variable=libdir", "llfree"]).output().ok()?;
        let folder = String::from_utf8(said.stdout).ok()?;
        (said.status.success() && !folder.trim().is_empty()).then(|| folder.trim().to_owned())
    });
    if let Some(folder) = folder {
        println!("cargo:rustc-link-search=native={folder}");
    }
    println!("cargo:rustc-link-lib=static=llfree");
}
