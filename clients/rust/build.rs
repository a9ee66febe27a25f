//! Links liblockrun: LOCKRUN_LIBRARIES names its folder, or else pkg-config does. The static library is taken if it is there.
use std::env;
use std::path::Path;
use std::process::Command;

fn main() {
    println!("cargo:rerun-if-env-changed=LOCKRUN_LIBRARIES");
    println!("cargo:rerun-if-env-changed=PKG_CONFIG_PATH");
    let folder = env::var("LOCKRUN_LIBRARIES").ok().or_else(folder_of_pkg_config);
    let is_static = folder.as_ref().map_or(false, |folder| Path::new(folder).join("liblockrun.a").exists());
    match folder {
        Some(folder) => println!("cargo:rustc-link-search=native={folder}"),
        None => println!("cargo:warning=neither LOCKRUN_LIBRARIES nor pkg-config names the folder of liblockrun"),
    }
    println!("cargo:rustc-link-lib={}lockrun", if is_static { "static=" } else { "" });
}

fn folder_of_pkg_config() -> Option<String> {
    let said = Command::new("pkg-config").args(["--variable=libdir", "lockrun"]).output().ok()?;
    let folder = String::from_utf8(said.stdout).ok()?.trim().to_string();
    (said.status.success() && !folder.is_empty()).then_some(folder)
}
