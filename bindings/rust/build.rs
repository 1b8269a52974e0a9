//! Tells cargo where the library is: in the folder that POLL82599_DIR names, which `./library FOLDER` or `./run --install PREFIX`
//! has filled, or else where pkg-config finds it. With POLL82599_SHARED=1 the crate is linked with the shared object.

use std::env;
use std::path::Path;
use std::process::{Command, exit};

/// The folder of the archive, by pkg-config.
fn found_by_pkg_config() -> Option<String> {
    let said = Command::new("pkg-config").args(["--variable=libdir", "poll82599"]).output().ok()?;
    let folder = String::from_utf8(said.stdout).ok()?.trim().to_owned();
    (said.status.success() && !folder.is_empty()).then_some(folder)
}

fn main() {
    for name in ["POLL82599_DIR", "POLL82599_SHARED"] {
        println!("cargo:rerun-if-env-changed={name}");
    }
    let folder = env::var("POLL82599_DIR").ok().map(|dir| format!("{dir}/lib")).or_else(found_by_pkg_config);
    let Some(folder) = folder else {
        eprintln!("poll82599: set POLL82599_DIR to a folder that './library FOLDER' has filled");
        exit(1);
    };
    if !Path::new(&folder).is_dir() {
        eprintln!("poll82599: there is no folder '{folder}'; './library FOLDER' makes it");
        exit(1);
    }
    println!("cargo:rustc-link-search=native={folder}");
    if env::var("POLL82599_SHARED").is_ok_and(|it| it == "1") {
        println!("cargo:rustc-link-lib=dylib=poll82599");
        println!("cargo:rustc-link-arg=-Wl,-rpath,{folder}");
    } else {
        println!("cargo:rustc-link-lib=static=poll82599_c");
        println!("cargo:rustc-link-lib=static=libc_c");
    }
}
