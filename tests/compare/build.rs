//! With the feature `ffi`: link the static library that RDAP_LIB names,
//! as in `RDAP_LIB=/some/folder/librdap_c.a`. RDAP_LINK may name further
//! libraries that it needs, parted by spaces, as in `RDAP_LINK="m pthread"`.

use std::env;
use std::path::Path;

fn main() {
    println!("cargo:rerun-if-changed=build.rs");
    println!("cargo:rerun-if-env-changed=RDAP_LIB");
    println!("cargo:rerun-if-env-changed=RDAP_LINK");
    if env::var_os("CARGO_FEATURE_FFI").is_none() {
        return;
    }
    let archive = env::var("RDAP_LIB").expect("the feature ffi needs RDAP_LIB=FOLDER/libNAME.a");
    let archive = Path::new(&archive)
        .canonicalize()
        .unwrap_or_else(|error| panic!("RDAP_LIB={archive}: {error}"));
    let folder = archive.parent().expect("RDAP_LIB names a file");
    let name = archive
        .file_name()
        .and_then(|name| name.to_str())
        .and_then(|name| name.strip_prefix("lib"))
        .and_then(|name| name.strip_suffix(".a"))
        .expect("RDAP_LIB names a file libNAME.a");
    println!("cargo:rerun-if-changed={}", archive.display());
    println!("cargo:rustc-link-search=native={}", folder.display());
    println!("cargo:rustc-link-lib=static={name}");
    for more in env::var("RDAP_LINK").unwrap_or_default().split_whitespace() {
        println!("cargo:rustc-link-lib={more}");
    }
}
