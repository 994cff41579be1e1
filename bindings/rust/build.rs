//! Links the archive that RDAP_LIB names, as in `RDAP_LIB=/some/folder/librdap_c.a`.
use std::env;
use std::path::Path;

fn main() {
    println!("cargo:rerun-if-env-changed=RDAP_LIB");
    let archive = env::var("RDAP_LIB").expect("RDAP_LIB names the archive, FOLDER/librdap_c.a");
    let archive = Path::new(&archive).canonicalize().expect("RDAP_LIB names a file");
    let folder = archive.parent().expect("RDAP_LIB names a file in a folder");
    println!("cargo:rerun-if-changed={}", archive.display());
    println!("cargo:rustc-link-search=native={}", folder.display());
    println!("cargo:rustc-link-lib=static=rdap_c");
}
