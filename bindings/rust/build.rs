//! Links the proved library, which `targets/build x86-64` writes at the top of the repository. `HONECERISE_LIB` names another
//! folder that holds `libapi.a`.
use std::{env, path::PathBuf};

fn main() {
    println!("cargo:rerun-if-env-changed=HONECERISE_LIB");
    let folder = match env::var_os("HONECERISE_LIB") {
        Some(folder) => PathBuf::from(folder),
        None => PathBuf::from(env::var_os("CARGO_MANIFEST_DIR").expect("cargo says where the crate is"))
            .join("../../target/staticlib"),
    };
    let library = folder.join("libapi.a");
    assert!(library.is_file(), "{} is missing: `targets/build x86-64` at the top of the repository writes it", library.display());
    println!("cargo:rerun-if-changed={}", library.display());
    println!("cargo:rustc-link-search=native={}", folder.display());
    println!("cargo:rustc-link-lib=static=api");
}
