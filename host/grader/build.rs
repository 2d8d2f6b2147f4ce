//! Links crates/abi/out/libabi.a of the repository, which `rt lib` writes there. GRADER_LIB names another folder.
use std::path::PathBuf;

fn main() {
    let here = PathBuf::from(std::env::var("CARGO_MANIFEST_DIR").expect("cargo sets CARGO_MANIFEST_DIR"));
    let folder = match std::env::var_os("GRADER_LIB") {
        Some(folder) => PathBuf::from(folder),
        None => here.join("../../crates/abi/out"),
    };
    let library = folder.join("libabi.a");
    println!("cargo:rerun-if-env-changed=GRADER_LIB");
    println!("cargo:rerun-if-changed={}", library.display());
    if !library.is_file() {
        eprintln!("\nThe grader's library is not there: {}", library.display());
        eprintln!("Run `rt lib` in the repository's folder crates/abi, which writes crates/abi/out/libabi.a,");
        eprintln!("or set GRADER_LIB to the folder that has libabi.a.\n");
        std::process::exit(1);
    }
    let folder = folder.canonicalize().expect("the folder is there");
    println!("cargo:rustc-link-search=native={}", folder.display());
    println!("cargo:rustc-link-lib=static=abi");
}
