// Links libsedhavil.a and libsedhavil_wav.a, which `bindings/library` writes: from SEDHAVIL_LIBRARY, or from this
// repository.
use std::path::PathBuf;

fn main() {
    let folder = match std::env::var_os("SEDHAVIL_LIBRARY") {
        Some(folder) => PathBuf::from(folder),
        None => PathBuf::from(env!("CARGO_MANIFEST_DIR")).join("../../target/staticlib"),
    };
    println!("cargo:rerun-if-env-changed=SEDHAVIL_LIBRARY");
    println!("cargo:rustc-link-search=native={}", folder.display());
    for name in ["sedhavil", "sedhavil_wav"] {
        let library = folder.join(format!("lib{name}.a"));
        assert!(library.exists(), "{} is not there: run `bindings/library` first", library.display());
        println!("cargo:rerun-if-changed={}", library.display());
        println!("cargo:rustc-link-lib=static={name}");
    }
}
