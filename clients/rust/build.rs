// Links libtl16c750.a: of the folder that UART_LIBRARY_DIR names; else of the prefix below which this
// crate is installed; else of the repository, where `make library` puts it.
use std::env;
use std::path::{Path, PathBuf};

const LIBRARY: &str = "libtl16c750.a";

fn folder() -> PathBuf {
    if let Some(named) = env::var_os("UART_LIBRARY_DIR") {
        return PathBuf::from(named);
    }
    let here = env::var_os("CARGO_MANIFEST_DIR").expect("cargo sets CARGO_MANIFEST_DIR");
    let installed = Path::new(&here).join("../../../lib");
    if installed.join(LIBRARY).exists() {
        installed
    } else {
        Path::new(&here).join("../../target/clients")
    }
}

fn main() {
    let folder = folder();
    let library = folder.join(LIBRARY);
    println!("cargo:rerun-if-changed={}", library.display());
    println!("cargo:rerun-if-env-changed=UART_LIBRARY_DIR");
    assert!(
        library.exists(),
        "no {}: `make library` at the top of the repository makes it; UART_LIBRARY_DIR names another folder",
        library.display()
    );
    println!("cargo:rustc-link-search=native={}", folder.display());
    println!("cargo:rustc-link-lib=static=tl16c750");
}
