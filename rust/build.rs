//! Links the static library: from the folder that COGUNWA_LIB_DIR names, or from ../target/staticlib.
use std::env;
use std::path::{Path, PathBuf};
use std::process::exit;

fn main() {
    println!("cargo:rerun-if-env-changed=COGUNWA_LIB_DIR");
    refuse_other_targets();
    let folder = match env::var_os("COGUNWA_LIB_DIR") {
        Some(folder) => PathBuf::from(folder),
        None => Path::new(&env::var_os("CARGO_MANIFEST_DIR").unwrap()).join("../target/staticlib"),
    };
    let library = folder.join("libcogunwa.a");
    println!("cargo:rerun-if-changed={}", library.display());
    println!("cargo:rustc-link-lib=static=cogunwa");
    if let Ok(library) = library.canonicalize() {
        println!("cargo:rustc-link-search=native={}", library.parent().unwrap().display());
        return;
    }
    // Documentation and checks do not link, so this is no error yet.
    println!(
        "cargo:warning=There is no library in {}: `bash tools/install --archive` builds it, and COGUNWA_LIB_DIR names \
         another folder. Without it only `cargo doc` and `cargo check` work.",
        folder.display()
    );
}

/// The library has the code of one kind of machine.
fn refuse_other_targets() {
    let of = |what: &str| env::var(format!("CARGO_CFG_TARGET_{what}")).unwrap_or_default();
    if (of("ARCH").as_str(), of("OS").as_str(), of("POINTER_WIDTH").as_str()) != ("x86_64", "linux", "64") {
        let target = env::var("TARGET").unwrap_or_default();
        eprintln!("Cogunwa's library is for Linux on x86-64 (such as x86_64-unknown-linux-gnu), not for {target}.");
        exit(1);
    }
}
