//! Says where the static library is: `DIRMOOG_LIB`, or `target/staticlib` of the repository.
use std::env;
use std::path::PathBuf;

fn main() {
    let package = PathBuf::from(env::var("CARGO_MANIFEST_DIR").expect("cargo sets it"));
    let folder = match env::var("DIRMOOG_LIB") {
        Ok(folder) => PathBuf::from(folder),
        Err(_) => package.join("../target/staticlib"),
    };
    println!("cargo:rerun-if-env-changed=DIRMOOG_LIB");
    println!(
        "cargo:rerun-if-changed={}",
        folder.join("libdirmoog_c.a").display()
    );
    println!("cargo:rustc-link-search=native={}", folder.display());
    println!("cargo:rustc-link-lib=static=dirmoog_c");
    println!("cargo:rustc-env=DIRMOOG_LIB={}", folder.display());
}
