//! Links the proved library, `libmarshbodkin.a`: from the directory in
//! `MARSHBODKIN_LIB`, an absolute path, or from where `tools/build` puts it.

use std::env;

fn main() {
    println!("cargo:rerun-if-env-changed=MARSHBODKIN_LIB");
    // Cargo runs this in the package's directory, but rustc elsewhere: hence
    // the whole path.
    let package = env::current_dir().expect("the package's directory");
    let directory = match env::var_os("MARSHBODKIN_LIB") {
        Some(given) => package.join(given),
        None => package.join("../../target/staticlib"),
    };
    let archive = directory.join("libmarshbodkin.a");
    println!("cargo:rerun-if-changed={}", archive.display());
    if !archive.is_file() {
        panic!(
            "{} isn't there: run `tools/build` first, or name its directory in MARSHBODKIN_LIB",
            archive.display()
        );
    }
    println!("cargo:rustc-link-search=native={}", directory.display());
    println!("cargo:rustc-link-lib=static=marshbodkin");
}
